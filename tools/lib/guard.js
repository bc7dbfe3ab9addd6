'use strict';
// Texts are read by a process of their own (reader.js), one for all of a call. It is ended where a text takes more processor time or memory than it
// may: that text has no verdict then, and the next one gets a new process.

const fs = require('fs');
const path = require('path');
const { spawn } = require('child_process');
const { LIMITED } = require('./batch.js');
const { SECONDS } = require('./read.js');

const MEBIBYTES = 1024;
// how often it is looked at, in milliseconds
const LOOK = 50;
// the kernel's unit of processor time
const TICKS = 100;

const NODE = ['--stack-size=3900', '--experimental-vm-modules', '--no-warnings'];
// with how many mebibytes it may go on to the next text
const MOST_KEPT = 128;
// the time that it takes to start
const AT_START = 5;

// what a process has used: seconds of the processors, and mebibytes that it holds; null where it is gone
function usedBy(pid) {
  try {
    const stat = fs.readFileSync(`/proc/${pid}/stat`, 'latin1');
    const [user, system] = stat.slice(stat.lastIndexOf(')') + 2).split(' ').slice(11, 13).map(Number);
    const [, kibibytes] = /^VmRSS:\s*(\d+) kB$/m.exec(fs.readFileSync(`/proc/${pid}/status`, 'latin1'));
    return { seconds: (user + system) / TICKS, mebibytes: kibibytes / 1024 };
  } catch (e) { return null; }
}

class Guard {
  constructor({ seconds = SECONDS, memory = MEBIBYTES } = {}) {
    Object.assign(this, { seconds, memory, child: null, resolve: null });
    process.once('exit', () => this.end());
  }

  start() {
    // held also where this process is gone; twice the time, since it may have read other texts before
    const limit = String(2 * this.seconds + AT_START);
    const reader = [process.execPath, ...NODE, `--max-old-space-size=${this.memory}`, path.join(__dirname, 'reader.js')];
    const child = spawn('sh', ['-c', LIMITED, 'sh', limit, ...reader], { stdio: ['ignore', 'ignore', 'pipe', 'ipc'], serialization: 'advanced' });
    this.child = child;
    this.said = '';
    // where no process can be started there are no pipes to it either
    child.stderr?.on('data', (part) => { this.said = (this.said + part).slice(-4096); });
    child.on('message', (answer) => { if (this.child === child) this.answered(answer); });
    child.on('error', (e) => this.ended(child, e.message));
    child.on('close', (status, signal) => this.ended(child, signal || `status ${status}`));
  }

  // What reader.js says of a text: { engine, lines, errors }, or { why }, where it is too large also { large }.
  read(job) {
    if (this.child && this.isWorn(usedBy(this.child.pid))) this.end();
    if (!this.child) this.start();
    const { child } = this;
    return new Promise((resolve) => {
      const before = usedBy(child.pid) || { seconds: 0 };
      this.timer = setInterval(() => this.look(child, before.seconds), LOOK);
      this.resolve = resolve;
      child.send?.(job, () => {});
    });
  }

  // Whether what a process did before would count for the next text: what it holds may be garbage, and its time is limited for all of its texts.
  isWorn(used) { return used && (used.seconds > this.seconds || used.mebibytes > Math.min(MOST_KEPT, this.memory / 2)); }

  look(child, before) {
    const used = usedBy(child.pid);
    if (!used) return;
    if (used.seconds - before > this.seconds) this.stop(`reading it took more than ${this.seconds} s of processor time (--seconds N allows more)`);
    else if (used.mebibytes > this.memory) this.stop(this.tookMemory());
  }

  tookMemory() { return `reading it took more than ${this.memory} MiB of memory (--memory N allows more)`; }

  stop(why) {
    this.end();
    this.answered({ why });
  }

  end() {
    if (this.child) this.child.kill('SIGKILL');
    this.child = null;
  }

  ended(child, how) {
    if (this.child !== child) return;
    this.child = null;
    this.answered({ why: /out of memory|OOM/.test(this.said) ? this.tookMemory() : `what reads it came to no end of its own (${how})` });
  }

  answered(answer) {
    clearInterval(this.timer);
    if (this.resolve) this.resolve(answer);
    this.resolve = null;
  }
}

// what an option may give for either
const isAmount = (text) => /^[1-9]\d{0,5}$/.test(text);

module.exports = { Guard, MEBIBYTES, SECONDS, isAmount };
