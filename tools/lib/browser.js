'use strict';
// Chromium without a window, told what to do over a pipe: messages of its debugging protocol, each ended by a zero byte.

const { spawn } = require('child_process');
const fs = require('fs');
const os = require('os');
const path = require('path');

const LIMIT = 60000;
const PAUSE = 100;

// a promise that fails if it takes too long
function inTime(promise, what) {
  let timer;
  const late = new Promise((_, reject) => { timer = setTimeout(() => reject(new Error(`chromium doesn't answer: ${what}`)), LIMIT); });
  return Promise.race([promise, late]).finally(() => clearTimeout(timer));
}

class Browser {
  static async open() {
    const b = new Browser();
    b.dir = fs.mkdtempSync(path.join(os.tmpdir(), 'browser-'));
    // a page that is gone back to is loaded anew, so that its end is told
    const flags = ['--headless', '--disable-features=BackForwardCache', '--no-sandbox', '--disable-gpu', '--disable-dev-shm-usage', '--remote-debugging-pipe', `--user-data-dir=${b.dir}`, '--window-size=1200,900'];
    b.child = spawn('chromium', flags, { stdio: ['ignore', 'ignore', 'ignore', 'pipe', 'pipe'] });
    Object.assign(b, { next: 0, waiting: new Map(), got: '' });
    b.child.stdio[4].setEncoding('utf8').on('data', (text) => b.read(text));
    b.child.on('exit', () => { for (const w of b.waiting.values()) w.reject(new Error('chromium ended')); });
    const { targetId } = await b.ask('Target.createTarget', { url: 'about:blank' });
    ({ sessionId: b.sessionId } = await b.ask('Target.attachToTarget', { targetId, flatten: true }));
    await b.ask('Page.enable');
    return b;
  }

  read(text) {
    const parts = (this.got + text).split('\0');
    this.got = parts.pop();
    for (const message of parts.map((p) => JSON.parse(p))) {
      const w = this.waiting.get(message.id);
      this.waiting.delete(message.id);
      if (w && message.error) w.reject(new Error(message.error.message));
      else if (w) w.resolve(message.result);
      else if (message.method === 'Page.loadEventFired' && this.loaded) this.loaded();
    }
  }

  ask(method, params = {}) {
    const id = ++this.next;
    const answer = new Promise((resolve, reject) => this.waiting.set(id, { resolve, reject }));
    this.child.stdio[3].write(JSON.stringify({ id, method, params, sessionId: this.sessionId }) + '\0');
    return inTime(answer, method);
  }

  show(file) { return this.go(`file://${path.resolve(file)}`); }
  go(url) { return this.loading(() => this.ask('Page.navigate', { url }), url); }

  // does what makes it load a page, and waits until that is there
  async loading(act, what) {
    const loaded = new Promise((resolve) => { this.loaded = resolve; });
    await act();
    await inTime(loaded, `loading ${what}`);
  }

  // a click on the one element that a function gives, which leads to another page
  async follow(find, ...args) {
    const place = await this.run(`(...args) => { const e = (${find})(...args); e.scrollIntoView({ block: 'center' }); const r = e.getClientRects()[0]; return { x: r.x + r.width / 2, y: r.y + r.height / 2 }; }`, ...args);
    await this.loading(() => this.click(place), 'the page behind a link');
  }

  // the page before this one
  async back() {
    const { currentIndex, entries } = await this.ask('Page.getNavigationHistory');
    await this.loading(() => this.ask('Page.navigateToHistoryEntry', { entryId: entries[currentIndex - 1].id }), 'the page before');
  }

  // as on a screen that is dark, or light
  scheme(value) { return this.ask('Emulation.setEmulatedMedia', { features: [{ name: 'prefers-color-scheme', value }] }); }

  // what a function gives in the page
  async run(f, ...args) {
    const expression = `(${f})(...${JSON.stringify(args)})`;
    const { result, exceptionDetails } = await this.ask('Runtime.evaluate', { expression, returnByValue: true });
    if (exceptionDetails) throw new Error(exceptionDetails.exception.description);
    return result.value;
  }

  async click({ x, y }) {
    for (const type of ['mousePressed', 'mouseReleased']) await this.ask('Input.dispatchMouseEvent', { type, x, y, button: 'left', clickCount: 1 });
  }

  async picture(file) {
    const { data } = await this.ask('Page.captureScreenshot', { format: 'png' });
    fs.writeFileSync(file, Buffer.from(data, 'base64'));
  }

  async close() {
    const ended = new Promise((resolve) => this.child.on('exit', resolve));
    this.child.kill('SIGKILL');
    await ended;
    // the browser's other processes end a moment later, and write to the folder until then
    for (let tries = LIMIT / PAUSE; ; tries--) {
      try {
        fs.rmSync(this.dir, { recursive: true, force: true });
        return;
      } catch (e) {
        if (e.code !== 'ENOTEMPTY' || tries === 0) throw e;
        await new Promise((resolve) => setTimeout(resolve, PAUSE));
      }
    }
  }
}

module.exports = { Browser };
