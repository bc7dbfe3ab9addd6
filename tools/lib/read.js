'use strict';
// What a file is by its ending, its bytes, and from its text to its tree, or why there is none.

const fs = require('fs');
const path = require('path');
const { parse } = require('./parser.js');
const { treeOf } = require('./tree.js');
const { LIBRARY, tooLarge } = require('./lines.js');
const { NoTree } = require('./typescript.js');

const ENDINGS = { '.js': 'script', '.cjs': 'script', '.mjs': 'module', '.ts': 'typescript', '.mts': 'typescript' };

// script, module or typescript; undefined where the ending doesn't tell
const sortBy = (file) => ENDINGS[path.extname(file)];

// what the parser and the tree maker are told of a sort
const howOf = (sort) => ({ module: sort !== 'script', typescript: sort === 'typescript' });

const DECLARATIONS = 'it has declarations alone (.d.ts, .d.mts), which are ambient code and are not checked';
// why a file is no rule, whatever is in it
const notRule = (file) => (/\.d\.m?ts$/.test(file) ? DECLARATIONS : null);

// a table of the largest rule, in lines without leading zeros, is below this
const LARGEST_TABLE = 16777216;

const SAID = { ENOENT: 'no such file or folder', EACCES: 'it may not be read', EISDIR: 'it is a folder', ELOOP: 'its links go round in a circle', EBADF: 'it is closed', ENAMETOOLONG: 'its name is too long' };
const whyNot = (e) => SAID[e.code] || e.message;

// how long is waited for what comes through a pipe, but for standard input, which people may write
const SECONDS = 20;

// What can be read now of a file that may be a pipe or a terminal, where nothing may be there yet.
function readSome(fd, buffer, at, until) {
  for (;;) {
    try { return fs.readSync(fd, buffer, at, buffer.length - at, null); } catch (e) {
      if (e.code !== 'EAGAIN') throw e;
      if (Date.now() > until) throw new Error('its end did not come in time');
      Atomics.wait(new Int32Array(new SharedArrayBuffer(4)), 0, 0, 20);
    }
  }
}

// A file or pipe, opened without waiting for who writes to it; anything else may do something when it is opened.
function opened(file) {
  const stat = fs.statSync(file);
  if (!stat.isFile() && !stat.isFIFO() && !stat.isDirectory()) throw new Error('it is neither a file nor a pipe');
  return fs.openSync(file, fs.constants.O_RDONLY | fs.constants.O_NONBLOCK);
}

// The bytes of a file, or of standard input (-); or why there are none. What is too large is told before all of it is read.
function bytesOf(file, { most = LIBRARY.bytes, seconds = SECONDS } = {}) {
  const large = (size) => ({ why: `too large: ${size} bytes, and ${most === LIBRARY.bytes ? 'a rule' : 'a table'} has at most ${most}`, large: true });
  const until = file === '-' ? Infinity : Date.now() + 1000 * seconds;
  let fd = 0;
  try {
    if (file !== '-') fd = opened(file);
    const stat = fs.fstatSync(fd);
    if (stat.size > most) return large(stat.size);
    const buffer = Buffer.alloc(most + 1);
    let length = 0;
    for (let n = 1; n > 0 && length <= most; length += n) n = readSome(fd, buffer, length, until);
    // a pipe that nobody has opened yet for writing ends at once
    if (length === 0 && fd > 0 && stat.isFIFO()) return { why: 'it is a pipe through which nothing came' };
    return length > most ? large(`more than ${most}`) : { bytes: buffer.subarray(0, length) };
  } catch (e) {
    return { why: whyNot(e) };
  } finally {
    if (fd > 0) fs.closeSync(fd);
  }
}

// each of them may be told, with the line that it is in
const MOST_ERRORS = LIBRARY.records;

function madeTree(text, how) {
  const parsed = parse(text, how);
  const { length } = parsed.errors;
  if (length > MOST_ERRORS) return { why: `too large: the parser has ${length} errors, and at most ${MOST_ERRORS} are told`, large: true };
  if (parsed.deep) return { why: 'too large: nested too deep, or in too long a list, for the parser', large: true };
  if (!parsed.ok) return { why: `no tree: ${parsed.message}` };
  const tree = treeOf(text, parsed, how);
  const large = tooLarge(tree, how.limits);
  return large && !how.anySize ? { why: `too large: ${large}`, large: true } : { tree, notes: parsed.notes, errors: parsed.errors };
}

// { tree, notes, errors }, of the errors the notes are no check's; or { why }, where it is too large also { large }. how.limits: how large it may be (without it: for rulecheck)
function treeIn(text, how) {
  try { return madeTree(text, how); } catch (e) {
    if (e instanceof NoTree) return { why: `no tree: ${e.message}` };
    // the parser goes along a chain as `a.b.c` where the tree maker goes down
    if (e instanceof RangeError && /call stack/.test(e.message)) return { why: 'too large: nested too deep for the tree maker', large: true };
    throw e;
  }
}

module.exports = { ENDINGS, LARGEST_TABLE, SECONDS, sortBy, howOf, notRule, whyNot, bytesOf, treeIn };
