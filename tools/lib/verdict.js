'use strict';
// The verdict on one file: { findings, lines, places, notes, engine, unasked }, or { why } where there is none.
// The findings are the proved program's; what the parser and the engine say stands beside them and is not proved.

const path = require('path');
const read = require('./read.js');
const { LIBRARY, tooLarge, treeIn } = require('./lines.js');
const { offsetsOf } = require('./tree.js');
const { wordsFor } = require('./shape.js');
const { answersOf, findingsOf, programOf } = require('./batch.js');
const { CODES_FOR } = require('./reasons.js');
const { setUp } = require('./setup.js');
const { Lines, textOf } = require('./place.js');
const { REFUSALS } = require('./sentences.js');

const LARGER = 'rulecalls, which takes larger rules, is not built';

// why V8 says nothing about a rule, which is then never called clean
const UNASKED = {
  typescript: 'V8 was not asked, since it compiles no TypeScript: only the proved checks looked at this rule',
  table: 'V8 was not asked, since a table is no text',
  told: 'V8 was not asked (--no-engine)',
};

// The proved program for a tree: rulecheck, or what takes all that the library takes, which is made when it is first needed.
function checkerOf(tree, how) {
  const large = tree ? tooLarge(tree) : null;
  if (!large) return { program: programOf(how.checker, 'rulecheck'), argument: '' };
  if (!how.caller && !setUp('cargo', 'rulecalls')) return { why: `too large: ${large}; ${LARGER}` };
  return { program: programOf(how.caller, 'rulecalls'), argument: 'check' };
}

function refusedWords(tree, number, place) {
  const what = number === 0 ? `line ${place}` : number === 1 ? 'the tables' : number === 5 ? `scope or node ${place}` : `node ${place}`;
  return `refused (${number}), ${what}: ${(tree && wordsFor(tree, number, place)) || REFUSALS[number]}`;
}

// what the proved program answers to the lines of a tree
function judged(input, tree, how) {
  const { program, argument, why } = checkerOf(tree, how);
  if (why) return { why };
  const [lines] = answersOf(program, [input], argument, how.seconds);
  const { findings, refused } = findingsOf(lines);
  if (findings) return { findings, lines };
  const [letter, ...rest] = refused.split(',');
  if (letter !== 'R') return { why: `${path.basename(program)} gave no answer: ${rest.join()}` };
  const [number, place] = rest.map(Number);
  return { lines, refusal: number, place, why: refusedWords(tree, number, place) };
}

// A message of the parser's without its end `. (1:2)`; it may have a name of any length in it, with any number of blanks.
function bare(message) {
  const at = message.lastIndexOf('(');
  if (at < 0 || !/^\(\d+:\d+\)$/.test(message.slice(at))) return message;
  const words = message.slice(0, at).trimEnd();
  return words.endsWith('.') ? words.slice(0, -1) : words;
}

// The parser reads on after an early error. It is told, unless a finding stands for it.
function notesOf(errors, text, findings, places) {
  const found = new Set(findings.map((f) => f[0]));
  const isMissed = (e) => CODES_FOR[e.reasonCode] && !CODES_FOR[e.reasonCode].some((code) => found.has(code));
  const byte = offsetsOf(text);
  return errors.filter((e) => e.isNote || isMissed(e)).map((e) => {
    // where something was filled in for the parser, its place may lie behind the text
    const at = byte(Math.min(e.index, text.length));
    return { at, ...places.at(at), message: bare(e.message) };
  });
}

async function judgedText(bytes, { sort }, how) {
  const { text, why: unread } = textOf(bytes);
  if (unread) return { why: unread };
  const kind = read.howOf(sort);
  const unasked = sort === 'typescript' ? UNASKED.typescript : how.engine ? null : UNASKED.told;
  const places = new Lines(text);
  const { why, lines, errors, engine } = await how.guard.read({ text, ...kind, limits: LIBRARY, isAsked: !unasked });
  if (why) return { why, places, engine, unasked };
  const verdict = judged(lines, treeIn(lines), how);
  return { ...verdict, places, notes: notesOf(errors, text, verdict.findings || [], places), engine, unasked };
}

// how.guard reads the texts
async function verdictOn(one, how) {
  const why = one.why || read.notRule(one.file);
  if (why) return { why };
  const table = one.sort === 'table';
  const { bytes, why: unread } = read.bytesOf(one.file, { most: table ? read.LARGEST_TABLE : undefined, seconds: how.seconds });
  if (unread) return { why: unread };
  return table ? { ...judged(bytes, treeIn(bytes), how), unasked: UNASKED.table } : judgedText(bytes, one, how);
}

module.exports = { UNASKED, judged, verdictOn };
