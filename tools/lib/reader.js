'use strict';
// The process that guard.js starts: it reads one text after the other, as the messages come.

const { refusedAt } = require('./engine.js');
const { linesOf } = require('./lines.js');
const { treeIn } = require('./read.js');

// what is told of the parser's errors
function errorsIn({ errors, notes }) {
  const noted = new Set(notes);
  return errors.map((e) => ({ reasonCode: e.reasonCode, message: e.message, index: e.loc.index, isNote: noted.has(e) }));
}

function readText({ text, isAsked, ...how }) {
  const engine = isAsked ? refusedAt({ text, module: how.module }) : null;
  const { tree, why, large, ...more } = treeIn(text, how);
  return why ? { engine, why, large } : { engine, lines: linesOf(tree), errors: errorsIn(more) };
}

process.on('message', (job) => {
  let answer;
  try { answer = readText(job); } catch (e) { answer = { why: `the tree maker fails on this text: ${e.message}` }; }
  process.send(answer);
});
