'use strict';
// rulecheck's and ruleroute's lines, their limits, and a view for people.

const { KINDS, ROLES, F } = require('./kinds.js');

const LIMIT = 1024;
const LONGEST = 2100;

// How many nodes and scopes, and how many bytes of source and of names: what rulecheck and ruleroute read, and what the library takes (refusal 1).
const PROGRAMS = { records: LIMIT, bytes: LIMIT, words: 'and rulecheck reads' };
const LIBRARY = { records: 65535, bytes: 1048576, words: 'and a rule has at most' };
const DEEPEST = 512;

function depthOf(nodes) {
  const depth = new Array(nodes.length).fill(0);
  for (let i = 1; i < nodes.length; i++) depth[i] = depth[nodes[i].parent] + 1;
  return depth;
}

// which limit a tree is beyond, or null
function tooLarge(tree, { records, bytes, words } = PROGRAMS) {
  const names = tree.nodes.reduce((n, x) => n + x.name.length, 0);
  const counts = [['nodes', tree.nodes.length, records], ['scopes', tree.scopes.length, records], ['bytes of names', names, bytes], ['bytes of source', tree.source.length, bytes]];
  for (const [what, n, most] of counts) if (n > most) return `${n} ${what}, ${words} ${most}`;
  const depth = depthOf(tree.nodes).reduce((a, b) => Math.max(a, b), 0);
  return depth > DEEPEST ? `depth ${depth}, and ${DEEPEST} is the deepest` : null;
}

function linesOf(tree) {
  const out = [Buffer.from(`J,${tree.type},${tree.nodes.length},${tree.scopes.length}\n`)];
  for (const s of tree.scopes) out.push(Buffer.from(`S,${s.parent},${s.flags},${s.node}\n`));
  for (const n of tree.nodes) {
    out.push(Buffer.from(`N,${n.kind},${n.parent},${n.role},${n.start},${n.end},${n.scope},${n.flags},${n.extra},`), n.name, Buffer.from('\n'));
  }
  out.push(Buffer.from(`X,${tree.source.toString('hex')}\n`));
  return Buffer.concat(out);
}

// The tree that lines tell, as far as it takes to say how large it is and in words what a refusal is about; null where they can't be read.
function treeIn(bytes) {
  const lines = bytes.toString('latin1').split('\n');
  const nameIn = (line) => line.split(',').slice(9).join();
  const numbers = (line, letter, n) => {
    const fields = line === undefined ? [] : line.split(',');
    return fields[0] === letter && fields.length > n && fields.slice(1, n + 1).every((f) => /^\d+$/.test(f)) ? fields.slice(1, n + 1).map(Number) : null;
  };
  const head = numbers(lines[0], 'J', 3);
  if (!head) return null;
  const [type, size, scoped] = head;
  const scopes = lines.slice(1, 1 + scoped).map((l) => numbers(l, 'S', 3));
  const records = lines.slice(1 + scoped, 1 + scoped + size);
  const nodes = records.map((l) => numbers(l, 'N', 8));
  const hexadecimal = (lines[1 + scoped + size] || '').replace('X,', '');
  if (scopes.length !== scoped || nodes.length !== size || [...scopes, ...nodes].includes(null)) return null;
  return {
    type,
    scopes: scopes.map(([parent, flags, node]) => ({ parent, flags, node })),
    nodes: nodes.map(([kind, parent, role, start, end, scope, flags, extra], i) => ({ kind, parent, role, start, end, scope, flags, extra, name: Buffer.from(nameIn(records[i]), 'latin1') })),
    source: Buffer.from(hexadecimal, 'hex'),
  };
}

const lineOf = (answers) => ['A', ...answers].join();

// Answers as they are written in a call: numbers with commas, nothing for none. Null where ruleroute couldn't read them.
function answersIn(text) {
  if (!/^(\d+(,\d+)*)?$/.test(text)) return null;
  const answers = text === '' ? [] : text.split(',').map(Number);
  const fits = answers.length <= LIMIT && lineOf(answers).length <= LONGEST && answers.every((a) => a <= 4294967295);
  return fits ? answers : null;
}

// with the unit behind them, for rulecalls
const unitLinesOf = (tree, unit) => Buffer.concat([linesOf(tree), Buffer.from(`U,${unit}\n`)]);

// with the unit and the answers behind them, for ruleroute; with several lists of answers for rulecalls
function routeLinesOf(tree, unit, ...lists) {
  return Buffer.concat([unitLinesOf(tree, unit), Buffer.from(lists.map((answers) => `${lineOf(answers)}\n`).join(''))]);
}

// with the unit and a line for each call over marks, of a letter and numbers, for rulecalls
function markLinesOf(tree, unit, calls) {
  return Buffer.concat([unitLinesOf(tree, unit), Buffer.from(calls.map((call) => `${call.join()}\n`).join(''))]);
}

function viewOf(tree) {
  const depth = depthOf(tree.nodes);
  const out = [];
  tree.scopes.forEach((s, i) => {
    const flags = ['strict', 'top', 'function', 'arrow', 'static block'].filter((_, b) => s.flags & (1 << b)).join(', ');
    out.push(`scope ${i}: in ${s.parent}, node ${s.node}${flags ? `, ${flags}` : ''}`);
  });
  tree.nodes.forEach((n, i) => {
    const flags = Object.keys(F).filter((f) => n.flags & F[f]).map((f) => ` +${f}`).join('');
    const extra = n.extra ? ` extra ${n.extra}` : '';
    const name = n.name.length ? ` '${n.name.toString('utf8')}'` : '';
    const role = n.role ? ` as ${ROLES[n.role]}` : '';
    out.push(`${String(i).padStart(4)}  ${'  '.repeat(depth[i])}${KINDS[n.kind]}${role}${name}${flags}${extra}  ${n.start}-${n.end} scope ${n.scope}`);
  });
  return out.join('\n') + '\n';
}

module.exports = { DEEPEST, LIBRARY, LIMIT, LONGEST, PROGRAMS, linesOf, treeIn, unitLinesOf, routeLinesOf, markLinesOf, answersIn, viewOf, tooLarge, depthOf };
