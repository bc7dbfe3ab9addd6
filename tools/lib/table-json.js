'use strict';
// Tables as JSON, for people without the line format: words in place of numbers where document 01 has words, and back.
// A number may stand for each word. What has no word, a number that isn't listed among it, is written as a number.

const { KINDS, ROLES, F, S, K, DECLARES, METHODS, BASES, PROPERTIES } = require('./kinds.js');
const { bytesOf } = require('./tree.js');

const TYPES = ['script', 'module', 'typescript'];
const EXTRAS = { [K.VariableDeclaration]: DECLARES, [K.MethodDefinition]: METHODS, [K.NumericLiteral]: BASES, [K.ObjectProperty]: PROPERTIES, [K.Other]: ['plain', 'parenthesis'] };
const MOST_NUMBER = 4294967295;

class NoTable extends Error {}

// ---- out

const wordOf = (list, number) => (list && list[number] !== undefined ? list[number] : number);

function flagsOut(table, sum) {
  const names = Object.keys(table).filter((f) => Math.floor(sum / table[f]) % 2 === 1);
  return names.reduce((n, f) => n + table[f], 0) === sum ? names : sum;
}

// bytes as a text where they are one, else in hexadecimal
function bytesOut(bytes) {
  const text = bytes.toString('utf8');
  return Buffer.from(text, 'utf8').equals(bytes) ? text : { hex: bytes.toString('hex') };
}

function nodeOut(n) {
  const out = { kind: wordOf(KINDS, n.kind), parent: n.parent, role: wordOf(ROLES, n.role), start: n.start, end: n.end, scope: n.scope };
  const flags = flagsOut(F, n.flags);
  if (flags !== 0 && flags.length !== 0) out.flags = flags;
  if (n.extra !== 0) out.extra = wordOf(EXTRAS[n.kind], n.extra);
  if (n.name.length > 0) out.name = bytesOut(n.name);
  return out;
}

// a record a line, so that two tables can be compared by eye
function jsonOf(tree) {
  const list = (records) => `[\n${records.map((r) => `    ${JSON.stringify(r)}`).join(',\n')}\n  ]`;
  const scopes = tree.scopes.map((s) => ({ parent: s.parent, flags: flagsOut(S, s.flags), node: s.node }));
  return `{\n  "type": ${JSON.stringify(wordOf(TYPES, tree.type))},\n  "source": ${JSON.stringify(bytesOut(tree.source))},\n`
    + `  "scopes": ${list(scopes)},\n  "nodes": ${list(tree.nodes.map(nodeOut))}\n}\n`;
}

// ---- in

const shortly = (value) => JSON.stringify(value === undefined ? null : value).slice(0, 60);

function numberIn(value, where) {
  if (!Number.isInteger(value) || value < 0 || value > MOST_NUMBER) throw new NoTable(`${where} is ${shortly(value)}; it is a number from 0 to ${MOST_NUMBER}`);
  return value;
}

function wordIn(list, value, where) {
  if (typeof value !== 'string') return numberIn(value, where);
  const at = list ? list.indexOf(value) : -1;
  if (at < 0) throw new NoTable(`${where} is ${shortly(value)}; ${list ? `it is one of ${list.join(', ')}, or a number` : 'it is a number'}`);
  return at;
}

function flagsIn(table, value, where) {
  if (!Array.isArray(value)) return numberIn(value, where);
  const odd = value.find((f) => !Object.hasOwn(table, f));
  if (odd !== undefined || new Set(value).size !== value.length) {
    throw new NoTable(`${where} has ${odd === undefined ? 'a word twice' : shortly(odd)}; it is a list of ${Object.keys(table).join(', ')}, or the sum of their numbers`);
  }
  return value.reduce((n, f) => n + table[f], 0);
}

function bytesIn(value, where) {
  if (typeof value === 'string') return bytesOf(value);
  if (value && typeof value.hex === 'string' && /^([0-9a-fA-F]{2})*$/.test(value.hex)) return Buffer.from(value.hex, 'hex');
  throw new NoTable(`${where} is ${shortly(value)}; it is a text, or {"hex": ".."} with two digits a byte`);
}

function knownOnly(record, known, where) {
  if (!record || typeof record !== 'object' || Array.isArray(record)) throw new NoTable(`${where} is ${shortly(record)}; it is an object`);
  const odd = Object.keys(record).find((key) => !known.includes(key));
  if (odd !== undefined) throw new NoTable(`${where} has a field ${shortly(odd)}; its fields are ${known.join(', ')}`);
}

const SCOPE_FIELDS = ['parent', 'flags', 'node'];
function scopeIn(s, i) {
  knownOnly(s, SCOPE_FIELDS, `scope ${i}`);
  return { parent: numberIn(s.parent, `the parent of scope ${i}`), flags: flagsIn(S, s.flags === undefined ? 0 : s.flags, `the list of flags of scope ${i}`), node: numberIn(s.node, `the node of scope ${i}`) };
}

const NODE_FIELDS = ['kind', 'parent', 'role', 'start', 'end', 'scope', 'flags', 'extra', 'name'];
function nodeIn(n, i) {
  const of = (field) => `the ${field} of node ${i}`;
  const or = (value, other) => (value === undefined ? other : value);
  knownOnly(n, NODE_FIELDS, `node ${i}`);
  const kind = wordIn(KINDS, n.kind, of('kind'));
  const name = bytesIn(or(n.name, ''), of('name'));
  if (name.includes('\n')) throw new NoTable(`${of('name')} has a line feed, which no line of a table can hold; leave the name out`);
  return {
    kind, name, parent: numberIn(n.parent, of('parent')), role: wordIn(ROLES, or(n.role, 0), of('role')),
    start: numberIn(n.start, of('start')), end: numberIn(n.end, of('end')), scope: numberIn(n.scope, of('scope')),
    flags: flagsIn(F, or(n.flags, 0), of('list of flags')), extra: wordIn(EXTRAS[kind], or(n.extra, 0), of('extra')),
  };
}

const TABLE_FIELDS = ['type', 'source', 'scopes', 'nodes'];
function treeOfJson(text) {
  let table;
  try { table = JSON.parse(text); } catch (e) { throw new NoTable(`it is no JSON: ${e.message}`); }
  knownOnly(table, TABLE_FIELDS, 'the table');
  for (const list of ['scopes', 'nodes']) if (!Array.isArray(table[list])) throw new NoTable(`"${list}" is ${shortly(table[list])}; it is a list`);
  return { type: wordIn(TYPES, table.type, '"type"'), source: bytesIn(table.source, '"source"'), scopes: table.scopes.map(scopeIn), nodes: table.nodes.map(nodeIn) };
}

module.exports = { jsonOf, treeOfJson, NoTable };
