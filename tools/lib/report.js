'use strict';
// Verdicts for people, and for programs.

const { shown } = require('./place.js');
const { CODES, CONTEXTS } = require('./sentences.js');
const { UNASKED } = require('./verdict.js');

const ENGINE = `V8 of Node ${process.versions.node}`;

// what document 01 leaves out is not shown as clean
const isRefusedElsewhere = ({ why, engine, notes }) => !why && (Boolean(engine) || (notes || []).length > 0);
const isClean = (result) => !result.why && result.findings.length === 0 && !isRefusedElsewhere(result);

// what of a result the summary and the status are made of, since a call may be about very many files
function inShort(result) {
  return { why: result.why, unasked: result.unasked, found: (result.findings || []).length, isRefused: isRefusedElsewhere(result) };
}

// ---- for people

const BOLD = 1;
const RED = 31;
const paint = (colour, code, text) => (colour ? `\u001b[${code}m${text}\u001b[0m` : text);

// the source line of each span, with marks
function picture(places, first, second, colour) {
  const a = places.at(first[0]).line;
  const b = second ? places.at(second[0]).line : a;
  const rows = [...new Set([a, b])].sort((x, y) => x - y).map((line) => ({ line, ...places.marked(line, first, second) }));
  const width = Math.max(...rows.map((r) => String(r.line).length));
  return rows.map((r) => `  ${String(r.line).padStart(width)} | ${r.above}\n  ${' '.repeat(width)} | ${paint(colour, RED, r.below)}\n`).join('');
}

function findingText(name, f, places, colour) {
  const [code, , start, end, start2, end2, context] = f;
  const [wrong, instead] = CODES[code] || [`code ${code}`, ''];
  const where = CONTEXTS[context] ? ` (${CONTEXTS[context]})` : '';
  if (!places) return `${paint(colour, BOLD, name)}  ${wrong}${where}  [${code}]\n`;
  const { line, column } = places.at(start);
  const marks = picture(places, [start, end], end2 > 0 ? [start2, end2] : null, colour);
  return `${paint(colour, BOLD, `${name}:${line}:${column}`)}  ${wrong}${where}  ${paint(colour, RED, `[${code}]`)}\n${marks}  ${instead}\n`;
}

function noteText(name, { at, line, column, message }, places, colour) {
  return `${paint(colour, BOLD, `${name}:${line}:${column}`)}  not proved, the parser: ${shown(message)}\n${picture(places, [at, at], null, colour)}`;
}

function engineText(name, { message, line }, colour) {
  return `${paint(colour, BOLD, line ? `${name}:${line}` : name)}  not proved, ${ENGINE} refuses this rule: ${shown(message)}\n`;
}

function fileText({ name }, { why, findings, places, notes, unasked, engine }, colour) {
  const file = shown(name);
  let out = why ? `${paint(colour, BOLD, file)}  no verdict: ${shown(why)}\n` : '';
  for (const f of findings || []) out += findingText(file, f, places, colour);
  for (const note of notes || []) out += noteText(file, note, places, colour);
  if (unasked === UNASKED.typescript && !why) out += `${paint(colour, BOLD, file)}  ${unasked}\n`;
  return engine ? out + engineText(file, engine, colour) : out;
}

const count = (n, one) => `${n} ${one}${n === 1 ? '' : 's'}`;

// of results in short
function summary(results) {
  const files = count(results.length, 'file');
  const found = results.reduce((n, r) => n + r.found, 0);
  const none = results.filter((r) => r.why).length;
  const refused = results.filter((r) => r.isRefused && r.found === 0).length;
  if (none === results.length) return `no verdict on ${files}\n`;
  if (found + refused + none > 0) {
    const parts = [`${count(found, 'finding')} in ${files}`];
    if (refused > 0) parts.push(`${refused} refused by the engine or the parser alone`);
    if (none > 0) parts.push(`${none} without verdict`);
    return `${parts.join(', ')}\n`;
  }
  if (!results.some((r) => r.unasked)) return `clean: no findings in ${files}\n`;
  return `no findings in ${files}${results.some((r) => r.unasked === UNASKED.typescript) ? '' : '; V8 was not asked'}\n`;
}

// ---- for programs

function jsonText({ file }, result) {
  const { findings, why, refusal, place, places, engine, unasked, notes } = result;
  const out = [];
  const say = (object) => out.push({ file, ...object });
  if (why) say({ verdict: null, refusal, place, why });
  for (const [code, node, start, end, start2, end2, context] of findings || []) {
    const [message, instead] = CODES[code] || [];
    const at = places ? places.at(start) : {};
    say({ code, message, instead, ...at, node, start, end, second: end2 > 0 ? { start: start2, end: end2 } : null, context });
  }
  for (const { message, line, column } of notes || []) say({ parser: message, line, column });
  if (engine) say({ engine: engine.message, line: engine.line });
  if (isClean(result)) say(unasked ? { verdict: 'no findings', unasked } : { verdict: 'clean' });
  return out.map((o) => `${JSON.stringify(o)}\n`).join('');
}

// for rulecheck's lines, which don't tell it: what keeps a rule without findings from being clean
function besideLines({ name }, result) {
  const { why, lines, findings, engine, notes } = result;
  if (why && !lines) return `${name}: no verdict: ${why}\n`;
  if (!findings || findings.length > 0 || !isRefusedElsewhere(result)) return '';
  const said = (notes || []).map((n) => `${name}:${n.line}:${n.column}: not proved, the parser: ${n.message}\n`);
  return `${said.join('')}${engine ? `${name}: not proved, ${ENGINE} refuses this rule: ${engine.message}\n` : ''}`;
}

module.exports = { besideLines, fileText, inShort, jsonText, summary };
