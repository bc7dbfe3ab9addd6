'use strict';
// A route as one page, or as lines of text: the rule's text with the statements that ran, in order, the answers where
// they were taken, and the end in words. No script, nothing from elsewhere.

const { createHash } = require('crypto');
const { K, R, F } = require('./kinds.js');
const { LINE_END, Lines, shown, shownTabs } = require('./place.js');
const { STYLE, MARK_WIDTH } = require('./style.js');

const LOOPS = [K.For, K.ForIn, K.ForOf, K.While, K.DoWhile];
const ENDS = ['fell through its last statement', 'returned', 'threw', 'stopped for want of an answer', 'was stopped', 'came to no end'];
const UNITS = ['the program', 'the function', 'the arrow function', 'the static block'];

const EXPORTS = [K.ExportDefault, K.ExportNamed];

const takesAnswer = (kind) => kind === K.If || kind === K.Switch || LOOPS.includes(kind);

const MOST_ROWS = 2000;
const MOST_MARKS = 3;
const MOST_SHOWN = 60;

const escaped = (s) => s.replace(/[&<>"]/g, (c) => ({ '&': '&amp;', '<': '&lt;', '>': '&gt;', '"': '&quot;' }[c]));
// what is seen of a text on one line
const escape = (s) => escaped(shown(s));
const code = (s) => `<code>${escape(s)}</code>`;
// what is cut off is not looked at: it can be very long
const short = (s) => { const text = shown(s.replace(/\s+/g, ' ').trim().slice(0, 2 * MOST_SHOWN)); return text.length > MOST_SHOWN ? `${text.slice(0, MOST_SHOWN - 1)}…` : text; };
const link = (href, words, name) => `<a${name ? ` class="${name}"` : ''} href="${escaped(href)}">${words}</a>`;

const partOf = (number) => Math.floor((number - 1) / MOST_ROWS);

class Page {
  // Of two routes on one page each has a prefix for its places; the first `shared` steps are marked as those of both. Of many steps one part has its rows
  // on a page; `partAt` tells where the others are. `doing` gives the links that stand in a step's row.
  constructor(tree, unit, answers, route, { prefix = '', shared = 0, part = 0, partAt = () => '', doing = null } = {}) {
    Object.assign(this, { tree, unit, answers, route, prefix, shared, part, partAt, doing, lines: new Lines(tree.source.toString('utf8')), inShort: new Map() });
    this.children = tree.nodes.map(() => []);
    tree.nodes.forEach((n, i) => { if (i > 0) this.children[n.parent].push(i); });
  }

  // how many pages the rows take, and one of them
  parts() { return Math.max(1, Math.ceil(this.route.list.length / MOST_ROWS)); }
  at(part, partAt) { return Object.assign(Object.create(Page.prototype), this, { part, partAt }); }

  text(from, to) { return this.tree.source.subarray(from, to).toString('utf8'); }
  textOf(i) { return this.text(this.tree.nodes[i].start, this.tree.nodes[i].end); }
  child(i, test) { return this.children[i].find((c) => test(this.tree.nodes[c])); }

  // The bytes that show a statement: without the statements that it holds.
  headOf(i) {
    const { nodes } = this.tree;
    const n = nodes[i];
    const body = this.child(i, (c) => c.role === R.body || c.kind === K.ClassBody);
    if (n.kind === K.Switch) {
      const subject = nodes[this.children[i][0]];
      const brace = this.text(subject.end, n.end).indexOf('{');
      return [[n.start, subject.end + (brace < 0 ? 0 : Buffer.byteLength(this.text(subject.end, n.end).slice(0, brace)))]];
    }
    if (n.kind === K.DoWhile) return [[this.pastBlank(nodes[body].end, n.end), n.end]];
    // of a class that is exported as much as of another
    const exported = EXPORTS.includes(n.kind) ? this.classesOf(i)[0] : undefined;
    if (exported !== undefined) return [[n.start, this.headOf(exported)[0][1]]];
    if (body === undefined) return [[n.start, n.end]];
    return [[n.start, nodes[body].start]];
  }

  // the classes whose static blocks run once this statement is listed: itself, or what an export declares
  classesOf(i) {
    const { nodes } = this.tree;
    if (nodes[i].kind === K.Class) return [i];
    return EXPORTS.includes(nodes[i].kind) ? this.children[i].filter((c) => nodes[c].kind === K.Class && nodes[c].flags & F.declaration) : [];
  }

  // nested functions, arrows and classes that aren't entered are no part of the unit
  leftOut(i) {
    const { kind, parent, role } = this.tree.nodes[i];
    if (kind === K.Class) return role !== R.body && role !== R.alternate && !this.classesOf(parent).includes(i);
    return kind === K.Function || kind === K.Arrow;
  }

  pastBlank(from, to) { return from + Buffer.byteLength(/^\s*/.exec(this.text(from, to))[0]); }

  // every statement of the unit that can be listed, in node order
  statements() {
    const { nodes } = this.tree;
    const out = [];
    const visit = (i) => {
      for (const c of this.children[i]) {
        const n = nodes[c];
        const listed = n.role === R.body || n.role === R.alternate;
        const simple = (n.kind >= K.Break && n.kind <= K.Statement) || [K.Function, K.VariableDeclaration, K.Class, K.ExportDefault, K.ExportNamed].includes(n.kind);
        if (listed && (simple || takesAnswer(n.kind) || n.kind === K.With)) out.push(c);
        if (!this.leftOut(c)) visit(c);
      }
    };
    visit(this.unit);
    return out;
  }

  // the steps, each with the answer that it took, or as a jump with its way and the steps whose ends it replaces
  steps() {
    let taken = 0;
    // for each finally block that runs before a jump is through: the jump's step, and the blocks that come after it
    const waiting = new Map();
    return this.route.list.map((node, k) => {
      const { kind } = this.tree.nodes[node];
      const step = { number: k + 1, node, kind };
      this.passed(waiting, node);
      if (takesAnswer(kind)) return { ...step, index: taken, answer: this.answers[taken++] };
      if (kind < K.Break || kind > K.Throw) return step;
      const way = this.wayOf(node);
      const replaced = way.left.filter((b) => waiting.has(b)).map((b) => waiting.get(b).number);
      way.left.forEach((b) => waiting.delete(b));
      if (way.last.length > 0) waiting.set(way.last[0], { number: k + 1, more: way.last.slice(1) });
      return { ...step, way, replaced };
    });
  }

  // a finally block is through once a statement outside of it is listed; the next one on the jump's way may hold that
  passed(waiting, node) {
    for (const [block, { number, more }] of [...waiting]) {
      if (this.within(node, block)) continue;
      waiting.delete(block);
      const next = more.findIndex((b) => this.within(node, b));
      if (next >= 0) waiting.set(more[next], { number, more: more.slice(next + 1) });
    }
  }

  within(i, above) { return i === above || (i > above && this.within(this.tree.nodes[i].parent, above)); }

  // what can be answered at a statement, each with one of the answers that mean it
  choices(node) {
    const { kind, flags } = this.tree.nodes[node];
    if (kind === K.Switch) return this.casesOf(node);
    if (kind === K.For && !(flags & F.initialiser)) return [{ answer: 1, words: 'goes on, as there is no test' }];
    const [yes, no] = kind === K.If ? ['yes', 'no'] : ['another turn', 'no more turns'];
    return [{ answer: 1, words: yes }, { answer: 0, words: no }];
  }

  casesOf(node) {
    const cases = this.children[node].filter((c) => this.tree.nodes[c].kind === K.SwitchCase);
    const isDefault = (c) => (this.tree.nodes[c].flags & F.default) !== 0;
    const choices = cases.map((c, answer) => ({ answer, words: isDefault(c) ? 'default' : `case ${short(this.textOf(this.children[c][0]))}`, otherwise: isDefault(c) }));
    return choices.some((c) => c.otherwise) ? choices : [...choices, { answer: cases.length, words: 'no case', otherwise: true }];
  }

  // which of them an answer means
  picked(node, answer) {
    const choices = this.choices(node);
    if (this.tree.nodes[node].kind === K.Switch) return choices.find((c) => c.answer === answer) || choices.find((c) => c.otherwise);
    return choices.find((c) => (c.answer !== 0) === (answer !== 0)) || choices[0];
  }

  words({ node, answer }) { return answer === undefined ? '' : `${answer}: ${this.picked(node, answer).words}`; }

  // the statement that asks next, in the rule's own words, and what can be answered; null where none does
  question() {
    if (this.route.asks === undefined) return null;
    const node = this.route.asks;
    const [from, to] = this.headOf(node)[0];
    return { node, line: this.lineOf(from), text: this.text(from, to).trim(), choices: this.choices(node) };
  }

  // where a jump goes: the finally blocks that run on its way, those that it leaves, and the catch that takes a throw
  wayOf(i) {
    const { nodes } = this.tree;
    const { kind } = nodes[i];
    const target = kind === K.Break || kind === K.Continue ? this.targetOf(i) : this.unit;
    const way = { last: [], left: [], caught: undefined };
    for (let c = i; c !== target; c = nodes[c].parent) {
      const p = nodes[c].parent;
      if (nodes[p].kind !== K.Try) continue;
      const caught = this.child(p, (n) => n.role === R.alternate);
      if (kind === K.Throw && nodes[c].role === R.body && caught !== undefined) return { ...way, caught };
      const block = this.child(p, (n) => n.role === R.finally);
      if (block === c) way.left.push(block);
      else if (block !== undefined) way.last.push(block);
    }
    return way;
  }

  // the nearest loop, for a break also switch, or the nearest statement with the jump's label
  targetOf(i) {
    const { nodes } = this.tree;
    const label = (n) => { const l = this.child(n, (c) => c.kind === K.LabelIdentifier); return l === undefined ? null : nodes[l].name.toString('latin1'); };
    const fits = (n) => (label(i) !== null ? nodes[n].kind === K.Labeled && label(n) === label(i)
      : LOOPS.includes(nodes[n].kind) || (nodes[n].kind === K.Switch && nodes[i].kind === K.Break));
    let at = nodes[i].parent;
    while (at !== this.unit && !fits(at)) at = nodes[at].parent;
    return at;
  }

  // what a step does beside its answer
  note({ node, way, replaced }) {
    const { nodes } = this.tree;
    const runs = this.classesOf(node).some((c) => this.children[this.child(c, (n) => n.kind === K.ClassBody)].some((b) => nodes[b].kind === K.StaticBlock));
    if (runs) return 'its static blocks run';
    if (!way) return '';
    const out = [];
    if (replaced.length > 0) out.push(`in place of the end of step ${replaced.join(', ')}`);
    const lines = way.last.map((b) => this.lineOf(nodes[b].start));
    if (lines.length === 1) out.push(`this end waits until the finally block at line ${lines[0]} is through`);
    if (lines.length > 1) out.push(`this end waits until the finally blocks at lines ${lines.join(', ')} are through`);
    if (way.caught !== undefined) out.push(`the catch at line ${this.lineOf(nodes[way.caught].start)} takes it`);
    return out.join('; ');
  }

  lineOf(byte) { return this.lines.at(byte).line; }

  // the text in pieces: statements with the steps at them, and what is between
  pieces(steps) {
    const by = new Map();
    for (const s of steps) by.set(s.node, [...(by.get(s.node) || []), s]);
    const heads = this.statements().flatMap((i) => this.headOf(i).map(([from, to]) => ({ from, to, steps: by.get(i) || [] })));
    heads.sort((a, b) => a.from - b.from);
    const out = [];
    let at = 0;
    for (const head of heads) {
      const text = this.text(head.from, head.to).trimEnd();
      const to = head.from + Buffer.byteLength(text);
      out.push({ text: this.text(at, head.from), steps: null }, { ...head, to, text });
      at = to;
    }
    return [...out, { text: this.text(at, this.tree.source.length), steps: null }];
  }

  // the text with a number before each line; at a statement that ran, its steps stand above it
  source(steps) {
    let line = 0;
    const number = () => `<i class="line" data-n="${++line}"></i>`;
    const lines = (text) => text.split(LINE_END).map((part, k) => (k > 0 ? number() : '') + escaped(shownTabs(part)));
    const first = number();
    const pieces = this.pieces(steps);
    const out = pieces.map(({ text, steps: at }, k) => {
      const inside = joined(text, lines(text));
      if (at === null) return inside;
      if (at.length === 0) return `<span class="idle">${inside}</span>`;
      return `<span class="ran" id="${this.prefix}n${at[0].node}">${this.marks(at, roomAt(pieces, k))}${inside}</span>`;
    });
    return first + out.join('');
  }

  // The steps at a statement, as many as have room and three at most, and behind the last how many there are where these are not all.
  marks(steps, room) {
    const texts = (most) => [...steps.slice(0, most).map((s) => String(s.number)), ...(most < steps.length ? [`×${steps.length}`] : [])];
    const fits = (most) => texts(most).join(' ').length * MARK_WIDTH < room;
    let most = Math.min(MOST_MARKS, steps.length);
    while (most > (steps.length > 1 ? 0 : 1) && !fits(most)) most -= 1;
    const marks = texts(most).map((text, k) => `<a class="step${this.isShared(steps[k]) ? ' shared' : ''}" href="${this.rowAt(steps[k].number)}" title="${escape(this.words(steps[k]))}">${text}</a>`);
    return `<span class="marks">${marks.join('')}</span>`;
  }

  isShared({ number }) { return number <= this.shared; }

  // where a step's row is: one that two routes share has no prefix
  rowAt(number) {
    const part = partOf(number);
    return `${part === this.part ? '' : escaped(this.partAt(part))}#${this.rowId(number)}`;
  }

  rowId(number) { return `${this.isShared({ number }) ? '' : this.prefix}s${number}`; }

  // a step's statement in short, and the line on which it is shown
  shown({ node }) {
    if (!this.inShort.has(node)) {
      const [from, to] = this.headOf(node)[0];
      this.inShort.set(node, { line: this.lineOf(from), text: short(this.text(from, to)) });
    }
    return this.inShort.get(node);
  }

  row(s, words) {
    const { line, text } = this.shown(s);
    const note = this.note(s) ? `<br><small>${escape(this.note(s))}</small>` : '';
    const doing = this.doing ? `<td>${this.doing(this, s)}</td>` : '';
    return `<tr id="${this.rowId(s.number)}"${this.isShared(s) ? ' class="shared"' : ''}><td>${s.number}</td><td>${line}</td>`
      + `<td><a href="#${this.prefix}n${s.node}"><code>${escaped(text)}</code></a>${note}</td><td>${escape(words)}</td>${doing}</tr>`;
  }

  // the rows of this part; behind the last one the end, where it is told
  table(steps, end = '', wordsOf = (s) => this.words(s)) {
    const rows = steps.filter(({ number }) => partOf(number) === this.part).map((s) => this.row(s, wordsOf(s)));
    if (end !== '' && this.part === this.parts() - 1) rows.push(`<tr class="end"><td></td><td></td><td colspan="${this.doing ? 3 : 2}">${end}</td></tr>`);
    const head = `<thead><tr><th></th><th>line</th><th>statement</th><th>answer</th>${this.doing ? '<th></th>' : ''}</tr></thead>`;
    return `<table>${head}<tbody>\n${rows.join('\n')}\n</tbody></table>`;
  }

  // which rows these are, where not all are on this page, with links to the others
  partLinks(parts = this.parts()) {
    if (parts === 1) return '';
    const words = (part) => `${part * MOST_ROWS + 1} to ${(part + 1) * MOST_ROWS}`;
    const to = (part, name) => (part >= 0 && part < parts ? ` ${link(this.partAt(part), `${name}: ${words(part)}`)}` : '');
    return `<p class="parts">steps ${words(this.part)}, page ${this.part + 1} of ${parts}${to(this.part - 1, 'before')}${to(this.part + 1, 'next')}</p>\n`;
  }

  unitWords() {
    const { kind, start } = this.tree.nodes[this.unit];
    return UNITS[kind] + (this.unit === 0 ? '' : ` at line ${this.lineOf(start)}`);
  }

  // where the answers were spent: the statement that asks next
  waits() {
    if (this.route.asks === undefined) return '';
    const { line, text } = this.shown({ node: this.route.asks });
    return `; line ${line} asks next: ${text}`;
  }

  taken() { return this.route.taken; }
  left() { return this.answers.slice(this.route.taken); }
  counted() { return `${count(this.route.list.length, 'entry', 'entries')} and ${count(this.route.taken, 'answer')}`; }

  // a line for each step
  plainSteps() {
    const rows = this.steps().map((s) => ({ number: String(s.number), ...this.shown(s), words: this.words(s) || this.note(s) }));
    const wide = (f) => Math.max(0, ...rows.map((r) => String(f(r)).length));
    const [a, b, c] = [wide((r) => r.number), wide((r) => r.line), wide((r) => r.text)];
    return rows.map((r) => `${r.number.padStart(a)}  line ${String(r.line).padStart(b)}  ${r.text.padEnd(c)}  ${r.words}`.trimEnd());
  }

  plainEnd() {
    const left = this.left().length > 0 ? `; left over: ${this.left().join(', ')}` : '';
    return `${ENDS[this.route.end]} after ${this.counted()}${left}${this.waits()}`;
  }

  given() { return this.answers.join(', ') || 'none'; }

  plain() {
    return `route of ${this.unitWords()} with answers ${this.given()}\n${this.plainSteps().map((l) => `${l}\n`).join('')}it ${this.plainEnd()}\n`;
  }

  // the end in words
  says() {
    const left = this.left();
    return `It <b>${ENDS[this.route.end]}</b> after ${this.counted()}${left.length > 0 ? `; left over: <code>${left.join(', ')}</code>` : ''}${escape(this.waits())}.`;
  }

  ended() { return ENDS[this.route.end]; }

  textShown(steps) { return `<pre>\n${this.source(steps)}</pre>`; }

  // the text and the table
  shownSteps() {
    const steps = this.steps();
    return `${this.textShown(steps)}\n${this.table(steps, this.ended())}`;
  }

  html(title) {
    return pageOf(title, `<p>Route of ${escape(this.unitWords())} with answers <code>${this.given()}</code>.
${this.says()}</p>
${this.partLinks()}<main>${this.shownSteps()}</main>`);
  }
}

// lines that are numbered, with their ends, which a browser shows as line feeds
function joined(text, lines) {
  const ends = [...text.matchAll(LINE_END)].map(([end]) => `${/[\u2028\u2029]/.test(end) ? escaped(shown(end)) : ''}\n`);
  return lines.map((line, k) => line + (ends[k] || '')).join('');
}

// How many columns there are from a statement to the next one on its line that ran.
function roomAt(pieces, k) {
  let room = 0;
  for (let at = k; at < pieces.length; at++) {
    if (at > k && pieces[at].steps !== null && pieces[at].steps.length > 0) return room;
    const [line, ...more] = pieces[at].text.split(LINE_END);
    room += shown(line).length;
    if (more.length > 0) return Infinity;
  }
  return Infinity;
}

// no script, nothing from elsewhere, and this style alone
const POLICY = `default-src 'none'; style-src 'sha256-${createHash('sha256').update(STYLE).digest('base64')}'; base-uri 'none'; form-action 'none'`;

const pageOf = (title, body, tab = title) => `<!doctype html>
<html lang="en"><head><meta charset="utf-8"><meta http-equiv="Content-Security-Policy" content="${POLICY}"><title>${escape(tab)}</title>
<meta name="viewport" content="width=device-width, initial-scale=1">
<style>${STYLE}</style></head><body>
<h1>${escape(title)}</h1>
${body}
</body></html>
`;

const count = (n, one, many = `${one}s`) => `${n} ${n === 1 ? one : many}`;

module.exports = { POLICY, Page, code, count, escape, link, pageOf };
