'use strict';
// What a page of a route shows in a browser, and whether that is what V8 did: the rows are its list, the marks stand where it was.

const assert = require('assert');
const { parse } = require('./parser.js');
const { treeOf } = require('./tree.js');
const { routeLinesOf, tooLarge } = require('./lines.js');
const { routeTextOf } = require('./generate.js');
const { Writer, run, unitsOf } = require('./instrument.js');
const { K, R } = require('./kinds.js');

// In the page, or in one of the two routes on it: the text without marks, where each mark stands in it, and the table's rows. A thing is
// shown if it has a place on the page.
function seen(part = 'body', ...more) {
  const roots = [part, ...more].flatMap((p) => [...document.querySelectorAll(p)]);
  const all = (selector) => roots.flatMap((r) => [...r.querySelectorAll(selector)]);
  const shown = (e) => e.getClientRects().length > 0 && getComputedStyle(e).visibility === 'visible';
  const marks = [];
  let text = '';
  const walk = (node) => {
    if (node.nodeType === Node.TEXT_NODE) { text += node.data; return; }
    if (!node.classList.contains('step')) { node.childNodes.forEach(walk); return; }
    marks.push({ says: node.textContent, words: node.title, at: text.length, shown: shown(node), ran: node.parentNode.parentNode.className, shared: node.classList.contains('shared'), to: node.getAttribute('href') });
  };
  walk(all('pre')[0]);
  const rows = all('tbody tr');
  const backs = (name) => [...new Set(all(`.${name}`).map((e) => getComputedStyle(e).backgroundColor))];
  return {
    text, marks, rows: rows.map((r) => [...r.cells].slice(0, 4).map((c) => c.innerText)), places: rows.map((r) => r.id), nodes: rows.map((r) => (r.querySelector('a') ? r.querySelector('a').getAttribute('href').replace(/\D+/, '') : null)),
    title: document.title, head: document.querySelector('h1').innerText, says: all('p')[0] ? all('p')[0].innerText : '',
    lines: all('.line').map((e) => getComputedStyle(e, '::before').content),
    sharedRows: rows.map((r) => r.className === 'shared'), shared: backs('shared'), ran: backs('ran'), idle: backs('idle'), wide: document.documentElement.scrollWidth > innerWidth,
    loaded: performance.getEntriesByType('resource').length, scripts: document.scripts.length, policy: document.querySelector('meta[http-equiv]').content,
  };
}

// In the page: texts with less contrast than WCAG asks for as AA, of a letter's colour and the nearest ground under it.
function faint() {
  const numbers = (colour) => colour.match(/[\d.]+/g).map(Number);
  const light = (colour) => numbers(colour).slice(0, 3).map((c) => c / 255).map((c) => (c <= 0.04045 ? c / 12.92 : ((c + 0.055) / 1.055) ** 2.4)).reduce((sum, c, k) => sum + c * [0.2126, 0.7152, 0.0722][k], 0);
  const isSeenThrough = (colour) => numbers(colour).length > 3 && numbers(colour)[3] < 1;
  const ground = (e) => { const { backgroundColor } = getComputedStyle(e); return isSeenThrough(backgroundColor) && e.parentElement ? ground(e.parentElement) : backgroundColor; };
  const ratio = (a, b) => (Math.max(light(a), light(b)) + 0.05) / (Math.min(light(a), light(b)) + 0.05);
  const texts = [...document.querySelectorAll('body *')].filter((e) => [...e.childNodes].some((n) => n.nodeType === Node.TEXT_NODE && n.data.trim() !== '') || e.className === 'line');
  return texts.map((e) => ({ e, ratio: ratio(getComputedStyle(e, e.className === 'line' ? '::before' : null).color, ground(e)) })).filter((t) => t.ratio < 4.5).map((t) => `${t.e.className} ${t.e.textContent.slice(0, 20)} ${t.ratio.toFixed(2)}`);
}

// In the page: whether marks lie over each other, and which statements stand elsewhere with them than without.
function crowded() {
  const places = (selector) => [...document.querySelectorAll(selector)].map((e) => e.getBoundingClientRect());
  const marks = places('.step');
  const over = marks.some((a, k) => marks.some((b, l) => l > k && a.left < b.right && b.left < a.right && a.top < b.bottom && b.top < a.bottom));
  const at = () => places('.ran, .idle').map((r) => [r.x, r.y].join()).join(' ');
  const before = at();
  document.querySelectorAll('.marks').forEach((e) => { e.style.display = 'none'; });
  const pushed = at() !== before;
  document.querySelectorAll('.marks').forEach((e) => { e.style.display = ''; });
  return { over, pushed };
}

// where a statement is marked: at its beginning, a do-while at the `while` behind its body
function markAt({ nodes, source }, i) {
  const text = (byte) => source.subarray(0, byte).toString('utf8');
  const { kind, start, end } = nodes[i];
  if (kind !== K.DoWhile) return text(start).length;
  return text(end).indexOf('while', text(nodes.find((c) => c.parent === i && c.role === R.body).end).length);
}

const ENDS = ['fell through its last statement', 'returned', 'threw', 'stopped for want of an answer'];
const NO_BACK = 'rgba(0, 0, 0, 0)';

const MOST_MARKS = 3;
const MOST_ROWS = 2000;

// the text as a page shows it: its lines, each with its number
const linesOf = (text) => text.split(/\r\n|[\n\r\u2028\u2029]/);

// Every page: the text in numbered lines, all marks are seen, in statements with a ground of their own, each says what its row says, and it asks for nothing.
function assertWhole(page, text) {
  const lines = linesOf(text);
  assert.strictEqual(page.text, lines.join('\n'), 'the text is not the rule\'s');
  assert.deepStrictEqual(page.lines, lines.map((_, k) => `"${k + 1}"`), 'numbers of lines');
  assert.ok(page.marks.every((m) => m.shown && m.ran === 'ran'), 'a mark is not seen');
  const rows = page.rows.slice(0, -1);
  assert.deepStrictEqual(rows.map(([number]) => number), rows.map((_, k) => String(k + 1)), 'numbers of rows');
  for (const m of page.marks) {
    const at = page.places.indexOf(m.to.slice(1));
    assert.ok(at >= 0, 'a mark without a row');
    const [number, , , words] = page.rows[at];
    assert.ok(words.split(' | ').includes(m.words) && (m.says.startsWith('×') || m.says === number), `a mark says ${m.says}, ${m.words}, and its row ${number}, ${words}`);
  }
  assert.ok(page.ran.every((c) => c !== NO_BACK) && page.idle.every((c) => c === NO_BACK), 'grounds');
  assert.deepStrictEqual([page.loaded, page.scripts, page.wide], [0, 0, false]);
  assert.match(page.policy, /^default-src 'none'; style-src 'sha256-[^']+'; base-uri 'none'; form-action 'none'$/);
}

// The rows are V8's list, and so are the marks: the first three at the most of the steps at a statement, and how many there are if that is not all.
function assertRan(page, tree, ran) {
  assert.deepStrictEqual(page.nodes.slice(0, -1).map(Number), ran.list, 'rows are not where V8 was');
  const wanted = new Map();
  ran.list.forEach((node, k) => { const at = markAt(tree, node); wanted.set(at, [...(wanted.get(at) || []), k + 1]); });
  const got = new Map();
  page.marks.forEach((m) => got.set(m.at, [...(got.get(m.at) || []), m.says]));
  assert.deepStrictEqual([...got.keys()].sort(), [...wanted.keys()].sort(), 'marks are not where V8 was');
  for (const [at, says] of got) {
    const steps = wanted.get(at);
    const few = says.filter((text) => !text.startsWith('×')).length;
    assert.ok(few <= MOST_MARKS, 'too many marks');
    assert.deepStrictEqual(says, [...steps.slice(0, few).map(String), ...(few < steps.length ? [`×${steps.length}`] : [])], 'marks are not where V8 was');
  }
  assert.strictEqual(page.rows[page.rows.length - 1].join(''), ENDS[ran.end]);
  assert.strictEqual(page.rows.filter((r) => (r[3] || '') !== '').length, ran.taken);
}

// Light and dark, a page can be read; its marks lie beside each other, and push nothing away.
async function assertReadable(browser) {
  for (const value of ['dark', 'light']) {
    await browser.scheme(value);
    assert.deepStrictEqual(await browser.run(faint), [], `contrast, ${value}`);
  }
  assert.deepStrictEqual(await browser.run(crowded), { over: false, pushed: false });
}

// The two routes of a page: each whole, and its first steps marked as shared, in the text and in the table, where their rows stand once.
async function assertPair(browser, text, shared) {
  const parts = [];
  assert.strictEqual(await browser.run(() => document.querySelectorAll('.both tbody tr').length), shared, 'rows of both');
  for (const part of [1, 2]) {
    const page = await browser.run(seen, ...(shared > 0 ? ['section.both'] : []), `section.own:nth-of-type(${part + (shared > 0 ? 1 : 0)})`);
    assertWhole(page, text);
    assert.deepStrictEqual(page.marks.map((m) => m.shared), page.marks.map((m) => Number(m.to.replace(/\D+/, '')) <= shared), 'marks of the shared beginning');
    assert.deepStrictEqual(page.sharedRows, page.rows.map((_, k) => k < shared), 'rows of the shared beginning');
    assert.ok(page.shared.every((c) => c !== NO_BACK && !page.ran.includes(c)), 'the ground of what is shared');
    parts.push(page);
  }
  return parts;
}

// every fourth case has a second list of answers
const PAIRED = 4;

// how many entries two of V8's runs share
function sharedBy(a, b) {
  const differ = a.list.findIndex((node, k) => node !== b.list[k]);
  return differ < 0 ? a.list.length : differ;
}

// units of generated texts with answers, and what V8 did with them
function casesOf(n, seed) {
  const out = [];
  for (let i = 0; out.length < n; i++) {
    const { module, text, answers } = routeTextOf(seed, i, true);
    const tree = treeOf(text, parse(text, { module }), { module });
    if (tooLarge(tree)) continue;
    const writer = new Writer(text, tree.made);
    for (const { node, unit } of unitsOf(tree).slice(0, n - out.length)) {
      const written = writer.unit(node);
      const ranWith = (list) => ({ list, ran: run(written, list), input: routeLinesOf(tree, unit, list) });
      out.push({ text, tree, unit, written, module, ...ranWith(answers()), ...(out.length % PAIRED === 0 ? { other: ranWith(answers()) } : {}) });
    }
  }
  return out;
}

// what went wrong, with the case that it went wrong in
async function on(c, lists, assertion) {
  try { return await assertion(); } catch (e) {
    e.message += `\n${JSON.stringify(c.text)} unit ${c.unit} answers ${lists.join(' and ')}`;
    throw e;
  }
}

module.exports = { ENDS, MOST_ROWS, assertPair, assertRan, assertReadable, assertWhole, casesOf, crowded, on, seen, sharedBy };
