'use strict';
// Makes a text smaller while a test still gives the same answer: parts of its tree are dropped or put in place of
// the whole, the shortest good one first.

const { parse } = require('./parser.js');

function partsOf(node, out = []) {
  if (!node || typeof node !== 'object') return out;
  if (Array.isArray(node)) { node.forEach((n) => partsOf(n, out)); return out; }
  if (typeof node.type === 'string' && typeof node.start === 'number' && node.end > node.start) out.push(node);
  for (const key of Object.keys(node)) if (key !== 'loc' && key !== 'extra') partsOf(node[key], out);
  return out;
}

function smallerTexts({ text, module }) {
  const parsed = parse(text, { module });
  if (!parsed.ok || parsed.marks.nameless !== null) return text.split('\n').map((_, i, all) => all.filter((_l, j) => j !== i).join('\n'));
  const out = new Set();
  const parts = partsOf(parsed.program);
  const put = (p, by) => {
    let end = p.end;
    if (by === '') while (/[\s,]/.test(text[end] || '')) end += 1;
    const made = (text.slice(0, p.start) + by + text.slice(end)).trim();
    if (made.length < text.length) out.add(made);
  };
  for (const p of parts) {
    for (const by of ['', 'a', ';', '{}']) put(p, by);
    // a part in place of what it is a part of
    for (const q of parts) if (q !== p && q.start >= p.start && q.end <= p.end && p.end - p.start < 400) put(p, text.slice(q.start, q.end));
  }
  out.add(text.replace(/\s+/g, ' ').replace(/ ?([{}()\[\];,=]) ?/g, '$1'));
  return [...out].sort((a, b) => a.length - b.length);
}

// The run's text made small; `judged` gives the runs of texts, `test` a detail or null.
function shrink(run, judged, test) {
  let best = { text: run.text, module: run.module, detail: run.detail };
  for (let round = 0; round < 12; round++) {
    const texts = smallerTexts(best).filter((t) => t.length < best.text.length).slice(0, 4000);
    let better = null;
    for (let from = 0; from < texts.length && !better; from += 200) {
      const runs = judged(texts.slice(from, from + 200).map((text) => ({ text, module: run.module })));
      // a class that lost its name can't be made smaller still
      const hit = runs.find((r) => !(r.parsed.ok && r.parsed.marks.nameless !== null) && test(r) !== null);
      if (hit) better = { text: hit.text, module: run.module, detail: test(hit) };
    }
    if (!better) return best;
    best = better;
  }
  return best;
}

module.exports = { shrink };
