'use strict';
// A rule's routes asked for one answer after the other. A state is all that a page's address tells: the unit, the answers, others to compare them with,
// behind how many of them the route was stopped and taken up again, whether several engines are asked, and which part of the rows is shown.

const { Page, code, escape, link, pageOf } = require('./page.js');
const { Pair } = require('./pair.js');
const { Refused, answersOfCall } = require('./routes.js');

const BOTH = 'both';

const number = (text) => { if (!/^\d{1,9}$/.test(text)) throw new Refused(`${text} is no number`); return Number(text); };

// the state in an address, and the address of a state
function stateIn(search) {
  const asked = new URLSearchParams(search);
  const read = (name, how) => (asked.has(name) ? how(asked.get(name)) : undefined);
  return { unit: read('unit', number), answers: read('answers', answersOfCall) || [], against: read('against', answersOfCall), mark: read('mark', number), engines: asked.get('engines') === BOTH ? BOTH : undefined, part: read('part', number) || 0 };
}
function addressOf({ unit, answers, against, mark, engines, part }) {
  const told = { unit, answers: answers.join(), against: against && against.join(), mark, engines, part: part || undefined };
  return `?${Object.entries(told).filter(([, value]) => value !== undefined).map(([name, value]) => `${name}=${value}`).join('&')}`;
}

const withAnswer = (answers, k, answer) => answers.map((a, i) => (i === k ? answer : a));

// what else could be answered at a step
const others = (page, { node, answer }) => page.choices(node).filter((c) => c.answer !== page.picked(node, answer).answer);

class Asked {
  constructor(routes, units, name) { Object.assign(this, { routes, units, name, tree: routes.tree }); }

  // whether there is the program with the calls that a pair of routes, marks and the second engine take
  hasCalls() { return this.routes.hasCalls(); }

  unitIn({ unit }) {
    if (!this.units.some((u) => u.node === unit)) throw new Refused(`no unit has the number ${unit}`);
    return unit;
  }

  // One route. Behind "back to here" it was stopped under a mark, and is taken up there.
  route(state, list) {
    const unit = this.unitIn(state);
    if (state.mark === undefined || state.mark > list.length || !this.hasCalls()) return this.routes.withQuestion('code', unit, list);
    return this.routes.takenUp(unit, list, state.mark);
  }

  // the page of a state: one route, or two
  shown(state, { doing = null, partAt } = {}) {
    const unit = this.unitIn(state);
    const more = (key) => ({ doing: doing && doing(key), part: state.part, partAt });
    const route = this.route(state, state.answers);
    if (state.against === undefined) return new Page(this.tree, unit, state.answers, route, more('answers'));
    const both = [{ answers: state.answers, route, ...more('answers') }, { answers: state.against, route: this.route({ unit }, state.against), ...more('against') }];
    return new Pair(this.tree, unit, both, this.routes.shared(unit, state.answers, state.against));
  }

  // What the engines give for each list of answers: null where they agree, else what each gives.
  differing(state) {
    const unit = this.unitIn(state);
    for (const list of [state.answers, state.against].filter(Boolean)) {
      const given = this.routes.bothGive(unit, list);
      if (given) return given.map((g) => ({ ...g, page: g.route && new Page(this.tree, unit, list, g.route) }));
    }
    return null;
  }

  // ---- pages

  html(search) {
    const state = stateIn(search);
    if (state.unit === undefined && this.units.length > 1) return this.unitsPage();
    return this.routePage({ ...state, unit: state.unit || 0 });
  }

  unitsPage() {
    const rows = this.units.map(({ node, kind, name, line, column }) => `<li>${link(addressOf({ unit: node, answers: [] }), escape(`${kind}${name ? ` ${name}` : ''}`))} line ${line}, column ${column}</li>`);
    return pageOf(this.name, `<p>Which part of the rule?</p>\n<ul>\n${rows.join('\n')}\n</ul>`);
  }

  routePage(state) {
    const at = (part) => addressOf({ ...state, part });
    const page = this.shown(state, { doing: (key) => (p, step) => this.stepLinks(state, key, p, step), partAt: at });
    const asked = (p, k) => this.questionBox(state, k === 0 ? 'answers' : 'against', p);
    const body = page instanceof Pair ? `<p>Routes of ${escape(page.unitAndAnswers((text) => text))}; ${page.words()}.</p>` : `<p>Route of ${escape(page.unitWords())} with answers <code>${page.given()}</code>. ${page.says()}</p>\n${asked(page, 0)}`;
    const shown = page instanceof Pair ? page.shownSteps(asked) : page.shownSteps();
    return pageOf(this.name, `${body}\n${this.ways(state)}\n${this.engines(state)}${page.partLinks()}<main>${shown}</main>`, this.titleOf(state));
  }

  titleOf({ answers, against }) { return `${this.name}: ${answers.join(', ') || 'start'}${against ? ` beside ${against.join(', ')}` : ''}`; }

  // the next question in the rule's own words, with a link for each answer
  questionBox(state, key, page) {
    const question = page.question();
    if (!question) return '';
    const links = question.choices.map((c) => link(addressOf({ ...state, [key]: [...page.answers, c.answer], part: 0 }), escape(c.words), 'answer'));
    return `<div class="asks"><p>Line ${question.line} asks: ${code(question.text)}</p>\n<p>${links.join(' ')}</p></div>\n`;
  }

  // at a taken answer: back to where it was asked for, the other answers, and each of them beside this route
  stepLinks(state, key, page, step) {
    if (step.index === undefined) return '';
    const { index: k } = step;
    const to = (answers, more, words, name) => link(addressOf({ ...state, part: 0, mark: undefined, [key]: answers, ...more }), words, name);
    const mark = key === 'answers' && state.against === undefined && this.hasCalls() ? k : undefined;
    const out = [to(page.answers.slice(0, k), { mark }, 'back to here', 'back')];
    for (const c of others(page, step)) {
      const says = page.choices(step.node).length > 2 ? escape(c.words) : 'the other answer';
      out.push(to([...page.answers.slice(0, k), c.answer], {}, says, 'other'));
      if (this.hasCalls() && state.against === undefined) out.push(to(page.answers, { against: withAnswer(page.answers, k, c.answer) }, 'beside this', 'beside'));
    }
    return out.join(' · ');
  }

  // to the start, to one of two routes, to the other units, to the engines
  ways(state) {
    const { unit } = state;
    const out = [link(addressOf({ unit, answers: [], engines: state.engines }), 'from the start', 'start')];
    if (state.against) out.push(...['answers', 'against'].map((key) => link(addressOf({ unit, answers: state[key], engines: state.engines }), `${key === 'answers' ? 'the first' : 'the second'} alone`, 'alone')));
    if (this.units.length > 1) out.push(link('?', 'other units', 'units'));
    if (this.hasCalls() && !state.engines) out.push(link(addressOf({ ...state, engines: BOTH }), 'ask both engines', 'engines'));
    if (state.engines) out.push(link(addressOf({ ...state, engines: undefined }), 'ask one engine', 'engines'));
    return `<p class="ways">${out.join(' · ')}</p>`;
  }

  engines(state) {
    if (!state.engines) return '';
    const differing = this.differing(state);
    if (!differing) return '<p class="agree">both engines agree</p>\n';
    const parts = differing.map(({ name, why, page }) => `<section class="wrong"><h2>${name}</h2>\n${page ? page.table(page.steps(), page.ended()) : `<p>${escape(why)}</p>`}</section>`);
    return `<p class="wrong">the engines differ: trust neither</p>\n<main>${parts.join('\n')}</main>\n`;
  }
}

module.exports = { Asked, others, withAnswer };
