'use strict';
// A rule's routes asked for one answer after the other at a terminal.

const readline = require('readline');
const { shown } = require('./place.js');
const { Refused, answersOfCall } = require('./routes.js');
const { others, withAnswer } = require('./asked.js');
const { unitOf, unitText } = require('./units.js');
const { write } = require('./output.js');

const HELP = `y, n or a number answers
back [STEP]             back to where the last answer, or that of a step, was asked for
other STEP [ANSWER]     the other answer at a step
beside STEP [ANSWER]    the route with the other answer there beside this one
both                    asks both engines
units, unit UNIT        lists the units, takes one
quit
`;

const red = (text) => (process.stdout.isTTY && !process.env.NO_COLOR ? `\x1b[31m${text}\x1b[0m` : text);

class Talk {
  constructor(asked, state) { Object.assign(this, { asked, state, before: [] }); }

  page() { return this.asked.shown(this.state); }

  // The steps that were not shown before, and the question or the end.
  show() {
    const page = this.page();
    const lines = page.steps().map((s) => { const { line, text } = page.shown(s); return `${s.number}  line ${line}  ${text}  ${page.words(s) || page.note(s)}`.trimEnd(); });
    const known = lines.findIndex((l, k) => l !== this.before[k]);
    const from = known < 0 ? lines.length : known;
    if (from < this.before.length && from > 0) write(`back behind step ${from}\n`);
    this.before = lines;
    const question = page.question();
    const end = question ? `line ${question.line} asks: ${shown(question.text.replace(/\s+/g, ' '))}\n  ${question.choices.map((c) => `${c.answer} ${c.words}`).join(', ')}` : `it ${page.plainEnd()}`;
    write(`${lines.slice(from).map((l) => `${l}\n`).join('')}${end}\n`);
  }

  go(change) { this.state = { ...this.state, mark: undefined, ...change }; this.show(); }

  // a step with an answer: the one of this number, or the last one
  stepAt(page, text) {
    const taken = page.steps().filter((s) => s.index !== undefined);
    const step = text === undefined ? taken[taken.length - 1] : taken.find((s) => String(s.number) === text);
    if (!step) throw new Refused(text === undefined ? 'no answer is taken yet' : `step ${text} takes no answer`);
    return step;
  }

  // what is answered there in place of what was: the one other answer, or the one that is named
  otherAt(page, step, text) {
    const choices = others(page, step);
    if (text !== undefined) return answersOfCall(text)[0];
    if (choices.length === 1) return choices[0].answer;
    throw new Refused(choices.length === 0 ? 'there is no other answer' : `name one of them: ${choices.map((c) => `${c.answer} ${c.words}`).join(', ')}`);
  }

  needsCalls() { if (!this.asked.hasCalls()) throw new Refused('rulecalls is not there, which this takes'); }

  back(step) {
    const { index } = this.stepAt(this.page(), step);
    this.go({ answers: this.state.answers.slice(0, index), mark: this.asked.hasCalls() ? index : undefined });
  }

  other(text, answer) {
    const page = this.page();
    const step = this.stepAt(page, text);
    this.go({ answers: [...page.answers.slice(0, step.index), this.otherAt(page, step, answer)] });
  }

  beside(text, answer) {
    this.needsCalls();
    const page = this.page();
    const step = this.stepAt(page, text);
    const against = withAnswer(page.answers, step.index, this.otherAt(page, step, answer));
    write(this.asked.shown({ ...this.state, against }).plain());
  }

  both() {
    this.needsCalls();
    const differing = this.asked.differing(this.state);
    const parts = (differing || []).map(({ name, why, page }) => red(`${name}:\n${page ? page.plain() : why}`));
    write(differing ? `${red('the engines differ: trust neither')}\n${parts.join('\n')}\n` : 'both engines agree\n');
  }

  units() { write(this.asked.units.map((u) => `${unitText(u)}\n`).join('')); }
  unit(name) {
    this.before = [];
    this.go({ unit: unitOf({ unit: name }, this.asked.units), answers: [] });
  }

  answer(text) {
    if (!this.page().question()) throw new Refused('nothing is asked any more; `help` lists what can be done');
    const more = answersOfCall(text);
    this.state.answers = [...this.state.answers, ...more];
    this.show();
  }

  take(line) {
    const [word = '', ...more] = line.trim().split(/\s+/);
    if (word === '') return;
    if (word === 'help') write(HELP);
    else if (['back', 'other', 'beside', 'both', 'units', 'unit'].includes(word)) this[word](...more);
    else this.answer(line);
  }
}

// Until the input ends, or says so; what can't be done is told, and asked for again.
async function talk(asked, state) {
  const lines = readline.createInterface({ input: process.stdin });
  const one = new Talk(asked, state);
  const prompt = () => { if (process.stdin.isTTY) write('> '); };
  one.show();
  prompt();
  for await (const line of lines) {
    if (line.trim() === 'quit') break;
    try { one.take(line); } catch (e) {
      if (!(e instanceof Refused)) throw e;
      write(`${shown(e.message)}\n`);
    }
    prompt();
  }
  lines.close();
}

module.exports = { talk };
