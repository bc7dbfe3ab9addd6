'use strict';
// The routes of a rule's units as the proved programs give them, or the words of their refusal.

const { unitLinesOf, routeLinesOf, markLinesOf, answersIn } = require('./lines.js');
const { answersOf, codesOf, enginesOf, programOf, routeOf, routesOf, sharedOf } = require('./batch.js');
const { REFUSALS } = require('./sentences.js');
const { setUp } = require('./setup.js');

class Refused extends Error {}

const FELL_SHORT = 3;
const STOPPED = 4;
const ROUTE_TOO_LONG = 'R,12,0';
// of the refusals, those whose place is a node
const AT_NODE = ['9', '15'];
const MARK = 0;

class Routes {
  // the rule: its tree, its lines, and whether it is too large for ruleroute; how: the programs, where they are named
  constructor(rule, how) { Object.assign(this, { rule, how, tree: rule.tree }); }

  caller() { return programOf(this.how.caller, 'rulecalls'); }

  // what a program gave, or the words of its refusal
  given(answer, program) {
    if (!answer.refused) return answer;
    const [letter, number, place] = answer.refused.split(',');
    if (letter !== 'R') throw new Refused(`${program} gave no route: ${answer.refused}`);
    const at = AT_NODE.includes(number) ? `line ${this.rule.places.at(this.tree.nodes[place].start).line}` : `place ${place}`;
    throw new Refused(`no route: ${REFUSALS[number] || `refusal ${number}`} (${at})`);
  }

  linesOf(program, input, argument) { return answersOf(program, [input], argument, this.how.seconds)[0]; }

  // each engine with the lines that it gives
  byEngines(which, unit, answers) {
    const engines = enginesOf(which, this.how, this.rule.large);
    return engines.map(({ name, program, argument }) => ({ name, program, lines: this.linesOf(program, routeLinesOf(this.tree, unit, answers), argument) }));
  }

  // the route by an engine, or by several, whose lines must be the same
  by(which, unit, answers) {
    const given = this.byEngines(which, unit, answers);
    // the room that one of them has for the route is no difference of theirs, nor that one came to no end
    const short = given.find(({ lines }) => lines.join() === ROUTE_TOO_LONG || failed(lines));
    if (!short && differ(given)) throw new Refused(`the engines differ: ${given.map(({ name, lines }) => `${name} gives ${lines.join(' ')}`).join('; ')}`);
    const { lines, program } = short || given[0];
    return this.given(routeOf(lines), program);
  }

  // Where the answers are spent, the statement that asks next: the first that one more answer lists.
  withQuestion(which, unit, answers) {
    const route = this.by(which, unit, answers);
    if (route.end !== FELL_SHORT || !canTake(answers)) return route;
    return { ...route, asks: this.by(which, unit, [...answers, 0]).list[route.list.length] };
  }

  // how many entries of two routes are the same from their start on
  shared(unit, first, second) {
    const lines = this.linesOf(this.caller(), routeLinesOf(this.tree, unit, first, second), 'shared');
    return this.given(sharedOf(lines), this.caller()).shared;
  }

  // Stopped under a mark behind some answers, and taken up there with each list of further ones; a second time with one more, which tells the next question.
  stopped(unit, answers, stop, lists) {
    const calls = [['T', MARK, stop, ...answers], ...lists.flatMap((more) => [['C', MARK, ...more], ['C', MARK, ...more, 0]])];
    const lines = this.linesOf(this.caller(), markLinesOf(this.tree, unit, calls), 'marks');
    const [begun, ...routes] = routesOf(lines);
    this.given(begun, this.caller());
    if (begun.end !== STOPPED) throw new Refused(`the route ends before ${stop} answers are taken: there is nothing to stop`);
    const taken = lists.map((more, k) => {
      const [route, longer] = [this.given(routes[2 * k], this.caller()), routes[2 * k + 1]];
      return { answers: more, route: route.end === FELL_SHORT ? { ...route, asks: longer.list[route.list.length] } : route };
    });
    return { begun, taken };
  }

  // The route of all answers, stopped under a mark behind some of them and taken up there.
  takenUp(unit, answers, stop) {
    const { begun, taken: [{ route }] } = this.stopped(unit, answers.slice(0, stop), stop, [answers.slice(stop)]);
    return { ...route, asks: canTake(answers) ? route.asks : undefined, list: [...begun.list, ...route.list], taken: begun.taken + route.taken };
  }

  // null where both engines give the same, else what each gives: its route, or why there is none
  bothGive(unit, answers) {
    const given = this.byEngines('both', unit, answers);
    if (!differ(given)) return null;
    return given.map(({ name, lines }) => { const got = routeOf(lines); return got.refused ? { name, why: got.refused } : { name, route: got }; });
  }

  // whether rulecalls is there
  hasCalls() {
    if (this.called === undefined) this.called = Boolean(this.how.caller) || setUp('cargo', 'rulecalls');
    return this.called;
  }

  // a unit's code, and the shorter one
  codes(unit) {
    const lines = this.linesOf(this.caller(), unitLinesOf(this.tree, unit), 'codes');
    return this.given(codesOf(lines), this.caller());
  }
}

const failed = (lines) => lines.length > 0 && lines[lines.length - 1].startsWith('C,');
const differ = (given) => given.some(({ lines }) => lines.join() !== given[0].lines.join());

// whether one more answer can be given
const canTake = (answers) => answersIn([...answers, 0].join()) !== null;

const SAID = { y: '1', yes: '1', n: '0', no: '0' };

// "y n 3", "1,0,0"
function answersOfCall(text) {
  const words = text.trim() === '' ? [] : text.trim().split(/[\s,]+/).map((w) => SAID[w.toLowerCase()] || w);
  const answers = answersIn(words.join(','));
  if (!answers) throw new Refused('answers are y, n or numbers up to 4294967295, with commas or blanks, at most 1024 of them in 2100 bytes');
  return answers;
}

module.exports = { Refused, Routes, answersOfCall };
