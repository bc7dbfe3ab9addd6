'use strict';
// Two routes of one unit side by side, as one page or as lines of text; the beginning that they share is marked, and its rows stand once on a page.

const { Page, escape, pageOf, count } = require('./page.js');

class Pair {
  // each route with its answers, and what else its page is told
  constructor(tree, unit, [first, second], shared) {
    this.shared = shared;
    this.pages = [first, second].map(({ answers, route, ...more }, k) => new Page(tree, unit, answers, route, { ...more, prefix: 'ab'[k], shared }));
  }

  taken() { return Math.max(...this.pages.map((p) => p.taken())); }
  parts() { return Math.max(...this.pages.map((p) => p.parts())); }
  at(part, partAt) { return Object.assign(Object.create(Pair.prototype), this, { pages: this.pages.map((p) => p.at(part, partAt)) }); }

  words() {
    const { shared } = this;
    if (shared === 0) return 'they share no entry';
    if (this.pages.every((p) => p.route.list.length === shared)) return 'they share all entries';
    return `they share their first ${shared === 1 ? 'entry' : count(shared, 'entry', 'entries')}`;
  }

  unitAndAnswers(mark) {
    const [first, second] = this.pages;
    return `${first.unitWords()} with answers ${mark(first.given())} and with answers ${mark(second.given())}`;
  }

  // `=` stands before a step of both
  plain() {
    const [first, second] = this.pages.map((p) => [p.given(), ...p.plainSteps()]);
    const wide = Math.max(...first.map((line) => line.length));
    const rows = Array.from({ length: Math.max(first.length, second.length) }, (_, k) => {
      const mark = k > 0 && k <= this.shared ? '=' : ' ';
      return `${mark} ${(first[k] || '').padEnd(wide)} | ${mark} ${second[k] || ''}`.trimEnd();
    });
    const ends = ['first', 'second'].map((name, k) => `the ${name} ${this.pages[k].plainEnd()}\n`);
    return `routes of ${this.unitAndAnswers((text) => text)}\n${rows.map((r) => `${r}\n`).join('')}${this.words()}\n${ends.join('')}`;
  }

  // what both share, once, and behind it what each has of its own
  shownSteps(asked = () => '') {
    const [both, other] = this.pages;
    const [shared, others] = [both.steps().filter((s) => both.isShared(s)), other.steps()];
    // the statements are the same, the answers may not be
    const words = (s) => [...new Set([both.words(s), other.words(others[s.number - 1])])].join(' | ');
    const once = this.shared > 0 ? `<section class="both"><h2>both</h2>\n${both.table(shared, '', words)}</section>\n` : '';
    const sections = this.pages.map((p, k) => {
      const steps = p.steps();
      const own = p.table(steps.filter((s) => !p.isShared(s)), p.ended());
      return `<section class="own"><h2>with answers <code>${p.given()}</code></h2>\n<p>${p.says()}</p>\n${asked(p, k)}${p.textShown(steps)}\n${own}</section>`;
    });
    return once + sections.join('\n');
  }

  partLinks() { return this.pages[0].partLinks(this.parts()); }

  html(title) {
    return pageOf(title, `<p>Routes of ${this.unitAndAnswers((text) => `<code>${escape(text)}</code>`)}; ${this.words()}.</p>\n${this.partLinks()}<main>${this.shownSteps()}</main>`);
  }
}

module.exports = { Pair };
