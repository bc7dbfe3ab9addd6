'use strict';
// A route that is stopped behind some answers and taken up there with further ones, as lines of text.

const { Page } = require('./page.js');

class Stopped {
  // the route so far, and each list of further answers with what follows
  constructor(tree, unit, answers, begun, lists) {
    const so = answers.slice(0, begun.taken);
    this.begun = new Page(tree, unit, answers, begun);
    this.lists = lists.map(({ answers: more, route }) => ({
      more, page: new Page(tree, unit, [...so, ...more], { ...route, list: [...begun.list, ...route.list], taken: begun.taken + route.taken }),
    }));
  }

  taken() { return Math.max(this.begun.taken(), ...this.lists.map(({ page }) => page.taken())); }

  plain() {
    const from = this.begun.route.list.length;
    const parts = this.lists.map(({ more, page }) => `then with answers ${more.join(', ') || 'none'}\n${page.plainSteps().slice(from).map((l) => `${l}\n`).join('')}it ${page.plainEnd()}\n`);
    return `${this.begun.plain()}${parts.join('')}`;
  }
}

module.exports = { Stopped };
