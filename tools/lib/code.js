'use strict';
// The code of a unit, before and after it is made shorter, as lines of text: an instruction a line (docs/CODE.md), with the statement that it lists.

const { Page } = require('./page.js');

// the name of each, and what its operands are: n a node, p a place, d a depth, e an end
const INSTRUCTIONS = { 1: ['LIST', 'n'], 2: ['LEAVE', 'pd'], 3: ['ASK', 'npp'], 4: ['SELECT', 'npp'], 5: ['OPEN', 'p'], 6: ['END', 'e'], 7: ['CASE', 'ppd'] };
const ENDS = ['fell through', 'returned', 'threw'];

// the instructions of a list of numbers, each with its place
function instructionsOf(code) {
  const out = [];
  for (let place = 0; place < code.length; place += out[out.length - 1].numbers.length) {
    const [, operands] = INSTRUCTIONS[code[place]];
    out.push({ place, numbers: code.slice(place, place + 1 + operands.length) });
  }
  return out;
}

class Code {
  constructor(tree, unit, { made, shorter, freed }) {
    Object.assign(this, { page: new Page(tree, unit, [], { list: [], end: 0, taken: 0 }), made, shorter, freed });
  }

  // the statement that is listed, or the end in words
  words([opcode, ...operands]) {
    if (opcode === 6) return ENDS[operands[0]] || 'no end';
    if (!INSTRUCTIONS[opcode][1].startsWith('n')) return '';
    const { line, text } = this.page.shown({ node: operands[0] });
    return `line ${line}  ${text}`;
  }

  list(code) {
    const rows = instructionsOf(code).map(({ place, numbers }) => [String(place), INSTRUCTIONS[numbers[0]][0], numbers.slice(1).join(' '), this.words(numbers)]);
    const wide = (k) => Math.max(...rows.map((r) => r[k].length));
    const [a, b, c] = [wide(0), wide(1), wide(2)];
    return rows.map(([place, name, operands, words]) => `${place.padStart(a)}  ${name.padEnd(b)}  ${operands.padEnd(c)}  ${words}`.trimEnd()).join('\n');
  }

  plain() {
    const { made, shorter, freed } = this;
    return `code of ${this.page.unitWords()}, ${made.length} numbers\n${this.list(made)}\nthe shorter code, ${shorter.length} numbers; ${freed} are freed\n${this.list(shorter)}\n`;
  }
}

module.exports = { Code };
