'use strict';
// A unit's statements written anew so that an engine that really runs them lists each one and takes an answer at each
// if, switch and turn of a loop. Expressions and declarations are left out: they do nothing in a route. Of a class that
// is declared its static blocks stay, in a class, so that the engine runs them as it comes to the declaration.

// The names given to the written text: L lists, A lists and takes an answer, I and O give as many turns as answers
// say, B begins a turn of a for-in, R and T mark a return and a throw, X stands for answers spent.
class Writer {
  constructor(text, made) {
    this.text = text;
    this.made = made;
  }

  at(n) { return this.made.get(n); }
  label(n) { return this.text.slice(n.label.start, n.label.end); }
  all(list) { return list.map((s) => this.statement(s)).join(' '); }

  statement(n) {
    const i = this.at(n);
    switch (n.type) {
      case 'BlockStatement': return `{ ${this.all(n.body)} }`;
      case 'LabeledStatement': return `${this.label(n)}: ${this.statement(n.body)}`;
      case 'IfStatement':
        return `if (A(${i})) ${this.statement(n.consequent)}${n.alternate ? ` else ${this.statement(n.alternate)}` : ''}`;
      case 'WhileStatement': return `while (A(${i})) ${this.statement(n.body)}`;
      case 'DoWhileStatement': return `do ${this.statement(n.body)} while (A(${i}));`;
      case 'ForStatement': return `for (; ${n.test ? `A(${i})` : `(A(${i}), true)`};) ${this.statement(n.body)}`;
      case 'ForOfStatement': return `for (var $t of I(${i})) ${this.statement(n.body)}`;
      case 'ForInStatement': return `for (var $k in O(${i})) ${this.statement(n.body)}`;
      case 'WithStatement': return `{ L(${i}); with ({}) ${this.statement(n.body)} }`;
      case 'SwitchStatement':
        return `switch (A(${i})) { ${n.cases.map((c, k) => `${c.test ? `case ${k}` : 'default'}: ${this.all(c.consequent)}`).join(' ')} }`;
      case 'TryStatement': return this.tried(n);
      case 'ClassDeclaration': return `{ L(${i}); ${this.class(n)} }`;
      case 'ExportNamedDeclaration':
      case 'ExportDefaultDeclaration':
        return n.declaration && n.declaration.type === 'ClassDeclaration' ? `{ L(${i}); ${this.class(n.declaration)} }` : `L(${i});`;
      case 'BreakStatement': return `{ L(${i}); break${n.label ? ` ${this.label(n)}` : ''}; }`;
      case 'ContinueStatement': return `{ L(${i}); continue${n.label ? ` ${this.label(n)}` : ''}; }`;
      case 'ReturnStatement': return `{ L(${i}); return R; }`;
      case 'ThrowStatement': return `{ L(${i}); throw T; }`;
      default: return `L(${i});`;
    }
  }

  class(n) {
    const blocks = n.body.body.filter((e) => e.type === 'StaticBlock');
    return `class $c { ${blocks.map((b) => `static { ${this.all(b.body)} }`).join(' ')} }`;
  }

  // when answers are spent the run stops where it is: nothing is caught and no finally runs
  tried(n) {
    const caught = n.handler ? ` catch ($e) { if ($e === X) throw X; ${this.statement(n.handler.body)} }` : '';
    const last = n.finalizer ? ` finally { if (!X.spent) ${this.statement(n.finalizer)} }` : '';
    return `try ${this.statement(n.block)}${caught}${last}`;
  }

  // the unit's statements: of a program, a function's or arrow's body, a static block
  unit(n) {
    if (n.type === 'Program') return this.all(n.body);
    if (n.type === 'StaticBlock') return this.all(n.body);
    if (n.body.type === 'BlockStatement') return this.all(n.body.body);
    // an arrow's expression body is one statement
    return `L(${this.at(n.body) + 1});`;
  }
}

// Runs a written unit: the list, the end as document 01 numbers it, and how many answers were taken.
function run(written, answers) {
  const list = [];
  let taken = 0;
  const X = { spent: false };
  const R = {};
  const T = {};
  const L = (i) => { list.push(i); };
  const A = (i) => {
    if (taken === answers.length) { X.spent = true; throw X; }
    L(i);
    return answers[taken++];
  };
  // an iterator that asks at each turn
  const I = (i) => ({ [Symbol.iterator]: () => ({ next: () => ({ done: !A(i), value: 0 }), return: () => ({}) }) });
  // an object whose keys are asked for as the loop comes to them; after a no there are none left
  const O = (i) => {
    const keys = Array.from({ length: answers.length - taken + 1 }, (_, k) => `k${k}`);
    let over = false;
    return new Proxy({}, {
      ownKeys: () => keys,
      getPrototypeOf: () => null,
      getOwnPropertyDescriptor: () => {
        if (!over) over = !A(i);
        return over ? undefined : { value: 0, enumerable: true, configurable: true, writable: true };
      },
    });
  };
  const f = new Function('L', 'A', 'I', 'O', 'R', 'T', 'X', written);
  let end;
  try {
    end = f(L, A, I, O, R, T, X) === R ? 1 : 0;
  } catch (e) {
    if (e !== X && e !== T) throw e;
    end = e === X ? 3 : 2;
  }
  return { list, end, taken };
}

// every unit of a tree, with the parser's node
function unitsOf(tree) {
  const out = [];
  for (const [n, i] of tree.made) {
    if (n.type === 'Program' || n.type === 'StaticBlock' || n.type === 'ArrowFunctionExpression') out.push({ node: n, unit: i });
    // a function is known by its body, since a method's function has no node of the parser's
    else if (n.type === 'BlockStatement' && tree.nodes[i].kind === 1) out.push({ node: { type: 'Function', body: n }, unit: i });
  }
  return out.sort((a, b) => a.unit - b.unit);
}

module.exports = { Writer, run, unitsOf };
