'use strict';
// Rule texts from a seed. They keep to the grammar; a share of the choices is mischief, that is an early error on
// purpose: a jump without a target, a name that is reserved, a private name that nobody declares, ..

const { Random } = require('./random.js');

const RESERVED = ['eval', 'arguments', 'let', 'static', 'yield', 'await', 'implements', 'public', 'package'];

class Text {
  constructor(seed, module) {
    this.random = new Random(seed);
    this.module = module;
    this.mischief = this.random.pick([0, 0.02, 0.05, 0.12]);
    this.size = 4 + this.random.below(26);
    this.names = 0;
    this.labels = [];
    this.privates = [];
    this.deep = 0;
    // what holds here: in a function, async, generator, a method, a derived constructor, a static block, a field
    this.here = { strict: module, async: module, generator: false, func: false, loop: false, breakable: false, method: false, ctor: false };
  }

  one(list) { return this.random.pick(list); }
  bad() { return this.random.chance(this.mischief); }
  chance(p) { return this.random.chance(p); }

  // names that are reserved somewhere, most often those that are so here
  reserved() { return this.here.words && this.chance(0.6) ? this.one(this.here.words) : this.one(RESERVED); }

  fresh() {
    if (this.bad()) return this.reserved();
    this.names += 1;
    return `v${this.names}`;
  }

  within(changes, make) {
    const before = { here: this.here, labels: this.labels };
    this.here = { ...this.here, ...changes };
    if (changes.func || changes.cut) this.labels = [];
    this.deep += 1;
    const out = make();
    this.deep -= 1;
    this.here = before.here;
    this.labels = before.labels;
    return out;
  }

  deepEnough() {
    this.size -= 1;
    return this.size <= 0 || this.deep > 6;
  }

  program() {
    const strict = !this.module && this.chance(0.4);
    if (strict) this.here.strict = true;
    const out = strict ? ['"use strict";'] : [];
    const n = 1 + this.random.below(4);
    for (let i = 0; i < n; i++) out.push(this.item());
    return out.join('\n');
  }

  item() {
    if (this.module && this.chance(0.15)) {
      return this.one([
        () => `export default ${this.expression()};`,
        () => `export ${this.declaration()}`,
        () => `export default class ${this.classTail()}`,
        () => `export default function () { ${this.functionBody(true, {})} }`,
        () => `import ${this.fresh()} from "x";`,
        () => `import { a as ${this.fresh()} } from "x";`,
      ])();
    }
    return this.statement();
  }

  // ---- statements

  statement() {
    if (this.deepEnough()) return this.simple();
    return this.one([
      () => this.simple(), () => this.simple(), () => this.simple(),
      () => this.declaration(), () => this.declaration(),
      () => this.block(), () => this.ifs(), () => this.loop(), () => this.loop(), () => this.switches(),
      () => this.tries(), () => this.labeled(), () => this.labeled(), () => this.jump(), () => this.jump(),
      () => this.functionDeclaration(), () => this.classDeclaration(), () => this.classDeclaration(),
      () => (this.here.strict && !this.bad() ? this.simple() : `with (${this.expression()}) ${this.held()}`),
    ])();
  }

  simple() {
    return this.one([
      () => `${this.statementExpression()};`, () => `${this.statementExpression()};`, () => ';',
      () => (this.here.func ? `return ${this.expression()};` : `${this.statementExpression()};`),
      () => `throw ${this.expression()};`,
    ])();
  }

  // not one that begins like a declaration
  statementExpression() { return `(${this.expression()})`; }

  declaration() {
    return this.one([
      () => `var ${this.pattern()} = ${this.expression()};`,
      () => `let ${this.bad() ? 'let' : this.pattern()} = ${this.expression()};`,
      () => `const ${this.pattern()} = ${this.expression()};`,
      () => `var ${this.fresh()};`,
    ])();
  }

  list() {
    const n = this.random.below(3);
    const out = [];
    for (let i = 0; i < n; i++) out.push(this.statement());
    return out.join(' ');
  }

  block() { return `{ ${this.within({}, () => this.list())} }`; }

  // what stands after an if, a loop or a with: no declaration but, by mischief, a function
  held() {
    if (this.bad()) return this.functionDeclaration();
    return this.within({}, () => this.one([() => this.block(), () => this.simple(), () => this.jump(), () => (this.deepEnough() ? ';' : this.loop())])());
  }

  ifs() {
    const held = () => (this.here.strict || !this.chance(0.1) ? this.held() : `function ${this.fresh()}() {}`);
    const test = this.expression();
    const first = held();
    if (!this.chance(0.4)) return `if (${test}) ${first}`;
    // an if within would take the else
    const closed = /\bif\b/.test(first) && !first.startsWith('{') ? `{ ${first} }` : first;
    return `if (${test}) ${closed} else ${held()}`;
  }

  loop() {
    const body = () => this.within({ loop: true, breakable: true }, () => this.held());
    return this.one([
      () => `while (${this.expression()}) ${body()}`,
      () => `do ${body()} while (${this.expression()});`,
      () => `for (${this.one(['', () => `var ${this.fresh()} = 1`, () => `let ${this.fresh()} = 1`].map((x) => (typeof x === 'string' ? x : x())))}; ${this.chance(0.5) ? this.expression() : ''};) ${body()}`,
      () => `for (${this.head(true)} in ${this.expression()}) ${body()}`,
      () => `for (${this.head(false)} of ${this.primary()}) ${body()}`,
      () => (this.here.async || this.bad() ? `for await (${this.head(false)} of ${this.primary()}) ${body()}` : `for (;;) ${body()}`),
    ])();
  }

  head(isIn) {
    const value = this.bad() || (isIn && !this.here.strict && this.chance(0.05)) ? ' = 1' : '';
    return this.one([
      () => `var ${this.chance(0.2) ? this.pattern() : this.fresh()}${value}`,
      () => `let ${this.pattern()}`, () => `const ${this.pattern()}`, () => this.target(),
    ])();
  }

  switches() {
    const cases = [];
    const n = this.random.below(4);
    const fallback = this.chance(0.5) ? this.random.below(n + 1) : -1;
    this.within({ breakable: true }, () => {
      for (let i = 0; i < n; i++) cases.push(i === fallback ? `default: ${this.list()}` : `case ${this.expression()}: ${this.list()}`);
    });
    return `switch (${this.expression()}) { ${cases.join(' ')} }`;
  }

  tries() {
    const caught = this.chance(0.7);
    const parameter = this.chance(0.7) ? `(${this.pattern()}) ` : '';
    return `try ${this.block()}${caught ? ` catch ${parameter}${this.block()}` : ''}${!caught || this.chance(0.3) ? ` finally ${this.block()}` : ''}`;
  }

  // with `held` a loop, or labels around one
  labeled(held = false) {
    let name = this.one(['p', 'q', 'r', '\\u0070', 'pé']);
    if (this.labels.length > 0 && this.bad()) return `${this.one(this.labels).name}: ;`;
    const taken = () => this.labels.some((l) => l.name === name.replace('\\u0070', 'p'));
    if (taken() && !this.bad()) name = `l${(this.names += 1)}`;
    if (this.bad()) name = this.reserved();
    const loop = held || this.chance(0.6);
    const labels = this.labels;
    this.labels = [...labels, { name: name.replace('\\u0070', 'p'), loop }];
    let body;
    if (loop) body = this.chance(0.1) ? this.chained() : this.loop();
    else body = this.flat();
    this.labels = labels;
    return `${name}: ${body}`;
  }

  chained() { return `l${(this.names += 1)}: ${this.loop()}`; }
  flat() { return this.one([() => this.block(), () => this.switches(), () => this.simple(), () => (this.bad() ? this.functionDeclaration() : ';')])(); }

  jump() {
    const loops = this.labels.filter((l) => l.loop);
    if (this.bad()) {
      const word = this.one(['break', 'continue']);
      const flat = this.labels.filter((l) => !l.loop);
      if (flat.length > 0 && this.chance(0.5)) return `continue ${this.one(flat).name};`;
      return this.chance(0.5) ? `${word};` : `${word} ${this.one(['p', 'q', 'r', 'zz'])};`;
    }
    if (this.labels.length > 0 && this.chance(0.4)) return `break ${this.one(this.labels).name};`;
    if (loops.length > 0 && this.chance(0.6)) return `continue ${this.one(loops).name};`;
    if (this.here.loop && this.chance(0.5)) return 'continue;';
    if (this.here.breakable) return 'break;';
    return this.simple();
  }

  // ---- functions

  parameters() {
    const n = this.random.below(3);
    const out = [];
    for (let i = 0; i < n; i++) out.push(this.chance(0.7) ? this.fresh() : `${this.pattern()}${this.chance(0.5) ? ` = ${this.expression()}` : ''}`);
    if (this.chance(0.1)) out.push(`...${this.pattern()}`);
    return { text: out.join(', '), simple: out.every((p) => /^[a-z0-9]+$/.test(p)) };
  }

  // parameters and body, in the function's own state; a directive only where the parameters are simple
  func(state, arrow = '') {
    const strict = this.chance(0.12);
    const changes = { func: true, loop: false, breakable: false, method: false, ctor: false, words: arrow ? this.here.words : null, ...state };
    return this.within(strict ? { ...changes, strict: true } : changes, () => {
      const p = this.parameters();
      const directive = strict && (p.simple || this.bad()) ? '"use strict"; ' : '';
      return `(${p.text}) ${arrow}{ ${directive}${this.functionBody(false)} }`;
    });
  }

  functionBody(enter, state) {
    if (enter) return this.within({ func: true, loop: false, breakable: false, method: false, ctor: false, async: false, generator: false, words: null, ...state }, () => this.list());
    return this.list();
  }

  functionDeclaration() {
    return this.one([
      () => `function ${this.fresh()}${this.func({ async: false, generator: false })}`,
      () => `function ${this.fresh()}${this.func({ async: false, generator: false })}`,
      () => (this.deep > 0 ? `function ${this.fresh()}() {}` : `function* ${this.fresh()}${this.func({ async: false, generator: true })}`),
      () => (this.deep > 0 ? `function ${this.fresh()}() {}` : `async function ${this.fresh()}${this.func({ async: true, generator: false })}`),
    ])();
  }

  arrow() {
    const state = { func: true, loop: false, breakable: false, method: this.here.method, ctor: this.here.ctor };
    return this.one([
      () => `((${this.within({ ...state, cut: true }, () => this.parameters()).text}) => ${this.within({ ...state, async: false, generator: false }, () => this.primary())})`,
      () => `(${this.func({ ...state, async: false, generator: false }, '=> ')})`,
      () => `(async ${this.func({ ...state, async: true, generator: false }, '=> ')})`,
    ])();
  }

  // ---- classes

  classDeclaration() { return `class ${this.fresh()} ${this.classTail()}`; }

  classTail() {
    const strict = { strict: true };
    const heritage = this.chance(0.35) ? this.within(strict, () => `extends ${this.primary()} `) : '';
    const outer = this.privates;
    const own = ['x', 'y', 'z'].filter(() => this.chance(0.3));
    this.privates = [...outer, ...own];
    const elements = [];
    this.within({ ...strict }, () => {
      if (this.chance(0.4)) elements.push(this.constructorText(heritage !== ''));
      if (this.bad()) elements.push(this.constructorText(heritage !== ''));
      for (const name of own) elements.push(...this.privateElement(name));
      if (this.bad()) elements.push(...this.privateElement('x'));
      const n = this.random.below(3);
      for (let i = 0; i < n; i++) elements.push(this.element());
    });
    this.privates = outer;
    return `${heritage}{ ${elements.join(' ')} }`;
  }

  constructorText(derived) {
    return `constructor${this.func({ async: false, generator: false, method: true, ctor: derived || this.bad() })}`;
  }

  method(head) { return `${head}${this.func({ async: false, generator: false, method: true })}`; }

  privateElement(name) {
    const still = this.chance(0.3) ? 'static ' : '';
    const otherStill = this.bad() ? 'static ' : still;
    return this.one([
      () => [`${still}#${name} = ${this.field()};`],
      () => [`${still}#${name};`],
      () => [this.method(`${still}#${name}`)],
      () => [`${still}get #${name}() { ${this.accessorBody()} }`, `${otherStill}set #${name}(w) { ${this.accessorBody()} }`],
      () => [`${still}get #${name}() { ${this.accessorBody()} }`],
    ])();
  }

  accessorBody() { return this.functionBody(true, { method: true }); }

  field() {
    return this.within({ cut: true, func: false, loop: false, breakable: false, method: true, ctor: false, async: false, generator: false, words: ['arguments'] }, () => this.expression());
  }

  staticBlock() {
    const state = { cut: true, func: false, loop: false, breakable: false, method: true, ctor: false, async: false, generator: false };
    return `static { ${this.within({ ...state, words: ['await', 'arguments'] }, () => this.list())} }`;
  }

  element() {
    const key = this.one(['a', 'b', '"c"', '1', 'static', 'get', () => `[${this.primary()}]`]);
    const name = typeof key === 'string' ? key : key();
    const still = this.chance(0.3) ? 'static ' : '';
    return this.one([
      () => this.method(`${still}${name}`), () => this.method(`${still}${name}`),
      () => `${still}async ${name}${this.func({ async: true, generator: false, method: true })}`,
      () => `${still}*${name}${this.func({ async: false, generator: true, method: true })}`,
      () => `${still}get ${name}() { ${this.accessorBody()} }`,
      () => `${still}${name} = ${this.field()};`, () => `${still}${name} = ${this.field()};`,
      () => this.staticBlock(), () => this.staticBlock(),
    ])();
  }

  // ---- patterns and targets

  pattern() {
    if (this.chance(0.75) || this.deepEnough()) return this.fresh();
    return this.one([
      () => `[${this.pattern()}]`, () => `[${this.fresh()} = ${this.primary()}, ...${this.fresh()}]`,
      () => `{ a: ${this.pattern()} }`, () => `{ ${this.fresh()} }`, () => `{ [${this.primary()}]: ${this.fresh()}, ...${this.fresh()} }`,
    ])();
  }

  reference() { return this.bad() ? this.reserved() : this.one(['a', 'b', 'c', 'd', 'v1', 'v2']); }

  target() {
    if (this.chance(0.6)) return this.reference();
    return this.one([() => `(${this.primary()}).a`, () => `(${this.reference()})`, () => `[${this.reference()}]`, () => `(${this.primary()})[${this.primary()}]`]
      .concat(this.privates.length > 0 ? [() => `a.#${this.one(this.privates)}`] : []))();
  }

  // ---- expressions

  expression() {
    if (this.deepEnough()) return this.primary();
    return this.one([
      () => this.primary(), () => this.primary(), () => this.primary(),
      () => `${this.reference()} ${this.one(['=', '+=', '&&=', '**='])} ${this.primary()}`,
      () => `[${this.reference()}, a = ${this.reference()}] = ${this.primary()}`,
      () => `{ a: ${this.reference()}, ${this.reference()} }`.replace(/^(.*)$/, '($1 = a)'),
      () => `${this.primary()} + ${this.primary()}`,
      () => `typeof ${this.primary()}`,
      () => `${this.one(['++', '--'])}${this.target0()}`, () => `${this.target0()}${this.one(['++', '--'])}`,
      () => this.deletes(),
      () => `${this.primary()} ? ${this.primary()} : ${this.primary()}`,
      () => `(${this.primary()}, ${this.primary()})`,
      () => this.hidden(), () => this.hidden(), () => this.supers(), () => this.supers(), () => this.awaits(), () => this.yields(),
    ])();
  }

  target0() { return this.chance(0.7) ? this.reference() : `(${this.primary()}).a`; }

  deletes() {
    if (this.bad()) return `delete ${this.one(['a', '(a)', '((b))', 'this.#x', '(a.#x)', 'a?.#x', 'a?.b.#x', '(a?.#x)'])}`;
    return `delete (${this.primary()}).a`;
  }

  hidden() {
    const name = this.bad() ? this.one(['x', 'y', 'w']) : this.privates.length > 0 ? this.one(this.privates) : null;
    if (name === null) return this.primary();
    return this.one([`this.#${name}`, `a.#${name}()`, `a?.#${name}`, `(#${name} in b)`, `a.b?.c.#${name}`, `this.#${name} = 1`]);
  }

  supers() {
    if (this.here.ctor && this.chance(0.5)) return 'super()';
    if (this.here.method) return this.one(['super.a', 'super[b]', 'super.a()']);
    return this.bad() ? this.one(['super.a', 'super()', 'super.a()']) : this.primary();
  }

  awaits() { return this.here.async ? `await ${this.primary()}` : this.primary(); }
  yields() { return this.here.generator ? this.one(['(yield)', `(yield ${this.primary()})`, `(yield* ${this.primary()})`]) : this.primary(); }

  primary() {
    if (this.deepEnough()) return this.one(['a', 'b', '1', 'this', 'null']);
    return this.one([
      () => this.reference(), () => this.reference(), () => this.reference(), () => this.number(), () => this.string(), () => 'this',
      () => `(${this.expression()})`, () => this.object(), () => `[${this.expression()}, , ...a]`,
      () => '`a${' + this.primary() + '}`', () => this.arrow(), () => this.arrow(),
      () => `(function ${this.chance(0.3) ? this.fresh() : ''}${this.func({ async: false, generator: false })})`,
      () => `(function* ${this.func({ async: false, generator: true })})`,
      () => `(async function ${this.func({ async: true, generator: false })})`,
      () => `(class ${this.chance(0.3) ? `${this.fresh()} ` : ''}${this.classTail()})`, () => `(class ${this.classTail()})`,
      () => `a?.b(${this.primary()})`, () => `f(${this.expression()}, ...a)`, () => `new a(${this.primary()})`, () => `a.${this.one(['b', 'eval', 'yield'])}`,
    ])();
  }

  number() {
    if (this.here.strict) return this.bad() ? this.one(['07', '08', '08.5', '00', '09e1']) : this.one(['0', '7', '0.5', '0x7', '0o7', '0b1', '1e3', '8n']);
    return this.one(['0', '07', '08', '0.5', '0o7', '1_0']);
  }

  string() {
    const fine = ["'a'", "'\\0'", "'\\x41\\u0041'", "'\\\\1'", "'é\\n'", "'\\\n1'", "''", "'aaaaaaaaaaaaaaaaaa\\0a'"];
    const octal = ["'\\1'", "'\\08'", "'\\8'", "'\\00'", "'aaaaaaaaaaaaaaaaaa\\7'", "'\\\\\\9'", "'aaaaaaaaaaaaaaaa\\\\\\\\\\0\\01'"];
    return this.one(!this.here.strict || this.bad() ? [...fine, ...octal] : fine);
  }

  object() {
    const value = () => this.one([
      () => `a: ${this.expression()}`, () => this.reference(), () => `[${this.primary()}]: ${this.expression()}`,
      () => `b${this.func({ async: false, generator: false, method: true })}`,
      () => `get c() { ${this.accessorBody()} }`, () => `set c(w) { ${this.accessorBody()} }`,
      () => `async d${this.func({ async: true, generator: false, method: true })}`,
      () => '__proto__: a', () => (this.bad() ? '"__proto__": b, __proto__: c' : '__proto__() {}'),
      () => '["__proto__"]: a', () => '[__proto__]: a', () => '...a', () => 'eval: 1',
    ])();
    const out = [];
    const n = this.random.below(3);
    for (let i = 0; i < n; i++) {
      const p = value();
      // twice only by mischief
      if (p === '__proto__: a' && out.includes(p) && !this.bad()) continue;
      out.push(p);
    }
    return `({ ${out.join(', ')} })`;
  }
}

// Texts without mischief and almost without expressions: many statements, for routes.
class RouteText extends Text {
  constructor(seed, module, tries) {
    super(seed, module);
    this.mischief = 0;
    this.size = 10 + this.random.below(50);
    this.withTry = tries;
  }

  expression() { return 'a'; }
  primary() { return 'a'; }
  pattern() { return this.fresh(); }

  // in each part often a way out at its end
  tries() {
    if (!this.withTry) return this.switches();
    const part = () => `{ ${this.within({ tried: true }, () => `${this.list()} ${this.chance(0.4) ? this.leave() : ''}`)} }`;
    const caught = this.chance(0.6);
    const last = !caught || this.chance(0.5);
    return `try ${part()}${caught ? ` catch ${this.chance(0.5) ? `(${this.fresh()}) ` : ''}${part()}` : ''}${last ? ` finally ${part()}` : ''}`;
  }

  leave() { return this.one([() => this.jump(), () => 'throw a;', () => (this.here.func ? 'return a;' : 'throw a;')])(); }

  // static blocks, among methods, which are units of their own
  staticClass() {
    const n = 1 + this.random.below(3);
    return `{ ${this.within({ strict: true }, () => Array.from({ length: n }, () => (this.chance(0.2) ? this.method('m') : this.staticBlock())).join(' '))} }`;
  }

  item() {
    if (!this.module || !this.chance(0.25)) return super.item();
    return this.one([() => `export class ${this.fresh()} ${this.staticClass()}`, () => `export default class ${this.staticClass()}`])();
  }

  last() { return this.chance(0.4) ? this.jump() : this.simple(); }

  chained() { return this.labeled(true); }
  flat() {
    return this.one([() => this.block(), () => this.switches(), () => this.simple(), () => this.ifs(), () => this.ifs(), () => (this.here.strict ? this.ifs() : `with (a) ${this.held()}`)])();
  }

  list() {
    const n = this.random.below(5);
    const out = [];
    for (let i = 0; i < n; i++) out.push(this.statement());
    return out.join(' ');
  }

  held() {
    if (this.deepEnough()) return this.last();
    return this.within({}, () => this.one([() => this.block(), () => this.block(), () => this.block(), () => this.jump(), () => this.labeled(), () => this.ifs(), () => this.loop(), () => this.switches()])());
  }

  statement() {
    if (this.deepEnough()) return this.last();
    return this.one([
      () => this.simple(), () => this.declaration(), () => this.block(), () => this.ifs(), () => this.ifs(), () => this.loop(), () => this.loop(),
      () => this.switches(), () => this.tries(), () => this.labeled(), () => this.labeled(), () => this.jump(), () => this.jump(), () => this.jump(),
      () => (this.chance(0.4) ? this.functionDeclaration() : this.ifs()), () => (this.chance(0.3) ? `f(${this.arrow()});` : this.loop()),
      () => (this.chance(0.6) ? `class ${this.fresh()} ${this.staticClass()}` : this.switches()),
      () => (this.here.strict ? this.simple() : `with (a) ${this.held()}`),
      () => this.tries(), () => (this.here.tried ? this.tries() : this.ifs()),
    ])();
  }

  simple() {
    const throws = this.here.tried ? 0.5 : 0.2;
    return this.one([() => 'a;', () => 'a;', () => ';', () => 'debugger;', () => (this.here.func && this.chance(0.3) ? 'return a;' : 'a;'), () => (this.chance(throws) ? 'throw a;' : 'a;')])();
  }
}

const mix = (seed, n) => (Math.imul(seed, 0x9e3779b1) ^ Math.imul(n + 1, 0x85ebca6b)) >>> 0;

// The n-th text of a seed. Every third is a module.
function textOf(seed, n) {
  const module = n % 3 === 2;
  return { module, text: new Text(mix(seed, n), module).program() };
}

// The n-th text for routes, with lists of answers for its units.
function routeTextOf(seed, n, tries) {
  const module = n % 5 === 4;
  const text = new RouteText(mix(seed, n), module, tries).program();
  const random = new Random(mix(seed + 1, n));
  const answers = () => Array.from({ length: random.below(14) }, () => random.pick([0, 0, 1, 1, 1, 2, 3, 5, 4294967295]));
  return { module, text, answers };
}

module.exports = { textOf, routeTextOf };
