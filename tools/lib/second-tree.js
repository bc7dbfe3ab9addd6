'use strict';
// A second tree maker, over the nodes of ESTree as Debian's acorn makes them: written apart from tree.js, with which it shares numbers and bytes alone.

const { K, R, F, S, DECLARES, METHODS, PROPERTIES } = require('./kinds.js');
const { bytesOf, offsetsOf } = require('./tree.js');

const PLACES = ['/usr/share/nodejs/acorn', 'acorn'];

function load() {
  for (const place of PLACES) {
    try { return require(place); } catch (e) { if (e.code !== 'MODULE_NOT_FOUND') throw e; }
  }
  throw new Error('no acorn, of Debian\'s package node-acorn: tools/setup acorn installs it');
}

// ---- the parser, which reads on after an early error

const EARLY = new RegExp(['^Unsyntactic (break|continue)', '^\'with\' in strict', '^Label ', '^Duplicate constructor', '^\'super\' keyword', '^super\\(\\) call', '^\'return\' outside',
  '^(Yield|Await) expression cannot be a default', '^Classes (can\'t|may not)', '^Private field ', '^A string literal cannot be used as an exported', '^An export name cannot',
  '^for-(in|of) loop variable declaration may not', '^Assigning to rvalue',
  '^Octal literal in strict', '^Invalid escape sequence$', '^Cannot use \'(await|arguments)\'', '^Cannot use (await|arguments) in class static'].join('|'));

// what acorn calls recoverable though the text is outside the grammar
const GRAMMAR = new RegExp(['^The only valid meta property for import', '^Numeric separator', '^Comma is not permitted', '^Escape sequence in keyword', '^[gs]etter should', '^Setter cannot', '^Logical expressions',
  '^Trailing comma', '^Bad escape sequence', '^The keyword \'enum\'', 'must not contain escaped', '^Multiple default', '^Binding '].join('|'));

let parser = null;
function parserOf() {
  const { tokTypes } = load();
  const reading = (Base) => class extends Base {
    raise(at, message) {
      const legacyNumber = message === 'Invalid number' && /^0\d+(?![\d_])/.test(this.input.slice(at));
      if (!EARLY.test(message) && !legacyNumber) super.raise(at, message);
    }

    raiseRecoverable(at, message) {
      if (GRAMMAR.test(message) && !/^Binding \w+ in strict mode/.test(message)) super.raise(at, message);
    }

    // a function as the body of a loop, which a check looks for
    parseStatement(context, ...rest) {
      if (!context || this.type !== tokTypes._function) return super.parseStatement(context, ...rest);
      return this.parseFunctionStatement(this.startNode(), false, false);
    }

    // a class declaration without a name too
    parseClassId(node, isStatement) {
      if (isStatement === true && (this.type === tokTypes.braceL || this.type === tokTypes._extends)) node.id = null;
      else super.parseClassId(node, isStatement);
    }

    validateRegExpFlags() {}

    validateRegExpPattern() {}
  };
  return load().Parser.extend(reading);
}

function parsed(text, module) {
  parser = parser || parserOf();
  const tokens = [];
  const options = { ecmaVersion: 'latest', sourceType: module ? 'module' : 'script', preserveParens: true, allowHashBang: true, allowSuperOutsideMethod: true, onToken: tokens };
  return { program: parser.parse(text, options), tokens };
}

// ---- small facts of nodes

const bare = (n) => (n.type === 'ParenthesizedExpression' ? bare(n.expression) : n);
const isPlain = (p) => p.type === 'Identifier';
const isStrict = (body) => body.some((s) => s.directive === 'use strict');

// 0 decimal, 1 float, 2 binary, 3 octal, 4 hexadecimal
function base({ raw, value }) {
  const prefix = { x: 4, o: 3, b: 2 }[raw.charAt(1).toLowerCase()];
  if (raw.charAt(0) === '0' && prefix) return prefix;
  if (/^0[0-7]+$/.test(raw)) return 3;
  if (/e/i.test(raw)) return Number.isInteger(value) ? 0 : 1;
  return raw.includes('.') ? 1 : 0;
}

// the name that a literal gives to a class element or a property
function nameOf(n) {
  if (n.type === 'TemplateLiteral') return n.expressions.length === 0 ? n.quasis[0].value.cooked : null;
  if (n.type !== 'Literal' || n.regex) return null;
  if (n.bigint !== undefined) return String(BigInt(n.bigint));
  return typeof n.value === 'boolean' ? null : String(n.value);
}

// ---- the tables

class Second {
  constructor(text, module) {
    const { program, tokens } = parsed(text, module);
    Object.assign(this, { text, module, tokens, byte: offsetsOf(text), nodes: [], scopes: [], parent: 0, scope: 0 });
    this.program(program);
  }

  span(kind, role, start, end, more, inside) {
    const name = more.name && !/[\n\r]/.test(more.name) ? bytesOf(more.name) : Buffer.alloc(0);
    const at = this.nodes.push({ kind, parent: this.parent, role, start: this.byte(start), end: this.byte(end), scope: this.scope, flags: more.flags || 0, extra: more.extra || 0, name }) - 1;
    const outer = this.parent;
    this.parent = at;
    if (inside) inside(at);
    this.parent = outer;
    return at;
  }

  put(kind, role, n, more = {}, inside = null) { return this.span(kind, role, n.start, n.end, more, inside); }

  inScope(flags, inside) {
    const outer = this.scope;
    const inherited = this.scopes.length > 0 && this.scopes[outer].flags & S.strict;
    this.scope = this.scopes.push({ parent: outer, flags: flags | (inherited ? S.strict : 0), node: this.parent }) - 1;
    inside(this.scope);
    this.scope = outer;
  }

  each(list, role) { for (const n of list) if (n) this.visit(n, role); }

  // what reads a node of a type is a function of `readers`
  visit(n, role) {
    const reader = readers[n.type];
    if (!reader) throw new Error(`${n.type} has no reader`);
    reader.call(this, n, role);
  }

  program(p) {
    this.span(K.Program, R.other, 0, this.text.length, {}, () => this.inScope(S.top | (this.module || isStrict(p.body) ? S.strict : 0), () => {
      const hashbang = /^#![^\n\r\u2028\u2029]*/.exec(this.text);
      if (hashbang) this.span(K.Other, R.other, 0, hashbang[0].length, {});
      this.each(p.body, R.body);
    }));
  }

  // ---- functions: the brackets of the parameters are found among the tokens

  firstToken(from) {
    let [low, high] = [0, this.tokens.length];
    while (low < high) {
      const middle = (low + high) >> 1;
      if (this.tokens[middle].start < from) low = middle + 1;
      else high = middle;
    }
    return low;
  }

  brackets(n) {
    const from = n.id ? n.id.end : n.start;
    let i = this.firstToken(from);
    while (this.tokens[i].type.label !== '(' && this.tokens[i].start < n.body.start) i += 1;
    const [first] = n.params;
    if (first && this.tokens[i].start > first.start) return [first.start, first.end];
    let j = this.firstToken(n.body.start) - 1;
    while (this.tokens[j].type.label !== ')') j -= 1;
    return [this.tokens[i].start, this.tokens[j].end];
  }

  parameters(n) {
    const [start, end] = this.brackets(n);
    this.span(K.Other, R.other, start, end, {}, () => n.params.forEach((p) => this.parameter(p)));
  }

  parameter(p) {
    if (p.type === 'RestElement') { this.put(K.FormalParameterRest, R.other, p, {}, () => this.pattern(p, R.other)); return; }
    const [left, right] = p.type === 'AssignmentPattern' ? [p.left, p.right] : [p, null];
    this.put(K.FormalParameter, R.other, p, { flags: right ? F.initialiser : 0 }, () => {
      this.pattern(left, R.other);
      if (right) this.visit(right, R.value);
    });
  }

  body(n) {
    const block = n.body.type === 'BlockStatement';
    this.put(K.FunctionBody, R.body, n.body, {}, () => {
      if (block) this.each(n.body.body, R.body);
      else this.put(K.Statement, R.body, n.body, {}, () => this.visit(n.body, R.other));
    });
  }

  func(n, role, flags) {
    const strict = n.body.type === 'BlockStatement' && isStrict(n.body.body) ? S.strict : 0;
    const arrow = n.type === 'ArrowFunctionExpression';
    const all = flags | (n.params.every(isPlain) ? F.simpleParameters : 0) | (n.id ? F.plainName : 0) | (!arrow && (n.async || n.generator) ? F.asyncOrGenerator : 0);
    this.put(arrow ? K.Arrow : K.Function, role, n, { flags: all }, () => this.inScope(S.function | (arrow ? S.arrow : 0) | strict, () => {
      if (n.id) this.pattern(n.id, R.other);
      this.parameters(n);
      this.body(n);
    }));
  }

  // ---- classes and keys

  cls(n, role, flags) {
    const all = flags | (n.superClass ? F.heritage : 0) | (n.id ? F.plainName : 0);
    this.put(K.Class, role, n, { flags: all }, (at) => this.inScope(S.strict, (scope) => {
      this.nodes[at].extra = scope;
      if (n.id) this.pattern(n.id, R.other);
      if (n.superClass) this.visit(n.superClass, R.other);
      this.put(K.ClassBody, R.body, n.body, {}, () => this.each(n.body.body, R.other));
    }));
  }

  element(kind, n, role, more) {
    const flags = more.flags | (n.static ? F.static : 0) | (n.key.type === 'PrivateIdentifier' ? F.privateKey : 0);
    this.put(kind, role, n, { ...more, flags }, () => {
      this.key(n, true);
      if (n.value) this.visit(n.value, R.value);
    });
  }

  // names: by a plain key, by a literal, and in a class by a literal in brackets; a shorthand's key has none
  key({ key, computed, shorthand }, inClass = false) {
    if (key.type === 'PrivateIdentifier') { this.visit(key, R.key); return; }
    const at = this.nodes.length;
    if (computed) this.put(K.Other, R.key, key, {}, () => this.visit(key, R.value));
    else if (key.type === 'Identifier') this.put(K.Other, R.key, key);
    else this.visit(key, R.key);
    const name = key.type === 'Identifier' ? (computed ? null : key.name) : nameOf(key);
    if (shorthand || (computed && !inClass) || typeof name !== 'string' || /[\n\r]/.test(name)) return;
    this.nodes[at].name = bytesOf(name);
  }

  // ---- patterns: what declares, and what is assigned to

  pattern(n, role) {
    const parts = {
      Identifier: () => this.put(K.BindingIdentifier, role, n, { name: n.name }),
      ObjectPattern: () => this.put(K.Other, role, n, {}, () => n.properties.forEach((p) => this.patternProperty(p))),
      ArrayPattern: () => this.put(K.Other, role, n, {}, () => n.elements.forEach((e) => e && this.pattern(e, R.other))),
      AssignmentPattern: () => this.put(K.Other, role, n, {}, () => { this.pattern(n.left, R.other); this.visit(n.right, R.value); }),
      RestElement: () => this.put(K.BindingRestElement, role, n, {}, () => this.pattern(n.argument, R.other)),
    };
    (parts[n.type] || (() => this.visit(n, role)))();
  }

  patternProperty(p) {
    if (p.type === 'RestElement') { this.pattern(p, R.other); return; }
    this.put(K.Other, R.other, p, {}, () => {
      this.key(p);
      this.pattern(p.value, R.value);
    });
  }

  target(whole, role) {
    const n = bare(whole);
    const parts = {
      Identifier: () => this.put(K.IdentifierReference, role, n, { name: n.name, flags: F.written }),
      ObjectPattern: () => this.put(K.Other, role, n, {}, () => n.properties.forEach((p) => this.targetProperty(p))),
      ArrayPattern: () => this.put(K.Other, role, n, {}, () => n.elements.forEach((e) => e && this.target(e, R.other))),
      AssignmentPattern: () => this.put(K.Other, role, n, {}, () => { this.target(n.left, R.other); this.visit(n.right, R.value); }),
      RestElement: () => this.put(K.Other, role, n, {}, () => this.target(n.argument, R.other)),
    };
    (parts[n.type] || (() => this.visit(n, role)))();
  }

  targetProperty(p) {
    if (p.type === 'RestElement') { this.target(p, R.other); return; }
    this.put(K.Other, R.other, p, {}, () => {
      if (!p.shorthand) {
        this.key(p);
        this.target(p.value, R.value);
        return;
      }
      const [left, right] = p.value.type === 'AssignmentPattern' ? [p.value.left, p.value.right] : [p.value, null];
      this.target(left, R.other);
      if (right) this.visit(right, R.value);
    });
  }

  // a name between modules, which is no reference
  moduleName(n) {
    if (n.type === 'Literal') this.visit(n, R.other);
    else this.put(K.Other, R.other, n);
  }

  forEach(kind, n, role, flags) {
    this.put(kind, role, n, { flags }, () => this.inScope(0, () => {
      if (n.left.type === 'VariableDeclaration') this.visit(n.left, R.left);
      else this.target(n.left, R.left);
      this.visit(n.right, R.other);
      this.visit(n.body, R.body);
    }));
  }
}

// ---- a reader for each type: `holding` puts a node around the parts named, each a field and its role

const holding = (kind, ...parts) => function read(n, role) {
  this.put(kind, role, n, {}, () => {
    for (const [field, partRole] of parts) this.each([].concat(n[field]), partRole);
  });
};
const leaf = (kind) => function read(n, role) { this.put(kind, role, n); };
const jump = (kind) => function read(n, role) {
  this.put(kind, role, n, {}, () => { if (n.label) this.put(K.LabelIdentifier, R.label, n.label, { name: n.label.name }); });
};

const statements = {
  EmptyStatement: leaf(K.Statement),
  DebuggerStatement: leaf(K.Statement),
  ReturnStatement: holding(K.Return, ['argument', R.value]),
  ThrowStatement: holding(K.Throw, ['argument', R.value]),
  BreakStatement: jump(K.Break),
  ContinueStatement: jump(K.Continue),
  IfStatement: holding(K.If, ['test', R.other], ['consequent', R.body], ['alternate', R.alternate]),
  WhileStatement: holding(K.While, ['test', R.other], ['body', R.body]),
  DoWhileStatement: holding(K.DoWhile, ['body', R.body], ['test', R.other]),
  TryStatement: holding(K.Try, ['block', R.body], ['handler', R.alternate], ['finalizer', R.finally]),

  ExpressionStatement(n, role) {
    if (n.directive === undefined) { this.put(K.Statement, role, n, {}, () => this.visit(n.expression, R.other)); return; }
    this.put(K.Directive, R.other, n, { name: n.directive }, () => this.visit(n.expression, R.value));
  },
  BlockStatement(n, role) { this.put(K.Block, role, n, {}, () => this.inScope(0, () => this.each(n.body, R.body))); },
  LabeledStatement(n, role) {
    this.put(K.Labeled, role, n, {}, () => {
      this.put(K.LabelIdentifier, R.label, n.label, { name: n.label.name });
      this.visit(n.body, R.body);
    });
  },
  ForStatement(n, role) {
    this.put(K.For, role, n, { flags: n.test ? F.initialiser : 0 }, () => this.inScope(0, () => {
      this.each([n.init, n.test, n.update], R.other);
      this.visit(n.body, R.body);
    }));
  },
  ForInStatement(n, role) { this.forEach(K.ForIn, n, role, 0); },
  ForOfStatement(n, role) { this.forEach(K.ForOf, n, role, n.await ? F.forAwait : 0); },
  WithStatement(n, role) {
    this.put(K.With, role, n, {}, () => {
      this.visit(n.object, R.other);
      this.inScope(0, () => this.visit(n.body, R.body));
    });
  },
  SwitchStatement(n, role) {
    this.put(K.Switch, role, n, {}, () => {
      this.visit(n.discriminant, R.other);
      this.inScope(0, () => this.each(n.cases, R.body));
    });
  },
  SwitchCase(n, role) {
    this.put(K.SwitchCase, role, n, { flags: n.test ? 0 : F.default }, () => {
      this.each([n.test], R.other);
      this.each(n.consequent, R.body);
    });
  },
  CatchClause(n, role) {
    this.put(K.CatchClause, role, n, {}, () => this.inScope(0, () => {
      if (n.param) this.put(K.Other, R.other, n.param, {}, () => this.pattern(n.param, R.other));
      this.visit(n.body, R.body);
    }));
  },
  VariableDeclaration(n, role) { this.put(K.VariableDeclaration, role, n, { extra: DECLARES.indexOf(n.kind) }, () => this.each(n.declarations, R.other)); },
  VariableDeclarator(n, role) {
    this.put(K.VariableDeclarator, role, n, { flags: (n.init ? F.initialiser : 0) | (isPlain(n.id) ? F.plainName : 0) }, () => {
      this.pattern(n.id, R.other);
      this.each([n.init], R.value);
    });
  },
  FunctionDeclaration(n, role) { this.func(n, role, F.declaration); },
  ClassDeclaration(n, role) { this.cls(n, role, F.declaration); },
};

const modules = {
  ImportDeclaration: holding(K.Statement, ['specifiers', R.other], ['source', R.other]),
  ImportSpecifier(n, role) { this.put(K.Other, role, n, {}, () => { this.moduleName(n.imported); this.pattern(n.local, R.other); }); },
  ImportDefaultSpecifier(n, role) { this.put(K.Other, role, n, {}, () => this.pattern(n.local, R.other)); },
  ImportNamespaceSpecifier(n, role) { this.put(K.Other, role, n, {}, () => this.pattern(n.local, R.other)); },
  ExportDefaultDeclaration: holding(K.ExportDefault, ['declaration', R.other]),
  ExportAllDeclaration(n, role) {
    this.put(K.Statement, role, n, {}, () => {
      if (n.exported) this.moduleName(n.exported);
      this.visit(n.source, R.other);
    });
  },
  ExportNamedDeclaration(n, role) {
    this.put(K.ExportNamed, role, n, {}, () => {
      this.each([n.declaration], R.other);
      for (const s of n.specifiers) {
        this.put(K.Other, R.other, s, {}, () => {
          if (n.source || s.local.type === 'Literal') this.moduleName(s.local);
          else this.visit(s.local, R.other);
          this.moduleName(s.exported);
        });
      }
      this.each([n.source], R.other);
    });
  },
};

const classes = {
  MethodDefinition(n, role) { this.element(K.MethodDefinition, n, role, { flags: 0, extra: METHODS.indexOf(n.kind) }); },
  PropertyDefinition(n, role) { this.element(K.PropertyDefinition, n, role, { flags: n.value ? F.initialiser : 0 }); },
  StaticBlock(n, role) { this.put(K.StaticBlock, role, n, {}, () => this.inScope(S.staticBlock, () => this.each(n.body, R.body))); },
  PrivateIdentifier(n, role) { this.put(K.PrivateIdentifier, role, n, { name: n.name }); },
};

const expressions = {
  Identifier(n, role) { this.put(K.IdentifierReference, role, n, { name: n.name }); },
  ThisExpression: leaf(K.Other),
  Super: leaf(K.Super),
  TemplateElement: leaf(K.Other),
  TemplateLiteral: holding(K.Other, ['quasis', R.other], ['expressions', R.other]),
  TaggedTemplateExpression: holding(K.Other, ['tag', R.other], ['quasi', R.other]),
  ArrayExpression: holding(K.Other, ['elements', R.other]),
  ObjectExpression: holding(K.Object, ['properties', R.other]),
  SpreadElement: holding(K.Other, ['argument', R.value]),
  LogicalExpression: holding(K.Other, ['left', R.other], ['right', R.other]),
  ConditionalExpression: holding(K.Other, ['test', R.other], ['consequent', R.other], ['alternate', R.other]),
  SequenceExpression: holding(K.Other, ['expressions', R.other]),
  AwaitExpression: holding(K.Await, ['argument', R.value]),
  YieldExpression: holding(K.Yield, ['argument', R.value]),
  CallExpression: holding(K.Call, ['callee', R.other], ['arguments', R.value]),
  NewExpression: holding(K.New, ['callee', R.other], ['arguments', R.value]),
  ImportExpression: holding(K.Other, ['source', R.value]),
  ChainExpression: holding(K.Chain, ['expression', R.value]),
  FunctionExpression(n, role) { this.func(n, role, 0); },
  ArrowFunctionExpression(n, role) { this.func(n, role, 0); },
  ClassExpression(n, role) { this.cls(n, role, 0); },
  ParenthesizedExpression(n, role) { this.put(K.Other, role, n, { extra: 1 }, () => this.visit(n.expression, R.value)); },
  Literal(n, role) {
    if (typeof n.value === 'string') this.put(K.StringLiteral, role, n, { extra: bytesOf(n.value).length });
    else if (typeof n.value === 'number') this.put(K.NumericLiteral, role, n, { extra: base(n) });
    else this.put(K.Other, role, n);
  },
  Property(n, role) {
    const flags = n.method ? F.method : 0;
    this.put(K.ObjectProperty, role, n, { flags, extra: PROPERTIES.indexOf(n.kind) }, () => {
      this.key(n);
      this.visit(n.value, R.value);
    });
  },
  UnaryExpression(n, role) { this.put(K.Unary, role, n, { flags: n.operator === 'delete' ? F.delete : 0 }, () => this.visit(n.argument, R.value)); },
  UpdateExpression(n, role) { this.put(K.Other, role, n, {}, () => this.target(n.argument, R.value)); },
  BinaryExpression(n, role) {
    this.put(n.left.type === 'PrivateIdentifier' ? K.PrivateIn : K.Other, role, n, {}, () => this.each([n.left, n.right], R.other));
  },
  AssignmentExpression(n, role) {
    this.put(K.Other, role, n, {}, () => {
      this.target(n.left, R.other);
      this.visit(n.right, R.value);
    });
  },
  MemberExpression(n, role) {
    const hidden = n.property.type === 'PrivateIdentifier';
    this.put(hidden ? K.PrivateField : K.Member, role, n, {}, () => {
      this.visit(n.object, R.other);
      if (hidden || n.computed) this.visit(n.property, R.other);
      else this.put(K.Other, R.other, n.property);
    });
  },
  MetaProperty(n, role) {
    this.put(K.Other, role, n, {}, () => {
      this.put(K.Other, R.other, n.meta);
      this.put(K.Other, R.other, n.property);
    });
  },
};

const readers = { ...statements, ...modules, ...classes, ...expressions };

// { tree } of a text, or { why } where acorn doesn't read it
function secondTreeIn(text, { module = false } = {}) {
  let maker;
  try { maker = new Second(text, module); } catch (e) {
    if (!(e instanceof SyntaxError || e instanceof RangeError)) throw e;
    return { why: e.message.replace(/ \(\d+:\d+\)$/, '') };
  }
  return { tree: { type: module ? 1 : 0, nodes: maker.nodes, scopes: maker.scopes, source: bytesOf(text) } };
}

module.exports = { secondTreeIn };
