'use strict';
// From a parsed text to document 01's two tables. Children come in the order in which the Rust's builder visits
// them; a node's scope is the one current when the Rust leaves, and so checks, the node.

const { K, R, F, S, DECLARES, METHODS, PROPERTIES } = require('./kinds.js');
const { NoTree, methods, isThis, isLink } = require('./typescript.js');

// UTF-8, with a lone surrogate in three bytes (WTF-8)
function bytesOf(text) {
  if (!/[\ud800-\udfff]/.test(text)) return Buffer.from(text, 'utf8');
  const out = [];
  for (const ch of text) {
    const c = ch.codePointAt(0);
    if (c >= 0xd800 && c <= 0xdfff) out.push(0xe0 | (c >> 12), 0x80 | ((c >> 6) & 63), 0x80 | (c & 63));
    else out.push(...Buffer.from(ch, 'utf8'));
  }
  return Buffer.from(out);
}

// A line can't hold a name with a line's end in it. No check looks for such a name, so it is left out; but where class
// elements are compared (TypeScript) there is no tree then.
const fitsLine = (name) => !/[\n\r]/.test(name);
function nameBytes(name) { return bytesOf(fitsLine(name) ? name : ''); }

// from an index of the text to a byte offset
function offsetsOf(text) {
  if (/^[\x00-\x7f]*$/.test(text)) return (i) => i;
  const at = new Uint32Array(text.length + 1);
  let n = 0;
  for (let i = 0; i < text.length;) {
    const c = text.codePointAt(i);
    at[i] = n;
    if (c > 0xffff) { at[i + 1] = n; i += 2; n += 4; continue; }
    n += c < 0x80 ? 1 : c < 0x800 ? 2 : 3;
    i += 1;
  }
  at[text.length] = n;
  return (i) => at[i];
}

// The base as the Rust's lexer has it: a leading zero before octal digits only is octal.
function baseOf(raw, value) {
  if (/^0[xX]/.test(raw)) return 4;
  if (/^0[oO]/.test(raw)) return 3;
  if (/^0[bB]/.test(raw)) return 2;
  if (/^0[0-7]+$/.test(raw)) return 3;
  if (/[eE]/.test(raw)) return Number.isInteger(value) ? 0 : 1;
  return raw.includes('.') ? 1 : 0;
}

const BLANK = /(?:\s+|\/\/[^\n\r\u2028\u2029]*|\/\*[^]*?\*\/|<!--[^\n\r\u2028\u2029]*)*/y;

class Maker {
  constructor(text, parsed, { module, typescript }) {
    this.text = text;
    this.byte = offsetsOf(text);
    this.marks = parsed.marks;
    this.unmark = parsed.unmark;
    this.module = module;
    this.typescript = typescript;
    this.nodes = [];
    this.scopes = [];
    this.parent = 0;
    this.scope = 0;
    // from a node of the parser's to the first of this table's that stands for it
    this.made = new Map();
  }

  // ---- nodes and scopes

  at(i) { return this.byte(this.unmark(i)); }

  add(kind, role, start, end, { flags = 0, extra = 0, name = null } = {}) {
    const node = {
      kind, parent: this.parent, role, start: this.at(start), end: this.at(end), scope: this.scope, flags, extra,
      name: name === null ? Buffer.alloc(0) : nameBytes(name),
    };
    this.nodes.push(node);
    return this.nodes.length - 1;
  }

  // a node of the parser's, and what is in it; its end where it has a type behind it, which is a node of its own
  node(kind, role, n, { end = n.end, ...more } = {}, inside = null) {
    const i = this.add(kind, role, n.start, end, more);
    if (!this.made.has(n)) this.made.set(n, i);
    if (inside) this.within(i, inside);
    return i;
  }

  within(i, inside) {
    const parent = this.parent;
    this.parent = i;
    inside(i);
    this.parent = parent;
  }

  // The scope's node is the current one. Strictness is inherited.
  scoped(flags, inside) {
    const outer = this.scope;
    const strict = this.scopes.length > 0 ? this.scopes[outer].flags & S.strict : 0;
    this.scopes.push({ parent: outer, flags: flags | strict, node: this.parent });
    this.scope = this.scopes.length - 1;
    inside(this.scope);
    this.scope = outer;
  }

  other(role, n, inside) { return this.node(K.Other, role, n, {}, inside); }

  // ---- program and statements

  program(p) {
    this.add(K.Program, R.other, 0, 0);
    this.made.set(p, 0);
    this.nodes[0].end = this.byte(this.text.length);
    this.within(0, () => {
      this.scoped(S.top | (this.module || hasUseStrict(p.directives) ? S.strict : 0), () => {
        if (p.interpreter) this.other(R.other, p.interpreter);
        this.body(p);
      });
    });
  }

  body(n) {
    for (const d of n.directives || []) this.directive(d);
    for (const s of n.body) this.statement(s, R.body);
  }

  directive(d) {
    const raw = d.value.extra.raw.slice(1, -1);
    this.node(K.Directive, R.other, d, { name: raw }, () => {
      this.add(K.StringLiteral, R.value, d.value.start, d.value.end, { extra: bytesOf(d.value.extra.expressionValue).length });
    });
  }

  statement(n, role) {
    const make = this[n.type];
    if (!make) this.refuseStatement(n);
    this.refuseAmbient(n);
    make.call(this, n, role);
  }

  EmptyStatement(n, role) { this.node(K.Statement, role, n); }
  DebuggerStatement(n, role) { this.node(K.Statement, role, n); }

  ExpressionStatement(n, role) {
    this.node(K.Statement, role, n, {}, () => this.expression(n.expression, R.other));
  }

  BlockStatement(n, role) {
    this.node(K.Block, role, n, {}, () => this.scoped(0, () => this.body(n)));
  }

  LabeledStatement(n, role) {
    this.node(K.Labeled, role, n, {}, () => {
      this.label(n.label);
      this.statement(n.body, R.body);
    });
  }

  label(n) { this.node(K.LabelIdentifier, R.label, n, { name: n.name }); }

  BreakStatement(n, role) {
    this.node(K.Break, role, n, {}, () => { if (n.label) this.label(n.label); });
  }

  ContinueStatement(n, role) {
    this.node(K.Continue, role, n, {}, () => { if (n.label) this.label(n.label); });
  }

  ReturnStatement(n, role) {
    this.node(K.Return, role, n, {}, () => { if (n.argument) this.expression(n.argument, R.value); });
  }

  ThrowStatement(n, role) {
    this.node(K.Throw, role, n, {}, () => this.expression(n.argument, R.value));
  }

  IfStatement(n, role) {
    this.node(K.If, role, n, {}, () => {
      this.expression(n.test, R.other);
      this.statement(n.consequent, R.body);
      if (n.alternate) this.statement(n.alternate, R.alternate);
    });
  }

  WhileStatement(n, role) {
    this.node(K.While, role, n, {}, () => {
      this.expression(n.test, R.other);
      this.statement(n.body, R.body);
    });
  }

  DoWhileStatement(n, role) {
    this.node(K.DoWhile, role, n, {}, () => {
      this.statement(n.body, R.body);
      this.expression(n.test, R.other);
    });
  }

  ForStatement(n, role) {
    this.node(K.For, role, n, { flags: n.test ? F.initialiser : 0 }, () => this.scoped(0, () => {
      if (n.init) {
        if (n.init.type === 'VariableDeclaration') this.statement(n.init, R.other);
        else this.expression(n.init, R.other);
      }
      if (n.test) this.expression(n.test, R.other);
      if (n.update) this.expression(n.update, R.other);
      this.statement(n.body, R.body);
    }));
  }

  forEach(kind, n, role, flags) {
    this.node(kind, role, n, { flags }, () => this.scoped(0, () => {
      if (n.left.type === 'VariableDeclaration') this.statement(n.left, R.left);
      else this.target(n.left, R.left);
      this.expression(n.right, R.other);
      this.statement(n.body, R.body);
    }));
  }

  ForInStatement(n, role) { this.forEach(K.ForIn, n, role, 0); }

  ForOfStatement(n, role) {
    this.forEach(K.ForOf, n, role, n.await || this.marks.forAwait.has(n.start) ? F.forAwait : 0);
  }

  WithStatement(n, role) {
    this.node(K.With, role, n, {}, () => {
      this.expression(n.object, R.other);
      this.scoped(0, () => this.statement(n.body, R.body));
    });
  }

  SwitchStatement(n, role) {
    this.node(K.Switch, role, n, {}, () => {
      this.expression(n.discriminant, R.other);
      this.scoped(0, () => {
        for (const c of n.cases) {
          this.node(K.SwitchCase, R.body, c, { flags: c.test ? 0 : F.default }, () => {
            if (c.test) this.expression(c.test, R.other);
            for (const s of c.consequent) this.statement(s, R.body);
          });
        }
      });
    });
  }

  TryStatement(n, role) {
    this.node(K.Try, role, n, {}, () => {
      this.statement(n.block, R.body);
      if (n.handler) this.CatchClause(n.handler);
      if (n.finalizer) this.statement(n.finalizer, R.finally);
    });
  }

  CatchClause(n) {
    this.node(K.CatchClause, R.alternate, n, {}, () => this.scoped(0, () => {
      if (n.param) {
        this.other(R.other, n.param, () => {
          this.binding(n.param, R.other);
          this.types([n.param.typeAnnotation]);
        });
      }
      this.statement(n.body, R.body);
    }));
  }

  VariableDeclaration(n, role) {
    let start = n.start;
    let kind = DECLARES.indexOf(n.kind);
    if (this.marks.awaitUsing.has(start)) {
      start = this.marks.awaitUsing.get(start);
      kind = 4;
    }
    const i = this.add(K.VariableDeclaration, role, start, n.end, { extra: kind });
    this.made.set(n, i);
    this.within(i, () => {
      for (const d of n.declarations) {
        const flags = (d.init ? F.initialiser : 0) | (d.id.type === 'Identifier' ? F.plainName : 0);
        this.node(K.VariableDeclarator, R.other, d, { flags }, () => {
          this.binding(d.id, R.other);
          this.types([d.id.typeAnnotation]);
          if (d.init) this.expression(d.init, R.value);
        });
      }
    });
  }

  // ---- modules

  ImportDeclaration(n, role) {
    this.node(K.Statement, role, n, {}, () => {
      for (const s of n.specifiers) {
        this.other(R.other, s, () => {
          if (s.type === 'ImportSpecifier') this.moduleName(s.imported);
          this.binding(s.local, R.other);
        });
      }
      this.source(n);
    });
  }

  ExportAllDeclaration(n, role) { this.node(K.Statement, role, n, {}, () => this.source(n)); }

  ExportDefaultDeclaration(n, role) {
    const d = n.declaration;
    this.node(K.ExportDefault, role, n, {}, () => {
      if (/^(Function|Class|TSInterface)Declaration$|^TSDeclareFunction$/.test(d.type)) this.statement(d, R.other);
      else this.expression(d, R.other);
    });
  }

  ExportNamedDeclaration(n, role) {
    // `export * as x from` is the Rust's ExportAll
    if (n.specifiers.some((s) => s.type === 'ExportNamespaceSpecifier')) {
      this.node(K.Statement, role, n, {}, () => {
        for (const s of n.specifiers) this.moduleName(s.exported);
        this.source(n);
      });
      return;
    }
    this.node(K.ExportNamed, role, n, {}, () => {
      if (n.declaration) this.statement(n.declaration, R.other);
      for (const s of n.specifiers) {
        this.other(R.other, s, () => {
          if (n.source || s.local.type !== 'Identifier') this.moduleName(s.local);
          else this.expression(s.local, R.other);
          this.moduleName(s.exported);
        });
      }
      this.source(n);
    });
  }

  moduleName(n) {
    if (n.type === 'StringLiteral') this.expression(n, R.other);
    else this.other(R.other, n);
  }

  source(n) {
    if (n.source) this.expression(n.source, R.other);
    for (const a of n.assertions || n.attributes || []) {
      this.other(R.other, a, () => {
        this.moduleName(a.key);
        this.expression(a.value, R.value);
      });
    }
  }

  // ---- functions and classes

  FunctionDeclaration(n, role) { this.func(n, role, F.declaration, n.start); }
  FunctionExpression(n, role) { this.func(n, role, 0, n.start); }

  func(n, role, flags, start) {
    const all = flags | (simple(n.params) ? F.simpleParameters : 0) | (n.id ? F.plainName : 0) | (n.async || n.generator ? F.asyncOrGenerator : 0);
    const i = this.add(K.Function, role, start, n.end, { flags: all });
    this.made.set(n, i);
    if (n.body) this.made.set(n.body, i);
    this.within(i, () => this.scoped(S.function | (n.body && hasUseStrict(n.body.directives) ? S.strict : 0), () => {
      if (n.id && n.type !== 'ObjectMethod') this.binding(n.id, R.other);
      this.heading(n, n.id ? n.id.end : start);
      // TypeScript has functions without one: overloads and abstract methods
      if (n.body) this.functionBody(n.body);
    }));
  }

  ArrowFunctionExpression(n, role) {
    const strict = n.body.type === 'BlockStatement' && hasUseStrict(n.body.directives) ? S.strict : 0;
    this.node(K.Arrow, role, n, { flags: simple(n.params) ? F.simpleParameters : 0 }, () => {
      this.scoped(S.function | S.arrow | strict, () => {
        this.heading(n, n.start);
        if (n.body.type === 'BlockStatement') { this.functionBody(n.body); return; }
        this.node(K.FunctionBody, R.body, n.body, {}, () => {
          this.node(K.Statement, R.body, n.body, {}, () => this.expression(n.body, R.other));
        });
      });
    });
  }

  functionBody(n) { this.node(K.FunctionBody, R.body, n, {}, () => this.body(n)); }

  // the parameters, with TypeScript's parts around them
  heading(n, from) {
    this.types([n.typeParameters]);
    this.thisParameter(n.params);
    this.parameters(n, n.typeParameters ? n.typeParameters.end : from);
    this.types([n.returnType]);
  }

  // the list with its brackets, searched from a place after which only words and comments come
  parameters(n, from) {
    const [start, end] = this.brackets(n, from);
    const i = this.add(K.Other, R.other, start, end);
    this.within(i, () => { for (const p of n.params) if (!isThis(p)) this.parameter(p); });
  }

  brackets(n, from) {
    const first = n.params[0];
    let open = from;
    const behind = n.returnType || n.body;
    const stop = first ? first.start : behind ? behind.start : n.end;
    while (open < stop && this.skip(open) < stop && this.char(this.skip(open)) !== '(') open = this.skip(open) + 1;
    open = this.skip(open);
    if (open >= stop) return [first.start, first.end];
    let close = this.skip(first ? n.params[n.params.length - 1].end : open + 1);
    while (close < n.end && this.char(close) !== ')') close = this.skip(close + 1);
    return [open, close + 1];
  }

  // the parser's indices count the filled-in name; the text doesn't have it
  char(i) { return this.text[this.unmark(i)]; }

  // past blanks and comments
  skip(i) {
    BLANK.lastIndex = this.unmark(i);
    const m = BLANK.exec(this.text);
    return i + (m ? m[0].length : 0);
  }

  parameter(p) {
    const whole = unwrapped(p);
    // a parameter that is a field too is one with its modifiers
    const n = whole.type === 'TSParameterProperty' ? whole.parameter : whole;
    if (n.type === 'RestElement') {
      this.node(K.FormalParameterRest, R.other, n, {}, () => {
        this.binding(n, R.other);
        this.types([n.typeAnnotation]);
      });
      return;
    }
    const has = n.type === 'AssignmentPattern';
    this.node(K.FormalParameter, R.other, whole, { flags: has ? F.initialiser : 0 }, () => {
      this.binding(has ? n.left : n, R.other);
      this.types([(has ? n.left : n).typeAnnotation]);
      if (has) this.expression(n.right, R.value);
    });
  }

  ClassDeclaration(n, role) { this.cls(n, role, F.declaration); }
  ClassExpression(n, role) { this.cls(n, role, 0); }

  cls(n, role, flags) {
    const id = n.id && n.id.start - 1 !== this.marks.nameless ? n.id : null;
    const all = flags | (n.superClass ? F.heritage : 0) | (id ? F.plainName : 0);
    const i = this.node(K.Class, role, n, { flags: all });
    this.within(i, () => {
      this.decorators(n);
      this.scoped(S.strict, (scope) => {
        this.nodes[i].extra = scope;
        if (id) this.binding(id, R.other);
        this.types([n.typeParameters]);
        if (n.superClass) this.expression(n.superClass, R.other);
        this.types([n.superTypeParameters, ...(n.implements || [])]);
        this.node(K.ClassBody, R.body, n.body, {}, () => { for (const e of n.body.body) this.element(e); });
      });
    });
  }

  decorators(n) {
    for (const d of n.decorators || []) this.other(R.other, d, () => this.expression(d.expression, R.other));
  }

  element(e) {
    if (e.type === 'StaticBlock') {
      this.node(K.StaticBlock, R.other, e, {}, () => {
        this.scoped(S.staticBlock, () => { for (const s of e.body) this.statement(s, R.body); });
      });
      return;
    }
    if (e.type === 'TSIndexSignature') { this.type(e, R.other); return; }
    this.refuseAmbient(e);
    const hidden = e.key.type === 'PrivateName';
    const flags = (e.static ? F.static : 0) | (hidden ? F.privateKey : 0) | this.unfixed(e);
    if (/^(Class|ClassPrivate|TSDeclare)Method$/.test(e.type)) {
      this.node(K.MethodDefinition, R.other, e, { flags, extra: METHODS.indexOf(e.kind) }, () => {
        this.decorators(e);
        this.key(e.key, e.computed, true);
        this.method(e);
      });
      return;
    }
    const kind = e.type === 'ClassAccessorProperty' ? K.AccessorProperty : K.PropertyDefinition;
    this.node(kind, R.other, e, { flags: flags | (e.value ? F.initialiser : 0) }, () => {
      this.decorators(e);
      this.key(e.key, e.computed, true);
      this.types([e.typeAnnotation]);
      if (e.value) this.expression(e.value, R.value);
    });
  }

  // In TypeScript elements are compared by their names: the flag of one that has no fixed name.
  unfixed(e) {
    if (!this.typescript || e.key.type === 'PrivateName') return 0;
    if (e.key.type === 'RegExpLiteral') throw new NoTree('a regular expression as the name of a class element is not taken', e.key);
    const name = literalName(e.key, e.computed);
    if (name !== null && !fitsLine(name)) throw new NoTree('the name of this class element has a line feed or carriage return in it, which no line of a table can hold', e.key);
    return name === null ? F.noFixedName : 0;
  }

  // a method's function begins at its parameters
  method(e) {
    let open = this.skip(e.key.end);
    // behind a key come its bracket and, in TypeScript, the mark of an optional method
    for (const c of [']', '?']) if (this.char(open) === c) open = this.skip(open + 1);
    this.func({ ...e, id: null }, R.value, 0, open);
  }

  // An element's or property's name is at its key. A key in brackets is a node of its own around the expression: so
  // the name of an identifier in brackets, which names no property, isn't at the key. By the Rust a literal in
  // brackets names a class element and no object property, and a shorthand property has no name either.
  key(n, computed, inClass, nameless = false) {
    if (n.type === 'PrivateName') { this.privateName(n, R.key); return; }
    const i = this.nodes.length;
    if (computed) this.other(R.key, n, () => this.expression(n, R.value));
    else if (n.type === 'Identifier') this.other(R.key, n);
    else this.expression(n, R.key);
    if (nameless || (computed && !inClass)) return;
    const name = literalName(n, computed);
    if (name !== null) this.nodes[i].name = nameBytes(name);
  }

  privateName(n, role) { this.node(K.PrivateIdentifier, role, n, { name: n.id.name }); }

  // ---- bindings

  binding(p, role) {
    const n = unwrapped(p);
    switch (n.type) {
      case 'Identifier':
        this.node(K.BindingIdentifier, role, n, { name: n.name, end: this.identifierEnd(n) });
        return;
      case 'ObjectPattern':
        this.node(K.Other, role, n, { end: this.patternEnd(n) }, () => {
          for (const q of n.properties) {
            if (q.type === 'RestElement') { this.binding(q, R.other); continue; }
            this.other(R.other, q, () => {
              this.key(q.key, q.computed, false, q.shorthand);
              this.binding(q.value, R.value);
            });
          }
        });
        return;
      case 'ArrayPattern':
        this.node(K.Other, role, n, { end: this.patternEnd(n) }, () => { for (const e of n.elements) if (e) this.binding(e, R.other); });
        return;
      case 'AssignmentPattern':
        this.other(role, n, () => {
          this.binding(n.left, R.other);
          this.expression(n.right, R.value);
        });
        return;
      case 'RestElement':
        this.node(K.BindingRestElement, role, n, { end: n.typeAnnotation ? n.argument.end : n.end }, () => this.binding(n.argument, R.other));
        return;
      default:
        this.expression(n, role);
    }
  }

  // ---- assignment targets

  target(p, role) {
    // the Rust's parser drops brackets around a target
    const n = unwrapped(p);
    switch (n.type) {
      case 'Identifier':
        this.node(K.IdentifierReference, role, n, { name: n.name, flags: F.written });
        return;
      case 'ObjectPattern':
        this.other(role, n, () => { for (const q of n.properties) this.targetProperty(q); });
        return;
      case 'ArrayPattern':
        this.other(role, n, () => { for (const e of n.elements) if (e) this.target(e, R.other); });
        return;
      case 'AssignmentPattern':
        this.other(role, n, () => {
          this.target(n.left, R.other);
          this.expression(n.right, R.value);
        });
        return;
      case 'RestElement':
        this.other(role, n, () => this.target(n.argument, R.other));
        return;
      case 'TSAsExpression':
      case 'TSSatisfiesExpression':
      case 'TSTypeAssertion':
      case 'TSNonNullExpression':
        this.ofType(n, role, (e) => this.target(e, R.value));
        return;
      default:
        this.expression(n, role);
    }
  }

  targetProperty(q) {
    if (q.type === 'RestElement') { this.target(q, R.other); return; }
    this.other(R.other, q, () => {
      if (!q.shorthand) {
        this.key(q.key, q.computed, false);
        this.target(q.value, R.value);
      } else if (q.value.type === 'AssignmentPattern') {
        this.target(q.value.left, R.other);
        this.expression(q.value.right, R.value);
      } else {
        this.target(q.value, R.other);
      }
    });
  }

  // ---- expressions

  expression(n, role) {
    const make = this[n.type];
    if (!make) throw new NoTree(`${n.type} is not taken`, n);
    make.call(this, n, role);
  }

  Identifier(n, role) { this.node(K.IdentifierReference, role, n, { name: n.name }); }
  PrivateName(n, role) { this.privateName(n, role); }
  NullLiteral(n, role) { this.other(role, n); }
  BooleanLiteral(n, role) { this.other(role, n); }
  BigIntLiteral(n, role) { this.other(role, n); }
  RegExpLiteral(n, role) { this.other(role, n); }
  ThisExpression(n, role) { this.other(role, n); }
  Super(n, role) { this.node(K.Super, role, n); }

  NumericLiteral(n, role) { this.node(K.NumericLiteral, role, n, { extra: baseOf(n.extra.raw, n.value) }); }
  StringLiteral(n, role) { this.node(K.StringLiteral, role, n, { extra: bytesOf(n.value).length }); }

  TemplateLiteral(n, role) {
    this.other(role, n, () => {
      for (const q of n.quasis) this.other(R.other, q);
      for (const e of n.expressions) this.expression(e, R.other);
    });
  }

  TaggedTemplateExpression(n, role) {
    this.other(role, n, () => {
      this.expression(n.tag, R.other);
      this.types([n.typeParameters]);
      this.expression(n.quasi, R.other);
    });
  }

  ArrayExpression(n, role) {
    this.other(role, n, () => { for (const e of n.elements) if (e) this.expression(e, R.other); });
  }

  SpreadElement(n, role) { this.other(role, n, () => this.expression(n.argument, R.value)); }

  ObjectExpression(n, role) {
    this.node(K.Object, role, n, {}, () => {
      for (const p of n.properties) {
        if (p.type === 'SpreadElement') this.expression(p, R.other);
        else this.property(p);
      }
    });
  }

  property(p) {
    const isMethod = p.type === 'ObjectMethod';
    const extra = isMethod && p.kind !== 'method' ? PROPERTIES.indexOf(p.kind) : 0;
    const flags = isMethod && p.kind === 'method' ? F.method : 0;
    this.node(K.ObjectProperty, R.other, p, { flags, extra }, () => {
      this.decorators(p);
      this.key(p.key, p.computed, false, p.shorthand);
      if (isMethod) this.method(p);
      else this.expression(p.value, R.value);
    });
  }

  // a target where none may stand, as the parser recovered it
  AssignmentPattern(n, role) { this.target(n, role); }
  ObjectPattern(n, role) { this.target(n, role); }
  ArrayPattern(n, role) { this.target(n, role); }
  RestElement(n, role) { this.target(n, role); }

  UnaryExpression(n, role) {
    this.node(K.Unary, role, n, { flags: n.operator === 'delete' ? F.delete : 0 }, () => this.expression(n.argument, R.value));
  }

  UpdateExpression(n, role) { this.other(role, n, () => this.target(n.argument, R.value)); }

  BinaryExpression(n, role) {
    const kind = n.left.type === 'PrivateName' ? K.PrivateIn : K.Other;
    this.node(kind, role, n, {}, () => {
      this.expression(n.left, R.other);
      this.expression(n.right, R.other);
    });
  }

  LogicalExpression(n, role) { this.BinaryExpression(n, role); }

  ConditionalExpression(n, role) {
    this.other(role, n, () => {
      this.expression(n.test, R.other);
      this.expression(n.consequent, R.other);
      this.expression(n.alternate, R.other);
    });
  }

  AssignmentExpression(n, role) {
    this.other(role, n, () => {
      this.target(n.left, R.other);
      this.expression(n.right, R.value);
    });
  }

  SequenceExpression(n, role) {
    this.other(role, n, () => { for (const e of n.expressions) this.expression(e, R.other); });
  }

  ParenthesizedExpression(n, role) {
    this.node(K.Other, role, n, { extra: 1 }, () => this.expression(n.expression, R.value));
  }

  AwaitExpression(n, role) { this.node(K.Await, role, n, {}, () => this.expression(n.argument, R.value)); }

  YieldExpression(n, role) {
    this.node(K.Yield, role, n, {}, () => { if (n.argument) this.expression(n.argument, R.value); });
  }

  CallExpression(n, role) {
    const imports = n.callee.type === 'Import';
    this.node(imports ? K.Other : K.Call, role, n, {}, () => {
      if (!imports) this.expression(n.callee, R.other);
      this.types([n.typeParameters]);
      for (const a of n.arguments) this.expression(a, R.value);
    });
  }

  NewExpression(n, role) {
    this.node(K.New, role, n, {}, () => {
      this.expression(n.callee, R.other);
      this.types([n.typeParameters]);
      for (const a of n.arguments) this.expression(a, R.value);
    });
  }

  MemberExpression(n, role) { this.member(n, role, (o) => this.expression(o, R.other)); }

  member(n, role, object) {
    const hidden = n.property.type === 'PrivateName';
    this.node(hidden ? K.PrivateField : K.Member, role, n, {}, () => {
      object(n.object);
      if (hidden) this.privateName(n.property, R.other);
      else if (n.computed) this.expression(n.property, R.other);
      else this.other(R.other, n.property);
    });
  }

  OptionalMemberExpression(n, role) {
    this.node(K.Chain, role, n, {}, () => this.link(n, R.value));
  }

  OptionalCallExpression(n, role) {
    this.node(K.Chain, role, n, {}, () => this.link(n, R.value));
  }

  // one link of an optional chain; those before it belong to the same chain
  link(n, role) {
    if (n.type === 'OptionalMemberExpression') {
      this.member(n, role, (o) => this.link(o, R.other));
    } else if (n.type === 'OptionalCallExpression') {
      this.node(K.Call, role, n, {}, () => {
        this.link(n.callee, R.other);
        this.types([n.typeParameters]);
        for (const a of n.arguments) this.expression(a, R.value);
      });
    } else if (isLink(n)) {
      this.ofType(n, role, (e) => this.link(e, R.value));
    } else {
      this.expression(n, role);
    }
  }

  MetaProperty(n, role) {
    this.other(role, n, () => {
      this.other(R.other, n.meta);
      this.other(R.other, n.property);
    });
  }

  // ---- JSX: every node in source order, attributes by their kind

  JSXElement(n, role) { this.jsx(n, role); }
  JSXFragment(n, role) { this.jsx(n, role); }
  JSXText(n, role) { this.other(role, n); }
  JSXEmptyExpression(n, role) { this.other(role, n); }

  jsx(n, role) {
    if (n.type === 'JSXAttribute') {
      this.node(K.JSXAttribute, role, n, {}, () => {
        this.jsx(n.name, R.other);
        if (n.value) this.jsx(n.value, R.value);
      });
      return;
    }
    if (n.type === 'JSXSpreadChild' || n.type === 'JSXSpreadAttribute' || n.type === 'JSXExpressionContainer') {
      this.other(role, n, () => this.expression(n.argument || n.expression, R.value));
      return;
    }
    if (n.type === 'JSXIdentifier' && /^[A-Z_$]/.test(n.name) && role === R.label) {
      this.node(K.IdentifierReference, R.other, n, { name: n.name });
      return;
    }
    if (n.type.startsWith('JSX')) {
      this.other(role === R.label ? R.other : role, n, () => {
        if (n.openingElement) this.jsx(n.openingElement, R.other);
        // a tag's name may be a reference
        if (n.type === 'JSXOpeningElement' || n.type === 'JSXClosingElement') this.jsx(n.name, R.label);
        for (const a of n.attributes || []) this.jsx(a, R.other);
        for (const c of n.children || []) this.jsx(c, R.other);
        if (n.closingElement) this.jsx(n.closingElement, R.other);
      });
      return;
    }
    this.expression(n, role);
  }
}

Object.assign(Maker.prototype, methods);

function hasUseStrict(directives) {
  return (directives || []).some((d) => d.value.extra.raw.slice(1, -1) === 'use strict');
}

function unwrapped(n) {
  let m = n;
  while (m.type === 'ParenthesizedExpression') m = m.expression;
  return m;
}

function simple(params) {
  return params.every((p) => { const n = unwrapped(p); return (n.type === 'TSParameterProperty' ? n.parameter : n).type === 'Identifier'; });
}

function literalName(n, computed) {
  switch (n.type) {
    case 'Identifier': return computed ? null : n.name;
    case 'StringLiteral': return n.value;
    case 'NumericLiteral': return String(n.value);
    case 'BigIntLiteral': return String(BigInt(n.value));
    case 'NullLiteral': return 'null';
    case 'TemplateLiteral':
      return n.expressions.length === 0 && n.quasis[0].value.cooked !== undefined ? n.quasis[0].value.cooked : null;
    default: return null;
  }
}

// The tables of a parsed text: nodes and scopes in their order, the source's bytes and its type.
function treeOf(text, parsed, { module = false, typescript = false } = {}) {
  const maker = new Maker(text, parsed, { module: module || typescript, typescript });
  maker.program(parsed.program);
  return { type: typescript ? 2 : module ? 1 : 0, nodes: maker.nodes, scopes: maker.scopes, source: bytesOf(text), made: maker.made };
}

module.exports = { treeOf, bytesOf, offsetsOf };
