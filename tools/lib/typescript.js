'use strict';
// TypeScript's own syntax for the tree maker: each node of a type is kind 55, in the order in which the Rust's builder visits them, with the names in it as
// references (32) and what it declares as bindings (31). What can't be mapped has no tree.

const { K, R } = require('./kinds.js');

// why a text has no tree, with the place where it stands
class NoTree extends Error {
  constructor(why, n) { super(`${why} (${n.loc.start.line}:${n.loc.start.column})`); }
}

const LEAVES = new Set([
  'TSAnyKeyword', 'TSBigIntKeyword', 'TSBooleanKeyword', 'TSIntrinsicKeyword', 'TSNeverKeyword', 'TSNullKeyword', 'TSNumberKeyword',
  'TSObjectKeyword', 'TSStringKeyword', 'TSSymbolKeyword', 'TSThisType', 'TSUndefinedKeyword', 'TSUnknownKeyword', 'TSVoidKeyword',
]);

// types whose parts are types alone, in the Rust's order
const PARTS = {
  TSArrayType: ['elementType'],
  TSIndexedAccessType: ['objectType', 'indexType'],
  TSInferType: ['typeParameter'],
  TSIntersectionType: ['types'],
  TSOptionalType: ['typeAnnotation'],
  TSParenthesizedType: ['typeAnnotation'],
  TSRestType: ['typeAnnotation'],
  TSTupleType: ['elementTypes'],
  TSTypeAnnotation: ['typeAnnotation'],
  TSTypeLiteral: ['members'],
  TSTypeOperator: ['typeAnnotation'],
  TSTypeParameterDeclaration: ['params'],
  TSTypeParameterInstantiation: ['params'],
  TSUnionType: ['types'],
  TSInterfaceBody: ['body'],
};

const AMBIENT = 'is ambient code, which is not checked';
// statements that are turned down, and why
const NOT_TAKEN = {
  TSModuleDeclaration: 'a namespace or module declaration is not taken',
  TSImportEqualsDeclaration: '`import .. =` is not taken',
  TSExportAssignment: '`export =` is not taken',
  TSNamespaceExportDeclaration: '`export as namespace` is not taken',
};

// an identifier as it is written, with its escapes
const IDENTIFIER = /(?:[\p{ID_Continue}$\u200c\u200d]|\\u[0-9a-fA-F]{4}|\\u\{[0-9a-fA-F]+\})+/uy;

const methods = {
  // `declare` before a statement or field
  refuseAmbient(n) {
    if (n.declare) throw new NoTree(`\`declare\` ${AMBIENT}`, n);
  },

  refuseStatement(n) {
    const why = n.type === 'TSModuleDeclaration' && n.declare ? `\`declare\` ${AMBIENT}` : NOT_TAKEN[n.type];
    throw new NoTree(why || `${n.type} is not taken`, n);
  },

  // ---- declarations: statements of kind 22; under an export, which holds no statement, kind 55

  declared(n, role, inside) {
    this.node(role === R.other ? K.Other : K.Statement, role, n, {}, () => {
      this.binding(n.id, R.other);
      inside();
    });
  },

  TSTypeAliasDeclaration(n, role) {
    this.declared(n, role, () => this.scoped(0, () => this.types([n.typeParameters, n.typeAnnotation])));
  },

  TSInterfaceDeclaration(n, role) {
    this.declared(n, role, () => this.scoped(0, () => this.types([n.typeParameters, ...(n.extends || []), n.body])));
  },

  TSEnumDeclaration(n, role) {
    this.declared(n, role, () => {
      const body = this.add(K.Other, R.other, this.skip(n.id.end), n.end);
      this.within(body, () => this.scoped(0, () => { for (const m of n.members) this.enumMember(m); }));
    });
  },

  enumMember(m) {
    this.other(R.other, m, () => {
      this.moduleName(m.id);
      if (m.initializer) this.expression(m.initializer, R.value);
    });
  },

  // an overload: a function without a body
  TSDeclareFunction(n, role) { this.FunctionDeclaration(n, role); },

  // ---- expressions: what a type is said of comes first, as in brackets

  TSAsExpression(n, role) { this.ofType(n, role, (e) => this.expression(e, R.value)); },
  TSSatisfiesExpression(n, role) { this.ofType(n, role, (e) => this.expression(e, R.value)); },
  TSTypeAssertion(n, role) { this.ofType(n, role, (e) => this.expression(e, R.value)); },
  TSInstantiationExpression(n, role) { this.ofType(n, role, (e) => this.expression(e, R.value)); },

  // `a?.b!` belongs to its chain
  TSNonNullExpression(n, role) {
    if (isLink(n)) this.node(K.Chain, role, n, {}, () => this.link(n, R.value));
    else this.ofType(n, role, (e) => this.expression(e, R.value));
  },

  ofType(n, role, inside) {
    this.node(K.Other, role, n, { extra: 1 }, () => {
      inside(n.expression);
      this.types([n.typeAnnotation, n.typeParameters]);
    });
  },

  // ---- types

  types(list) { for (const n of list) if (n) this.type(n, R.other); },

  type(n, role) {
    if (LEAVES.has(n.type)) { this.other(role, n); return; }
    if (PARTS[n.type]) { this.other(role, n, () => this.types(PARTS[n.type].flatMap((part) => n[part]))); return; }
    const make = typeMakers[n.type];
    if (!make) throw new NoTree(`${n.type} is not taken`, n);
    make.call(this, n, role);
  },

  // `A` and `A.b`: the first name is a reference
  typeName(n) {
    if (n.type === 'Identifier' && n.name !== 'this') this.node(K.IdentifierReference, R.other, n, { name: n.name });
    else if (n.type === 'Identifier') this.other(R.other, n);
    else if (n.type === 'TSQualifiedName') this.other(R.other, n, () => { this.typeName(n.left); this.other(R.other, n.right); });
    else this.type(n, R.other);
  },

  // a function's or signature's own parameters and result
  signature(n, from) {
    const params = n.parameters;
    const whole = { ...n, params, returnType: n.typeAnnotation };
    this.types([n.typeParameters]);
    this.thisParameter(params);
    this.parameters(whole, n.typeParameters ? n.typeParameters.end : from);
    this.types([n.typeAnnotation]);
  },

  // `this: T`, which is no parameter of the function
  thisParameter(params) {
    if (isThis(params[0])) this.other(R.other, params[0], () => this.types([params[0].typeAnnotation]));
  },

  // where an identifier with a type behind it ends
  identifierEnd(n) {
    if (!n.typeAnnotation && !n.optional) return n.end;
    return this.written(n.start).end;
  },

  // where a pattern with a type behind it ends
  patternEnd(n) {
    if (!n.typeAnnotation && !n.optional) return n.end;
    const parts = (n.properties || n.elements).filter(Boolean);
    let i = this.skip(parts.length > 0 ? parts[parts.length - 1].end : n.start + 1);
    while (i < n.end && !/[}\]]/.test(this.char(i))) i = this.skip(i + 1);
    return i + 1;
  },

  // the identifier that is written from here on
  written(i) {
    IDENTIFIER.lastIndex = this.unmark(i);
    const m = IDENTIFIER.exec(this.text);
    return { start: i, end: i + m[0].length };
  },

  // the name of a type parameter, which stands behind its modifiers
  typeParameter(n) {
    let at = this.written(n.start);
    for (const word of ['in', 'out']) if (n[word]) at = this.written(this.skip(at.end));
    this.add(K.BindingIdentifier, R.other, at.start, at.end, { name: n.name });
  },

  // the key of a type's member names nothing that a check looks for
  memberKey(n) { this.key(n.key, n.computed, false, true); },
};

const typeMakers = {
  TSTypeReference(n, role) {
    this.other(role, n, () => { this.typeName(n.typeName); this.types([n.typeParameters]); });
  },
  TSTypeQuery(n, role) {
    this.other(role, n, () => { this.typeName(n.exprName); this.types([n.typeParameters]); });
  },
  // of `implements` and of an interface's `extends`
  TSExpressionWithTypeArguments(n, role) {
    this.other(role, n, () => { this.typeName(n.expression); this.types([n.typeParameters]); });
  },
  TSImportType(n, role) {
    this.other(role, n, () => {
      this.expression(n.argument, R.other);
      if (n.qualifier) this.other(R.other, n.qualifier);
      this.types([n.typeParameters]);
    });
  },
  TSLiteralType(n, role) {
    this.other(role, n, () => {
      if (n.literal.type !== 'TemplateLiteral') { this.expression(n.literal, R.other); return; }
      this.other(R.other, n.literal, () => {
        for (const q of n.literal.quasis) this.other(R.other, q);
        this.types(n.literal.expressions);
      });
    });
  },
  TSTypeParameter(n, role) {
    this.other(role, n, () => {
      this.typeParameter(n);
      this.types([n.constraint, n.default]);
    });
  },
  TSMappedType(n, role) {
    this.other(role, n, () => this.scoped(0, () => {
      this.typeParameter(n.typeParameter);
      this.types([n.typeParameter.constraint, n.nameType, n.typeAnnotation]);
    }));
  },
  TSConditionalType(n, role) {
    this.other(role, n, () => {
      this.types([n.checkType]);
      this.scoped(0, () => this.types([n.extendsType, n.trueType]));
      this.types([n.falseType]);
    });
  },
  // neither the label of a tuple's member nor the name in a predicate is a reference
  TSNamedTupleMember(n, role) {
    this.other(role, n, () => { this.other(R.other, n.label); this.types([n.elementType]); });
  },
  TSTypePredicate(n, role) {
    this.other(role, n, () => { this.other(R.other, n.parameterName); this.types([n.typeAnnotation]); });
  },
  TSIndexSignature(n, role) {
    this.other(role, n, () => {
      for (const p of n.parameters) this.other(R.other, p, () => this.types([p.typeAnnotation]));
      this.types([n.typeAnnotation]);
    });
  },
  TSPropertySignature(n, role) {
    this.other(role, n, () => {
      this.memberKey(n);
      this.types([n.typeAnnotation]);
    });
  },
  TSMethodSignature(n, role) {
    this.other(role, n, () => {
      this.memberKey(n);
      this.scoped(0, () => this.signature(n, n.key.end));
    });
  },
};
for (const kind of ['TSFunctionType', 'TSConstructorType', 'TSCallSignatureDeclaration', 'TSConstructSignatureDeclaration']) {
  typeMakers[kind] = function signature(n, role) { this.other(role, n, () => this.scoped(0, () => this.signature(n, n.start))); };
}

const isThis = (p) => Boolean(p) && p.type === 'Identifier' && p.name === 'this';
const isLink = (n) => /^Optional(Member|Call)Expression$/.test(n.type) || (n.type === 'TSNonNullExpression' && isLink(n.expression));

module.exports = { NoTree, methods, isThis, isLink };
