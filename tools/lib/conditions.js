'use strict';
// The conditions of `standard262` (docs/DIFFERENCES.md), as tests on a tree: each says where it is broken first, or null.
// Those of `conditions` no text's tables break; those of `ordinary` no text's that has no early error.

const { K, R, F, S } = require('./kinds.js');

const within = (k, low, high) => low <= k && k <= high;
const makesScope = (k) => within(k, K.Function, K.StaticBlock) || k === K.Block || within(k, K.For, K.ForOf);
const mayMakeScope = (k) => within(k, K.With, K.Switch) || k === K.CatchClause || k === K.Class;
const isElement = (k) => within(k, K.MethodDefinition, K.AccessorProperty) || k === K.StaticBlock;

// scopes_follow (crates/ecma_base/specs/Scopes.antt)
function scopesFollow({ nodes, scopes }) {
  const kind = (i) => nodes[i].kind;
  const up = (i) => nodes[i].parent;
  const same = (i) => nodes[i].scope === nodes[up(i)].scope;
  const made = (i) => nodes[i].scope > 0 && scopes[nodes[i].scope].parent === nodes[up(i)].scope && scopes[nodes[i].scope].node === up(i);
  const flagged = (i) => {
    const { flags, node } = scopes[nodes[i].scope];
    const of = kind(node);
    return Boolean(flags & S.staticBlock) === (of === K.StaticBlock) && Boolean(flags & S.function) === within(of, K.Function, K.Arrow)
      && Boolean(flags & S.arrow) === (of === K.Arrow) && Boolean(flags & S.top) === (nodes[i].scope === 0);
  };
  const follows = (i) => (makesScope(kind(up(i))) ? made(i) : same(i) || (mayMakeScope(kind(up(i))) && made(i)));
  const classed = (i) => (kind(i) !== K.Class || scopes[nodes[i].extra].node === i)
    && (kind(i) !== K.ClassBody || (made(i) && nodes[i].scope === nodes[up(i)].extra))
    && (kind(up(i)) !== K.ClassBody || isElement(kind(i)));
  if (nodes[0].scope !== 0 || scopes[0].node !== 0) return 0;
  const off = nodes.findIndex((_, i) => !(flagged(i) && (i === 0 || (follows(i) && classed(i)))));
  return off < 0 ? null : off;
}

// a test of each node
const everywhere = (test) => (tree) => {
  const off = tree.nodes.findIndex((n, i) => !test(n, i, tree));
  return off < 0 ? null : off;
};

const textOf = (n, { source }) => source.subarray(n.start, n.end).toString('latin1');
const nameOf = (n) => n.name.toString();
const isName = (n) => within(n.kind, K.BindingIdentifier, K.LabelIdentifier);
const isField = (n) => within(n.kind, K.PropertyDefinition, K.AccessorProperty);
const isDefinition = (n) => within(n.kind, K.MethodDefinition, K.AccessorProperty);
const isStrict = (n, { scopes }) => (scopes[n.scope].flags & S.strict) !== 0;
const inBlockScope = (n, { scopes }) => (scopes[n.scope].flags & S.staticBlock) !== 0;

// children, and parts by their role, of each node; found once a tree
const kids = ({ nodes }) => {
  if (!kids.of.has(nodes)) {
    const all = nodes.map(() => []);
    nodes.forEach((n, i) => { if (i > 0) all[n.parent].push(i); });
    kids.of.set(nodes, all);
  }
  return kids.of.get(nodes);
};
kids.of = new WeakMap();
const part = (tree, i, role) => kids(tree)[i].find((c) => tree.nodes[c].role === role);
const initializer = (tree, i, j) => isField(tree.nodes[i]) && part(tree, i, R.value) === j;

// the nearest node above at which an edge begins a unit (unit_of, crates/ecma_trees/specs/Trail.antt)
function unitOf({ nodes }, edge, n) {
  for (let j = n; j !== 0; j = nodes[j].parent) if (edge(nodes[j].parent, j)) return nodes[j].parent;
  return 0;
}

// which functions are async, and which generators, by the parser's tree
function telling({ nodes, made }) {
  const told = new Map();
  for (const [n, i] of made) if (within(nodes[i].kind, K.Function, K.Arrow) && n.params) told.set(i, n);
  return { async: (i) => told.get(i).async === true, generator: (i) => told.get(i).generator === true };
}

// DirectiveTold: a directive stands under the program or a function's body
const directivePlaced = everywhere((n, i, { nodes }) => n.kind !== K.Directive || [K.Program, K.FunctionBody].includes(nodes[n.parent].kind));

// BaseTold: of a number that begins with 0 and a digit the base is that of its text
const baseTold = everywhere((n, i, tree) => {
  const text = textOf(n, tree);
  if (n.kind !== K.NumericLiteral || !/^0\d/.test(text)) return true;
  return n.extra === (/^0[0-7]+$/.test(text) ? 3 : n.extra === 1 ? 1 : 0);
});

// EscapesTold.plain: a string whose text is two bytes longer than its value has no escape with a digit
const DIGIT_ESCAPE = /^(?:[^\\]|\\[^0-9]|\\0(?!\d))*\\\d/s;
const escapesTold = everywhere((n, i, tree) => n.kind !== K.StringLiteral || n.end - n.start !== n.extra + 2 || !DIGIT_ESCAPE.test(textOf(n, tree)));

// OutsideUsed, PrivatesPlain: a PrivateIdentifier that is no key is used by a private member or by `in`
const privatesUsed = everywhere((n, i, { nodes }) => n.kind !== K.PrivateIdentifier || n.role === R.key || [K.PrivateField, K.PrivateIn].includes(nodes[n.parent].kind));

// PrivatesEntered: a private element has a name, and a method of it a body
const privatesEntered = everywhere((n, i, tree) => {
  if (!isDefinition(n) || (n.flags & F.privateKey) === 0) return true;
  const key = part(tree, i, R.key);
  if (key === undefined || tree.nodes[key].kind === K.IdentifierReference || tree.nodes[key].name.length === 0) return false;
  return n.kind !== K.MethodDefinition || (n.extra !== 0 && kids(tree)[part(tree, i, R.value)].some((c) => tree.nodes[c].kind === K.FunctionBody));
});

// written_key: a number, a string, or a node of no other kind that holds nothing
const writtenKey = (tree, key) => key !== undefined && ([K.NumericLiteral, K.StringLiteral].includes(tree.nodes[key].kind)
  || (tree.nodes[key].kind === K.Other && kids(tree)[key].length === 0));

// KeysPlain: no property of an object has a private key, and one whose key gives the name `__proto__` has it written so
const keysPlain = everywhere((n, i, tree) => {
  if (n.kind !== K.ObjectProperty) return true;
  const key = part(tree, i, R.key);
  if ((n.flags & F.privateKey) !== 0) return false;
  return key === undefined || tree.nodes[key].kind === K.IdentifierReference || nameOf(tree.nodes[key]) !== '__proto__' || writtenKey(tree, key);
});

// called_constructor: not static, and with a key that is not private and is written `constructor`
const calledConstructor = (tree, i) => {
  const key = part(tree, i, R.key);
  return (tree.nodes[i].flags & (F.static | F.privateKey)) === 0 && writtenKey(tree, key) && nameOf(tree.nodes[key]) === 'constructor';
};

// NameTold.reserved: no word that is reserved everywhere is a name
const RESERVED = new Set(`break case catch class const continue debugger default delete do else enum export extends false finally for function if
  import in instanceof new null return super switch this throw true try typeof var void while with`.split(/\s+/));
const notReserved = everywhere((n) => !isName(n) || !RESERVED.has(nameOf(n)));

// ConstructorsNamed.called: what the table calls a constructor is called so
const constructorsCalled = everywhere((n, i, tree) => n.kind !== K.MethodDefinition || n.extra !== 0 || calledConstructor(tree, i));

// LetTold.declared: a sloppy `let` that the Rust takes for bound by a let or const stands in no Initializer and no PropertyName of it
const letDeclared = everywhere((n, i, tree) => {
  if (n.kind !== K.BindingIdentifier || nameOf(n) !== 'let' || isStrict(n, tree)) return true;
  const { nodes } = tree;
  const edge = (a) => within(nodes[a].kind, K.Program, K.Arrow) || nodes[a].kind === K.VariableDeclaration;
  const u = unitOf(tree, edge, i);
  if (nodes[u].kind !== K.VariableDeclaration || nodes[u].extra === 0) return true;
  const keyed = (a) => kids(tree)[a].some((c) => nodes[c].role === R.key);
  return unitOf(tree, (a, b) => edge(a) || nodes[b].role === R.key || (nodes[b].role === R.value && !keyed(a)), i) === u;
});

// BlockTold.field: no Initializer of a field stands between a static block, by the scopes, and an `await`
const isAwait = (n) => n.kind === K.Await || (n.kind === K.ForOf && (n.flags & F.forAwait) !== 0) || (n.kind === K.VariableDeclaration && n.extra === 4);
function scopedInBlock(n, { scopes }) {
  for (let s = n.scope; ; s = scopes[s].parent) {
    if (scopes[s].flags & S.staticBlock) return true;
    if (scopes[s].flags & S.function || s === 0) return false;
  }
}
const blockField = everywhere((n, i, tree) => !isAwait(n) || !scopedInBlock(n, tree)
  || !isField(tree.nodes[unitOf(tree, (a, b) => within(tree.nodes[a].kind, K.Program, K.StaticBlock) || initializer(tree, a, b), i)]));

// ParameterTold: no static block and no Initializer of a field stands between a parameter and an `await` or `yield` in it
const isParameter = ({ nodes }, i) => nodes[i].kind === K.FormalParameter || (nodes[i].kind === K.BindingRestElement && nodes[nodes[i].parent].kind === K.FormalParameterRest);
function parameterUnit(tree, i) {
  const { nodes } = tree;
  if (nodes[i].kind !== K.Await && nodes[i].kind !== K.Yield) return null;
  if (!isParameter(tree, unitOf(tree, (a) => within(nodes[a].kind, K.Program, K.Arrow) || isParameter(tree, a), i))) return null;
  return nodes[unitOf(tree, (a, b) => within(nodes[a].kind, K.Program, K.StaticBlock) || isParameter(tree, a) || initializer(tree, a, b), i)];
}
const parameterField = everywhere((n, i, tree) => { const u = parameterUnit(tree, i); return u === null || !isField(u); });
const parameterTold = everywhere((n, i, tree) => { const u = parameterUnit(tree, i); return u === null || (!isField(u) && u.kind !== K.StaticBlock); });

// PropertyStands: a Super stands in a call, a `new` or a member
const propertyStands = everywhere((n, i, { nodes }) => n.kind !== K.Super || within(nodes[n.parent].kind, K.Call, K.Member));

// HeadTold, of several declarations
const heads = (n) => n.kind === K.ForIn || n.kind === K.ForOf;
const declarators = (tree, i) => {
  const d = kids(tree)[i].find((c) => tree.nodes[c].role === R.left);
  return d === undefined || tree.nodes[d].kind !== K.VariableDeclaration ? [] : kids(tree)[d].map((c) => ({ of: tree.nodes[d], ...tree.nodes[c] }));
};
const headSingle = everywhere((n, i, tree) => !heads(n) || declarators(tree, i).length < 2);
const headTold = everywhere((n, i, tree) => n.kind !== K.ForIn || !declarators(tree, i).some((v) => v.of.extra !== 0 && v.flags & F.initialiser && v.flags & F.plainName));

// ---- those that only texts with an early error break

// givers (crates/ecma_names/specs/Changed.antt)
function givers(tree, n) {
  const { nodes } = tree;
  const own = (i, j) => (nodes[i].kind === K.Function && !(nodes[i].flags & F.declaration && nodes[j].kind === K.BindingIdentifier))
    || (nodes[i].kind === K.Arrow && nodes[j].kind === K.FunctionBody) || nodes[i].kind === K.StaticBlock || initializer(tree, i, j);
  const out = [];
  for (let j = n; j !== 0; j = nodes[j].parent) {
    const i = nodes[j].parent;
    if (own(i, j)) return [...out, i];
    if (nodes[i].kind === K.Arrow) out.push(i);
  }
  return [...out, 0];
}

// NameTold.yield, .await
const nameTold = everywhere((n, i, tree) => {
  if (!isName(n)) return true;
  const { nodes } = tree;
  const told = telling(tree);
  if (nameOf(n) === 'yield' && !isStrict(n, tree)) return !givers(tree, i).some((u) => nodes[u].kind === K.Function && told.generator(u));
  if (nameOf(n) !== 'await' || tree.type === 1) return true;
  const by = givers(tree, i);
  return !by.some((u) => within(nodes[u].kind, K.Function, K.Arrow) && told.async(u)) && (!by.some((u) => nodes[u].kind === K.StaticBlock) || inBlockScope(n, tree));
});

// LetTold.sloppy
const letSloppy = everywhere((n, i, tree) => {
  if (n.kind !== K.BindingIdentifier || nameOf(n) !== 'let' || !isStrict(n, tree)) return true;
  const { nodes } = tree;
  const keyed = (a) => kids(tree)[a].some((c) => nodes[c].role === R.key);
  const u = nodes[unitOf(tree, (a, b) => within(nodes[a].kind, K.Program, K.Arrow) || nodes[a].kind === K.VariableDeclaration || nodes[b].role === R.key || (nodes[b].role === R.value && !keyed(a)), i)];
  return u.kind !== K.VariableDeclaration || u.extra === 0;
});

// ArgumentsTold: no `arguments` in a field or static block is written to or stands in an auto-accessor
const argumentsTold = everywhere((n, i, tree) => {
  const { nodes } = tree;
  if (n.kind !== K.IdentifierReference || nameOf(n) !== 'arguments') return true;
  const u = nodes[unitOf(tree, (a, b) => within(nodes[a].kind, K.Program, K.Function) || nodes[a].kind === K.StaticBlock || initializer(tree, a, b), i)];
  return !(u.kind === K.StaticBlock || isField(u)) || (u.kind !== K.AccessorProperty && !(isStrict(n, tree) && n.flags & F.written));
});

// EscapesTold.one: no string of strict code has an octal escape and \8 or \9
const escapesOne = everywhere((n, i, tree) => {
  if (n.kind !== K.StringLiteral || !isStrict(n, tree)) return true;
  const all = textOf(n, tree).match(/\\(?:\d+|[^])/g) || [];
  return !(all.some((e) => /^\\[89]/.test(e)) && all.some((e) => /^\\(?:[1-7]|0\d)/.test(e)));
});

// UsingTold.other, .clause
const usingTold = everywhere((n, i, { nodes }) => {
  if (n.kind !== K.VariableDeclaration || n.extra < 3) return true;
  const up = [];
  for (let j = n.parent; ; j = nodes[j].parent) { up.push(nodes[j].kind); if (j === 0) break; }
  const held = up.some((k) => within(k, K.StaticBlock, K.Block) || within(k, K.For, K.ForOf));
  return nodes[n.parent].kind !== K.SwitchCase && (held || !up.some((k) => within(k, K.Function, K.Arrow) || mayMakeScope(k)));
});

// OrdinaryHeld: what an If or a label holds in sloppy code is no async function and no generator
const ordinaryHeld = everywhere((n, i, tree) => {
  if (![K.If, K.Labeled].includes(n.kind) || isStrict(n, tree)) return true;
  const told = telling(tree);
  return [R.body, R.alternate].map((r) => part(tree, i, r)).every((f) => f === undefined || tree.nodes[f].kind !== K.Function || !(told.async(f) || told.generator(f)));
});

// DeleteTold: a delete with a private name stands in strict code (of a deleted private member: whatever holds one)
const deleteTold = everywhere((n, i, tree) => n.kind !== K.Unary || !(n.flags & F.delete) || isStrict(n, tree)
  || !tree.nodes.some((p) => p.kind === K.PrivateField && p.start >= n.start && p.end <= n.end && !isStrict(p, tree)));

// ContinuePlain: a continue that is in no loop has no label; LabelsOnce: no label stands within itself
const isUnit = ({ nodes }, i) => within(nodes[i].kind, K.Program, K.StaticBlock);
function aboveIn(tree, i) {
  const out = [];
  for (let j = i; !isUnit(tree, j);) { j = tree.nodes[j].parent; if (!isUnit(tree, j)) out.push(j); }
  return out;
}
const isLoop = (n) => within(n.kind, K.For, K.DoWhile);
const labelOf = (tree, i) => { const l = kids(tree)[i].find((c) => tree.nodes[c].kind === K.LabelIdentifier); return l === undefined ? null : nameOf(tree.nodes[l]); };
const continuePlain = everywhere((n, i, tree) => n.kind !== K.Continue || labelOf(tree, i) === null || aboveIn(tree, i).some((a) => isLoop(tree.nodes[a])));
const labelsOnce = everywhere((n, i, tree) => n.kind !== K.Labeled || !aboveIn(tree, i).some((a) => tree.nodes[a].kind === K.Labeled && labelOf(tree, a) === labelOf(tree, i)));

// ProtosTwiceAtMost, OnceOrTwice
const protosTwice = everywhere((n, i, tree) => n.kind !== K.Object || kids(tree)[i].filter((p) => {
  const q = tree.nodes[p];
  return q.kind === K.ObjectProperty && q.extra === 0 && !(q.flags & F.method) && writtenKey(tree, part(tree, p, R.key)) && nameOf(tree.nodes[part(tree, p, R.key)]) === '__proto__';
}).length < 3);
const onceOrTwice = everywhere((n, i, tree) => {
  if (n.kind !== K.ClassBody) return true;
  const count = new Map();
  for (const e of kids(tree)[i].filter((c) => isDefinition(tree.nodes[c]) && tree.nodes[c].flags & F.privateKey)) {
    const name = nameOf(tree.nodes[part(tree, e, R.key)]);
    count.set(name, (count.get(name) || 0) + 1);
  }
  return [...count.values()].every((c) => c < 3);
});

// ConstructorsNamed.alone, MethodNamed, ConstructorOrdinary: what is called "constructor" is one, has a body, and is neither async nor a generator; OneInClass: no class has two
const constructorsAlone = everywhere((n, i, tree) => {
  if (!isDefinition(n) || !calledConstructor(tree, i)) return true;
  if (n.kind !== K.MethodDefinition || n.extra !== 0) return false;
  const f = part(tree, i, R.value);
  const told = telling(tree);
  return kids(tree)[f].some((c) => tree.nodes[c].kind === K.FunctionBody) && !told.async(f) && !told.generator(f);
});
const oneInClass = everywhere((n, i, tree) => n.kind !== K.ClassBody || kids(tree)[i].filter((e) => isDefinition(tree.nodes[e]) && calledConstructor(tree, e)).length < 2);

// CallStands: no Super stands in a `new`
const callStands = everywhere((n, i, { nodes }) => n.kind !== K.Super || nodes[n.parent].kind !== K.New);

module.exports = {
  conditions: {
    scopesFollow, directivePlaced, baseTold, escapesTold, privatesUsed, privatesEntered, keysPlain, notReserved, constructorsCalled, letDeclared, blockField, parameterField, propertyStands, headSingle,
  },
  ordinary: {
    nameTold, letSloppy, argumentsTold, escapesOne, usingTold, ordinaryHeld, headTold, deleteTold, parameterTold, continuePlain, labelsOnce, protosTwice, onceOrTwice, constructorsAlone, oneInClass, callStands,
  },
};
