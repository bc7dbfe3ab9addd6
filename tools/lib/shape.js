'use strict';
// Refusals 2, 3, 4, 5, 13 and 14 of a tree, in this order, with a sentence for people who write tree makers: what is wrong there and what the parent takes.
// It says what the proved refusal says (tools/shapes holds it against rulecheck). 6, a walk from a Super, is left to the checker.

const { K, KINDS, R, ROLES, F } = require('./kinds.js');
const { depthOf } = require('./lines.js');

const range = (a, b) => Array.from({ length: b - a + 1 }, (_, i) => a + i);
const STATEMENT = new Set([...range(5, 14), 16, ...range(18, 22)]);
const MAY = new Set([1, 24, 26, 53, 54]);
const HOLDER = new Set([0, ...range(3, 13), 15, 16, 17]);
const held = (role) => role >= 3 && role <= 5;

const HIGHEST_KIND = K.Other;
const MOST_EXTRA = { 24: 4, 28: 3, 35: 4, 44: 2, 55: 1, 26: Infinity, 36: Infinity };

function onPath(nodes, a, i) {
  for (let j = i; ; j = nodes[j].parent) {
    if (j === a) return true;
    if (j === 0) return false;
  }
}

// the sum of the flags that any kind may have
const MOST_FLAGS = 8190;

const TYPESCRIPT = 2;
const isElement = (n) => n.kind >= K.MethodDefinition && n.kind <= K.AccessorProperty;

// the flag that its kind alone may have, in type 2 class elements too, where it is set
function ownFlag(n, type) {
  const own = n.kind === K.Function ? F.asyncOrGenerator : type === TYPESCRIPT && isElement(n) ? F.noFixedName : 0;
  return own > 0 && Math.floor(n.flags / own) % 2 === 1 ? own : 0;
}

function wrongFields(tree) {
  return firstNode(tree, (n) => n.kind > HIGHEST_KIND || n.role > 7 || n.flags - ownFlag(n, tree.type) > MOST_FLAGS || n.flags % 2 !== 0 || n.extra > (MOST_EXTRA[n.kind] || 0));
}

function wrongTree(tree) {
  const { nodes } = tree;
  const depth = depthOf(nodes);
  return firstNode(tree, (n, i) => (i === 0 ? n.kind !== 0 || n.parent !== 0 : n.kind === 0 || !onPath(nodes, n.parent, i - 1) || depth[i] > 512));
}

function wrongScope(tree) {
  const { nodes, scopes } = tree;
  const s = scopes.findIndex((x, i) => x.flags > 31 || (i === 0 ? x.parent !== 0 : x.parent >= i));
  if (s >= 0) return s;
  return firstNode(tree, (n, i) => {
    if (n.scope >= scopes.length || (n.kind === K.Class && n.extra >= scopes.length)) return true;
    for (let c = n.scope; ; c = scopes[c].parent) {
      if (!onPath(nodes, scopes[c].node, i)) return true;
      if (c === 0) return false;
    }
  });
}

// ---- 13: what the parent p takes in place of its child n, or null where n may stand there

const HELD = 'statements with role 3, and of the roles 4 and 5 none';

// what kind 16, 17, 14 and 28 take in a role
function takenIn(p, role) {
  if (p.kind === K.Try) return role === R.alternate ? 'a CatchClause with role 4' : `a Block with role ${role}`;
  if (p.kind === K.CatchClause) return 'one Block with role 3';
  if (p.kind === K.Switch) return 'SwitchCases with role 3 alone';
  return null;
}

const onlyUnder = (n, p) => {
  if (n.kind === K.SwitchCase && !(p.kind === K.Switch && n.role === R.body)) return 'a SwitchCase stands under a Switch with role 3';
  if (n.kind === K.CatchClause && !(p.kind === K.Try && n.role === R.alternate)) return 'a CatchClause stands under a Try with role 4';
  if (n.kind === K.FunctionBody && p.kind !== K.Function && p.kind !== K.Arrow) return 'a FunctionBody stands under a Function or an Arrow';
  if (n.kind === K.ClassBody && p.kind !== K.Class) return 'a ClassBody stands under a Class';
  const element = n.kind === K.StaticBlock || isElement(n);
  return element && p.kind !== K.ClassBody ? `a ${KINDS[n.kind]} stands under a ClassBody` : null;
};

function misplacedWords(n, p, i) {
  if (i === 0) return null;
  const only = onlyUnder(n, p);
  if (only) return only;
  const holder = HOLDER.has(p.kind);
  if (STATEMENT.has(n.kind) && !(holder && held(n.role))) {
    return holder ? `a ${KINDS[n.kind]} is a statement and has role 3, 4 or 5 there` : `a ${KINDS[p.kind]} holds no statements; they stand under kinds 0, 3 to 13 and 15 to 17`;
  }
  const special = held(n.role) ? takenIn(p, n.role) : null;
  if (special && !fits(n, p)) return `a ${KINDS[p.kind]} takes ${special}`;
  if (n.role === R.alternate && p.kind !== K.If && p.kind !== K.Try) return `a ${KINDS[p.kind]} takes no child with role 4; an If and a Try do`;
  if (n.role === R.finally && p.kind !== K.Try) return `a ${KINDS[p.kind]} takes no child with role 5; a Try does`;
  if (holder && held(n.role) && !STATEMENT.has(n.kind) && !MAY.has(n.kind) && n.kind !== K.CatchClause) return `a ${KINDS[p.kind]} takes ${HELD}; ${KINDS[n.kind]} is no statement`;
  if (p.kind === K.MethodDefinition && n.role === R.value && n.kind !== K.Function) return 'a MethodDefinition takes a Function as its value (role 1)';
  return null;
}

// of the kind that a Try, a CatchClause or a Switch takes in this role
function fits(n, p) {
  if (p.kind === K.Switch) return n.kind === K.SwitchCase && n.role === R.body;
  if (p.kind === K.Try && n.role === R.alternate) return n.kind === K.CatchClause;
  return n.kind === K.Block && (p.kind === K.Try || n.role === R.body);
}

// ---- 14: how many children of which sort n must have, or null where it has them

function miscountedWords(n, kids) {
  const count = (test) => kids.filter(test).length;
  const role = (r) => count((k) => k.role === r);
  const kind = (k) => count((x) => x.kind === k);
  const labels = count((k) => k.role === R.label && k.kind === K.LabelIdentifier);
  const name = KINDS[n.kind];
  if (n.kind >= K.Labeled && n.kind <= K.With && role(R.body) !== 1) return `a ${name} takes one statement with role 3, and has ${role(R.body)}`;
  if (n.kind === K.If && role(R.alternate) > 1) return `an If takes at most one statement with role 4, and has ${role(R.alternate)}`;
  const defaults = count((k) => k.kind === K.SwitchCase && k.role === R.body && k.flags & F.default);
  if (n.kind === K.Switch && defaults > 1) return `a Switch takes at most one SwitchCase with flag 4096, and has ${defaults}`;
  if (n.kind === K.Try) {
    if (role(R.body) !== 1) return `a Try takes one Block with role 3, and has ${role(R.body)}`;
    if (role(R.alternate) > 1 || role(R.finally) > 1) return 'a Try takes at most one CatchClause (role 4) and one Block with role 5';
    if (role(R.alternate) + role(R.finally) === 0) return 'a Try takes a CatchClause (role 4), a Block with role 5, or both, and has neither';
  }
  if (n.kind === K.CatchClause && role(R.body) !== 1) return `a CatchClause takes one Block with role 3, and has ${role(R.body)}`;
  if (n.kind === K.Labeled && labels !== 1) return `a Labeled takes one LabelIdentifier with role 6, and has ${labels}`;
  if ((n.kind === K.Break || n.kind === K.Continue) && labels > 1) return `a ${name} takes at most one LabelIdentifier with role 6, and has ${labels}`;
  if ((n.kind === K.Function || n.kind === K.Arrow) && kind(K.FunctionBody) > 1) return `a ${name} takes at most one FunctionBody, and has ${kind(K.FunctionBody)}`;
  if (n.kind === K.Class && kind(K.ClassBody) !== 1) return `a Class takes one ClassBody, and has ${kind(K.ClassBody)}`;
  if (n.kind < K.MethodDefinition || n.kind > K.AccessorProperty) return null;
  if (role(R.key) !== 1) return `a ${name} takes one key (role 2), and has ${role(R.key)}`;
  if (n.kind === K.MethodDefinition && role(R.value) !== 1) return `a MethodDefinition takes one Function as value (role 1), and has ${role(R.value)}`;
  return role(R.value) > 1 ? `a ${name} takes at most one value (role 1), and has ${role(R.value)}` : null;
}

function childrenOf({ nodes }) {
  const kids = nodes.map(() => []);
  nodes.forEach((n, i) => { if (i > 0) kids[n.parent].push(n); });
  return kids;
}

function wrongPlace(tree) {
  return firstNode(tree, (n, i) => misplacedWords(n, tree.nodes[n.parent], i) !== null);
}

function wrongCount(tree) {
  const kids = childrenOf(tree);
  return firstNode(tree, (n, i) => miscountedWords(n, kids[i]) !== null);
}

// a sentence for 13 or 14 at a node: what it is, where it stands, what is taken there
function wordsFor(tree, number, place) {
  const n = tree.nodes[place];
  if (!n || (number !== 13 && number !== 14)) return null;
  if (number === 14) return miscountedWords(n, childrenOf(tree)[place]);
  const p = tree.nodes[n.parent];
  return `${KINDS[n.kind]} with role ${n.role} (${ROLES[n.role]}) under node ${n.parent}, ${KINDS[p.kind]}: ${misplacedWords(n, p, place)}`;
}

function firstNode(tree, test) { return tree.nodes.findIndex(test); }

// 15: the lowest return whose nearest unit is a static block, or -1. It is a fault of the rule, not of the tree maker.
function returnInStaticBlock(tree) {
  const { nodes } = tree;
  const unitOf = (i) => (nodes[i].kind <= K.StaticBlock ? nodes[i].kind : unitOf(nodes[i].parent));
  return firstNode(tree, (n) => n.kind === K.Return && unitOf(n.parent) === K.StaticBlock);
}

function refusalOf(tree) {
  const strays = (t) => firstNode(t, (n) => n.start > n.end || n.end > t.source.length);
  const tests = [[2, wrongFields], [3, wrongTree], [4, strays], [5, wrongScope], [13, wrongPlace], [14, wrongCount]];
  for (const [number, test] of tests) {
    const place = test(tree);
    if (place >= 0) return { number, place };
  }
  return null;
}

module.exports = { HIGHEST_KIND, MOST_EXTRA, MOST_FLAGS, TYPESCRIPT, isElement, onPath, ownFlag, refusalOf, returnInStaticBlock, wordsFor };
