'use strict';
// Names for the ways in which V8, the parser and the checks may disagree about a text. Each is recognised by a small
// function; what none recognises is a fault.

const { K, F, S } = require('./kinds.js');
const { CODES_FOR, classOf, leftOut } = require('./reasons.js');

// The nearest function or program around a node is sloppy, so that only a class makes the code strict.
function strictByClassAlone(tree, node) {
  const { nodes, scopes } = tree;
  let i = nodes[node].parent;
  while (i !== 0 && nodes[i].kind !== K.Function && nodes[i].kind !== K.Arrow) i = nodes[i].parent;
  const own = scopes.findIndex((s) => s.node === i && (i === 0 || s.flags & S.function));
  return (scopes[own].flags & S.strict) === 0;
}

const named = (tree, kind, name) => tree.nodes.some((n) => n.kind === kind && n.name.toString() === name);

// V8 turns the text down, the checks find nothing.
const MISSED = [
  // ContainsArguments looks at references alone; V8 and the parser look at every such word
  ['V8 takes no label `arguments` in a field or static block',
    ({ verdict, tree }) => /^'arguments' is not allowed/.test(verdict) && named(tree, K.LabelIdentifier, 'arguments')],
  // `await` is an identifier there in a script; V8 reads the value like a static block
  ['V8 takes no `await` in the value of a static field',
    ({ verdict, tree }) => verdict === 'Unexpected reserved word' && tree.nodes.some((n) => n.name.toString() === 'await' && inStaticField(tree, n))],
  // only a declaration's names are barred from being `let`; V8 bars those of a catch pattern too
  ['V8 takes no `let` in a catch pattern',
    ({ verdict, tree }) => /^let is disallowed/.test(verdict) && letInCatch(tree)],
  ['the parser makes a pattern of an object in parentheses, so `__proto__` twice isn\'t looked for',
    ({ verdict, parsed }) => /^Duplicate __proto__/.test(verdict) && patternInParentheses(parsed)],
];

const patternInParentheses = ({ errors }) => errors.some((e) => e.reasonCode === 'InvalidParenthesizedAssignment');

function inStaticField({ nodes }, n) {
  let p = n.parent;
  while (p !== 0 && nodes[p].kind !== K.Function && nodes[p].kind !== K.PropertyDefinition) p = nodes[p].parent;
  return nodes[p].kind === K.PropertyDefinition && (nodes[p].flags & F.static) !== 0;
}

function letInCatch({ nodes }) {
  return nodes.some((n) => {
    if (n.kind !== K.BindingIdentifier || n.name.toString() !== 'let') return false;
    let p = n.parent;
    while (nodes[p].kind === K.Other || nodes[p].kind === K.BindingRestElement) p = nodes[p].parent;
    return nodes[p].kind === K.CatchClause;
  });
}

// V8 takes the text, the checks find something.
const EXTRA = [
  // V8 looks for octals at the end of a strict function or program, not in a class of sloppy code
  ['V8 takes octals in a class of sloppy code, outside its functions',
    ({ findings, tree }) => findings.every((f) => [9, 10, 11].includes(f[0]) && strictByClassAlone(tree, f[1]))],
  // V8 forgets the name when a later parameter's default has parentheses
  ['V8 takes eval or arguments before a default in parentheses, in an arrow\'s parameters',
    ({ findings, tree, text }) => findings.every((f) => f[0] === 4 && parameterOfArrow(tree, f[1])) && /=\s*\(/.test(text)],
];

function parameterOfArrow({ nodes }, i) {
  let p = nodes[i].parent;
  while (nodes[p].kind === K.Other || nodes[p].kind === K.FormalParameter || nodes[p].kind === K.BindingRestElement) p = nodes[p].parent;
  return nodes[p].kind === K.Arrow;
}

function verdictClass(run) {
  const { parsed, verdict, findings } = run;
  if (!parsed.ok) return verdict ? 'agree: no tree, turned down' : `fault: no tree (${parsed.reason}), taken`;
  if (run.refusal) return `fault: refused with ${run.refusal.number}`;
  if (run.large) return 'agree: too large, not checked';
  if (run.refused && run.refused.startsWith('R,15,') && verdict) return 'agree: a return in a static block, turned down';
  if (run.refused) return `fault: ${run.refused}`;
  const found = findings.length > 0;
  if (found && verdict) return 'agree: found, turned down';
  if (!found && !verdict) return 'agree: nothing found, taken';
  const known = (verdict ? MISSED : EXTRA).find(([, test]) => test(run));
  if (known) return `${verdict ? 'missed' : 'extra'}: ${known[0]}`;
  const why = verdict ? classOf(parsed, run.text) : null;
  // with the option on these are found
  if (why === 'parser:async-or-generator-body' && run.asyncBodies) return `fault: ${why}`;
  return why ? `left out: ${why}` : `fault: ${verdict ? 'nothing found, turned down' : 'found, taken'}`;
}

// ---- place by place

// An error and a finding are about one place: the error lies in a span of the finding, or of the jump or label that
// raised it, or of the function whose directive it is about.
function samePlace(error, finding, tree, byte) {
  const at = byte(error.loc.index);
  const [code, node, a, b, c, d] = finding;
  const { start, end, kind } = tree.nodes[node];
  if ((at >= a && at < b) || (at >= c && at < d)) return true;
  if ([K.Break, K.Continue, K.Labeled, K.Unary].includes(kind)) return at >= start && at < end;
  return code === 12 || code === 24 ? true : false;
}

function parserClasses(run) {
  const { parsed, findings, tree, text } = run;
  const byte = (i) => Buffer.byteLength(text.slice(0, i), 'utf8');
  const errors = parsed.errors.filter((e) => CODES_FOR[e.reasonCode]);
  const meets = (e, f) => CODES_FOR[e.reasonCode].includes(f[0]) && samePlace(e, f, tree, byte);
  const out = [];
  for (const e of errors) if (!findings.some((f) => meets(e, f))) out.push([nameOf(ONLY_PARSER, 'parser', e.reasonCode, e, run), `the parser: ${e.message}`]);
  for (const f of findings) if (!errors.some((e) => meets(e, f))) out.push([nameOf(ONLY_CHECK, 'check', f[0], f, run), `found ${f}`]);
  return out.length > 0 ? out : [['agree', '']];
}

// the parser reports, the checks don't
const ONLY_PARSER = [
  ['`await` and `yield` as names in async functions and generators, the parser\'s task',
    (e) => /^(Await|Yield)BindingIdentifier$/.test(e.reasonCode)],
  ['an async function or generator as a body, the parser\'s task', (e, { asyncBodies }) => !asyncBodies && /InSingleStatementContext$/.test(e.reasonCode)],
  ['difference: `await` below a further scope of a static block', (e) => e.reasonCode === 'AwaitBindingIdentifierInStaticBlock'],
  ['difference: a getter and a setter after another element of the private name are told once',
    (e, { findings }) => e.reasonCode === 'PrivateNameRedeclaration' && findings.some((f) => f[0] === 1)],
  ['difference: `__proto__` twice in an object in parentheses, of which the parser makes a pattern',
    (e, { parsed }) => e.reasonCode === 'DuplicateProto' && patternInParentheses(parsed)],
  ['a label `arguments` in a field or static block', (e, { tree }) => e.reasonCode === 'ArgumentsInClass' && named(tree, K.LabelIdentifier, 'arguments')],
  ['`let` or `const` with a value in a for-in head, the parser\'s task',
    (e, { text }) => e.reasonCode === 'ForInOfLoopInitializer' && /^(let|const)\b/.test(text.slice(e.loc.index))],
];

// the checks find, the parser is silent
const ONLY_CHECK = [
  ['`delete` of what stands in parentheses, or of a private name in sloppy code, which the parser doesn\'t look at', (f) => f[0] === 31 || f[0] === 32],
  ['a class named eval or arguments in sloppy code, which the parser takes',
    (f, { tree }) => f[0] === 4 && tree.nodes[tree.nodes[f[1]].parent].kind === K.Class],
  ['a private name that is told once by the parser, for all its uses',
    (f, { parsed }) => f[0] === 8 && parsed.errors.some((e) => e.reasonCode === 'InvalidPrivateFieldResolution')],
  ['in a default that is strict only by its function\'s own directive, which the parser has not read yet',
    (f, { tree }) => [2, 4, 9, 10, 11, 31].includes(f[0]) && inLateStrictDefault(tree, f[1])],
  ['`for await` in a static block, which the parser doesn\'t read', (f) => f[0] === 25],
];

function inLateStrictDefault({ nodes, scopes }, i) {
  for (let p = i; p !== 0; p = nodes[p].parent) {
    if (nodes[p].kind !== K.FormalParameter) continue;
    const own = scopes[nodes[p].scope];
    if (own.flags & S.strict && !(scopes[own.parent].flags & S.strict)) return true;
  }
  return false;
}

function nameOf(list, side, what, item, run) {
  const known = list.find(([, test]) => test(item, run));
  return known ? `${side} only: ${known[0]}` : `fault: ${side} only: ${what}`;
}

// every class but agreement and faults
function classNames() {
  const names = (prefix, list) => list.map(([name]) => `${prefix}: ${name}`);
  return [...names('missed', MISSED), ...names('extra', EXTRA), ...leftOut().map((name) => `left out: ${name}`),
    ...names('parser only', ONLY_PARSER), ...names('check only', ONLY_CHECK)];
}

module.exports = { verdictClass, parserClasses, classNames };
