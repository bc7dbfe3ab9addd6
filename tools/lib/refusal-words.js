'use strict';
// For people who write tree makers: what is wrong where a table was turned down, and what document 01 asks for there.
// The number and the place are the proved program's; the words are made here.

const { K, KINDS, R, ROLES, F, S } = require('./kinds.js');
const { DEEPEST, LIBRARY, LIMIT, LONGEST, depthOf, tooLarge } = require('./lines.js');
const { HIGHEST_KIND, MOST_EXTRA, MOST_FLAGS, TYPESCRIPT, isElement, onPath, ownFlag, wordsFor } = require('./shape.js');
const { REFUSALS } = require('./sentences.js');

const HIGHEST_ROLE = ROLES.length - 1;
const MOST_SCOPE_FLAGS = 31;
const MOST_NUMBER = 4294967295;

// ---- a node and a scope in words

const flagWords = (flags) => {
  const names = Object.keys(F).filter((f) => Math.floor(flags / F[f]) % 2 === 1);
  return `${flags}${names.length > 0 ? ` (${names.join(', ')})` : ''}`;
};
const scopeFlagWords = (flags) => Object.keys(S).filter((f) => flags & S[f]).join(', ') || 'no flags';

const kindWords = (kind) => `kind ${kind} (${KINDS[kind] || 'there is none'})`;
const roleWords = (role) => `role ${role} (${ROLES[role] || 'there is none'})`;

function nodeWords(tree, i) {
  const n = tree.nodes[i];
  if (!n) return `node ${i}: there is none`;
  const name = n.name.length > 0 ? `, name ${JSON.stringify(n.name.toString())}` : '';
  return `node ${i}: ${kindWords(n.kind)}, parent ${n.parent}, ${roleWords(n.role)}, bytes ${n.start} to ${n.end}, scope ${n.scope}, flags ${flagWords(n.flags)}, extra ${n.extra}${name}`;
}

function scopeWords(tree, i) {
  const s = tree.scopes[i];
  return s ? `scope ${i}: in scope ${s.parent}, ${scopeFlagWords(s.flags)}, node ${s.node}` : `scope ${i}: there is none`;
}

const pathWords = ({ nodes }, i) => {
  const path = [];
  for (let j = i; ; j = nodes[j].parent) {
    path.push(j);
    if (j === 0) return path.join(', ');
  }
};

// ---- what is wrong: a sentence for each refusal

function sizesWrong(tree) {
  if (tree.nodes.length === 0 || tree.scopes.length === 0) return `there are ${tree.nodes.length} nodes and ${tree.scopes.length} scopes; both tables have at least one record`;
  const large = tooLarge(tree, LIBRARY);
  return large && !large.startsWith('depth') ? large : `the source type is ${tree.type}; it is 0 for a script, 1 for a module, 2 for a TypeScript module`;
}

function extraWrong(n) {
  const most = MOST_EXTRA[n.kind] || 0;
  if (n.extra <= most) return [];
  return [most === 0 ? `its extra is ${n.extra}, and ${KINDS[n.kind]} has no extra but 0` : `its extra is ${n.extra}, and that of ${KINDS[n.kind]} is at most ${most}`];
}

function flagsWrong(n, type) {
  const rest = n.flags - ownFlag(n, type);
  const out = [];
  if (rest % 2 !== 0) out.push(`its flags ${n.flags} are odd; there is no flag 1 (strictness is a flag of scopes)`);
  if (rest <= MOST_FLAGS) return out;
  if (n.flags & F.noFixedName && !(type === TYPESCRIPT && isElement(n))) out.push('it has flag 16384, which kinds 28 to 30 have in source type 2 alone');
  if (n.flags & F.asyncOrGenerator && n.kind !== K.Function) out.push('it has flag 8192, which kind 1, Function, has alone');
  return out.length > 0 ? out : [...out, `its flags ${n.flags} are above the sum of all that there are for it`];
}

function fieldsWrong(tree, i) {
  const n = tree.nodes[i];
  const out = [];
  if (n.kind > HIGHEST_KIND) out.push(`its kind is ${n.kind}, and the kinds are 0 to ${HIGHEST_KIND} (what has no number of its own is ${HIGHEST_KIND})`);
  if (n.role > HIGHEST_ROLE) out.push(`its role is ${n.role}, and the roles are 0 to ${HIGHEST_ROLE}`);
  out.push(...flagsWrong(n, tree.type));
  if (n.kind <= HIGHEST_KIND) out.push(...extraWrong(n));
  return out.join('; ');
}

function treeWrong(tree, i) {
  const { nodes } = tree;
  const n = nodes[i];
  if (i === 0) return n.kind !== K.Program ? `node 0 is the Program (kind 0), and not ${kindWords(n.kind)}` : `node 0 has parent 0, and not ${n.parent}`;
  if (n.kind === K.Program) return 'a Program (kind 0) is node 0 alone';
  if (n.parent >= i || !onPath(nodes, n.parent, i - 1)) {
    return `its parent is node ${n.parent}; in preorder it is the node before it or one of that node's ancestors: ${pathWords(tree, i - 1)}`;
  }
  return `its depth is ${depthOf(nodes)[i]}, and ${DEEPEST} is the deepest (node 0 has depth 0)`;
}

function spanWrong({ nodes, source }, i) {
  const n = nodes[i];
  if (n.start > n.end) return `its span starts at byte ${n.start}, behind its end ${n.end}`;
  if (n.end > source.length) return `its span ends at byte ${n.end}, and the source has ${source.length} bytes (not characters)`;
  return 'its name lies outside of the bytes of names';
}

function scopeRecordWrong({ scopes }, i) {
  const s = scopes[i];
  if (s.flags > MOST_SCOPE_FLAGS) return `scope ${i} has flags ${s.flags}, and the sum of all is ${MOST_SCOPE_FLAGS}`;
  if (i === 0 && s.parent !== 0) return `scope 0 is its own parent, and not in scope ${s.parent}`;
  return i > 0 && s.parent >= i ? `scope ${i} is in scope ${s.parent}; the scope around it has a smaller number` : null;
}

function scopeOfNodeWrong({ nodes, scopes }, i) {
  const n = nodes[i];
  if (n.scope >= scopes.length) return `its scope is ${n.scope}, and there are ${scopes.length} scopes, from 0`;
  if (n.kind === K.Class && n.extra >= scopes.length) return `its extra, the scope of the class, is ${n.extra}, and there are ${scopes.length} scopes, from 0`;
  for (let c = n.scope; ; c = scopes[c].parent) {
    if (scopes[c].node > i || !onPath(nodes, scopes[c].node, i)) {
      const around = c === n.scope ? `scope ${c}` : `scope ${c}, which is around its scope ${n.scope},`;
      return `${around} belongs to node ${scopes[c].node}, which is neither node ${i} nor an ancestor of it`;
    }
    if (c === 0) return null;
  }
}

// the place is a scope's number if a scope record is wrong, else a node's
const isScopePlace = (tree) => tree.scopes.some((_, i) => scopeRecordWrong(tree, i) !== null);

const superWrong = () => 'the search from this Super through the scopes around it fails: it comes to the scope of a class (the extra of kind 26) without having passed an element of that class, '
  + 'or to a scope with flag 4, and without 8 and 16, that belongs to the Program, or a `super()` in a constructor has no ClassBody around it';

const returnWrong = (tree, i) => {
  let unit = tree.nodes[i].parent;
  while (tree.nodes[unit].kind > K.StaticBlock) unit = tree.nodes[unit].parent;
  return `this return stands in the static block of node ${unit}, without a function between them; that is a fault of the rule, and not of its tree`;
};

// ---- what document 01 (13, 14, 15: document 02) asks for, a sentence each

const HELD = 'Kinds 5-14, 16 and 18-22 have role 3, 4 or 5 under a holder: 0, 3-13, 15-17. Kinds 1, 24, 26, 53 and 54 may, and are statements then. No other kind has these roles there, but 17 under Try.';
const ONE_STATEMENT = 'Kinds 6-11 and 13 hold exactly one statement with role 3, If one and at most one with role 4; else only Try holds roles 4 and 5.';
const IN_SWITCH = 'Switch holds only SwitchCase with role 3, at most one with flag 4096. A SwitchCase stands only there.';
const IN_TRY = 'Try holds one Block with role 3, at most one CatchClause with role 4, one Block with role 5, and at least one of the last two; CatchClause, only there, holds one Block.';
const LABELS = 'Labeled has one label of kind 33, Break and Continue at most one.';
const BODIES = 'FunctionBody stands only under kind 1 or 2, at most one each.';
const CLASS_BODIES = 'Class has one ClassBody, found only there.';
const ELEMENTS = 'Kinds 28-30 and 3 stand only under ClassBody; 28-30 have one key and at most one value, 28 one Function as value.';

const ASKED = {
  0: 'rulecheck reads comma-parted lines, no quoting, lines up to 2,100 bytes. J: source type, nodes, scopes. S: a scope. N: eight node numbers, then the rest as name. X: source in hexadecimal.',
  1: 'A table is empty or no whole number of records; more than 65,535 records; source or names above 1,048,576 bytes; source type above 1 (with TypeScript: above 2).',
  2: 'A node\'s kind, role, flag sum or extra not listed.',
  3: 'Node 0 is no Program or has a parent other than 0; Program elsewhere; a later node\'s parent is neither the node before it nor an ancestor of that; depth above 512 (node 0 has depth 0).',
  4: 'Span start after its end, or a span or name outside its bytes.',
  5: 'A scope that is missing (kind 26\'s extra included); scope flags above 31; scope 0\'s parent not 0; another\'s parent not smaller; a scope\'s node that is neither the using node nor its ancestor, for any scope in that node\'s chain.',
  6: 'Else, at its Super, a walk that the Rust ends in `unreachable!` or a failed `unwrap`.',
  15: 'A return whose nearest unit is a static block has no meaning in the standard and is refused.',
};

// of a child n of p that is misplaced
function askedOfChild(n, p) {
  if (n.kind === K.FunctionBody) return BODIES;
  if (n.kind === K.ClassBody) return CLASS_BODIES;
  if (n.kind === K.StaticBlock || isElement(n) || p.kind === K.MethodDefinition) return ELEMENTS;
  if (n.kind === K.SwitchCase || p.kind === K.Switch) return IN_SWITCH;
  if (n.kind === K.CatchClause || p.kind === K.Try || p.kind === K.CatchClause) return IN_TRY;
  return n.role === R.body ? HELD : n.role === R.alternate || n.role === R.finally ? ONE_STATEMENT : HELD;
}

// of a parent with a wrong count; a Labeled has two sorts of children
function askedOfParent(n, wrong) {
  if (n.kind === K.Break || n.kind === K.Continue || (n.kind === K.Labeled && /role 6/.test(wrong))) return LABELS;
  if (n.kind === K.Switch) return IN_SWITCH;
  if (n.kind === K.Try || n.kind === K.CatchClause) return IN_TRY;
  if (n.kind === K.Function || n.kind === K.Arrow) return BODIES;
  if (n.kind === K.Class) return CLASS_BODIES;
  return isElement(n) ? ELEMENTS : ONE_STATEMENT;
}

// ---- which line can't be read

function expectedLine(lines, place) {
  const head = /^J,\d+,(\d+),(\d+)$/.exec(lines[0] || '');
  const [nodes, scopes] = head ? [Number(head[1]), Number(head[2])] : [0, 0];
  if (place === 1 || !head) return { letter: 'J', numbers: 3, what: 'J with three numbers: source type, how many nodes, how many scopes' };
  if (place <= 1 + scopes) return { letter: 'S', numbers: 3, what: `S with three numbers, scope ${place - 2} of ${scopes}: parent, flags, node` };
  if (place <= 1 + scopes + nodes) {
    return { letter: 'N', numbers: 8, named: true, what: `N with eight numbers and a name, node ${place - 2 - scopes} of ${nodes}: kind, parent, role, start, end, scope, flags, extra, name` };
  }
  return { letter: 'X', numbers: 0, what: 'X with the source in hexadecimal, two digits a byte' };
}

// why a line that is there is not the one that is expected; rulecalls, which reads large tables, has no limit for a line
function lineFault(line, { letter, numbers, named }, large) {
  const fields = line.split(',');
  if (line.length > LONGEST && !large) return `it has ${line.length} bytes, and a line has at most ${LONGEST}`;
  if (line.endsWith('\r')) return 'it ends with a carriage return; lines end with a line feed alone';
  if (fields[0] !== letter) return `it begins with ${JSON.stringify(fields[0].slice(0, 20))}`;
  if (letter === 'X') return /^X,([0-9a-f]{2})*$/i.test(line) ? `its source has more than ${LIMIT} bytes` : 'what stands behind X is no list of pairs of hexadecimal digits';
  const own = named ? fields.slice(1, numbers + 1) : fields.slice(1);
  const odd = own.findIndex((f) => !/^\d+$/.test(f) || Number(f) > MOST_NUMBER);
  if (odd >= 0) return `its field ${odd + 1}, ${JSON.stringify(own[odd])}, is no number from 0 to ${MOST_NUMBER}`;
  if (own.length !== numbers || (named && fields.length < numbers + 2)) return named ? 'it has too few fields: the name has a comma before it even where it is empty' : `it has ${own.length} numbers`;
  if (letter === 'J') return `a table has at most ${LIMIT} records here`;
  return named ? `the names up to it have more than ${LIMIT} bytes` : null;
}

// the sentences on a line that can't be read
function lineWords(bytes, place, large) {
  const lines = bytes.toString('latin1').split('\n');
  const expected = expectedLine(lines, place);
  const line = lines[place - 1];
  const missing = line === undefined || (line === '' && place >= lines.length);
  const why = missing ? 'the lines end before it' : lineFault(line, expected, large);
  const shown = missing ? [] : [`it is: ${JSON.stringify(line.slice(0, 120))}${line.length > 120 ? ' ..' : ''}`];
  return { where: `line ${place}`, wrong: `line ${place} must be ${expected.what}${why ? `, but ${why}` : ''}`, shown, asked: ASKED[0] };
}

// ---- all of it

const WRONG = { 1: sizesWrong, 2: fieldsWrong, 3: treeWrong, 4: spanWrong, 6: superWrong, 15: returnWrong };

// the nodes and scopes that a refusal is about
function shownFor(tree, number, place) {
  if (number === 1) return [];
  if (number === 5 && isScopePlace(tree)) return [scopeWords(tree, place)];
  const n = tree.nodes[place];
  const parent = place > 0 && n.parent < place ? [nodeWords(tree, n.parent)] : [];
  const out = [nodeWords(tree, place), ...parent.map((p) => `its parent, ${p}`)];
  if (number === 14) tree.nodes.forEach((k, i) => { if (i > 0 && k.parent === place) out.push(`its child, ${nodeWords(tree, i)}`); });
  if (number === 5 || number === 6) {
    for (let c = n.scope; c < tree.scopes.length; c = tree.scopes[c].parent) {
      out.push(`its ${scopeWords(tree, c)}`);
      if (c === 0) break;
    }
  }
  return out;
}

function wrongOf(tree, number, place) {
  if (number === 5) return isScopePlace(tree) ? scopeRecordWrong(tree, place) : scopeOfNodeWrong(tree, place);
  if (WRONG[number]) return WRONG[number](tree, place);
  return wordsFor(tree, number, place) || REFUSALS[number];
}

function askedFor(tree, number, place, wrong) {
  const n = tree.nodes[place];
  if (number === 13) return askedOfChild(n, tree.nodes[n.parent]);
  return number === 14 ? askedOfParent(n, wrong) : ASKED[number];
}

// { where, wrong, shown, asked } for a refusal of a table whose lines are `bytes`
function refusalWords(bytes, tree, number, place) {
  if (number === 0 || !tree) return lineWords(bytes, place, Boolean(tree) && tooLarge(tree) !== null);
  const wrong = wrongOf(tree, number, place);
  const where = number === 1 ? 'the tables' : number === 5 && isScopePlace(tree) ? `scope ${place}` : `node ${place}`;
  return { where, wrong, shown: shownFor(tree, number, place), asked: askedFor(tree, number, place, wrong) };
}

module.exports = { refusalWords, nodeWords };
