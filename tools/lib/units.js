'use strict';
// The units of a rule by name and place: the program, functions, arrows and static blocks.

const { K, R } = require('./kinds.js');
const { shown } = require('./place.js');
const { Refused } = require('./routes.js');

const UNITS = ['program', 'function', 'arrow', 'static block'];
const PARENTHESIS = 1;
const KEYED = [K.MethodDefinition, K.PropertyDefinition, K.AccessorProperty, K.ObjectProperty];

// the first child that fits; a node's own are those behind it, as long as their parents are
function childOf({ nodes }, i, test) {
  for (let c = i + 1; c < nodes.length && nodes[c].parent >= i; c++) if (nodes[c].parent === i && test(nodes[c])) return nodes[c];
  return undefined;
}

// the name of a variable, a class element or a property whose value is this node
function nameAround(tree, i) {
  let at = tree.nodes[i].parent;
  while (tree.nodes[at].kind === K.Other && tree.nodes[at].extra === PARENTHESIS) at = tree.nodes[at].parent;
  const { kind } = tree.nodes[at];
  if (kind === K.VariableDeclarator) return childOf(tree, at, (n) => n.kind === K.BindingIdentifier);
  if (!KEYED.includes(kind)) return undefined;
  const key = childOf(tree, at, (n) => n.role === R.key);
  // `[a]` is no name
  return key && key.kind !== K.IdentifierReference ? key : undefined;
}

// a unit's own name, or that of what holds it; '' where it has none
function nameOf(tree, i) {
  if (i === 0 || tree.nodes[i].kind === K.StaticBlock) return '';
  const node = childOf(tree, i, (n) => n.kind === K.BindingIdentifier && n.role === R.other) || nameAround(tree, i);
  return node ? `${node.kind === K.PrivateIdentifier ? '#' : ''}${node.name.toString('utf8')}` : '';
}

function unitsOf(tree, places) {
  return tree.nodes.flatMap((n, node) => (n.kind > K.StaticBlock ? [] : [{ node, kind: UNITS[n.kind], name: nameOf(tree, node), ...places.at(n.start) }]));
}

const unitText = ({ node, kind, name, line, column }) => `${node}  ${kind}${name ? ` ${shown(name)}` : ''}  line ${line}, column ${column}`;

// `several` holds what is asked for, and of several there must be told which
function oneOf(found, several, none) {
  if (found.length === 1) return found[0].node;
  throw new Refused(found.length === 0 ? none : `${several}:\n${found.map(unitText).join('\n')}`);
}

// the unit by its name or number, or by the line, with the column where several begin there
function unitOf({ unit, line }, units) {
  if (line !== undefined) {
    const [at, column] = line.split(':').map(Number);
    const found = units.filter((u) => u.node > 0 && u.line === at && (column === undefined || u.column === column));
    return oneOf(found, `several units begin on line ${at}; --line ${at}:COLUMN takes one`, `no function, arrow or static block begins on line ${line}; --units lists them`);
  }
  if (unit === undefined) return 0;
  return oneOf(units.filter((u) => u.name === unit || String(u.node) === unit), `several units are called ${unit}; --unit takes the number of one`, `no unit is called ${unit}; --units lists them`);
}

module.exports = { unitOf, unitText, unitsOf };
