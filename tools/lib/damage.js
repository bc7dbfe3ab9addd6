'use strict';
// Trees and lines with a fault put into them, by numbers of a seed.

const KINDS = 56;
const ROLES = 8;
const DEFAULT = 4096;
const NO_FIXED_NAME = 16384;
const MODULE = 1;
const TYPESCRIPT = 2;
const isElement = (n) => n.kind >= 28 && n.kind <= 30;

// One number of one node changed: its kind, role, parent, scope, default flag or, at a class element where there is one, the flag of a name that is not fixed.
function damaged(whole, random) {
  // a module's tables are as good as a TypeScript module's
  const tree = { ...whole, type: whole.type === MODULE && random.below(2) === 0 ? TYPESCRIPT : whole.type };
  const how = random.below(11);
  const element = how === 10 ? tree.nodes.findIndex(isElement) : -1;
  const at = element > 0 ? element : 1 + random.below(tree.nodes.length - 1);
  const n = { ...tree.nodes[at] };
  if (how < 4) n.kind = 1 + random.below(KINDS - 1);
  else if (how < 7) n.role = random.below(ROLES);
  else if (how === 7) n.parent = random.below(at);
  else if (how === 8) n.flags ^= DEFAULT;
  else if (how === 10) n.flags ^= NO_FIXED_NAME;
  else n.scope = random.below(tree.scopes.length + 1);
  if (how < 4) n.extra = 0;
  const nodes = [...tree.nodes];
  nodes[at] = n;
  return { ...tree, nodes };
}

// One byte of lines changed for another that stands in lines.
const IN_LINES = '0123456789,\nJSNXUAaf';
function damagedLines(lines, random) {
  const out = Buffer.from(lines);
  out[random.below(out.length)] = IN_LINES.charCodeAt(random.below(IN_LINES.length));
  return out;
}

module.exports = { damaged, damagedLines };
