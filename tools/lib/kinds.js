'use strict';
// Document 01's numbers.

const KINDS = [
  'Program', 'Function', 'Arrow', 'StaticBlock', 'FunctionBody', 'Block', 'Labeled', 'For', 'ForIn', 'ForOf',
  'While', 'DoWhile', 'If', 'With', 'Switch', 'SwitchCase', 'Try', 'CatchClause', 'Break', 'Continue',
  'Return', 'Throw', 'Statement', 'Directive', 'VariableDeclaration', 'VariableDeclarator', 'Class', 'ClassBody',
  'MethodDefinition', 'PropertyDefinition', 'AccessorProperty', 'BindingIdentifier', 'IdentifierReference',
  'LabelIdentifier', 'PrivateIdentifier', 'NumericLiteral', 'StringLiteral', 'Super', 'Call', 'New',
  'Member', 'PrivateField', 'PrivateIn', 'Object', 'ObjectProperty', 'Unary', 'Chain', 'Await', 'Yield',
  'FormalParameter', 'FormalParameterRest', 'BindingRestElement', 'JSXAttribute', 'ExportDefault', 'ExportNamed',
  'Other',
];
const K = Object.fromEntries(KINDS.map((name, i) => [name, i]));

const ROLES = ['other', 'value', 'key', 'body', 'alternate', 'finally', 'label', 'left'];
const R = Object.fromEntries(ROLES.map((name, i) => [name, i]));

const F = {
  static: 2, privateKey: 4, written: 8, forAwait: 16, declaration: 32, heritage: 64, method: 128,
  initialiser: 256, plainName: 512, simpleParameters: 1024, delete: 2048, default: 4096, asyncOrGenerator: 8192, noFixedName: 16384,
};

// scope flags
const S = { strict: 1, top: 2, function: 4, arrow: 8, staticBlock: 16 };

const DECLARES = ['var', 'let', 'const', 'using', 'await using'];
const METHODS = ['constructor', 'method', 'get', 'set'];
const BASES = ['decimal', 'float', 'binary', 'octal', 'hexadecimal'];
const PROPERTIES = ['init', 'get', 'set'];

module.exports = { KINDS, K, ROLES, R, F, S, DECLARES, METHODS, BASES, PROPERTIES };
