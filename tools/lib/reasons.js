'use strict';
// The parser's own words for early errors: which findings stand for them, and why the checks find nothing where none does.

const words = (s) => new Set(s.trim().split(/\s+/));

const CLASSES = [
  ['redeclaration', words('VarRedeclaration ParamDupe')],
  ['export', words('DuplicateExport DuplicateDefaultExport ModuleExportUndefined ModuleExportNameHasLoneSurrogate ExportBindingIsString')],
  ['regular-expression', words('DuplicateRegExpFlags MalformedRegExpFlags IncompatibleRegExpUVFlags')],
  // `await` is reserved in a static block's further scopes too; the Rust looks at the block's own scope alone
  ['difference:await-below-static-block', words('AwaitBindingIdentifierInStaticBlock')],
  ['parser:assignment-target', words('InvalidLhs InvalidParenthesizedAssignment')],
  ['parser:await-as-name', words('AwaitBindingIdentifier')],
  ['parser:yield-as-name', words('YieldBindingIdentifier')],
  ['parser:class-element-name', words('StaticPrototype ConstructorClassField ConstructorClassPrivateField ConstructorIsAccessor ConstructorIsAsync ConstructorIsGenerator')],
  ['parser:return', words('IllegalReturn')],
  ['parser:const-without-value', words('DeclarationMissingInitializer')],
  ['parser:async-or-generator-body', words('AsyncFunctionInSingleStatementContext GeneratorInSingleStatementContext')],
  ['parser:template-in-chain', words('OptionalChainingNoTemplate')],
  ['parser:meta-property', words('UnexpectedNewTarget ImportMetaOutsideModule')],
];

// The parser's word for an error, and the codes of findings that may stand for it.
const CODES_FOR = {
  ArgumentsInClass: [6, 4], AwaitBindingIdentifierInStaticBlock: [3, 2], AwaitNotInAsyncContext: [3, 33], AwaitNotInAsyncFunction: [3, 33],
  AwaitExpressionFormalParameter: [33], YieldInParameter: [33], DeletePrivateField: [32], DuplicateConstructor: [27],
  DuplicateProto: [1], ForInOfLoopInitializer: [24], IllegalBreakContinue: [18, 19, 20, 21, 22], IllegalLanguageModeDirective: [12],
  InvalidPrivateFieldResolution: [7, 8], LabelRedeclaration: [23], LetInLexicalBinding: [5, 2], PrivateNameRedeclaration: [1],
  SloppyFunction: [16], StrictFunction: [15], StrictDelete: [31], StrictEvalArguments: [4], StrictEvalArgumentsBinding: [4, 2],
  StrictNumericEscape: [9, 11], StrictOctalLiteral: [9, 10], StrictWith: [17], SuperNotAllowed: [28, 29], UnexpectedSuper: [30, 29],
  UnexpectedReservedWord: [2, 3, 4], UnexpectedUsingDeclaration: [13], AwaitBindingIdentifier: [2, 3], YieldBindingIdentifier: [2],
  AsyncFunctionInSingleStatementContext: [15, 16, 34], GeneratorInSingleStatementContext: [15, 16, 34],
};

// The classes of all reasons but those of the checks; null where one is not known.
function classOf(parsed, text) {
  const found = new Set();
  for (const e of parsed.errors) {
    const known = CLASSES.find(([, codes]) => codes.has(e.reasonCode));
    if (known) found.add(known[0]);
    // the Rust's parser itself turns down a let or const with a value in a for-in head
    else if (e.reasonCode === 'ForInOfLoopInitializer' && /^(let|const)\b/.test(text.slice(e.loc.index))) found.add('parser:for-head-value');
    else return null;
  }
  if (found.size === 0 && badPattern(parsed.program)) found.add('regular-expression');
  return found.size > 0 ? [...found].sort().join('+') : null;
}

// some regular expression that the engine turns down; the parser doesn't look into patterns
function badPattern(node) {
  if (!node || typeof node !== 'object') return false;
  if (Array.isArray(node)) return node.some(badPattern);
  if (node.type === 'RegExpLiteral') {
    try { new RegExp(node.pattern, node.flags); return false; } catch (e) { return true; }
  }
  return Object.keys(node).some((k) => k !== 'loc' && badPattern(node[k]));
}

// the names of all classes, but for sums of them
const leftOut = () => [...CLASSES.map(([name]) => name), 'parser:for-head-value'];

module.exports = { CODES_FOR, classOf, leftOut };
