'use strict';
// Reads JavaScript and TypeScript with Debian's @babel/parser. A text that breaks only early errors still has a tree;
// a text outside the grammar has none. Which of the parser's errors are of which sort is listed here.

const PLACES = ['/usr/share/nodejs/@babel/parser', '@babel/parser'];

// a part of the parser's package, or null where it isn't installed
function partOf(name = '') {
  for (const place of PLACES) {
    try { return require(`${place}${name}`); } catch (e) { if (e.code !== 'MODULE_NOT_FOUND') throw e; }
  }
  return null;
}

function load() {
  const parser = partOf();
  if (!parser) throw new Error('no @babel/parser, of Debian\'s package node-babel7: tools/setup node installs it');
  return parser;
}

const version = () => (partOf('/package.json') || { version: 'not installed' }).version;

const words = (s) => new Set(s.trim().split(/\s+/));

// Errors that the checks are there to find. They leave a tree, and nothing is said about them here.
const CHECKED = words(`
  ArgumentsInClass AwaitBindingIdentifierInStaticBlock AwaitExpressionFormalParameter DeletePrivateField
  DuplicateConstructor DuplicateProto ForInOfLoopInitializer IllegalBreakContinue IllegalLanguageModeDirective
  InvalidPrivateFieldResolution LabelRedeclaration LetInLexicalBinding PrivateNameRedeclaration SloppyFunction
  StrictDelete StrictEvalArguments StrictEvalArgumentsBinding StrictFunction StrictNumericEscape StrictOctalLiteral
  StrictWith SuperNotAllowed UnexpectedSuper UnexpectedUsingDeclaration YieldInParameter`);

// Early errors that document 01 leaves out, or that belong to the parser. They leave a tree too, with a note.
// Grammar errors over which the Rust's parser makes a tree all the same stand here as well
// (a top-level return, an async function as a body).
const NOTED = words(`
  AsyncFunctionInSingleStatementContext AwaitBindingIdentifier AwaitInUsingBinding ConstructorClassField
  ConstructorClassPrivateField ConstructorIsAccessor ConstructorIsAsync ConstructorIsGenerator
  DeclarationMissingInitializer DuplicateDefaultExport DuplicateExport DuplicateRegExpFlags ExportBindingIsString
  GeneratorInSingleStatementContext IllegalReturn ImportMetaOutsideModule IncompatibleRegExpUVFlags InvalidLhs
  InvalidParenthesizedAssignment MalformedRegExpFlags ModuleAttributesWithDuplicateKeys
  ModuleExportNameHasLoneSurrogate ModuleExportUndefined OptionalChainingNoTemplate ParamDupe StaticPrototype
  UnexpectedNewTarget VarRedeclaration YieldBindingIdentifier`);

// The words that an identifier check looks for; any other reserved word is no identifier at all.
const LOOKED_FOR = words('implements interface let package private protected public static yield await eval arguments');

// 'checked', 'noted' or 'grammar'
function sortOf(error, ast, text) {
  const code = error.reasonCode;
  // `0_8` is no number in any code
  if (code === 'StrictOctalLiteral' && /^0\d*_/.test(text.slice(error.loc.index))) return 'grammar';
  if (CHECKED.has(code)) return 'checked';
  if (NOTED.has(code)) return 'noted';
  if (code === 'UnexpectedReservedWord') {
    const word = error.details && error.details.reservedWord;
    return LOOKED_FOR.has(word) ? 'checked' : 'grammar';
  }
  if (code === 'AwaitNotInAsyncContext' || code === 'AwaitNotInAsyncFunction') {
    const at = around(ast, (n) => n.type === 'AwaitExpression' && n.start === error.loc.index);
    return at && (at.staticBlock || at.asyncParameters) ? 'checked' : 'grammar';
  }
  return 'grammar';
}

// Where a node stands: directly in a static block, in the parameters of an async arrow, in async code. `await` outside
// async code is in the grammar of a static block, and in such parameters it is an error of its own.
function around(ast, test) {
  let found = null;
  const walk = (node, here) => {
    if (!node || typeof node.type !== 'string' || found) return;
    if (test(node)) { found = here; return; }
    for (const key of Object.keys(node)) {
      const value = node[key];
      if (!value || typeof value !== 'object' || key === 'loc') continue;
      const inside = insideOf(node, key, here);
      for (const child of Array.isArray(value) ? value : [value]) walk(child, inside);
    }
  };
  walk(ast, { async: ast.sourceType === 'module' });
  return found;
}

function insideOf(node, key, here) {
  const { type } = node;
  if (type === 'StaticBlock') return { staticBlock: true };
  if (type === 'ArrowFunctionExpression') {
    return key === 'params' ? { ...here, asyncParameters: here.asyncParameters || node.async } : { async: node.async };
  }
  if (/Function|ObjectMethod|ClassMethod|ClassPrivateMethod/.test(type)) return key === 'key' ? here : { async: node.async };
  if (/^Class(Private|Accessor)?Property$/.test(type) && key === 'value') return {};
  return here;
}

// What was marked may stand only where `await` may.
function misplacedMark(ast, marks) {
  const loops = [...marks.forAwait].map((i) => around(ast, (n) => n.type === 'ForOfStatement' && n.start === i));
  const usings = [...marks.awaitUsing.keys()].map((i) => around(ast, (n) => n.type === 'VariableDeclaration' && n.start === i));
  return loops.some((at) => !at || !at.staticBlock) || usings.some((at) => !at || !(at.staticBlock || at.async));
}

let babel = null;

function options({ module, jsx, typescript }) {
  return {
    sourceType: module || typescript ? 'module' : 'script',
    errorRecovery: true,
    createParenthesizedExpressions: true,
    attachComment: false,
    plugins: [
      'explicitResourceManagement',
      ['decorators', { decoratorsBeforeExport: false, allowCallParenthesized: true }],
      'decoratorAutoAccessors', 'regexpUnicodeSets', 'importAssertions',
    ].concat(jsx ? ['jsx'] : [], typescript ? ['typescript'] : []),
  };
}

const blanked = (text, from, to) => text.slice(0, from) + text.slice(from, to).replace(/[^\n\r\u2028\u2029]/g, ' ') + text.slice(to);

// Forms that this parser doesn't read and the Rust's does are blanked or filled in. Marked, since the tree has them:
// `for await` in a static block, `await using`, a class declaration without a name. Only blanked, since no check looks
// at them: the phase of an import (`import.source(x)`, `import defer * as x`) and its attributes (`with { .. }`), but for
// attributes with an escape that the check of strings could find: those give no tree.
function repair(text, error, marks) {
  const at = error.loc && error.loc.index;
  if (at === undefined) return null;
  if (error.reasonCode === 'UnsupportedMetaProperty') {
    const dot = /\.\s*$/.exec(text.slice(0, at));
    const phase = /^(source|defer)\s*\(/.exec(text.slice(at));
    if (dot && phase) return blanked(text, dot.index, at + phase[1].length);
  }
  if (error.reasonCode === 'UnexpectedToken') {
    const defer = /\bimport\s+(defer|source)\s+$/.exec(text.slice(0, at));
    if (defer) return blanked(text, at - defer[0].length + 6, at);
    const attributes = /(?:['"]\s*)(with\s*)$/.exec(text.slice(0, at));
    const list = /^\{[^{}]*\}/.exec(text.slice(at));
    // the same attribute twice is an error of the import's own
    const plain = (key) => key.replace(/\\u([0-9a-fA-F]{4})/g, (_, h) => String.fromCharCode(parseInt(h, 16))).replace(/[{}\s'"]/g, '');
    const keys = list ? list[0].split(',').map((a) => plain(a.split(':')[0])).filter(Boolean) : [];
    if (attributes && list && !/\\[0-9]/.test(list[0]) && new Set(keys).size === keys.length) return blanked(text, at - attributes[1].length, at + list[0].length);
  }
  if (error.reasonCode === 'UnexpectedToken' && text.startsWith('await', at) && /\bfor\s*$/.test(text.slice(0, at))) {
    marks.forAwait.add(text.slice(0, at).lastIndexOf('for'));
    return text.slice(0, at) + '     ' + text.slice(at + 5);
  }
  if (error.reasonCode === 'MissingSemicolon' || error.reasonCode === 'UnexpectedToken') {
    const m = /\bawait([ \t]+using)[ \t]*$/.exec(text.slice(0, at));
    if (m) {
      marks.awaitUsing.set(m.index + m[0].indexOf('using'), m.index);
      return text.slice(0, m.index) + '     ' + text.slice(m.index + 5);
    }
  }
  if (error.reasonCode === 'MissingClassName' && marks.nameless === null) {
    // earlier marks move with the text behind them
    const moved = (i) => (i > at ? i + NAME.length : i);
    marks.forAwait = new Set([...marks.forAwait].map(moved));
    marks.awaitUsing = new Map([...marks.awaitUsing].map(([k, v]) => [moved(k), moved(v)]));
    marks.nameless = at;
    return text.slice(0, at) + NAME + text.slice(at);
  }
  return null;
}

const NAME = ' \u03bd ';

// A text's tree, with the parser's errors that matter; or why there is none.
function parse(text, { module = false, jsx = false, typescript = false } = {}) {
  if (!babel) babel = load();
  const marks = { forAwait: new Set(), awaitUsing: new Map(), nameless: null };
  let source = text;
  for (let turn = 0; ; turn++) {
    let file = null;
    let errors;
    try {
      file = babel.parse(source, options({ module, jsx, typescript }));
      errors = file.errors;
    } catch (e) {
      // the parser itself fails on few texts (`await using a: new <T>(b: T) => C = d` is one): they have no tree either
      errors = [e instanceof SyntaxError || e instanceof RangeError ? e : new SyntaxError(`the parser fails on this text: ${e.message}`)];
    }
    const wrong = file ? errors.filter((e) => sortOf(e, file.program, source) === 'grammar') : errors;
    if (wrong.length === 0 && misplacedMark(file.program, marks)) {
      return { ok: false, message: '`await` outside async code', reason: 'AwaitNotInAsyncContext', errors };
    }
    if (wrong.length === 0) {
      const unmark = (i) => (marks.nameless === null || i <= marks.nameless ? i : Math.max(marks.nameless, i - NAME.length));
      const notes = errors.filter((e) => sortOf(e, file.program, source) === 'noted');
      return { ok: true, program: file.program, comments: file.comments, errors, notes, marks, unmark };
    }
    const next = turn < 8 ? wrong.map((e) => repair(source, e, marks)).find((s) => s !== null) : null;
    if (!next) {
      const deep = /call stack/.test(wrong[0].message);
      return { ok: false, deep, message: wrong[0].message, reason: wrong[0].reasonCode || wrong[0].name, errors };
    }
    source = next;
  }
}

module.exports = { parse, sortOf, version };
