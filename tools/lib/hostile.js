'use strict';
// Texts that a reader has trouble with: nested deep, read again and again by a parser that guesses, long in one way, or full of errors.
// Each is made to a number of bytes.

const { LIBRARY } = require('./lines.js');

const repeated = (part, bytes) => part.repeat(Math.max(1, Math.floor(bytes / part.length)));

// open.. middle ..close, nested
const nested = (open, middle, close) => (bytes) => {
  const depth = Math.max(1, Math.floor((bytes - middle.length) / (open.length + close.length)));
  return open.repeat(depth) + middle + close.repeat(depth);
};

// before, a part again and again, behind
const row = (part, before = '', behind = '') => (bytes) => before + repeated(part, bytes - before.length - behind.length) + behind;

// before, a part that differs by its number, behind
const counted = (part, before = '', behind = '') => (bytes) => {
  const parts = [];
  for (let i = 0, left = bytes - before.length - behind.length; ; i++) {
    const next = part(i.toString(36));
    left -= next.length;
    if (left < 0) return before + parts.join('') + behind;
    parts.push(next);
  }
};

const JS = '.js';
const MODULE = '.mjs';
const TS = '.ts';

const DEEP = {
  parentheses: [JS, nested('(', 'a', ')')],
  brackets: [JS, nested('[', 'a', ']')],
  blocks: [JS, nested('{', 'a', '}')],
  objects: [JS, nested('({a:', 'a', '})')],
  functions: [JS, nested('function f(){', 'a', '}')],
  'function values': [JS, nested('(function(){', 'a', '})')],
  arrows: [JS, nested('a=>{', 'a', '}')],
  'arrows in a row': [JS, row('a=>', '', 'a')],
  'arrows as defaults': [JS, nested('((a=', 'a', ')=>a)')],
  'parameters in parentheses': [JS, nested('((a)=>', 'a', ')')],
  'async calls': [JS, nested('async(', 'a', ')')],
  'async arrows': [JS, nested('async(a=', 'a', ')=>a')],
  classes: [JS, nested('class A{m(){', 'a', '}}')],
  'static blocks': [JS, nested('class A{static{', 'a', '}}')],
  'classes that extend': [JS, nested('class extends ', 'a', '{}')],
  templates: [JS, nested('`${', 'a', '}`')],
  patterns: [JS, nested('[', 'a', ']=a')],
  'object patterns': [JS, nested('({a:', 'a', '}=a)')],
  spreads: [JS, nested('[...', 'a', ']')],
  'computed keys': [JS, nested('({[', 'a', ']:a})')],
  unary: [JS, row('!', '', 'a')],
  'typeof': [JS, row('typeof ', '', 'a')],
  'new': [JS, row('new ', '', 'a')],
  conditions: [JS, nested('a?', 'a', ':a')],
  'conditions in a row': [JS, row('a?a:', '', 'a')],
  assignments: [JS, row('a=', '', 'a')],
  powers: [JS, row('a**', '', 'a')],
  sums: [JS, row('a+', '', 'a')],
  members: [JS, row('.a', 'a')],
  calls: [JS, row('()', 'a')],
  chains: [JS, row('?.a', 'a')],
  'tagged templates': [JS, row('``', 'a')],
  labels: [JS, counted((n) => `a${n}:`, '', ';')],
  ifs: [JS, row('if(a)', '', ';')],
  'else ifs': [JS, row('if(a);else ', '', ';')],
  loops: [JS, row('for(;;)', '', ';')],
  dos: [JS, nested('do ', ';', 'while(a);')],
  tries: [JS, nested('try{', 'a', '}finally{}')],
  switches: [JS, nested('switch(a){case a:', 'a', '}')],
  withs: [JS, row('with(a)', '', ';')],
  decorators: [JS, nested('@(class{', '', '})class A{}')],
  awaits: [MODULE, row('await ', '', 'a')],
  yields: [JS, row('yield ', 'function*f(){', '}')],
  tags: [JS, nested('<a>', 'a', '</a>')],
  'groups of an expression': [JS, (bytes) => `/${nested('(', 'a', ')')(bytes - 2)}/`],
};

const LONG = {
  'semicolons': [JS, row(';')],
  'statements': [JS, row('a;')],
  'statements in lines': [JS, row('a\n')],
  'line feeds': [JS, row('\n')],
  'carriage returns': [JS, row('\r')],
  'line separators': [JS, row('\u2028')],
  'blanks': [JS, row(' ')],
  'byte order marks': [JS, row('\ufeff')],
  'zeros': [JS, row('\0')],
  'at signs': [JS, row('@')],
  'hashes': [JS, row('#')],
  'backslashes': [JS, row('\\')],
  'quotes': [JS, row('"')],
  'one name': [JS, row('a')],
  'one name in escapes': [JS, row('\\u{61}')],
  'one string': [JS, row('a', '"', '"')],
  'one string in escapes': [JS, row('\\u{d800}', '"', '"')],
  'octal escapes': [JS, row('\\1', '"use strict";"', '"')],
  'one template': [JS, row('a', '`', '`')],
  'one comment': [JS, row('a', '/*', '*/')],
  'a comment without end': [JS, row('*', '/*')],
  'comments': [JS, row('/**/')],
  'comments in a head': [JS, row('/**/', 'function f', '(){}')],
  'html comments': [JS, row('<!--\n')],
  'one number': [JS, row('1')],
  'separators': [JS, row('1_', '', '1')],
  'wrong separators': [JS, row('_', '1')],
  'one bigint': [JS, row('f', 'class A{0x', 'n=1}')],
  'one expression': [JS, row('a', '/', '/')],
  'an expression of choices': [JS, row('a|', '/', '/')],
  'an expression of classes': [JS, row('[^a]*', '/', '/')],
  'an expression of names': [JS, counted((n) => `(?<a${n}>)`, '/', '/')],
  'flags': [JS, row('g', '/a/')],
  'expressions': [JS, row('/a/;')],
  'holes': [JS, row(',', '[', ']')],
  'elements': [JS, row('a,', '[', ']')],
  'object spreads': [JS, row('...a,', '({', '})')],
  'keys': [JS, counted((n) => `a${n}:1,`, '({', '})')],
  'prototypes': [JS, row('__proto__:1,', '({', '})')],
  'parameters': [JS, counted((n) => `a${n},`, 'function f(', '){}')],
  'the same parameter': [JS, row('a,', 'function f(', '){}')],
  'names of a let': [JS, counted((n) => `a${n},`, 'let ', 'z_')],
  'the same let': [JS, row('let a;')],
  'vars in blocks': [JS, row('var a;', '{'.repeat(400), '}'.repeat(400))],
  'functions in blocks': [JS, row('{function a(){}}')],
  'members of a class': [JS, counted((n) => `a${n};`, 'class A{', '}')],
  'methods of a class': [JS, row('a(){}', 'class A{', '}')],
  'private names': [JS, counted((n) => `#a${n};`, 'class A{', '}')],
  'the same private name': [JS, row('#a;', 'class A{', '}')],
  'private names that there are not': [JS, counted((n) => `a.#a${n};`, 'class A{static{', '}}')],
  'private names in two lines': [JS, (bytes) => { const one = counted((n) => `#a${n};`)(bytes / 2 - 8); return `class A{${one}\n${one}}`; }],
  'constructors': [JS, row('constructor(){}', 'class A{', '}')],
  'cases': [JS, row('case a:', 'switch(a){', '}')],
  'defaults': [JS, row('default:', 'switch(a){', '}')],
  'breaks': [JS, row('break;')],
  'breaks to a label': [JS, row('break a;', 'a:{', '}')],
  'labels one behind the other': [JS, counted((n) => `a${n}:;`)],
  'awaits outside': [JS, row('await a;', 'async()=>a;class A{static{', '}}')],
  'assignments to numbers': [JS, row('1=a;')],
  'ones assigned': [JS, row('1=', '', '1')],
  'octals': [JS, row('01;', '"use strict";')],
  'directives': [JS, row('"use strict";')],
  'imports': [MODULE, row('import"a";')],
  'exports': [MODULE, counted((n) => `a as a${n},`, 'let a;export{', '}')],
  'exports of one name': [MODULE, row('a,', 'let a;export{', '}')],
  'imports of phases': [MODULE, row('import.source(a);')],
  'import attributes': [MODULE, row('import"a"with{};')],
  'nameless classes': [JS, row('class{}\n')],
  'fors that await': [JS, row('for await(a of a);', 'class A{static{', '}}')],
  'usings that await': [MODULE, row('await using a=a;')],
  'wide letters': [JS, row('"\u{1f600}";')],
};

const TYPED = {
  'types in types': [TS, nested('A<', 'a', '>')],
  'type arguments': [TS, nested('a<', '(', '>(a)')],
  'types of a name': [TS, (bytes) => `let a:${nested('A<', 'A', '>')(bytes - 6)}`],
  'types that may be calls': [TS, row('a<', '', '(')],
  'types in parentheses': [TS, (bytes) => `let a:${nested('(', 'A', ')')(bytes - 6)}`],
  'arrays of types': [TS, row('[]', 'let a:A')],
  'tuples': [TS, (bytes) => `let a:${nested('[', 'A', ']')(bytes - 6)}`],
  'object types': [TS, (bytes) => `let a:${nested('{a:', 'A', '}')(bytes - 6)}`],
  'function types': [TS, (bytes) => `let a:${row('(a:A)=>', '', 'A')(bytes - 6)}`],
  'function types in parameters': [TS, (bytes) => `let a:${nested('(a:', 'A', ')=>A')(bytes - 6)}`],
  'conditional types': [TS, row('A extends A?A:', 'let a:', 'A')],
  'unions': [TS, row('|A', 'let a:A')],
  'keyofs': [TS, row('keyof ', 'let a:', 'A')],
  'template types': [TS, (bytes) => `let a:${nested('`${', 'A', '}`')(bytes - 6)}`],
  'generic arrows': [TS, nested('<T>(a=', 'a', ')=>a')],
  'generic calls': [TS, nested('a<T>(', 'a', ')')],
  'generic async calls': [TS, nested('async<T>(', 'a', ')')],
  'assertions': [TS, row('<T>', '', 'a')],
  'assertions in parentheses': [TS, nested('<T>(', 'a', ')')],
  'as': [TS, row(' as A', 'a')],
  'bangs': [TS, row('!', 'a')],
  'parameters with types': [TS, nested('(a:(', 'a', ')=>a)=>a')],
  'parameters with defaults': [TS, nested('(a:A=', 'a', ')=>a')],
  'conditions that may be arrows': [TS, nested('a?(a):', 'a', '=>a')],
  'conditions in conditions': [TS, nested('a?(', 'a', '):a=>a')],
  'arrows in conditions': [TS, nested('a?(a)=>', 'a', ':a')],
  'results': [TS, nested('(a):A=>(', 'a', ')')],
  'optional parameters': [TS, nested('(a?:A,b=', 'a', ')=>a')],
  'overloads': [TS, row('function f():A;', '', 'function f(){}')],
  'enums': [TS, counted((n) => `a${n},`, 'enum A{', '}')],
  'interfaces': [TS, row('interface A{}\n')],
  'class members': [TS, counted((n) => `a${n}:A;`, 'class A{', '}')],
  'index signatures': [TS, row('[a:A]:A;', 'class A{', '}')],
  'commented types': [TS, row('/**/a<A>(a);')],
};

const MOST = LIBRARY.bytes;

// Not so deep that the parser ends for want of stack, and each level is read twice: it guesses.
const GUESSED = { 'assertions, 99 deep': [TS, TYPED['assertions in parentheses'][1], 400] };

const SHAPES = {};
for (const [name, [ending, make, bytes = MOST]] of Object.entries({ ...DEEP, ...LONG, ...TYPED, ...GUESSED })) SHAPES[name] = { ending, make, bytes };

// The text of a shape, as bytes, of so many at most.
function textOf(name, bytes) {
  const { make } = SHAPES[name];
  let asked = bytes;
  let text = Buffer.from(make(asked));
  while (text.length > bytes) {
    asked = Math.floor((0.999 * asked * bytes) / text.length);
    text = Buffer.from(make(asked));
  }
  return text;
}

module.exports = { SHAPES, textOf };
