'use strict';
// V8's own verdict on a text, which it compiles and does not run. Modules need node's flag --experimental-vm-modules.

const vm = require('vm');

const FILE = 'rule';

function refusalOf({ module, text }) {
  try {
    if (module) new vm.SourceTextModule(text, { identifier: FILE });
    else new vm.Script(text, { filename: FILE });
    return null;
  } catch (e) {
    return e;
  }
}

// V8's message, or null where it takes the text
function verdictOf(one) {
  const e = refusalOf(one);
  if (e && !(e instanceof SyntaxError)) throw e;
  return e && e.message;
}

// The same with the line that it names, if it does. A text with which it comes to no end, nested too deep, it doesn't take either.
function refusedAt(one) {
  const e = refusalOf(one);
  if (!e) return null;
  const named = new RegExp(`^${FILE}:(\\d+)\\n`).exec(e.stack);
  return { message: e.message, line: named ? Number(named[1]) : undefined };
}

module.exports = { refusedAt, verdictOf };
