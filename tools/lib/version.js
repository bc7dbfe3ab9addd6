'use strict';
// The versions of all that takes part in a verdict.

const fs = require('fs');
const path = require('path');
const { execFileSync } = require('child_process');
const parser = require('./parser.js');

const TOP = path.resolve(__dirname, '../..');

// the library's version is that of its binding
const own = () => /^version = "(.*)"/m.exec(fs.readFileSync(path.join(TOP, 'bindings/rust/Cargo.toml'), 'utf8'))[1];

function commit() {
  try { return ` (${execFileSync('git', ['-C', TOP, 'rev-parse', '--short', 'HEAD'], { stdio: ['ignore', 'pipe', 'ignore'] }).toString().trim()})`; } catch (e) { return ''; }
}

const versionText = (name) => `${name} of Velkunshe ${own()}${commit()}
Node ${process.versions.node}, V8 ${process.versions.v8}, @babel/parser ${parser.version()}
`;

module.exports = { versionText };
