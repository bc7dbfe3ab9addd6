'use strict';
// Has tools/setup make what a call turns out to need. No package is installed unasked.

const path = require('path');
const { spawnSync } = require('child_process');

const SETUP = path.join(__dirname, '../setup');

const told = new Map();

// whether all of it is there now; what is missing is told on standard error, once
function setUp(...names) {
  const key = names.join();
  if (!told.has(key)) told.set(key, spawnSync(SETUP, ['--ask', ...names], { stdio: ['inherit', 2, 2] }).status === 0);
  return told.get(key);
}

module.exports = { setUp };
