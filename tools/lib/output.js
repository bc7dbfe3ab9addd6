'use strict';
// All of a text is written, or this throws: a verdict that nobody could read is none.

const fs = require('fs');

class Lost extends Error {}

function write(text) {
  const bytes = Buffer.from(text);
  for (let at = 0; at < bytes.length;) {
    try { at += fs.writeSync(1, bytes, at); } catch (e) { if (e.code !== 'EAGAIN') throw new Lost(`the output could not be written: ${e.message}`); }
  }
}

module.exports = { write, Lost };
