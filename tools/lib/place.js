'use strict';
// Where bytes stand in a text, and the text as a person can see it.

const { TextDecoder } = require('util');

// The standard's LineTerminatorSequence.
const LINE_END = /\r\n|[\n\r\u2028\u2029]/g;

// Characters that are not seen, or that change the order in which others are shown: controls, formats, fillers, and what has no meaning yet or no shape.
const UNSEEN = /[\p{Cc}\p{Cf}\p{Zl}\p{Zp}\p{Cs}\p{Co}\p{Cn}\p{Default_Ignorable_Code_Point}]/u;
// those that take two columns of a terminal, and none
const WIDE = /[\p{Emoji_Presentation}\p{scx=Han}\p{scx=Hira}\p{scx=Kana}\p{scx=Hang}\uff01-\uff60\uffe0-\uffe6]/u;
const NO_WIDTH = /[\p{Mn}\p{Me}]/u;
const widthOf = (shownChar) => (shownChar.startsWith('<U+') ? shownChar.length : NO_WIDTH.test(shownChar) ? 0 : WIDE.test(shownChar) ? 2 : 1);

const shownAs = (c) => (c === '\t' ? ' ' : UNSEEN.test(c) ? `<U+${c.codePointAt(0).toString(16).toUpperCase().padStart(4, '0')}>` : c);
const shown = (text) => [...text].map(shownAs).join('');
// the same with its tabs, and with its lines and tabs, as they are
const shownTabs = (text) => [...text].map((c) => (c === '\t' ? c : shownAs(c))).join('');
const shownLines = (text) => [...text].map((c) => (/[\n\r\t]/.test(c) ? c : shownAs(c))).join('');

// The text of bytes, or why there is none.
function textOf(bytes) {
  try {
    return { text: new TextDecoder('utf-8', { fatal: true, ignoreBOM: true }).decode(bytes) };
  } catch (e) {
    return { why: 'it is no UTF-8' };
  }
}

class Lines {
  constructor(text) {
    this.lines = [];
    let from = 0;
    for (const end of text.matchAll(LINE_END)) {
      this.add(text.slice(from, end.index), end[0]);
      from = end.index + end[0].length;
    }
    this.add(text.slice(from), '');
  }

  add(text, end) {
    const last = this.lines[this.lines.length - 1];
    this.lines.push({ text, start: last ? last.next : 0, next: (last ? last.next : 0) + Buffer.byteLength(text) + Buffer.byteLength(end) });
  }

  // the line (from 1) of a byte offset, and the column (from 1) in characters
  at(byte) {
    let line = 0;
    for (let above = this.lines.length; above - line > 1;) {
      const middle = (line + above) >> 1;
      if (this.lines[middle].start <= byte) line = middle;
      else above = middle;
    }
    return { line: line + 1, column: 1 + this.cellAt(this.cellsOf(line), byte) };
  }

  // The characters of a line: where they begin and end, how they are shown, and in how many columns. They are kept, since findings may go to and fro
  // between long lines.
  cellsOf(line) {
    const of = this.lines[line];
    if (of.cells) return of.cells;
    let byte = of.start;
    of.cells = [...of.text].map((c) => {
      const from = byte;
      byte += Buffer.byteLength(c);
      const above = shownAs(c);
      return { from, to: byte, above, width: widthOf(above) };
    });
    of.width = of.cells.reduce((n, c) => n + roomOf(c), 0);
    return of.cells;
  }

  // which of them holds a byte; how many there are, where it is behind them all
  cellAt(cells, byte) {
    let [below, above] = [0, cells.length];
    while (below < above) {
      const middle = (below + above) >> 1;
      if (cells[middle].to <= byte) below = middle + 1;
      else above = middle;
    }
    return below;
  }

  // A line as it is shown, and under it a mark for each character in a span: `^` in the first, `~` in the second. Of a line that is longer than `most`
  // columns the part around its first mark is shown.
  marked(line, first, second, most = 160) {
    const cells = this.cellsOf(line - 1);
    const starts = [first, second].filter((span) => span && span[1] >= this.lines[line - 1].start).map((span) => this.cellAt(cells, span[0]));
    const [from, to] = partOf(cells, this.lines[line - 1].width, Math.min(...starts), most);
    const within = (span, c) => span && c.from < span[1] && c.to > span[0];
    const part = cells.slice(from, to);
    const marks = part.map((c) => (within(second, c) ? '~' : within(first, c) ? '^' : ' '));
    // a span without bytes, or behind the line's last character
    if (marks.every((mark) => mark === ' ')) {
      const at = this.cellAt(cells, first[0]) - from;
      if (at >= part.length) part.push({ above: ' ', width: 1 });
      marks[at] = '^';
    }
    const above = `${from > 0 ? CUT : ''}${part.map((c) => c.above).join('')}${to < cells.length ? ` ${CUT}` : ''}`;
    const below = `${' '.repeat(from > 0 ? CUT.length : 0)}${part.map((c, i) => marks[i].repeat(c.width)).join('')}`;
    return { above: above.trimEnd(), below: below.trimEnd() };
  }
}

const CUT = '.. ';

// the room that a character takes where a line is cut: marks over others have no width, and can be very many
const roomOf = (cell) => Math.max(cell.width, 1);

// from which character to which a line is shown that holds a mark at one of them
function partOf(cells, width, marked, most) {
  if (width <= most) return [0, cells.length];
  let from = Math.min(marked, cells.length);
  for (let room = most / 4; from > 0 && room > 0; room -= roomOf(cells[from])) from -= 1;
  let to = from;
  for (let room = most; to < cells.length && room > 0; to += 1) room -= roomOf(cells[to]);
  return [from, to];
}

module.exports = { LINE_END, Lines, shown, shownLines, shownTabs, textOf };
