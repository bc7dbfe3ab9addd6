'use strict';
// How a page looks. Each colour on its ground has the contrast that WCAG asks for as AA, in the light and in the dark.

// a mark's letters, as wide as this part of the text's
const MARK_WIDTH = 2 / 3;

const STYLE = `
:root { color-scheme: light dark; --page: #ffffff; --text: #1a1a1a; --ran: #d8f0d8; --mark: #14521f; --idle: #616161; --at: #ffe08a; --shared: #dfe6ff; --link: #0b4bb3; --wrong: #a30000; --box: #f2f2f2; }
@media (prefers-color-scheme: dark) { :root { --page: #121212; --text: #e8e8e8; --ran: #17381d; --mark: #a5e6b2; --idle: #a3a3a3; --at: #5a4600; --shared: #232c52; --link: #a9c7ff; --wrong: #ff9c94; --box: #232323; } }
body { font: 16px/1.5 system-ui, sans-serif; margin: 2rem; max-width: 90rem; background: var(--page); color: var(--text); }
h1 { font-size: 1.3rem; }
a { color: var(--link); }
main { display: flex; flex-wrap: wrap; gap: 2rem; align-items: flex-start; }
pre { font: 15px/2.1 ui-monospace, monospace; margin: 0; padding-left: 3.5em; position: relative; white-space: pre-wrap; overflow-wrap: anywhere; overflow-x: clip; flex: 2 1 30rem; }
.line::before { content: attr(data-n); position: absolute; left: 0; width: 2.5em; text-align: right; font-style: normal; color: var(--idle); user-select: none; }
.ran { background: var(--ran); border-radius: 3px; }
.idle { color: var(--idle); }
.marks { position: absolute; margin-top: -5px; font-size: 10px; line-height: 1.2; white-space: nowrap; user-select: none; }
.step { color: var(--mark); background: var(--page); margin-right: 1ch; text-decoration: none; }
table { border-collapse: collapse; flex: 1 1 24rem; font-size: 14px; }
td, th { text-align: left; padding: 2px 8px; border-bottom: 1px solid #8884; vertical-align: top; }
td a { text-decoration: none; }
td a:has(code) { color: inherit; }
.end td { font-weight: bold; }
section { flex: 1 1 34rem; min-width: 0; }
section.both { flex-basis: 100%; }
section h2 { font-size: 1.1rem; }
/* the ways on from an answer */
.back, .other, .beside { white-space: nowrap; }
.shared { background: var(--shared); }
.asks { background: var(--box); padding: .6rem 1rem; border-left: 4px solid var(--link); }
.asks a { margin-right: 1.2rem; font-size: 1.15rem; }
.wrong { color: var(--wrong); font-weight: bold; }
:target { background: var(--at); }
`;

module.exports = { STYLE, MARK_WIDTH };
