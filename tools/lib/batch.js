'use strict';
// One program over one input, or over many: a shell loop over files in a folder of its own, with the answers in one stream.

const fs = require('fs');
const os = require('os');
const path = require('path');
const { spawnSync } = require('child_process');

const MOST_OUTPUT = 1 << 30;

// a shell that lets a program run for so many seconds of processor time, and leaves nothing of its memory behind where it is ended
const LIMITED = 'ulimit -c 0; ulimit -t "$1"; shift; exec "$@"';

// The lines that a program gives to an input, through pipes. Where it fails, or its last line isn't whole, a last line `C,why`.
function answerOf(program, input, argument, seconds) {
  const called = [path.resolve(program), ...(argument === '' ? [] : [argument])];
  const [first, ...rest] = seconds ? ['sh', '-c', LIMITED, 'sh', String(seconds), ...called] : called;
  const run = spawnSync(first, rest, { input, maxBuffer: MOST_OUTPUT });
  const lines = run.stdout ? run.stdout.toString('utf8').split('\n') : [''];
  const end = lines.pop();
  // one that ends before it has read all is not at fault
  if (run.error && run.error.code !== 'EPIPE') return [...lines, `C,${run.error.message}`];
  if (seconds && run.signal === 'SIGKILL') return [...lines, `C,it took more than ${seconds} s of processor time`];
  if (run.status !== 0) return [...lines, `C,${run.status === null ? run.signal : run.status}`];
  return end === '' ? lines : [...lines, 'C,its last line has no end'];
}

// The output lines for each input, in order. A program that fails gives a last line `C,status`. A program may come with an argument; with one input it may
// be told how long it may run.
function answersOf(program, inputs, argument = '', seconds = 0) {
  if (!fs.existsSync(program)) throw new Error(`no program ${program}: name one that is there`);
  if (inputs.length === 1) return [answerOf(program, inputs[0], argument, seconds)];
  const dir = fs.mkdtempSync(path.join(os.tmpdir(), 'lines-'));
  try {
    inputs.forEach((input, i) => fs.writeFileSync(path.join(dir, String(i)), input));
    const loop = 'cd "$1"; i=0; while [ $i -lt $3 ]; do "$2" $4 < $i || echo "C,$?"; echo; echo .; i=$((i+1)); done';
    const run = spawnSync('sh', ['-c', loop, 'sh', dir, path.resolve(program), String(inputs.length), argument], { maxBuffer: 1 << 30 });
    if (run.error) throw run.error;
    const answers = [[]];
    for (const line of run.stdout.toString('utf8').split('\n')) {
      if (line === '.') answers.push([]);
      else if (line !== '') answers[answers.length - 1].push(line);
    }
    answers.pop();
    if (answers.length !== inputs.length) throw new Error(`${answers.length} answers to ${inputs.length} inputs`);
    return answers;
  } finally {
    fs.rmSync(dir, { recursive: true });
  }
}

// The programs have no exit status of their own: an answer is one that ends with its closing line, which counts the others, or a refusal alone.
// What is neither is a failure.
const failure = (lines) => {
  const last = lines[lines.length - 1] || 'C,nothing';
  return { refused: /^C,/.test(last) || (lines.length === 1 && /^R,\d+,\d+$/.test(last)) ? last : `C,${last}` };
};

// Findings as lists of numbers, or the line of a refusal or failure.
function findingsOf(lines) {
  const found = lines.slice(0, -1);
  if (lines[found.length] !== `E,${found.length}` || !found.every((l) => /^F(,\d+){7}$/.test(l))) return failure(lines);
  return { findings: found.map((l) => l.slice(2).split(',').map(Number)) };
}

// A route: entries, end, how many entries and answers taken; or the line of a refusal or failure.
function routeOf(lines) {
  const list = lines.slice(0, -1);
  const closing = /^Z,(\d+),(\d+),(\d+)$/.exec(lines[list.length] || '');
  if (!closing || Number(closing[2]) !== list.length || !list.every((l) => /^L,\d+$/.test(l))) return failure(lines);
  const [end, entries, taken] = closing.slice(1).map(Number);
  return { list: list.map((l) => Number(l.slice(2))), end, entries, taken };
}

// Several routes one after the other.
function routesOf(lines) {
  const routes = [[]];
  for (const line of lines) {
    routes[routes.length - 1].push(line);
    if (!line.startsWith('L,')) routes.push([]);
  }
  return routes.slice(0, -1).map(routeOf);
}

// How many entries two routes share, or the line of a refusal or failure.
function sharedOf(lines) {
  const last = lines[lines.length - 1] || 'C,nothing';
  return /^B,\d+$/.test(last) ? { shared: Number(last.slice(2)) } : { refused: last };
}

// A unit's code and the shorter one as lists of numbers, and how many numbers are freed; or the line of a refusal or failure.
function codesOf(lines) {
  const last = lines[lines.length - 1] || 'C,nothing';
  if (lines.length !== 3 || !/^F,\d+$/.test(last)) return { refused: last };
  const [made, shorter] = lines.map((l) => l.split(',').slice(1).map(Number));
  return { made, shorter, freed: Number(last.slice(2)) };
}

// The program as named, else the proved one where the build leaves it.
function programOf(named, name) {
  if (named) return named;
  const built = path.resolve(__dirname, '../../target/bin', name);
  if (!fs.existsSync(built)) throw new Error(`${name} is not built: run tools/setup ${name}, or name a program that reads the same lines`);
  return built;
}

// The engines that give routes: ruleroute runs code, rulecalls walks over the tree, or stops behind each answer and takes the route up again, or runs the
// shorter code. Code for a rule that is too large for ruleroute is run by rulecalls too.
const ENGINES = { code: ['code'], walk: ['walk'], shorter: ['shorter'], both: ['code', 'walk'], all: ['code', 'walk', 'stopped', 'shorter'] };
const CODE_BY_CALL = 'route';
function enginesOf(which, { router, caller }, large = false) {
  const call = (argument) => ({ program: programOf(caller, 'rulecalls'), argument });
  const code = () => (large ? call(CODE_BY_CALL) : { program: programOf(router, 'ruleroute'), argument: '' });
  return ENGINES[which].map((name) => ({ name, ...(name === 'code' ? code() : call(name)) }));
}

module.exports = { ENGINES, LIMITED, answersOf, codesOf, enginesOf, findingsOf, routeOf, routesOf, sharedOf, programOf };
