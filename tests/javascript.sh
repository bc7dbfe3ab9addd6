#!/usr/bin/env bash
# Rules that others wrote, and engines that others built, with the proved programs as checker and router.
# Texts that are expected have backquotes.
# shellcheck disable=SC2016
# shellcheck source=tests/lib.bash
source "$(dirname "$0")/lib.bash" || exit 1

# Here a check names itself first, and shows the end of what the command says.
check() {
    local name=$1
    shift
    echo "-- $name"
    if "$@" | tail -n 12; [ "${PIPESTATUS[0]}" -eq 0 ]; then ok; else bad "$name"; fi
}
unrun() { echo "-- $1: NOT RUN, $2"; }

# says WANTED COMMAND..: all that the command says; WANTED with printf's escapes
says() {
    local want got
    want=$(printf '%b' "$1")
    shift
    got=$("$@" 2>&1)
    [ "$got" = "$want" ] || { echo "$got"; return 1; }
}

# each text of the input is told in docs/DIFFERENCES.md
told() {
    local text ok=0
    while IFS= read -r text; do
        grep -qF -- "$text" docs/DIFFERENCES.md || { echo "not told: $text"; ok=1; }
    done
    return $ok
}
disagreements() { sed -nE 's/^[^#].* \| [sm] \| (.*)$/\1/p' tools/disagreements.txt; }
differences() { sed -n '/^# The texts of docs.DIFFERENCES/,$p' tools/examples.txt | sed -nE 's/^[0-9.-]+ [sm] (.*)$/\1/p'; }

lines() { tools/treemaker --route 0 "$1" rules/while-switch.js | target/bin/ruleroute; }
appended() { { tools/treemaker rules/while-switch.js && echo U,0 && echo A,1,0; } | target/bin/ruleroute; }

# beside ANSWERS..: rulecalls on the lines of a rule with a line A for each
# lent NUMBERS ANSWERS: a run of any numbers as code
lent() { printf 'K,%s\nA%s\n' "$1" "${2:+,$2}" | target/bin/rulecalls run; }
beside() { { tools/treemaker rules/while-switch.js && echo U,0 && printf 'A,%s\n' "$@"; } | target/bin/rulecalls shared; }

needs rulecheck ruleroute node cargo rulecalls

check "the rule that comes with the repository" says 'F,22,4,0,1,14,15,0\nE,1' ./check-rule --lines rules/block-label.js
check "a rule without errors" says 'E,0' ./check-rule --lines rules/office-hours.js
check "a finding for people" says 'rules/block-label.js:1:1  `continue` names a label that is on no loop  [22]
  1 | a: { continue a; }
    | ^             ~
  put the label on the loop, or write `break`
1 finding in 1 file' ./check-rule --no-engine rules/block-label.js

check "an escape in a string, marked" says 'rules/old-escape.js:2:14  a legacy octal number or escape in strict code  [9]
  2 | const note = '"'Open from 8\\\\07230 to 17\\\\07230; ring at gate \\\\8.'"';
    |              ^^^^^^^^^^^^~~^^^^^^^^^^^^^^^^^^^^^^^^^^^^^^^^^^^
  write 0o17 for a number, \\x0f for an escape
1 finding in 1 file' ./check-rule --no-engine rules/old-escape.js

# of TypeScript V8 is not asked, and a rule is never called clean
unasked='V8 was not asked, since it compiles no TypeScript: only the proved checks looked at this rule'
check "a TypeScript rule: a name twice, private and not" says "rules/door-log.ts:3:3  a static and an instance element have one private name  [35]
  3 |   #last: string = \"\";
    |   ^^^^^
  4 |   static #last: number = 0;
    |          ~~~~~
  give one of the two another name
rules/door-log.ts:5:3  this name is declared twice in the class or object  [1]
  5 |   count: number = 0;
    |   ^^^^^
  6 |   count(): number { return 1; }
    |   ~~~~~
  give one of the two another name
rules/door-log.ts  $unasked
2 findings in 1 file" ./check-rule rules/door-log.ts
check "a TypeScript rule without findings, in words" says "rules/guests.mts  $unasked
no findings in 1 file" ./check-rule rules/guests.mts
check "a TypeScript rule without findings, for programs" says \
    "{\"file\":\"rules/guests.mts\",\"verdict\":\"no findings\",\"unasked\":\"$unasked\"}" ./check-rule --json rules/guests.mts

# status WANTED COMMAND..: the status of a command, whatever it prints
status() {
    local want=$1 got
    shift
    "$@" >/dev/null 2>&1
    got=$?
    [ "$got" -eq "$want" ] || { echo "status $got, not $want: $*"; return 1; }
}
# text_status_of WANTED ENDING TEXT PROGRAM ARGUMENTS..: of a rule with this text
text_status_of() {
    local want=$1 ending=$2 text=$3 program=$4 rule was
    shift 4
    rule=$(mktemp "--suffix=$ending")
    printf '%b' "$text" >"$rule"
    status "$want" "$program" "$rule" "$@"
    was=$?
    rm -f "$rule"
    return $was
}
text_status() { text_status_of "$1" "$2" "$3" ./check-rule; }
to_full_disk() { ./check-rule rules/office-hours.js >/dev/full; }
to_closed() { ./check-rule rules/office-hours.js >&-; }
check "status 0: clean" status 0 ./check-rule rules/office-hours.js
check "status 1: findings" status 1 ./check-rule rules/block-label.js
check "status 1: findings in one of several" status 1 ./check-rule rules
check "status 1: a name declared twice, which document 01 leaves out" text_status 1 .js 'let a; let a;'
check "status 1: no assignment target" text_status 1 .mjs '1 = 2;'
check "status 2: a return in a static block" text_status 2 .js 'class C { static { return; } }'
check "status 2: no such file" status 2 ./check-rule rules/none.js
check "status 2: an ending that doesn't tell what it is" text_status 2 .JS 'a;'
check "status 2: no UTF-8" text_status 2 .js '\xff'
check "status 2: outside the grammar" text_status 2 .js 'if ('
check "status 2: the output's disk is full" status 2 to_full_disk
check "status 2: the output is closed" status 2 to_closed
check "a text for each code, and for each sentence on TypeScript" tools/examples
check "status 0: TypeScript without findings" text_status 0 .ts 'class A<T> { m(): void; m(x?: T) {} }'
check "status 1: a name twice in TypeScript" text_status 1 .mts 'class A { a = 1; a = 2; }'
check "status 1: \`with\` in TypeScript" text_status 1 .ts 'with (a) b;'
check "status 0: no TypeScript, no finding" text_status 0 .mjs 'class A { a = 1; a = 2; }'
check "status 2: types in a script" text_status 2 .js 'let a: number;'
# what is turned down in TypeScript, with how the sentence begins
turned_down() {
    local text=$1 why=$2 rule got
    rule=$(mktemp --suffix=.ts)
    printf '%b' "$text" >"$rule"
    got=$(./check-rule "$rule") && { echo "a verdict on $text"; rm -f "$rule"; return 1; }
    rm -f "$rule"
    grep -qF "no verdict: no tree: $why" <<<"$got" || { echo "$got"; return 1; }
}
check "no tree: declare before a statement" turned_down 'declare const a: number;' '`declare` is ambient code'
check "no tree: declare before an export's statement" turned_down 'export declare function f(): void;' '`declare` is ambient code'
check "no tree: declare before a field" turned_down 'class A { declare a; }' '`declare` is ambient code'
check "no tree: declare module" turned_down 'declare module "m" {}' '`declare` is ambient code'
check "no tree: a namespace" turned_down 'namespace N {}' 'a namespace or module declaration is not taken'
check "no tree: import =" turned_down 'import a = require("m");' '`import .. =` is not taken'
check "no tree: export =" turned_down 'export = a;' '`export =` is not taken'
check "no tree: a name that no line can hold" turned_down 'class A { "a\\nb" = 1; "" = 2 }' 'the name of this class element has a line feed'
check "no tree: a regular expression as a name" turned_down 'class A { [/a/] = 1 }' 'a regular expression as the name'
check "no tree: parameter decorators" turned_down 'class A { m(@b a) {} }' 'Decorators cannot be used to decorate parameters'
check "status 2: declarations alone" text_status 2 .d.ts 'export const a: number;'
check "JavaScript read as TypeScript, and with types written into it" tools/typescript 200 3
check "damaged trees: the tree maker's words are rulecheck's refusals" tools/shapes 600 3
table() {
    local lines
    lines=$(mktemp)
    printf '%b' "$1" >"$lines"
    ./check-rule --table "$lines" | sed "s|$lines|TABLE|"
    rm -f "$lines"
}
check "a misplaced child in words" says 'TABLE  no verdict: refused (13), node 2: Other with role 3 (body) under node 1, While: a While takes statements with role 3, and of the roles 4 and 5 none; Other is no statement
no verdict on 1 file' table 'J,0,3,1\nS,0,2,0\nN,0,0,0,0,0,0,0,0,\nN,10,0,3,0,0,0,0,0,\nN,55,1,3,0,0,0,0,0,\nX,\n'
check "a missing child in words" says 'TABLE  no verdict: refused (14), node 1: a Try takes a CatchClause (role 4), a Block with role 5, or both, and has neither
no verdict on 1 file' table 'J,0,3,1\nS,0,2,0\nN,0,0,0,0,0,0,0,0,\nN,16,0,3,0,0,0,0,0,\nN,5,1,3,0,0,0,0,0,\nX,\n'

check "a route: the answers go to a continue" says 'L,3\nL,6\nL,10\nL,3\nZ,0,4,3' lines 1,0,0
check "a route: the answers go past it" says 'L,3\nL,6\nL,12\nL,3\nZ,0,4,3' lines 1,5,0
check "a route: the answers are spent" says 'L,3\nZ,3,1,1' lines 1
check "a route: no answers" says 'Z,3,0,0' lines ''
check "a route: lines written behind the tree's" says 'L,3\nL,6\nL,10\nZ,3,3,2' appended
check "a route for people" says 'route of the program with answers 1, 0, 0
1  line 1  while(t)     1: another turn
2  line 1  switch(s)    0: case c
3  line 1  continue a;
4  line 1  while(t)     0: no more turns
it fell through its last statement after 4 entries and 3 answers' ./show-route rules/while-switch.js 1,0,0
check "the route of a function" says 'route of the function at line 3 with answers 0, 0, 4
1  line  4  if (person.owner)            0: no
2  line  5  for (const day of now.days)  0: no more turns
3  line 16  return false;
it returned after 3 entries and 2 answers; left over: 4' ./show-route rules/office-hours.js 0,0,4 --line 3
check "a finally that an end waits for, and that replaces it" says 'route of the function at line 2 with answers 1, 0, 1, 1, 0
1  line  3  for (const key of keys)  1: another turn
2  line  5  if (key.lost)            0: no
3  line  6  if (lock.turn(key))      1: yes
4  line  6  return true;             this end waits until the finally block at line 9 is through
5  line 10  if (lock.log(key))       1: yes
6  line 10  continue;                in place of the end of step 4
7  line  3  for (const key of keys)  0: no more turns
8  line 14  return false;
it returned after 8 entries and 5 answers' ./show-route rules/keys.js 1,0,1,1,0 --unit opens
check "a class whose static block throws" says 'route of the program with answers 1, 1
1  line  3  class Doors                                its static blocks run
2  line  6  for (const door of config.doors)           1: another turn
3  line  7  if (!door.name)                            1: yes
4  line  7  throw new Error("a door without a name");  the catch at line 16 takes it
5  line 17  alarm(error);
it fell through its last statement after 5 entries and 2 answers' ./show-route rules/doors.js 1,1
check "no route of a rule with a return in a static block" text_status_of 2 .js 'class C { static { return; } }' ./show-route ''
check "no route of a rule with an error" says 'show-route: no route: the rule has an early error, or a jump without a target: check it first (line 1)' ./show-route rules/block-label.js ''
check "the question that waits" says 'route of the program with answers 1, 5
1  line 1  while(t)   1: another turn
2  line 1  switch(s)  5: no case
3  line 1  x;
it stopped for want of an answer after 3 entries and 2 answers; line 1 asks next: while(t)' ./show-route rules/while-switch.js 'y 5'
check "two routes side by side" says 'routes of the program with answers 1, 0, 0 and with answers 1, 5, 0
  1, 0, 0                                  |   1, 5, 0
= 1  line 1  while(t)     1: another turn  | = 1  line 1  while(t)   1: another turn
= 2  line 1  switch(s)    0: case c        | = 2  line 1  switch(s)  5: no case
  3  line 1  continue a;                   |   3  line 1  x;
  4  line 1  while(t)     0: no more turns |   4  line 1  while(t)   0: no more turns
they share their first 2 entries
the first fell through its last statement after 4 entries and 3 answers
the second fell through its last statement after 4 entries and 3 answers' ./show-route rules/while-switch.js 1,0,0 --against 1,5,0
check "two routes that are the same" says 'routes of the program with answers 0 and with answers 0, 4
  0                                     |   0, 4
= 1  line 1  while(t)  0: no more turns | = 1  line 1  while(t)  0: no more turns
they share all entries
the first fell through its last statement after 1 entry and 1 answer
the second fell through its last statement after 1 entry and 1 answer; left over: 4' ./show-route rules/while-switch.js 0 --against 0,4
check "both engines" says 'route of the program with answers 1, 1
1  line  3  class Doors                                its static blocks run
2  line  6  for (const door of config.doors)           1: another turn
3  line  7  if (!door.name)                            1: yes
4  line  7  throw new Error("a door without a name");  the catch at line 16 takes it
5  line 17  alarm(error);
it fell through its last statement after 5 entries and 2 answers
both engines give this' ./show-route rules/doors.js 1,1 --engine both
# a router that loses its first line
lossy=$(mktemp)
printf '#!/bin/sh\n%s/target/bin/ruleroute | sed 1d\n' "$PWD" >"$lossy"
chmod +x "$lossy"
check "engines that differ" says 'show-route: the engines differ: code gives Z,0,1,1; walk gives L,3 Z,0,1,1' ./show-route rules/while-switch.js 0 --engine both --router "$lossy"
check "status 2: engines that differ" status 2 ./show-route rules/while-switch.js 0 --engine both --router "$lossy"
# asked LINES RULE OPTION..: the viewer at a terminal, with these lines as its input
asked() { local lines=$1; shift; printf '%b' "$lines" | ./show-route "$@" --ask --text; }
# a router that names another statement
printf '#!/bin/sh\n%s/target/bin/ruleroute | sed s/L,3/L,6/\n' "$PWD" >"$lossy"
check "the viewer, whose engines differ" says '1  line 1  switch(s)  0: case c
it fell through its last statement after 1 entry and 1 answer
the engines differ: trust neither
code:
route of the program with answers 0
1  line 1  switch(s)  0: case c
it fell through its last statement after 1 entry and 1 answer

walk:
route of the program with answers 0
1  line 1  while(t)  0: no more turns
it fell through its last statement after 1 entry and 1 answer' asked 'both\n' rules/while-switch.js 0 --router "$lossy"
rm -f "$lossy"
check "no second route of a rule with an error" status 2 ./show-route rules/block-label.js '' --against 1
check "a call of rulecalls that can't be read" says 'R,0,22' beside 1
check "a route stopped and taken up" says 'route of the program with answers 1, 0, 7
1  line 1  while(t)   1: another turn
2  line 1  switch(s)  0: case c
it was stopped after 2 entries and 2 answers; left over: 7
then with answers 0
3  line 1  continue a;
4  line 1  while(t)     0: no more turns
it fell through its last statement after 4 entries and 3 answers
then with answers 1, 5
3  line 1  continue a;
4  line 1  while(t)     1: another turn
5  line 1  switch(s)    5: no case
6  line 1  x;
it stopped for want of an answer after 6 entries and 4 answers; line 1 asks next: while(t)' ./show-route rules/while-switch.js 1,0,7 --stop 2 --then 0 --then y,5
check "a route that ends before it is stopped" says 'show-route: the route ends before 2 answers are taken: there is nothing to stop' ./show-route rules/while-switch.js 0 --stop 2 --then 1
check "the code of a unit, before and after" says 'code of the program, 42 numbers
 0  LEAVE   3 0
 3  ASK     3 10 7   line 1  while(t)
 7  LEAVE   34 0
10  LEAVE   13 0
13  SELECT  6 20 17  line 1  switch(s)
17  LEAVE   29 0
20  CASE    0 24 0
24  LIST    10       line 1  continue a;
26  LEAVE   3 0
29  LIST    12       line 1  x;
31  LEAVE   3 0
34  END     0        fell through
36  END     1        returned
38  END     2        threw
40  END     5        no end
the shorter code, 36 numbers; 6 are freed
 0  LEAVE   3 0
 3  ASK     3 10 7   line 1  while(t)
 7  LEAVE   34 0
10  LEAVE   13 0
13  SELECT  6 20 17  line 1  switch(s)
17  LEAVE   29 0
20  CASE    0 24 0
24  LIST    10       line 1  continue a;
26  LEAVE   3 0
29  LIST    12       line 1  x;
31  LEAVE   3 0
34  END     0        fell through' ./show-route rules/while-switch.js --code
check "a route by the shorter code" says 'route of the program with answers 1, 1
1  line  3  class Doors                                its static blocks run
2  line  6  for (const door of config.doors)           1: another turn
3  line  7  if (!door.name)                            1: yes
4  line  7  throw new Error("a door without a name");  the catch at line 16 takes it
5  line 17  alarm(error);
it fell through its last statement after 5 entries and 2 answers
all engines give this' ./show-route rules/doors.js 1,1 --engine all
check "a lent code is run" says 'L,7\nL,8\nL,7\nZ,1,3,2' lent 2,3,0,3,7,7,12,1,8,2,3,0,6,1 1,0
check "numbers that are no code" says 'R,18,2' lent 1,5,9
# renamed TEXT: the text of a script with its labels renamed
renamed() { printf '%b' "$1" | tools/rename-labels --script -; }
check "labels renamed" says 'a: for (;;) { b: do { if (x) continue a; break b } while (y) }' renamed 'outer: for (;;) { inner: do { if (x) continue outer; break inner } while (y) }'
check "labels renamed that are written with escapes" says 'a: { break /**/ a }' renamed '\\u0061bc: { break /**/ abc }'
check "no label renamed" says 'x; // a: b' renamed 'x; // a: b'
check "a label that is a reserved word in some code" says 'rename-labels: not renamed: the name of this label is a reserved word in some code, or there are 700 different labels (label yield)' renamed 'a: b: yield: ;'
check "the tables of renamed texts" says '300 texts with labels: 288 changed, 0 as they were, 12 with a label that is not renamed' tools/rename-labels --generated 300 3
# shellcheck source=tests/check-rule.bash
source tests/check-rule.bash
check "the viewer at a terminal: answers, back, the other answer, two routes, both engines" says 'line 1 asks: while(t)
  1 another turn, 0 no more turns
1  line 1  while(t)  1: another turn
line 1 asks: switch(s)
  0 case c, 1 no case
2  line 1  switch(s)  0: case c
3  line 1  continue a;
line 1 asks: while(t)
  1 another turn, 0 no more turns
back behind step 1
line 1 asks: switch(s)
  0 case c, 1 no case
2  line 1  switch(s)  5: no case
3  line 1  x;
line 1 asks: while(t)
  1 another turn, 0 no more turns
routes of the program with answers 1, 5 and with answers 1, 0
  1, 5                                  |   1, 0
= 1  line 1  while(t)   1: another turn | = 1  line 1  while(t)     1: another turn
= 2  line 1  switch(s)  5: no case      | = 2  line 1  switch(s)    0: case c
  3  line 1  x;                         |   3  line 1  continue a;
they share their first 2 entries
the first stopped for want of an answer after 3 entries and 2 answers; line 1 asks next: while(t)
the second stopped for want of an answer after 3 entries and 2 answers; line 1 asks next: while(t)
back behind step 1
2  line 1  switch(s)  0: case c
3  line 1  continue a;
line 1 asks: while(t)
  1 another turn, 0 no more turns
both engines agree
4  line 1  while(t)  0: no more turns
it fell through its last statement after 4 entries and 3 answers
nothing is asked any more; `help` lists what can be done' asked 'y\n0\nback 2\n5\nbeside 2\nother 2\nboth\n0\ny\n' rules/while-switch.js
# the address that it prints answers until it is interrupted
served() {
    local out pid turn was
    out=$(mktemp)
    tools/routeview rules/keys.js --ask --unit opens --caller target/bin/rulecalls >"$out" &
    pid=$!
    for turn in $(seq 300); do
        ! grep -q Ctrl-C "$out" || break
        sleep 0.1
    done
    [ "$turn" -lt 300 ] && node -e 'fetch(process.argv[1]).then((r) => r.text()).then((t) => process.exit(t.includes("Line 3 asks: <code>for (const key of keys)</code>") ? 0 : 1))' "$(head -n 1 "$out")"
    was=$?
    kill -INT $pid
    wait $pid && [ "$was" -eq 0 ]
    was=$?
    rm -f "$out"
    return $was
}
check "the viewer's address, and its end" served
check "status 2: the viewer with another engine" status 2 ./show-route rules/keys.js --ask --engine walk
check "status 2: the viewer, of a rule with an error" status 2 ./show-route rules/block-label.js --ask --text
check "the units of a rule" says '0  program  line 1, column 1
3  function opens  line 3, column 1' ./show-route rules/office-hours.js --units
check "the route of a TypeScript function" says 'route of the function at line 3 with answers 1, 0, 1
1  line 4  for (const host of guest.hosts)  1: another turn
2  line 5  if (here.has(host!))             0: no
3  line 4  for (const host of guest.hosts)  1: another turn
it stopped for want of an answer after 3 entries and 3 answers; line 5 asks next: if (here.has(host!))
V8 was not asked, since it compiles no TypeScript' ./show-route rules/guests.mts 1,0,1 --unit welcome
shapes=$(mktemp -d)
printf 'const open = () => { if (a) b; }; class A { static { c; } #m() { while (d) e; } get m() { return f; } }\n' >"$shapes/units.js"
check "units by the name of what holds them, several on a line" says '0  program  line 1, column 1
4  arrow open  line 1, column 14
14  static block  line 1, column 45
19  function #m  line 1, column 61
28  function m  line 1, column 86' ./show-route "$shapes/units.js" --units
check "a unit by the name of its variable" says 'route of the arrow function at line 1 with answers 1
1  line 1  if (a)  1: yes
2  line 1  b;
it fell through its last statement after 2 entries and 1 answer' ./show-route "$shapes/units.js" y --unit open
check "a unit by its line and column" says 'route of the static block at line 1 with answers none
1  line 1  c;
it fell through its last statement after 1 entry and 0 answers' ./show-route "$shapes/units.js" '' --line 1:45
check "a line on which several begin is asked about" says 'show-route: several units begin on line 1; --line 1:COLUMN takes one:
4  arrow open  line 1, column 14
14  static block  line 1, column 45
19  function #m  line 1, column 61
28  function m  line 1, column 86' ./show-route "$shapes/units.js" '' --line 1
printf 'switch (a) {\r\n case "\u202e": b;\u2028}\rc("\x01");' >"$shapes/unseen.js"
check "characters that are not seen, in a route; lines as the standard ends them" says 'route of the program with answers 0
1  line 1  switch (a)      0: case "<U+202E>"
2  line 2  b;
3  line 4  c("<U+0001>");
it fell through its last statement after 3 entries and 1 answer' ./show-route "$shapes/unseen.js" 0
unseen_page() { ./show-route "$shapes/unseen.js" 0 -o "$shapes/unseen.html" && (! grep -qP '\x{202e}|\x{2028}|\x01|\r' "$shapes/unseen.html") && grep -q '&lt;U+202E&gt;' "$shapes/unseen.html" && grep -q 'data-n="4"' "$shapes/unseen.html"; }
check "and in a page" unseen_page
printf 'const \u202ea = 1;' >"$shapes/message.js"
check "and in what is told of an error" says "show-route: $shapes/message.js: no tree: Unexpected character '<U+202E>'. (1:6)" ./show-route "$shapes/message.js" ''
# over_rule LINK: a page that would be written over the rule by another name is refused, and the rule stays
over_rule() {
    cp rules/office-hours.js "$shapes/kept.js"
    ln "$@" "$shapes/kept.js" "$shapes/kept.html"
    status 2 ./show-route "$shapes/kept.js" '' -o "$shapes/kept.html" && cmp rules/office-hours.js "$shapes/kept.js"
    local was=$?
    rm "$shapes/kept.html"
    return $was
}
other_rule() {
    ln -s units.js "$shapes/other.html"
    status 2 ./show-route rules/office-hours.js '' -o "$shapes/other.html" && grep -q '^const' "$shapes/units.js"
}
check "a page is not written over a rule" status 2 ./show-route rules/office-hours.js '' -o rules/office-hours.js
check "nor by a link" over_rule -s
check "nor by its other name" over_rule
check "nor over another rule by a link" other_rule
rm -rf "$shapes"
check "no route of a rule that the engine refuses" text_status_of 2 .js 'let a; let a;' ./show-route ''

if [ -d ../shared/test262 ]; then check "test262" tools/test262; else unrun "test262" "its files are not beside the repository"; fi
check "the conditions of the theorems, on trees of texts" tools/conditions 4000 3 rules
if [ -d ../shared/test262 ]; then check "the conditions of the theorems, on trees of test262" tools/conditions 0 3 ../shared/test262; else unrun "the conditions on test262" "its files are not beside the repository"; fi
check "V8's verdicts" tools/v8-verdicts 1000 3
async=target/cargo/checked/plain-rulecheck-async
if [ -x $async ]; then check "V8's verdicts, the option on async bodies on" tools/v8-verdicts 1000 3 --checker $async --async-bodies; else unrun "V8's verdicts, the option on" "$async is not built"; fi
check "a text for each disagreement" tools/v8-verdicts --texts
check "each of them told" told < <(disagreements)
check "each difference's text told" told < <(differences)
# the figures too: every end and every kind of unit is among the runs
check "V8's routes, by all engines" says '1000 units (447 programs, 231 functions, 64 arrows, 258 static blocks; 0 with a try, 133 with a static block of a class), 4000 runs: 2728 fell through, 27 returned, 155 threw, 1090 spent their answers; 17639 entries, 8561 answers taken, longest list 60; 0 disagree' \
    tools/v8-routes 1000 3 --engine all --quiet
check "V8's routes, with try, by all engines" says '200 units (94 programs, 47 functions, 15 arrows, 44 static blocks; 61 with a try, 24 with a static block of a class), 800 runs: 528 fell through, 7 returned, 57 threw, 208 spent their answers; 3988 entries, 1731 answers taken, longest list 59; 0 disagree' \
    tools/v8-routes 200 4 --engine all --try --quiet
if tools/setup chromium; then
    check "pages in Chromium" tools/pages 60 5
    check "the viewer clicked through in Chromium" tools/asked 12 5
else
    unrun "pages and the viewer in Chromium" "it can't be installed"
fi
finish
