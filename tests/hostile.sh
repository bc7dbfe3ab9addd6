#!/usr/bin/env bash
# Texts and files that are made to hang a reader, to crash it or to take all memory: each has no verdict, in words, and the next file is checked.
# Texts that are expected have backquotes.
# shellcheck disable=SC2016
# shellcheck source=tests/lib.bash
source "$(dirname "$0")/lib.bash" || exit 1

needs rulecheck node

here=$PWD
tried=$(mktemp -d)
trap 'rm -rf "$tried"' EXIT

# hostile SHAPE NAME [BYTES]: a file of that name with a text of that shape
hostile() { tools/hostile "$1" ${3:+"$3"} >"$tried/$2"; }
# in_folder COMMAND..: there, so that names are short in what is printed; one that hangs is a failure, and the others are tried
in_folder() { (cd "$tried" && timeout 120 "$@"); }
check_rule() { in_folder "$here/check-rule" "$@"; }
# gives WANTED STATUS COMMAND..: all that the command says, and its status
gives() {
    local want=$1 status=$2 got was
    shift 2
    got=$("$@" 2>&1)
    was=$?
    if [ "$got" != "$want" ] || [ "$was" -ne "$status" ]; then echo "status $was"; head -c 2000 <<<"$got"; return 1; fi
}
# none NAME WHY [OPTION]..: a file that has no verdict, and why
none() {
    local name=$1 why=$2
    shift 2
    gives "$name  no verdict: $why
no verdict on 1 file" 2 check_rule "$@" "$name"
}
# a program that says this to any lines
says_to_all() {
    printf '#!/bin/sh\ncat >/dev/null\n%s\n' "$2" >"$tried/$1"
    chmod +x "$tried/$1"
}

# ---- texts: the first has 396 bytes, and each of its 99 levels doubles the parser's time
hostile 'assertions, 99 deep' guessed.ts
hostile semicolons nodes.js 70000
hostile parentheses deep.js
hostile members chain.js 100000
hostile flags flags.js 70000
hostile 'octal escapes' memory.js 200000
long='reading it took more than 1 s of processor time (--seconds N allows more)'
check "a parser that goes over its text again and again" none guessed.ts "$long" --seconds 1
check "a text that takes much memory" none memory.js 'reading it took more than 100 MiB of memory (--memory N allows more)' --memory 100
check "more nodes than a rule has" none nodes.js 'too large: 70001 nodes, and a rule has at most 65535' --no-engine
check "nested too deep for the parser" none deep.js 'too large: nested too deep, or in too long a list, for the parser' --no-engine
check "a chain that the tree maker goes down" none chain.js 'too large: nested too deep for the tree maker' --no-engine
check "more errors than can be told" none flags.js 'too large: the parser has 69996 errors, and at most 65535 are told' --no-engine
check "the amounts are numbers" eval '! check_rule --seconds 0 deep.js 2>/dev/null && ! check_rule --memory 1x deep.js 2>/dev/null'

# ---- the others of a call
mkdir "$tried/office"
cp "$tried/guessed.ts" "$tried/office/b.ts"
cp "$tried/memory.js" "$tried/office/d.js"
for name in a c e; do printf 'a;' >"$tried/office/$name.js"; done
printf 'break;' >"$tried/office/f.js"
check "rules beside them have their verdicts" gives "{\"file\":\"office/a.js\",\"verdict\":\"no findings\",\"unasked\":\"V8 was not asked (--no-engine)\"}
{\"file\":\"office/b.ts\",\"verdict\":null,\"why\":\"$long\"}
{\"file\":\"office/c.js\",\"verdict\":\"no findings\",\"unasked\":\"V8 was not asked (--no-engine)\"}
{\"file\":\"office/d.js\",\"verdict\":null,\"why\":\"reading it took more than 100 MiB of memory (--memory N allows more)\"}
{\"file\":\"office/e.js\",\"verdict\":\"no findings\",\"unasked\":\"V8 was not asked (--no-engine)\"}
{\"file\":\"office/f.js\",\"code\":18,\"message\":\"\`break\` stands outside of a loop or switch\",\"instead\":\"take it out, or put the code into a loop\",\"line\":1,\"column\":1,\"node\":1,\"start\":0,\"end\":6,\"second\":null,\"context\":0}" \
    2 check_rule --seconds 1 --memory 100 --no-engine --json office
# killed COMMAND..: the process that reads is ended from outside, once
killed() {
    local view out="$tried/out"
    tools/ruleview "$tried/guessed.ts" "$tried/office/a.js" >"$out" &
    view=$!
    for _ in $(seq 200); do
        sleep 0.1
        ! pkill -KILL -P $view -f reader.js || break
    done
    for _ in $(seq 600); do
        kill -0 $view 2>/dev/null || break
        sleep 0.1
    done
    kill $view 2>/dev/null
    wait $view
    [ $? -eq 2 ] && grep -q 'no verdict: what reads it came to no end of its own (SIGKILL)$' "$out" && grep -qx '0 findings in 2 files, 1 without verdict' "$out"
}
check "a reader that is killed" killed
# one process reads small texts one after the other, and no text behind one that left much memory behind
readers() {
    node -e 'const { Guard } = require("./tools/lib/guard.js");
        (async () => {
            const guard = new Guard();
            const pids = [];
            for (const length of [1, 2, 200000, 1, 2]) { await guard.read({ text: ";".repeat(length) }); pids.push(guard.child.pid); }
            guard.end();
            const [a, b, c, d, e] = pids;
            process.exit(a === b && b === c && c !== d && d === e ? 0 : 1);
        })();'
}
check "who reads what" readers

# ---- the proved program's time, and that of what is told
says_to_all endless 'while :; do :; done'
check "a checker without end" none office/a.js 'endless gave no answer: it took more than 1 s of processor time' --seconds 1 --checker ./endless
# so many private names, each found twice: in a line, and in a second one
twice() {
    local names
    names=$(for n in $(seq 5000); do printf '#a%s;' "$n"; done)
    printf 'class A{%s\n%s}' "$names" "$names" >"$tried/twice.js"
    awk -v n=5000 -v below=$((${#names} + 1)) 'BEGIN {
        for (at = 8; i < n; at += wide + 1) { wide = length(++i) + 2; print "F,1,1," at "," at + wide "," at + below "," at + below + wide ",0" }
        print "E," n }' >"$tried/twice.out"
    says_to_all found "cat '$tried/twice.out'"
    (ulimit -t 6 && check_rule --no-engine --caller ./found twice.js | grep -c '\^')
}
check "many findings in two long lines" gives 5000 0 twice
# a name that the parser's message names, and the head of a statement, with so many blanks in them
blanks=$(printf '%200000s' '')
printf 'let a; export { "a%sb" as a };' "$blanks" >"$tried/blanks.mjs"
printf 'if (a%s+ b) c;' "$blanks" >"$tried/blanks.js"
says_to_all nothing 'echo E,0'
says_to_all through 'echo L,1; echo Z,0,1,1'
note() { (ulimit -t 6 && check_rule --no-engine --caller ./nothing blanks.mjs | sed -n 4p); }
page() { (ulimit -t 6 && in_folder "$here/tools/routeview" --caller ./through blanks.js 1 -o page.html && grep -o '<code>if[^<]*</code>' "$tried/page.html"); }
check "many blanks in a message" gives '0 findings in 1 file, 1 refused by the engine or the parser alone' 0 note
check "many blanks in a statement" gives '<code>if (a + b)</code>' 0 page

# ---- files that are none
mkfifo "$tried/pipe.js"
ln -s /dev/zero "$tried/zero.js"
ln -s self.js "$tried/self.js"
truncate -s 10G "$tried/sparse.js"
check "a pipe that nobody writes to" none pipe.js 'it is a pipe through which nothing came'
check "a device" none zero.js 'it is neither a file nor a pipe'
check "a link to itself" none self.js 'its links go round in a circle'
check "a file of 10 GiB" none sparse.js 'too large: 10737418240 bytes, and a rule has at most 1048576'
writes_late() {
    sleep 5 >"$tried/pipe.js" &
    local writer=$! was
    none pipe.js 'its end did not come in time' --seconds 1
    was=$?
    kill $writer
    return $was
}
check "a pipe that is never closed" writes_late
from_pipe() { check_rule --module <(yes) | sed 's|^/dev/fd/[0-9]*|PIPE|'; }
check "a pipe without end" gives 'PIPE  no verdict: too large: more than 1048576 bytes, and a rule has at most 1048576
no verdict on 1 file' 0 from_pipe
endless_input() { yes | check_rule --module -; }
check "standard input without end" gives 'standard input  no verdict: too large: more than 1048576 bytes, and a rule has at most 1048576
no verdict on 1 file' 2 endless_input
# 2^7 ways lead to one rule
many_ways() {
    local n
    for n in $(seq 7); do
        mkdir -p "$tried/ways/$n"
        ln -s "../$((n + 1))" "$tried/ways/$n/left"
        ln -s "../$((n + 1))" "$tried/ways/$n/right"
    done
    mkdir "$tried/ways/8"
    printf 'a;' >"$tried/ways/8/rule.js"
}
check "a folder to which many ways lead" eval 'many_ways && gives "no findings in 1 file; V8 was not asked" 0 check_rule --no-engine ways'

# ---- the other tools
check "no route of such a text" gives "show-route: guessed.ts: $long" 2 in_folder "$here/tools/routeview" guessed.ts '' --seconds 1
check "nor lines" gives "treemaker: guessed.ts: $long" 2 in_folder "$here/tools/treemaker" --typescript --seconds 1 guessed.ts
endless_lines() { yes | tools/treemaker -; }
check "nor of more than a rule has" gives 'treemaker: -: too large: more than 1048576 bytes, and a rule has at most 1048576' 3 endless_lines
finish
