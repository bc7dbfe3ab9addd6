# shellcheck shell=bash
# check-rule as people use it: tests/javascript.sh sources this, whose check, says, status and text_status it uses.
# Texts that are expected have backquotes.
# shellcheck disable=SC2016
tried=$(mktemp -d)

# rule NAME TEXT: a file of that name with that text, with printf's escapes
rule() { printf '%b' "$2" >"$tried/$1"; }
# in_folder COMMAND..: there, so that names are short in what is printed
in_folder() { (cd "$tried" && "$@"); }
here=$PWD
check_rule() { in_folder "$here/check-rule" "$@"; }
# a program for --checker that prints this, with printf's escapes
fake() {
    printf '#!/bin/sh\ncat >/dev/null\nprintf "%s"\nexit %s\n' "$1" "${2:-0}" >"$tried/fake"
    chmod +x "$tried/fake"
}
# no_answer OUTPUT [STATUS]: a checker that prints this gives no verdict, whatever the rule
no_answer() {
    fake "$@"
    status 2 check_rule --checker ./fake ok.js
}
rule ok.js 'a;'
rule name-twice.js 'let a; let a;'
rule pattern.js 'function f() { return /(/; }'
rule await-below.js 'class C { static { { let await; } } }'
rule bidi.js 'x = "\xe2\x80\xae\xc2\xad\xf3\xa0\x81\x81"; break;'

# ---- 0, 1 or 2, and 2 whatever goes wrong
check "status 2: the checker's answer lacks its closing line" no_answer 'F,18,1,0,1,0,0,0\n'
check "status 2: the closing line counts findings that aren't there" no_answer 'E,2\n'
check "status 2: the closing line doesn't count all findings" no_answer 'F,18,1,0,1,0,0,0\nE,0\n'
check "status 2: a line that is no finding" no_answer 'nonsense\nE,1\n'
check "status 2: the closing line is cut off" no_answer 'E,0'
check "status 2: the checker fails behind its closing line" no_answer 'E,0\n' 3
check "status 2: a refusal behind a finding" no_answer 'F,18,1,0,1,0,0,0\nR,9,9\n'
check "status 0: the same checker with a whole answer" eval 'fake "E,0\n"; status 0 check_rule --checker ./fake ok.js'
check "status 2: no such checker" status 2 check_rule --checker ./none ok.js
# a program that dies has no verdict: neither the status of its signal nor that of findings
dying() {
    local ended=$1
    mkdir -p "$tried/dies"
    printf '#!/bin/sh\n%s\n' "$ended" >"$tried/dies/node"
    chmod +x "$tried/dies/node"
    PATH="$tried/dies:$PATH" status 2 ./check-rule rules/office-hours.js
}
check "status 2: the program is killed" dying 'kill -KILL $$'
check "status 2: the program can't be run" dying 'exit 127'
broken_output() { { ./check-rule rules/block-label.js; echo $? >"$tried/status"; } | true; }
check "status 2: nobody reads the output" eval 'broken_output 2>/dev/null; [ "$(cat "$tried/status")" = 2 ]'
closed_input() { ./check-rule --script - <&-; }
check "status 2: standard input is closed" status 2 closed_input
endless() { head -c 50000000 /dev/zero | tr '\0' ';' | ./check-rule --script -; }
check "more on standard input than a rule has" says 'standard input  no verdict: too large: more than 1048576 bytes, and a rule has at most 1048576
no verdict on 1 file' endless
rule latin.js 'x = "\xe9";'
check "both tools on a file that is no UTF-8" eval 'says "latin.js  no verdict: it is no UTF-8
no verdict on 1 file" check_rule latin.js && says "show-route: latin.js: it is no UTF-8" in_folder "$here/show-route" latin.js ""'
check "status 2: a file without end" status 2 timeout 20 ./check-rule --script /dev/zero
module_input() { printf 'await 1;' | ./check-rule --module -; }
script_input() { printf 'await 1;' | ./check-rule --script -; }
check "standard input as a module" says 'clean: no findings in 1 file' module_input
check "standard input as a script" status 2 script_input
check "status 2: standard input, and nothing tells what it is" eval 'printf "a;" | status 2 ./check-rule -'
# as_nobody COMMAND: by a user who may not read everything
as_nobody() { chmod 755 "$tried" && su nobody -s /bin/bash -c "cd '$tried' && $1"; }
unreadable() {
    mkdir -p "$tried/locked"
    rule locked.js 'a;'
    chmod 000 "$tried/locked" "$tried/locked.js"
    as_nobody "'$here/check-rule' locked locked.js"
}
if [ "$(id -u)" -eq 0 ]; then
    check "a folder and a file that may not be read" says 'locked  no verdict: it may not be read
locked.js  no verdict: it may not be read
no verdict on 2 files' unreadable
else
    unrun "a folder and a file that may not be read" "it takes root to become nobody"
fi

# ---- several files and folders
mkdir -p "$tried/folder/deep/node_modules"
ln -sf nowhere "$tried/folder/gone.js"
ln -sfn .. "$tried/folder/deep/around"
rule folder/deep/own.cjs 'continue;'
rule folder/deep/node_modules/other.js 'continue;'
rule folder/A.JS 'continue;'
rule folder/deep/read.me 'no rule'
check "a folder: each rule in it, links that lead nowhere or around, an ending in capitals" says 'folder/A.JS  no verdict: its ending doesn'"'"'t tell what it is: say --script, --module, --typescript or --table
folder/deep/own.cjs:1:1  `continue` stands outside of a loop  [21]
  1 | continue;
    | ^^^^^^^^^
  take it out, or put the code into a loop
folder/gone.js  no verdict: no such file or folder
1 finding in 3 files, 2 without verdict' check_rule --no-engine folder
check "one file without verdict keeps no other from its own" says '{"file":"none.js","verdict":null,"why":"no such file or folder"}
{"file":"name-twice.js","parser":"Identifier '"'a'"' has already been declared","line":1,"column":12}
{"file":"name-twice.js","engine":"Identifier '"'a'"' has already been declared","line":1}
{"file":"ok.js","verdict":"clean"}' check_rule --json none.js name-twice.js ok.js
check "a rule whose name begins with a dash" eval 'rule -x.js "a;"; status 0 check_rule -- -x.js'
linked() {
    ln -sf "$here/check-rule" "$tried/linked"
    in_folder ./linked ok.js
}
check "called by a link" says 'clean: no findings in 1 file' linked

# ---- what the proved check leaves out is not shown as clean
check "what the parser and the engine say beside the findings" says "name-twice.js:1:12  not proved, the parser: Identifier 'a' has already been declared
  1 | let a; let a;
    |            ^
name-twice.js:1  not proved, V8 of Node $(node -p process.versions.node) refuses this rule: Identifier 'a' has already been declared
0 findings in 1 file, 1 refused by the engine or the parser alone" check_rule name-twice.js
check "what only the engine refuses" says "0 findings in 1 file, 1 refused by the engine or the parser alone" eval 'check_rule pattern.js | tail -n 1'
check "status 1: the same for programs" status 1 check_rule --quiet pattern.js
check "rulecheck's lines, and beside them why the rule is not clean" says "E,0
pattern.js: not proved, V8 of Node $(node -p process.versions.node) refuses this rule: Invalid regular expression: /(/: Unterminated group" check_rule --lines pattern.js
check "status 1: rulecheck's lines of a rule that only the engine refuses" status 1 check_rule --lines pattern.js
rule name-twice.ts 'let a; let a; if (a) a;'
check "no route of TypeScript that the parser refuses" says "show-route: no route: not proved, the parser: Identifier 'a' has already been declared. (1:11)" in_folder "$here/show-route" name-twice.ts 1
check "without the engine a rule is not called clean" says 'no findings in 1 file; V8 was not asked' check_rule --no-engine ok.js
check "nor is it for programs" says '{"file":"ok.js","verdict":"no findings","unasked":"V8 was not asked (--no-engine)"}' check_rule --no-engine --json ok.js
check "an error over which the parser reads on, and that no finding stands for" says "await-below.js:1:26  not proved, the parser: Can not use 'await' as identifier inside a static block
  1 | class C { static { { let await; } } }
    |                          ^
0 findings in 1 file, 1 refused by the engine or the parser alone" check_rule --no-engine await-below.js

# ---- for people
check "characters that aren't seen, or that change the order of others" says 'bidi.js:1:12  `break` stands outside of a loop or switch  [18]
  1 | x = "<U+202E><U+00AD><U+E0041>"; break;
    |                                  ^^^^^^
  take it out, or put the code into a loop
1 finding in 1 file' check_rule --no-engine bidi.js
# of a line of some thousand characters the part around the mark
rule long-line.js "$(printf 'x;%.0s' $(seq 3000))break;$(printf 'y;%.0s' $(seq 3000))"
check "a line that is too long for a terminal" eval '[ "$(check_rule --no-engine long-line.js | sed -n 2,3p | wc -L)" -lt 200 ] && check_rule --no-engine long-line.js | sed -n 3p | grep -q "\^\^\^\^\^\^$"'
coloured() { script -qec "$1 '$here/check-rule' '$here/rules/block-label.js'" /dev/null | grep -c "$(printf '\033')"; }
check "colours at a terminal" says 3 coloured ''
check "no colours where NO_COLOR says so" says 0 coloured 'NO_COLOR=1'
check "no colours in a file" says 0 eval './check-rule rules/block-label.js | grep -c "$(printf "\033")"'
check "a finding for programs" says '{"file":"rules/block-label.js","code":22,"message":"`continue` names a label that is on no loop","instead":"put the label on the loop, or write `break`","line":1,"column":1,"node":4,"start":0,"end":1,"second":{"start":14,"end":15},"context":0}' ./check-rule --no-engine --json rules/block-label.js
check "nothing but the status" says '' ./check-rule --quiet rules/block-label.js
check "two shapes at once" status 2 ./check-rule --quiet --json rules/block-label.js

# ---- rules of any size that the library takes
comments() { for n in $(seq 49); do printf '// line %s of a rule that says what it is about, in a comment\nif (a%s) open(%s);\n' "$n" "$n" "$n"; done; }
comments >"$tried/comments.js"
check "a rule of 49 lines with comments" says 'clean: no findings in 1 file' check_rule comments.js
# 3,000 statements and 18,000 nodes, the last of which is at fault
{ for n in $(seq 3000); do echo "if (a$n) open($n);"; done; echo 'break;'; } >"$tried/large.js"
check "a rule of 18,000 nodes" says 'large.js:3001:1  `break` stands outside of a loop or switch  [18]
  3001 | break;
       | ^^^^^^
  take it out, or put the code into a loop
1 finding in 1 file' check_rule --no-engine large.js
# the line before the last is at fault: 3,000 answers of no are taken in front of it
check "its route" says "show-route: no route: the rule has an early error, or a jump without a target: check it first (line 3001)" in_folder "$here/show-route" large.js 0
sed '$d' "$tried/large.js" >"$tried/large-route.js"
check "a route of such a rule" says 'route of the program with answers 1, 0
1  line 1  if (a1)   1: yes
2  line 1  open(1);
3  line 2  if (a2)   0: no
it stopped for want of an answer after 3 entries and 2 answers; line 3 asks next: if (a3)' in_folder "$here/show-route" large-route.js 1,0
for _ in 1 2 3 4 5 6; do cat "$tried/large.js"; done >"$tried/too-large.js"
check "more nodes than the library takes" says 'too-large.js  no verdict: too large: 108007 nodes, and a rule has at most 65535
no verdict on 1 file' check_rule --no-engine too-large.js
head -c 1048577 /dev/zero | tr '\0' ';' >"$tried/bytes.js"
check "more bytes than the library takes, told before they are parsed" says 'bytes.js  no verdict: too large: 1048577 bytes, and a rule has at most 1048576
no verdict on 1 file' check_rule bytes.js
large_table() { tools/treemaker --no-limit "$tried/large.js" >"$tried/large.table" && check_rule --table --lines large.table; }
large_end=$(($(wc -c <"$tried/large.js") - 1))
check "a table of 18,000 nodes" says "F,18,18001,$((large_end - 6)),$large_end,0,0,0\nE,1" large_table
check "rulecalls answers as rulecheck and ruleroute do" tools/same-answers 300 3

# ---- the set-up
# a folder with few commands alone, and an apt-get that only notes its call
bare=$tried/bare
mkdir -p "$bare"
for name in env bash dirname readlink mkdir cat touch setsid; do ln -sf "$(command -v $name)" "$bare/$name"; done
printf '#!/bin/sh\necho "$@" >>"%s/asked"\n' "$tried" >"$bare/apt-get"
chmod +x "$bare/apt-get"
unasked_package() { PATH=$bare setsid -w tools/setup --ask objdump; }
check "no package is installed unasked" says 'setup: binutils, a package of Debian, is missing; `tools/setup objdump` installs it, as root' unasked_package
check "and apt-get was not called" eval '[ ! -e "$tried/asked" ]'
asked_package() { PATH=$bare setsid -w tools/setup objdump; }
check "the set-up command installs it" eval 'says "installing binutils, once" asked_package && grep -q "install .*binutils" "$tried/asked"'
# a repository of four crates, with an rt that notes its call and goes over them one by one
copy=$tried/copy
mkdir -p "$copy/tools" "$copy"/crates/{low,left,right,rulecheck}/src "$tried/rt"
cp tools/setup "$copy/tools/"
printf 'low:\nleft: low # one side\nright: low\nrulecheck: left right\n' >"$copy/crates.txt"
cat >"$tried/rt/rt" <<'END'
#!/bin/sh
echo "$(basename "$PWD"): $*" >>../../order
echo $$ >../../last
for crate in low left right rulecheck; do
    mkdir -p "../$crate/out/rlib"
    sleep "$(cat ../../slow)"
    printf '== %s\nwords on it\n' "$crate"
    [ "$crate" != "$(cat ../../fails 2>/dev/null)" ] || exit 1
    : >"../$crate/out/rlib/stamp"
done
: >out/rulecheck
END
chmod +x "$tried/rt/rt"
echo 0.5 >"$copy/slow"
first_run() { (cd "$copy" && rm -rf target crates/*/out order && OMP_NUM_THREADS=2 PATH="$tried/rt:$PATH" tools/setup rulecheck 2>&1 | sed -E 's/in [0-9]+ s/in N s/'; exit "${PIPESTATUS[0]}"); }
check "the first run tells what it does, and pours nothing out" says 'proving and building rulecheck, once: 4 crates, some minutes; target/log/rulecheck.log says how far it is
rulecheck is proved and built, in N s' first_run
check "one rt proves all, as many crates side by side as there are processors" says 'rulecheck: all test --jobs 2' cat "$copy/order"
twice() { (cd "$copy" && rm -rf target crates/*/out order fails && for _ in 1 2; do PATH="$tried/rt:$PATH" tools/setup rulecheck >/dev/null 2>&1 & done && wait && wc -l <order); }
check "two set-ups at once prove once" says 1 twice
# the rt that proves is gone soon after its set-up, long before its own end
stopped_setup() {
    echo 20 >"$copy/slow"
    (cd "$copy" && rm -rf target crates/*/out order last && exec env PATH="$tried/rt:$PATH" tools/setup rulecheck >/dev/null 2>&1) &
    local setup=$! turn
    for _ in $(seq 100); do
        [ ! -s "$copy/last" ] || break
        sleep 0.1
    done
    echo 0.5 >"$copy/slow"
    kill "$setup"
    wait "$setup"
    for _ in $(seq 50); do
        kill -0 "$(cat "$copy/last")" 2>/dev/null || return 0
        sleep 0.1
    done
    return 1
}
check "a set-up that is stopped leaves nobody at work" stopped_setup
check "a second run has nothing to do" eval 'first_run >/dev/null; cd "$copy" && PATH="$tried/rt:$PATH" says "" tools/setup rulecheck; was=$?; cd "$here" && [ $was -eq 0 ]'
check "what was not proved is told, with its log" eval 'echo right >"$copy/fails"; says "proving and building rulecheck, once: 4 crates, some minutes; target/log/rulecheck.log says how far it is
setup: rulecheck was not proved; target/log/rulecheck.log says why" first_run && grep -q "== right" "$copy/target/log/rulecheck.log"'
at_terminal() { (cd "$copy" && rm -rf target crates/*/out fails && PATH="$tried/rt:$PATH" script -qec "tools/setup rulecheck" /dev/null | tr '\r' '\n' | grep -c "of 4 crates, .* s left; now "); }
check "a line of progress at a terminal: how many crates, which now, time left" eval '[ "$(at_terminal)" -ge 2 ]'
# without anything proved, and without the parser
help_alone() {
    mkdir -p "$tried/bare-copy/bindings/rust" && cp -r check-rule show-route tools "$tried/bare-copy" && cp bindings/rust/Cargo.toml "$tried/bare-copy/bindings/rust/" &&
        status 0 "$tried/bare-copy/check-rule" --help && status 0 "$tried/bare-copy/show-route" --help && status 0 "$tried/bare-copy/check-rule" --version
}
check "--help and --version need no set-up" help_alone
check "--version names the engine and the parser" eval './check-rule --version | grep -q "^check-rule of Velkunshe [0-9.]* *.*$" && ./check-rule --version | grep -q "V8 .*@babel/parser [0-9]"'
# options_told NAME: each option of NAME --help has a place in its manual page
options_told() {
    local page=docs/man/$1.1 option ok=0
    for option in $("./$1" --help | grep -oE '(^|[ ,])--?[a-z][a-z-]*' | tr -d ' ,' | sort -u); do
        grep -qF -- "${option//-/\\-}" "$page" || { echo "not in $page: $option"; ok=1; }
    done
    return $ok
}
for page in check-rule show-route; do
    check "the manual page of $page has each option" options_told $page
    if command -v man >/dev/null; then check "the manual page of $page can be shown" eval "man --warnings -E UTF-8 -l docs/man/$page.1 2>&1 >/dev/null | (! grep .)"; fi
done
check "a read-only temporary folder" says 'it fell through its last statement after 4 entries and 3 answers' eval 'TMPDIR=/proc ./show-route rules/while-switch.js 1,0,0 | tail -n 1'
rm -rf "$tried"
