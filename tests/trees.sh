#!/usr/bin/env bash
# What people who write tree makers are told, tables as JSON, and two tree makers side by side.
# Texts that are expected have backquotes.
# shellcheck disable=SC2016
# shellcheck source=tests/lib.bash
source "$(dirname "$0")/lib.bash" || exit 1

needs rulecheck rulecalls node acorn

# the lines of a table: its J, then S and N by their numbers, then X
table() { printf '%b' "$1" | tools/check-tree -; }
# first WANTED TABLE: the first line that check-tree says of a table
first() {
    local got
    got=$(table "$2" | head -n 1)
    [ "$got" = "$1" ] || { echo "$got"; return 1; }
}
# whole WANTED STATUS TABLE: all that it says, and its status
whole() {
    local got was
    got=$(table "$3")
    was=$?
    if [ "$got" != "$(printf "%b" "$1")" ] || [ "$was" -ne "$2" ]; then echo "status $was"; echo "$got"; return 1; fi
}

check "a finding in words" whole 'finding 22, line 1, column 1: `continue` names a label that is on no loop
  raised at node 4: kind 19 (Continue), parent 3, role 3 (body), bytes 5 to 16, scope 1, flags 0, extra 0
  first span: bytes 0 to 1 "a"
  second span: bytes 14 to 15 "a"
6 nodes, 2 scopes: the tables are well-formed; 1 finding' 1 \
    'J,0,6,2\nS,0,2,0\nS,0,0,3\nN,0,0,0,0,18,0,0,0,\nN,6,0,3,0,18,0,0,0,\nN,33,1,6,0,1,0,0,0,a\nN,5,1,3,3,18,0,0,0,\nN,19,3,3,5,16,1,0,0,\nN,33,4,6,14,15,1,0,0,a\nX,613a207b20636f6e74696e756520613b207d\n'
check "no findings" whole '1 node, 1 scope: the tables are well-formed; 0 findings' 0 'J,0,1,1\nS,0,2,0\nN,0,0,0,0,0,0,0,0,\nX,\n'
check "refusal 13, with the node, its parent and what is asked for" whole 'refused (13), node 2: Other with role 3 (body) under node 1, While: a While takes statements with role 3, and of the roles 4 and 5 none; Other is no statement
  node 2: kind 55 (Other), parent 1, role 3 (body), bytes 0 to 0, scope 0, flags 0, extra 0
  its parent, node 1: kind 10 (While), parent 0, role 3 (body), bytes 0 to 0, scope 0, flags 0, extra 0
  asked for: Kinds 5-14, 16 and 18-22 have role 3, 4 or 5 under a holder: 0, 3-13, 15-17. Kinds 1, 24, 26, 53 and 54 may, and are statements then. No other kind has these roles there, but 17 under Try.' 2 \
    'J,0,3,1\nS,0,2,0\nN,0,0,0,0,0,0,0,0,\nN,10,0,3,0,0,0,0,0,\nN,55,1,3,0,0,0,0,0,\nX,\n'
check "refusal 0: a field too few" first 'refused (0), line 3: line 3 must be N with eight numbers and a name, node 0 of 1: kind, parent, role, start, end, scope, flags, extra, name, but it has too few fields: the name has a comma before it even where it is empty' \
    'J,0,1,1\nS,0,2,0\nN,0,0,0,0,0,0,0,0\nX,\n'
check "refusal 0: the lines end" first 'refused (0), line 4: line 4 must be X with the source in hexadecimal, two digits a byte, but the lines end before it' 'J,0,1,1\nS,0,2,0\nN,0,0,0,0,0,0,0,0,\n'
check "refusal 1: the source type" first 'refused (1), the tables: the source type is 3; it is 0 for a script, 1 for a module, 2 for a TypeScript module' 'J,3,1,1\nS,0,2,0\nN,0,0,0,0,0,0,0,0,\nX,\n'
check "refusal 1: no records" first 'refused (1), the tables: there are 0 nodes and 0 scopes; both tables have at least one record' 'J,0,0,0\nX,\n'
check "refusal 2: a flag of another kind" first 'refused (2), node 1: it has flag 8192, which kind 1, Function, has alone' 'J,0,2,1\nS,0,2,0\nN,0,0,0,0,0,0,0,0,\nN,2,0,0,0,0,0,8192,0,\nX,\n'
check "refusal 3: not in preorder" first 'refused (3), node 1: its parent is node 2; in preorder it is the node before it or one of that node'"'"'s ancestors: 0' \
    'J,0,3,1\nS,0,2,0\nN,0,0,0,0,0,0,0,0,\nN,22,2,3,0,0,0,0,0,\nN,5,0,3,0,0,0,0,0,\nX,\n'
check "refusal 4: behind the source" first 'refused (4), node 0: its span ends at byte 3, and the source has 2 bytes (not characters)' 'J,0,1,1\nS,0,2,0\nN,0,0,0,0,3,0,0,0,\nX,c3a9\n'
check "refusal 5: a scope's record" first 'refused (5), scope 1: scope 1 is in scope 1; the scope around it has a smaller number' 'J,0,1,2\nS,0,2,0\nS,1,0,0\nN,0,0,0,0,0,0,0,0,\nX,\n'
check "refusal 5: another node's scope" first 'refused (5), node 2: scope 1 belongs to node 1, which is neither node 2 nor an ancestor of it' \
    'J,0,3,2\nS,0,2,0\nS,0,0,1\nN,0,0,0,0,0,0,0,0,\nN,5,0,3,0,0,0,0,0,\nN,22,0,3,0,0,1,0,0,\nX,\n'
check "refusal 14: a body that is missing" first 'refused (14), node 1: a While takes one statement with role 3, and has 0' 'J,0,2,1\nS,0,2,0\nN,0,0,0,0,0,0,0,0,\nN,10,0,3,0,0,0,0,0,\nX,\n'
check "refusal 6: the program's scope as a function's" first 'refused (6), node 2: the search from this Super through the scopes around it fails: it comes to the scope of a class (the extra of kind 26) without having passed an element of that class, or to a scope with flag 4, and without 8 and 16, that belongs to the Program, or a `super()` in a constructor has no ClassBody around it' \
    'J,0,3,1\nS,0,6,0\nN,0,0,0,0,0,0,0,0,\nN,22,0,3,0,0,0,0,0,\nN,37,1,0,0,0,0,0,0,\nX,\n'
check "refusal 15: the rule's own fault" first 'refused (15), node 4: this return stands in the static block of node 3, without a function between them; that is a fault of the rule, and not of its tree' \
    'J,0,5,3\nS,0,2,0\nS,0,1,1\nS,1,17,3\nN,0,0,0,0,0,0,0,0,\nN,26,0,3,0,0,0,32,1,\nN,27,1,3,0,0,1,0,0,\nN,3,2,0,0,0,1,0,0,\nN,20,3,3,0,0,2,0,0,\nX,\n'

large() { { printf 'J,0,1,1\nS,0,2,0\nN,0,0,0,0,0,0,0,0,\nX,'; printf '61%.0s' {1..2000}; echo "$1"; } | tools/check-tree - | head -n 1; }
large_says() { [ "$(large "$2")" = "$1" ] || { large "$2"; return 1; }; }
check "a table for rulecalls" large_says '1 node, 1 scope: the tables are well-formed; 0 findings' ''
check "refusal 0 of a table for rulecalls" large_says 'refused (0), line 4: line 4 must be X with the source in hexadecimal, two digits a byte, but what stands behind X is no list of pairs of hexadecimal digits' 6

empty_table() {
    local got
    got=$(printf 'J,0,0,0\nX,\n' | ./check-rule --table -)
    grep -qF 'no verdict: refused (1), the tables: a table is empty' <<<"$got" || { echo "$got"; return 1; }
}
check "refusal 1 of an empty table, by check-rule" empty_table

# ---- JSON

json='{"type": "script", "source": "a: ;", "scopes": [{"parent": 0, "flags": ["top"], "node": 0}], "nodes": [
  {"kind": "Program", "parent": 0, "start": 0, "end": 4, "scope": 0}, {"kind": "Labeled", "parent": 0, "role": "body", "start": 0, "end": 4, "scope": 0},
  {"kind": "LabelIdentifier", "parent": 1, "role": "label", "start": 0, "end": 1, "scope": 0, "name": "a"}, {"kind": 22, "parent": 1, "role": 3, "start": 3, "end": 4, "scope": 0}]}'
# json_says WANTED SED: what check-tree says of this JSON after a change
json_says() {
    local got
    got=$(sed "$2" <<<"$json" | tools/check-tree "${@:3}" - 2>&1 | head -n 9)
    [ "$got" = "$(printf '%b' "$1")" ] || { echo "$got"; return 1; }
}
check "a table in JSON" json_says '4 nodes, 1 scope: the tables are well-formed; 0 findings' ''
check "its lines" json_says 'J,0,4,1\nS,0,2,0\nN,0,0,0,0,4,0,0,0,\nN,6,0,3,0,4,0,0,0,\nN,33,1,6,0,1,0,0,0,a\nN,22,1,3,3,4,0,0,0,\nX,613a203b' '' --to-lines
check "a refusal for programs" json_says '{"refusal":4,"place":0,"where":"node 0","wrong":"its span ends at byte 9, and the source has 4 bytes (not characters)","shown":["node 0: kind 0 (Program), parent 0, role 0 (other), bytes 0 to 9, scope 0, flags 0, extra 0"],"asked":"Span start after its end, or a span or name outside its bytes."}' 's/"end": 4/"end": 9/' --json
check "a word that there is not" json_says 'check-tree: the role of node 1 is "bodies"; it is one of other, value, key, body, alternate, finally, label, left, or a number' 's/"body"/"bodies"/'
check "a field that there is not" json_says 'check-tree: node 1 has a field "rolle"; its fields are kind, parent, role, start, end, scope, flags, extra, name' 's/"role": "body"/"rolle": "body"/'
back() { tools/treemaker --no-limit "$1" >"$tried/lines" && tools/check-tree --to-json "$tried/lines" >"$tried/json" && tools/check-tree --to-lines "$tried/json" | cmp - "$tried/lines"; }
tried=$(mktemp -d)
trap 'rm -rf "$tried"' EXIT
check "a rule's table by way of JSON" back rules/office-hours.js

# ---- the second tree maker

check "a text for each kind, role and flag, as TREES.md shows it" tools/tree-texts
check "two tree makers, the same tables" tools/second-trees 300 3
finish
