#!/usr/bin/env bash
# rulecheck on lines that can't be read, at the limits, and on what document 01 leaves open; the answers are written by hand.
# shellcheck source=tests/lib.bash
source "$(dirname "$0")/lib.bash" || exit 1

# is NAME INPUT EXPECTED: both with printf's escapes
is() {
    local got
    got=$(printf '%b' "$2" | target/bin/rulecheck)
    if [ "$got" = "$(printf '%b' "$3")" ]; then ok; else bad "$1: $got"; fi
}

needs rulecheck

program='J,0,1,1\nS,0,2,0\nN,0,0,0,0,0,0,0,0,\n'
long=$(head -c 1024 /dev/zero | tr '\0' a)
is "nothing to read" '' 'R,0,1'
is "an empty program" "${program}X,\n" 'E,0'
is "the last line without its end" "${program}X," 'E,0'
is "what follows X isn't read" "${program}X,\nnonsense\n" 'E,0'
is "X missing" "${program}" 'R,0,4'
is "X with half a byte" "${program}X,6\n" 'R,0,4'
is "X with no hexadecimal digit" "${program}X,6g\n" 'R,0,4'
is "X in capitals" "${program}X,6A\n" 'E,0'
is "a scope missing" 'J,0,1,2\nS,0,2,0\nN,0,0,0,0,0,0,0,0,\nX,\n' 'R,0,3'
is "a node missing" 'J,0,2,1\nS,0,2,0\nN,0,0,0,0,0,0,0,0,\nX,\n' 'R,0,4'
is "nodes before scopes" 'J,0,1,1\nN,0,0,0,0,0,0,0,0,\nS,0,2,0\nX,\n' 'R,0,2'
is "a number too few" 'J,0,1,1\nS,0,2\nN,0,0,0,0,0,0,0,0,\nX,\n' 'R,0,2'
is "a number too many" 'J,0,1,1\nS,0,2,0,0\nN,0,0,0,0,0,0,0,0,\nX,\n' 'R,0,2'
is "an empty number" 'J,0,1,1\nS,,2,0\nN,0,0,0,0,0,0,0,0,\nX,\n' 'R,0,2'
is "no digit" 'J,0,1,1\nS,0,x,0\nN,0,0,0,0,0,0,0,0,\nX,\n' 'R,0,2'
is "a carriage return" 'J,0,1,1\r\nS,0,2,0\nN,0,0,0,0,0,0,0,0,\nX,\n' 'R,0,1'
is "leading zeros" 'J,0,001,1\nS,0,02,0\nN,0,0,0,0,0,0,0,0,\nX,\n' 'E,0'
is "the largest number" 'J,0,1,1\nS,0,2,4294967295\nN,0,0,0,0,0,0,0,0,\nX,\n' 'R,5,0'
is "one above it" 'J,0,1,1\nS,0,2,4294967296\nN,0,0,0,0,0,0,0,0,\nX,\n' 'R,0,2'
is "no nodes" 'J,0,0,1\nS,0,2,0\nX,\n' 'R,1,0'
is "source type 3" 'J,3,1,1\nS,0,2,0\nN,0,0,0,0,0,0,0,0,\nX,\n' 'R,1,0'
is "too many nodes" 'J,0,1025,1\nS,0,2,0\n' 'R,0,1'
is "too many scopes" 'J,0,1,1025\nS,0,2,0\n' 'R,0,1'
is "a name with commas" 'J,0,1,1\nS,0,2,0\nN,0,0,0,0,0,0,0,0,a,b,c\nX,\n' 'E,0'
is "1,024 bytes of names" "J,0,1,1\nS,0,2,0\nN,0,0,0,0,0,0,0,0,$long\nX,\n" 'E,0'
is "1,025 bytes of names" "J,0,1,1\nS,0,2,0\nN,0,0,0,0,0,0,0,0,a$long\nX,\n" 'R,0,3'
is "1,024 bytes of source" "${program}X,$long$long\n" 'E,0'
is "1,025 bytes of source" "${program}X,$long${long}aa\n" 'R,0,4'
is "a line of 2,101 bytes" "J,0,1,1\nS,0,2,0\nN,0,0,0,0,0,0,0,$long${long}aaaaaaaaaaaaaaaaaaaaaaaaaaaaaaaaaaaaa\nX,\n" 'R,0,3'
is "refusal 3" 'J,0,1,1\nS,0,2,0\nN,5,0,0,0,0,0,0,0,\nX,\n' 'R,3,0'
is "refusal 4" 'J,0,1,1\nS,0,2,0\nN,0,0,0,0,1,0,0,0,\nX,\n' 'R,4,0'
# 6 at a Super: a function scope at the Program, above which nothing stands; and the same without the function scope
at_super='N,0,0,0,0,0,0,0,0,\nN,22,0,3,0,0,0,0,0,\nN,37,1,0,0,0,0,0,0,\nX,\n'
is "a search that ends above the Program" "J,0,3,1\nS,0,4,0\n$at_super" 'R,6,2'
is "a super outside any function" "J,0,3,1\nS,0,2,0\n$at_super" 'F,30,2,0,0,0,0,0\nE,1'
# 6 at a Super: its scope is the class's, and no class element stands above it
is "a search without an element" 'J,0,6,1\nS,0,2,0\nN,0,0,0,0,0,0,0,0,\nN,26,0,3,0,0,0,0,0,\nN,27,1,0,0,0,0,0,0,\nN,3,2,0,0,0,0,0,0,\nN,22,3,3,0,0,0,0,0,\nN,37,4,0,0,0,0,0,0,\nX,\n' 'R,6,5'

# tree FLAGS NODE..: the lines of a tree with one scope, of these flags; a node is kind,parent,role
tree() {
    local flags=$1
    shift
    printf '%s' "J,0,$(($# + 1)),1\nS,0,$flags,0\nN,0,0,0,0,0,0,0,0,\n"
    printf 'N,%s,0,0,0,0,0,\\n' "$@"
    printf '%s' 'X,\n'
}
# 13 at the child, 14 at the parent, each over the whole tree at its lowest node, after 5 and before 6
is "a Block that isn't held" "$(tree 2 5,0,0)" 'R,13,1'
is "a statement under a Function" "$(tree 2 1,0,3 20,1,3)" 'R,13,2'
is "an expression that is held" "$(tree 2 10,0,3 55,1,3)" 'R,13,2'
is "an alternate of a While" "$(tree 2 10,0,3 22,1,3 22,1,4)" 'R,13,3'
is "a Block in a Switch" "$(tree 2 14,0,3 5,1,3)" 'R,13,2'
is "a While for a Try's Block" "$(tree 2 16,0,3 10,1,3 22,2,3 5,1,5)" 'R,13,2'
is "a method's value that is no Function" "$(tree 2 26,0,3 27,1,0 28,2,0 55,3,2 55,3,1)" 'R,13,5'
is "a While without a statement" "$(tree 2 10,0,3)" 'R,14,1'
is "a While with two" "$(tree 2 10,0,3 22,1,3 22,1,3)" 'R,14,1'
is "a Try with neither catch nor finally" "$(tree 2 16,0,3 5,1,3)" 'R,14,1'
is "a CatchClause without a Block" "$(tree 2 16,0,3 5,1,3 17,1,4)" 'R,14,3'
is "a Labeled without a label" "$(tree 2 6,0,3 22,1,3)" 'R,14,1'
is "a class without a body" "$(tree 2 26,0,3)" 'R,14,1'
is "the lowest of 13" "$(tree 2 5,0,0 5,0,0)" 'R,13,1'
is "the lowest of 14" "$(tree 2 10,0,3 10,0,3)" 'R,14,1'
is "13 before 14 at a lower node" "$(tree 2 10,0,3 5,0,0)" 'R,13,2'
is "13 at the child before 14 at its parent" "$(tree 2 10,0,3 22,1,3 55,1,3)" 'R,13,3'
is "5 before 13 and 14" 'J,0,4,1\nS,0,2,0\nN,0,0,0,0,0,0,0,0,\nN,5,0,0,0,0,0,0,0,\nN,10,0,3,0,0,0,0,0,\nN,55,0,0,0,0,1,0,0,\nX,\n' 'R,5,3'
is "13 before 6" "$(tree 4 22,0,3 37,1,0 5,0,0)" 'R,13,3'
is "14 before 6" "$(tree 4 22,0,3 37,1,0 10,0,3)" 'R,14,3'
is "6 alone" "$(tree 4 22,0,3 37,1,0)" 'R,6,2'

# a key that is an IdentifierReference is that of `[a]`: it names no property, ..
object='J,0,10,1\nS,0,2,0\nN,0,0,0,0,0,0,0,0,\nN,22,0,3,0,0,0,0,0,\nN,55,1,0,0,0,0,0,1,\nN,43,2,1,0,0,0,0,0,\nN,44,3,0,0,0,0,0,0,\nN,@,4,2,0,0,0,0,0,__proto__\nN,35,4,1,0,0,0,0,0,\nN,44,3,0,0,0,0,0,0,\nN,@,7,2,0,0,0,0,0,__proto__\nN,35,7,1,0,0,0,0,0,\nX,\n'
is "({__proto__: 1, __proto__: 2})" "${object//@/55}" 'F,1,3,0,0,0,0,0\nE,1'
is "({[__proto__]: 1, [__proto__]: 2})" "${object//@/32}" 'E,0'
# .. and no element: of a second constructor its own span is told, ..
constructors='J,0,11,1\nS,0,2,0\nN,0,0,0,0,4,0,0,0,\nN,26,0,3,0,4,0,0,0,\nN,27,1,0,0,4,0,0,0,\nN,28,2,0,0,2,0,0,0,\nN,@,3,2,0,1,0,0,0,constructor\nN,1,3,1,1,2,0,0,0,\nN,4,5,3,1,2,0,0,0,\nN,28,2,0,2,4,0,0,0,\nN,@,7,2,2,3,0,0,0,constructor\nN,1,7,1,3,4,0,0,0,\nN,4,9,3,3,4,0,0,0,\nX,61616161\n'
is "two constructors" "${constructors//@/55}" 'F,27,1,0,1,2,3,0\nE,1'
is "two constructors whose keys are references" "${constructors//@/32}" 'F,27,1,0,2,2,4,0\nE,1'
# .. and a private element isn't declared
private='J,0,7,1\nS,0,2,0\nN,0,0,0,0,0,0,0,0,\nN,26,0,3,0,0,0,0,0,\nN,27,1,0,0,0,0,0,0,\nN,29,2,0,0,0,0,4,0,\nN,@,3,2,0,0,0,0,0,a\nN,41,3,1,0,0,0,0,0,\nN,34,5,0,0,0,0,0,0,a\nX,\n'
is "a private name" "${private//@/34}" 'E,0'
is "a private element whose key is a reference" "${private//@/32}" 'F,8,1,0,0,0,0,0\nE,1'

# 1,024 scopes and nodes in lines of 2,100 bytes, by leading zeros: 4.3 million bytes, of which none is cut; what is printed hangs on the last node
zeros=$(head -c 2094 /dev/zero | tr '\0' 0)
large() {
    printf 'J,0,%s1024,1024\n' "${zeros:0:2087}"
    printf 'S,0,2,%s\n' "$zeros"
    for _ in $(seq 1023); do printf 'S,0,0,%s\n' "$zeros"; done
    printf 'N,0,0,0,0,0,0,0,%s,\n' "${zeros:0:2083}"
    for _ in $(seq 1022); do printf 'N,55,0,0,0,0,0,0,%s,\n' "${zeros:0:2082}"; done
    printf 'N,%s,0,3,0,0,0,0,%s,\n' "$1" "${zeros:0:2082}"
    printf 'X,\n'
}
for last in 22:E,0 18:F,18,1023,0,0,0,0,0 99:R,2,1023; do
    got=$(large "${last%%:*}" | target/bin/rulecheck | head -n 1)
    if [ "$got" = "${last#*:}" ]; then ok; else bad "a large input: $got"; fi
done
finish
