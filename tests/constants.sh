#!/usr/bin/env bash
# The numbers and sentences of include/velkunshe.h and of the Rust crate: each number is the one that the proved crates have under that name, none is
# missing, and the two tell the same sentences, sizes and version.
# shellcheck source=tests/lib.bash
source "$(dirname "$0")/lib.bash" || exit 1

header=include/velkunshe.h
numbers=bindings/rust/src/numbers.rs
work=$(mktemp -d)

# constants GROUP FILE [NAME..]: GROUP NAME NUMBER for each constant of a .rt file, or for those that are named
constants() {
    local group=$1 file=$2
    shift 2
    sed -nE "s/^pub const ([A-Z_]+): u32 = ([0-9]+);$/$group \1 \2/p" "$file" |
        if [ $# -eq 0 ]; then cat; else grep -E "^$group ($(IFS='|'; echo "$*")) "; fi
}

# CamelCase to UPPER_CASE, in the second word of a line
upper() { awk '{ gsub(/[A-Z]/, "_&", $2); sub(/^_/, "", $2); $2 = toupper($2); print }'; }

# Those of the crates. The end of a run that the machine has no name for is "no other end" to a caller; 0 of a refusal is the programs' alone.
proved() {
    echo 'SOURCE SCRIPT 0'
    constants SOURCE crates/table_source/src/lib.rt
    constants KIND crates/table_records/src/kinds.rt
    constants ROLE crates/table_records/src/roles.rt
    constants FLAG crates/table_records/src/node_flag.rt
    constants FLAG crates/check_bodies/src/lib.rt ASYNC_OR_GENERATOR
    constants FLAG crates/check_class_table/src/lib.rt NO_FIXED_NAME
    constants EXTRA crates/table_records/src/extras.rt
    constants SCOPE crates/table_records/src/scope_flag.rt
    constants CODE crates/check_diagnostics/src/codes.rt
    constants CODE crates/check_bodies/src/lib.rt ASYNC_BODY
    constants CODE crates/check_duplicates/src/lib.rt STATIC_AND_INSTANCE_PRIVATE
    constants CONTEXT crates/check_diagnostics/src/contexts.rt
    constants END crates/route_list/src/run_end.rt | sed 's/END SPENT/END ANSWERS_SPENT/; s/END ASTRAY/END NO_OTHER_END/'
    sed -nE 's/^            Refusal::([A-Za-z]+) => ([0-9]+),$/REFUSAL \1 \2/p' crates/refusal_verdict/src/lib.rt | grep -v ' 0$' | upper
    constants INSTRUCTION crates/code_machine/src/opcodes.rt
}

# Those of the header, and of the Rust crate, which names no instructions.
of_header() { sed -nE 's/^    VELKUNSHE_([A-Z]+)_([A-Z_]+) = ([0-9]+),?$/\1 \2 \3/p' "${1:-$header}" | grep -v '^REFUSAL NONE 0$'; }
of_rust() {
    awk '/^    [A-Za-z]+:$/ { sub(/:/, ""); group = $1 } /^    [A-Za-z_]+ = [0-9]+, "/ { sub(/,/, "", $3); print group, $1, $3 }' "$numbers" |
        sed 's/^SourceType/SOURCE/; s/^Reason/REFUSAL/; s/^ScopeFlags/SCOPE/; s/^Flags/FLAG/' | awk '{ $1 = toupper($1); print }' >"$work/rust"
    grep -vE '^(FLAG|SCOPE) ' "$work/rust" | upper
    grep -E '^(FLAG|SCOPE) ' "$work/rust"
    sed -nE 's/^    pub const ([A-Z_]+): u32 = ([0-9]+);$/EXTRA \1 \2/p' "$numbers"
}

# GROUP NAME SENTENCE
sentences_of_header() { sed -nE 's/^    case VELKUNSHE_([A-Z]+)_([A-Z_]+): return "(.*)";$/\1 \2 \3/p' "${1:-$header}" | grep -v '^REFUSAL NONE '; }
sentences_of_rust() {
    awk '/^    [A-Za-z]+:$/ { sub(/:/, ""); group = toupper($1); sub(/REASON/, "REFUSAL", group) }
        group ~ /^(CODE|CONTEXT|END|REFUSAL)$/ && match($0, /^    [A-Za-z]+ = [0-9]+, "/) {
            name = $1; sentence = substr($0, RLENGTH + 1); sub(/";$/, "", sentence)
            gsub(/[A-Z]/, "_&", name); sub(/^_/, "", name); print group, toupper(name), sentence
        }' "$numbers"
}

# What is given once by each: the version, sizes and the stack.
once_of_header() {
    sed -nE 's/^#define VELKUNSHE_(VERSION) "(.*)"$/\1 \2/p; s/^#define VELKUNSHE_(NODE|SCOPE|FINDING|CODE|MARKS|STACK) ([0-9]+)$/\1 \2/p' "$header"
    sed -nE 's/^#define VELKUNSHE_VERSION_(MAJOR|MINOR|PATCH) ([0-9]+)$/\2/p' "$header" | paste -sd. | sed 's/^/PARTS /'
}
once_of_rust() {
    sed -nE 's/^version = "(.*)"$/VERSION \1\nPARTS \1/p' bindings/rust/Cargo.toml
    cat bindings/rust/src/lib.rs bindings/rust/src/marks.rs | tr -d _ | sed -nE 's/^pub const (NODE|SCOPE|FINDING|CODE|MARKS|STACK): usize = ([0-9]+);$/\1 \2/p'
}

# same COMMAND COMMAND: both print the same lines, in any order, and more than a few
same() {
    $1 | sort >"$work/one"
    $2 | sort >"$work/other"
    [ "$(wc -l <"$work/one")" -ge 8 ] && diff "$work/one" "$work/other"
}

proved_but_instructions() { proved | grep -v '^INSTRUCTION '; }
marks() {
    local count part room
    count=$(sed -nE 's/^pub const MARKS: u32 = ([0-9]+);$/\1/p' crates/route_marks/src/lib.rt)
    part=$(sed -nE 's/^const PART: usize = ([0-9ROM +*]+);$/\1/p' crates/route_marks/src/lib.rt)
    room=$(sed -nE 's/^pub const ROOM: usize = ([0-9]+);$/\1/p' crates/code_machine/src/lib.rt)
    once_of_header | grep -qx "MARKS $((count * (${part/ROOM/$room})))"
}

# another REPLACEMENT: the header with a change, which must be told
another() { sed "$1" "$header" >"$work/header" && ! cmp -s "$header" "$work/header"; }
told() { another "$1" && ! same proved "of_header $work/header" >/dev/null; }
told_sentence() { another "$1" && ! same "sentences_of_header $work/header" sentences_of_rust >/dev/null; }

check "each number of the header is the crates'" same proved of_header
check "each number of the Rust crate is the crates'" same proved_but_instructions of_rust
check "the sentences of both are the same" same sentences_of_header sentences_of_rust
check "sizes and version of both are the same" same once_of_header once_of_rust
check "the length of the marks" marks
check "another number is told" told 's/VELKUNSHE_CODE_INVALID_BREAK = 18/VELKUNSHE_CODE_INVALID_BREAK = 19/'
check "a constant less is told" told '/VELKUNSHE_REFUSAL_MARK_PLACE = /d'
check "another sentence is told" told_sentence 's/a label stands within itself/a label stands alone/'
rm -rf "$work"
finish
