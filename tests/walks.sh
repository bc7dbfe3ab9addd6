#!/usr/bin/env bash
# No walk up (over parents, scopes or classes) and nothing that it calls divides: tools/walks reads that off the source, walk by walk. In a copy, a division two calls below a walk must be found.
# shellcheck source=tests/lib.bash
source "$(dirname "$0")/lib.bash" || exit 1
needs node

# Walks over parents, scopes and classes that are known, and some of the refusals and of the code maker, are among those
# that are found.
known() {
    local w ok=0 found
    found=$(tools/walks --list)
    for w in table_ancestry::nearest table_scoping::in_static_block check_element_index::is_declared check_super_search::reach refusal_ code_; do
        grep -q "^$w" <<<"$found" || { echo "not found: $w"; ok=1; }
    done
    return $ok
}

# No crate but those of the benchmark rests on one of them.
apart() { ! grep -vE '^(bench_|#)' crates.txt | grep -E ' bench_'; }

# planted TEXT FILE:LINE: what tools/walks says of a copy in which the text stands behind this line
planted() {
    local copy file=${2%:*} line=${2##*:} status
    copy=$(mktemp -d)
    cp -r --parents crates/*/src "$copy"
    sed -i "${line}a\\    $1" "$copy/$file"
    tools/walks "$copy"
    status=$?
    rm -rf "$copy"
    return $status
}
found() { local out; out=$(planted "$@"); [ $? -eq 1 ] && grep -q '^a division in a walk up' <<<"$out"; }
passed_over() { planted "$@" >/dev/null; }

mapfile -t below < <(tools/walks --below)
first=${below[0]} middle=${below[${#below[@]} / 2]} last=${below[-1]}

check "no division or remainder in a walk up" tools/walks
check "the walks that are known are found" known
check "the benchmark's crates apart" apart
check "the benchmark's own division is seen" [ "$(tools/walks --all | grep -c 'bench_walk::nearest_by_size > table_records::size')" -eq 1 ]
check "a division two calls below a walk ($first)" found 'let planted = 7 / 2;' "$first"
check "a remainder two calls below a walk ($middle)" found 'let planted = 7 % 2;' "$middle"
check "a division by a shift two calls below a walk ($last)" found 'let planted = 7 >> 1;' "$last"
check "a recursion up is a walk" found 'fn planted(nodes: \&[u32], n: NodeId) -> u32 { let p = table_ancestry::up(nodes, n); planted(nodes, p) / 2 }' 'crates/check_jumps/src/lib.rt:$'
check "a comment is none" passed_over '// 7 / 2' "$first"
check "a ghost line is none" passed_over 'ghost let planted = 7 / 2;' "$first"
finish
