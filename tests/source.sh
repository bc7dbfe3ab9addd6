#!/usr/bin/env bash
# What the source says of itself: the layout, no hole or axiom in a proof, no long function, shell scripts without warnings,
# documents in short lines that name what is there, the table of the code's length as it is defined, edits that can be applied, laws in proofs/.
# shellcheck source=tests/lib.bash
source "$(dirname "$0")/lib.bash" || exit 1

# rt lays out a copy, and nothing of it changes
laid_out() {
    local copy status=1
    copy=$(mktemp -d)
    cp -r --parents crates.txt crates/*/{src,specs,proofs} "$copy" 2>/dev/null
    if find "$copy"/crates -mindepth 1 -maxdepth 1 -print0 | xargs -0 -P "$(nproc)" -I '{}' sh -c 'cd "{}" && rt fmt' >"$copy/said" 2>&1; then
        ! grep '^rt: formatted' "$copy/said" && diff -rq -x out -x must-fail -x stdin -x stdout crates "$copy/crates"
        status=$?
    else
        tail -n 20 "$copy/said"
    fi
    rm -rf "$copy"
    return $status
}

listed() {
    local d ok=0
    for d in crates/*/; do
        grep -qE "^$(basename "$d")( [^:]*)?:" crates.txt || { echo "not in crates.txt: $d"; ok=1; }
    done
    return $ok
}

# `?` as a term, and antt's two axioms.
no_holes() { ! grep -rnE '(=|→|\(|,) *\?([a-z]*)?( |$|\)|,)|(^|[^[:alnum:]_-])(lem|ac)([^[:alnum:]_-]|$)' crates --include='*.antt' --exclude-dir=out; }

# check_node is one match by kind, as checker/mod.rs has it: an arm a kind, and no other length
small_functions() {
    awk 'FNR==1{n=0} /^fn check_node\(/{n=0; next} /^(pub )?fn |^    pub fn /{name=$0; n=1; next} n{n++} /^}/{if(n>70){print FILENAME": "name" ("n" lines)"; bad=1} n=0} END{exit bad}' crates/*/src/*.rt
}

shell_scripts() {
    local scripts
    mapfile -t scripts < <({ grep -rlE '^#!.*bash' --exclude-dir=target --exclude-dir=.git . && echo ./tests/lib.bash; } | sort)
    [ "${#scripts[@]}" -ge 10 ] && tools/setup shellcheck && shellcheck -x "${scripts[@]}"
}

# tools/rewrap FILE.. mends what this tells
short_lines() { tools/setup node && tools/rewrap --check README.md docs/*.md compare/*.md compare/*/*.md bindings/*/README.md; }

# docs/CODE.md's numbers are the definition's; a copy with one of them changed must be told
numbers() { tools/setup node && tools/code-numbers; }
number_changed() {
    local copy status
    copy=$(mktemp)
    sed 's/^| 5 | 5 | 16 | 5 |$/| 5 | 5 | 16 | 4 |/' docs/CODE.md >"$copy"
    ! cmp -s docs/CODE.md "$copy" && { tools/code-numbers "$copy" >/dev/null; [ $? -eq 1 ]; }
    status=$?
    rm -f "$copy"
    return $status
}

# those that the gate leaves out too (tools/slow-edits)
edits_stand() { tools/setup node && tools/edits; }

# a file of specs/ that has laws alone makes edits of definitions unreadable; one in a copy must be told
laws_in_proofs() { tools/laws-to-proofs --check; }
law_in_specs() {
    local copy tool status
    copy=$(mktemp -d)
    tool=$PWD/tools/laws-to-proofs
    cp -r --parents crates/base_common/{src,specs} "$copy"
    echo 'planted : (n : ℕ) → n ≡ n' >"$copy/crates/base_common/specs/Planted.antt"
    (cd "$copy" && "$tool" --check) | grep -qx 'base_common: Planted'
    status=$?
    rm -rf "$copy"
    return $status
}

# the calls under C names are those that the theorem speaks of: the same parameters, results and clauses
calls_of() { sed -E 's/^pub extern "C" fn /pub fn /' "$1" | awk '/^pub fn velkunshe_/{on=1} on{print} /^\{/{on=0}' | tr -s ' \n' ' '; }
same_calls() {
    [ "$(grep -c '^pub fn velkunshe_' crates/exports/src/lib.rt)" -eq 11 ] &&
        [ "$(calls_of crates/exports/src/lib.rt)" = "$(calls_of "${1:-crates/velkunshe/src/lib.rt}")" ]
}
# a copy with one clause changed must be told
clause_changed() {
    local copy status
    copy=$(mktemp)
    sed '0,/findings\.new ≡/s//findings.old ≡/' crates/velkunshe/src/lib.rt >"$copy"
    ! cmp -s crates/velkunshe/src/lib.rt "$copy" && ! same_calls "$copy"
    status=$?
    rm -f "$copy"
    return $status
}

# The documents tell of crates that are there, and of every one; what LANDINGS, PORT and DESIGN-PASS tell may be gone.
every_crate_told() {
    local d ok=0
    for d in crates/*/; do
        grep -q "\`$(basename "$d")\`" "${1:-docs/ARCHITECTURE.md}" || { echo "not in ARCHITECTURE.md: $d"; ok=1; }
    done
    return $ok
}
paths_there() {
    local doc path ok=0
    for doc in "$@"; do
        while read -r path; do
            compgen -G "$path*" >/dev/null || { echo "$doc: no $path"; ok=1; }
        done < <(grep -oE '(crates|tools|compare|bench|include|docs|rules)/[A-Za-z0-9_./-]+' "$doc" | sed 's/[.,]*$//' | grep -v NAME | sort -u)
    done
    return $ok
}
# a copy with a crate left out, and one with a path that is not there, must be told
crate_left_out() {
    local copy status
    copy=$(mktemp)
    sed '/code_put/d' docs/ARCHITECTURE.md >"$copy"
    ! every_crate_told "$copy" >/dev/null
    status=$?
    rm -f "$copy"
    return $status
}
path_gone() {
    local copy status
    copy=$(mktemp)
    sed '0,/crates\/code_flat/s//crates\/code_flap/' docs/CODE.md >"$copy"
    ! cmp -s docs/CODE.md "$copy" && ! paths_there "$copy" >/dev/null
    status=$?
    rm -f "$copy"
    return $status
}

# each edit that a row of EDITS.md names is there; a name without a crate is of the crate before it
edits_told() {
    local crate name ok=0
    while IFS=/ read -r crate name; do
        [ -f "crates/$crate/must-fail/$name.edit" ] || [ -f "slow-edits/$crate/$name.edit" ] || { echo "no edit $crate/$name"; ok=1; }
    done < <(awk -F'|' '/^\|/ { crate = ""; s = $3; while (match(s, /`[a-z_0-9]+(\/[a-z_0-9]+)?`/)) {
        n = substr(s, RSTART + 1, RLENGTH - 2); s = substr(s, RSTART + RLENGTH)
        if (n ~ /\//) { split(n, part, "/"); crate = part[1]; print n } else if (crate != "") print crate "/" n } }' "${1:-docs/EDITS.md}")
    return $ok
}
edit_gone() {
    local copy status
    copy=$(mktemp)
    sed 's/behind_lost/behind_found/' docs/EDITS.md >"$copy"
    ! edits_told "$copy" >/dev/null
    status=$?
    rm -f "$copy"
    return $status
}

check "every file in rt's layout" laid_out
check "the calls of velkunshe have the clauses of those of exports" same_calls
check "a clause changed in a copy is told" clause_changed
check "every crate listed in crates.txt" listed
check "every crate is told in docs/ARCHITECTURE.md" every_crate_told
check "a crate left out in a copy is told" crate_left_out
check "what the documents name is there" paths_there README.md bindings/rust/README.md compare/*.md docs/{ARCHITECTURE,CHANGING,CLAIMS,CODE,COMPARED,COST,DECISIONS,DIFFERENCES,EDITS,PERFORMANCE,PORTING,TOOLS,TREES}.md
check "a path changed in a copy is told" path_gone
check "each edit that docs/EDITS.md names is there" edits_told
check "an edit's name changed in a copy is told" edit_gone
check "no hole and no axiom" no_holes
check "no long function" small_functions
check "no warning of shellcheck" shell_scripts
check "documents in lines of at most 120 columns" short_lines
check "docs/CODE.md has the numbers of the definition" numbers
check "a number changed in a copy is told" number_changed
check "every must-fail edit changes one place of its crate" edits_stand
check "files that have laws alone stand in proofs/" laws_in_proofs
check "a file of laws in specs/ of a copy is told" law_in_specs
finish
