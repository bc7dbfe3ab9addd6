#!/usr/bin/env bash
# The judges in Rust: their own tests, seeded tables on which they and the proved library must agree, codes and routes as they were stored, and rulecheck and ruleroute on lines whose answers the plain version wrote.
# shellcheck source=tests/lib.bash
source "$(dirname "$0")/lib.bash" || exit 1

needs cargo rulecheck ruleroute velkunshe
cargo build --profile checked --offline -q --features cases/proved || give_up
compare=target/cargo/checked/compare
if cargo test --profile checked --offline -q --features cases/proved >/dev/null 2>&1; then ok; else bad "cargo test of the judges"; fi
answer=$($compare run 20000 2027)
if [ "$(tail -n 1 <<<"$answer")" = "20000 cases, 0 differences" ]; then ok; else bad "compare run 20000 2027: $answer"; fi
# each call of the library was compared, and was not only refused
for call in check code route shared walk rename route_stop route_resume route_resume_stop shorten run; do
    if grep "^$call calls of the proved library by refusal 0 to 20: \[[1-9]" <<<"$answer"; then ok; else bad "no $call calls compared"; fi
done

work=$(mktemp -d)
stored=compare/stored/routes.txt
if answer=$($compare stored $stored) && [ "$(tail -n 1 <<<"$answer")" = "1200 trees, 2248 units, 9587 routes, plain and proved: 0 differences" ]; then ok; else bad "$stored: $answer"; fi
# changed LETTER TOLD: a copy with one number of its hundredth line of that letter changed must be told, by one difference for each who differs
changed() {
    awk -v letter="$1" 'index($0, letter ",") == 1 && ++seen == 100 { sub(/[0-9]+$/, "77") } { print }' $stored >"$work/changed"
    answer=$($compare stored "$work/changed") && { bad "a stored $1 changed: not told"; return; }
    if [ "$(grep -c '^difference' <<<"$answer")" -eq "$2" ]; then ok; else bad "a stored $1 changed: $answer"; fi
}
changed C 1
changed L 2
changed Z 2

$compare vectors "$work/vectors" 400 11 >/dev/null
seen=0
for input in "$work"/vectors/*.in; do
    [ -e "$input" ] || continue
    case "$input" in *.route.in) program=ruleroute ;; *) program=rulecheck ;; esac
    seen=$((seen + 1))
    if "target/bin/$program" <"$input" | cmp -s - "${input%.in}.out"; then ok; else bad "$input"; fi
done
[ "$seen" -ge 800 ] || bad "only $seen vectors"
[ "$failed" -gt 0 ] || rm -rf "$work"
finish
