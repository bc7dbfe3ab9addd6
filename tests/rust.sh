#!/usr/bin/env bash
# The Rust beside the proofs, in the workspace and in bindings/rust: rustfmt's layout and no warning of clippy. Nothing is linked here.
# shellcheck source=tests/lib.bash
source "$(dirname "$0")/lib.bash" || exit 1
needs cargo clippy rustfmt

# bindings/rust asks for the archive before it is linked; an empty one does
empty=$(mktemp -d)
printf '!<arch>\n' >"$empty/libempty.a"
export VELKUNSHE_LIB="$empty/libempty.a"

bindings() { (cd bindings/rust && cargo "$@"); }

check "the workspace in rustfmt's layout" cargo fmt --all --check
check "bindings/rust in rustfmt's layout" bindings fmt --check
check "no warning of clippy in the workspace" cargo clippy --workspace --all-targets --features cases/proved,bench/walk --offline -q -- -D warnings
check "no warning of clippy without the proved library" cargo clippy --all-targets --offline -q -- -D warnings
check "no warning of clippy in bindings/rust" bindings clippy --all-targets --offline -q -- -D warnings
check "the documentation of bindings/rust" env RUSTDOCFLAGS="-D warnings" cargo --config build.target-dir="'$empty/doc'" doc --manifest-path bindings/rust/Cargo.toml --offline -q
# What asks for memory in bindings/rust can be refused it: no macro or method that ends the process then, and no panic.
may_abort() { sed 's|//.*||' "$@" | grep -nE 'vec!|format!|\.collect|with_capacity|Box::|to_vec|to_owned|to_string|\.clone\(|unwrap\(|expect\(|panic!|unreachable!'; }
no_abort() { ! may_abort bindings/rust/src/*.rs; }
abort_told() { may_abort bindings/rust/tests/calls.rs >/dev/null; }
check "nothing in bindings/rust/src that aborts without memory, and no panic" no_abort
check "what may abort is told" abort_told
rm -rf "$empty"
finish
