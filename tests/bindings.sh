#!/usr/bin/env bash
# The library as those who link it get it: installed, and found by pkg-config, from C and C++ with three compilers; and the Rust crate, its tests, its
# documentation's examples, and packaged for a program outside of the repository. An example for each call tells the same in C and in Rust.
# shellcheck source=tests/lib.bash
source "$(dirname "$0")/lib.bash" || exit 1

needs cargo cc g++ clang objdump pkg-config velkunshe

work=$(mktemp -d)
unset VELKUNSHE_LIB
# what is installed here, and nothing that the system has
export PKG_CONFIG_LIBDIR="$work/prefix/lib/pkgconfig"

staged() {
    tools/install "$work/prefix" && tools/install /opt/velkunshe "$work/stage" &&
        cmp target/staticlib/libvelkunshe.a "$work/stage/opt/velkunshe/lib/libvelkunshe.a" &&
        grep -qx 'prefix=/opt/velkunshe' "$work/stage/opt/velkunshe/lib/pkgconfig/velkunshe.pc"
}
wrong_calls() { ! tools/install 2>/dev/null && ! tools/install prefix 2>/dev/null; }
version() { grep -qx "#define VELKUNSHE_VERSION \"$(pkg-config --modversion velkunshe)\"" include/velkunshe.h; }

# Each call of the header has an example of its name, in both languages.
calls() { sed -nE 's/^struct velkunshe_[a-z]+_answer velkunshe_([a-z_]+)\($/\1/p' include/velkunshe.h; }
each_call() {
    [ "$(calls | wc -l)" -eq 11 ] && diff <(calls | sort) <(cd bindings/c && printf '%s\n' *.c | sed 's/\.c$//' | sort) || return
    local name
    for name in $(calls); do [ -e "bindings/rust/examples/$name.rs" ] || return; done
}

# The archive gives the calls and nothing else, and asks for what the header says: two functions of the C library.
symbols() {
    nm -g target/staticlib/libvelkunshe.a | sed -nE 's/^.* ([TU]) /\1 /p' | sort >"$work/symbols"
    { calls | sed 's/^/T velkunshe_/'; sed -nE 's/^.*calls nothing but (memcpy) and (memset) of the C library.*$/U \1\nU \2/p' include/velkunshe.h; } |
        sort | diff - "$work/symbols"
}

# from_c NAME COMPILER..: the example, without a warning, prints what it should
from_c() {
    local name=$1 flags
    shift
    read -ra flags <<<"$(pkg-config --cflags --libs velkunshe)"
    "$@" -Wall -Wextra -Wconversion -pedantic -Werror -O1 "bindings/c/$name.c" -x none "${flags[@]}" -o "$work/$name" &&
        "$work/$name" | cmp - "bindings/c/$name.out"
}
from_rust() { "target/cargo/debug/examples/$1" | cmp - "bindings/c/$1.out"; }

check "installed under a prefix and for a package" staged
check "wrong calls of tools/install" wrong_calls
check "the version of the header and of pkg-config's file" version
check "an example for each call" each_call
check "the archive's symbols" symbols
for name in $(calls); do
    check "$name.c by gcc" from_c "$name" gcc -std=c99
    check "$name.c by g++" from_c "$name" g++ -std=c++11 -x c++
    check "$name.c by clang" from_c "$name" clang -std=c99
    check "$name.c by clang as C++" from_c "$name" clang -std=c++20 -x c++
done

# Each line `test result: ok. N passed; M failed` counts; the documentation's example must be among them.
if (cd bindings/rust && cargo test --offline) >"$work/cargo" 2>&1; then ok; else
    bad "cargo test in bindings/rust"
    tail -n 40 "$work/cargo"
fi
while read -r p f; do
    passed=$((passed + p))
    failed=$((failed + f))
done < <(sed -nE 's/^test result: .* ([0-9]+) passed; ([0-9]+) failed;.*/\1 \2/p' "$work/cargo")
if sed -n '/Doc-tests/,$p' "$work/cargo" | grep -qE '^test result: ok\. [1-9]'; then ok; else bad "the documentation's example"; fi
for name in $(calls); do check "$name.rs" from_rust "$name"; done

# 160 MB of a route in 120 MB of memory: the limit and the lack are told, and nothing ends in an abort
short_of_memory() { (ulimit -v 120000 && target/cargo/debug/examples/long_route) >"$work/long"; }
too_long='40020000 entries are more than the limit of 16777216
there is no memory for 40020000 entries'
if short_of_memory && [ "$(cat "$work/long")" = "$too_long" ]; then ok; else
    bad "a route that is too long for the memory: $(cat "$work/long")"
fi

# The package, unpacked, and a program outside of the repository that uses it.
packaged() {
    (cd bindings/rust && cargo package --offline --allow-dirty -q --target-dir "$work/cargo-package") &&
        mkdir -p "$work/outside/src" && mv "$work"/cargo-package/package/velkunshe-*/ "$work/velkunshe" &&
        cmp LICENSE "$work/velkunshe/LICENSE"
}
outside() {
    cat >"$work/outside/Cargo.toml" <<'END'
[package]
name = "outside"
version = "0.1.0"
edition = "2021"
END
    cat >"$work/outside/src/main.rs" <<'END'
fn main() {
    let rule = velkunshe::Rule { source_type: 0, async_bodies: false, nodes: &[], scopes: &[], source: b"", names: b"" };
    println!("{}", velkunshe::findings(&rule).unwrap_err());
}
END
    (cd "$work/outside" && cargo add velkunshe --path "$work/velkunshe" --offline -q)
}
# run_outside NAME=VALUE..: the program, with an environment of its own
run_outside() { (cd "$work/outside" && env "$@" cargo run --offline -q 2>&1); }
tells() { [[ "$(run_outside "$@")" == 'refusal 1 at 0: '* ]]; }
beside() { cp target/staticlib/libvelkunshe.a "$work/velkunshe/" && tells PKG_CONFIG_LIBDIR=/none && rm "$work/velkunshe/libvelkunshe.a"; }
without() { [[ "$(run_outside PKG_CONFIG_LIBDIR=/none)" == *'velkunshe: no libvelkunshe.a. Do one of these:'* ]]; }
elsewhere() { [[ "$(run_outside VELKUNSHE_LIB=/none/liba.a)" == *'VELKUNSHE_LIB is /none/liba.a, and there is no such file'* ]]; }

check "the package builds by itself" packaged
check "added to a program" outside
check "the archive by pkg-config" tells
check "the archive by the environment" tells PKG_CONFIG_LIBDIR=/none VELKUNSHE_LIB="$PWD/target/staticlib/libvelkunshe.a"
check "the archive beside the package" beside
check "told where there is no archive" without
check "told where the environment names none" elsewhere

# README's lines as they stand, but for the prefix; what the C and the Rust example print is the same.
readme() {
    sed -n '/^## From C and Rust/,/^## More/s/^    //p' README.md | sed "s|^prefix=.*|prefix=$work/readme|" >"$work/lines"
    [ "$(wc -l <"$work/lines")" -ge 5 ] && (unset PKG_CONFIG_LIBDIR && bash -eu "$work/lines") >"$work/printed" 2>"$work/told" &&
        cat bindings/c/check.out bindings/c/check.out | cmp - "$work/printed"
}
check "README's lines" readme
check "the fuzzer's seeds, and faults that it must find on them" compare/fuzz/run --seeds
rm -rf "$work"
finish
