#!/usr/bin/env bash
# The machine code, which the proofs don't reach: no function loses a number where it makes room for a large array (tools/stack-probes), and the benchmark of the walk, which links an archive of its own, runs.
# shellcheck source=tests/lib.bash
source "$(dirname "$0")/lib.bash" || exit 1
needs node cargo cc objdump rulecheck ruleroute velkunshe bench_walk

work=$(mktemp -d)

# made LINE LINE: the object file of a function that keeps its third argument in r11 from the first line or from the second
made() {
    cc -c -x assembler -o "$work/made.o" - <<END
        .text
        .globl made
made:   $1
        push %rbp
        mov %rsp, %r11
        sub \$0x40000, %r11
1:      sub \$0x1000, %rsp
        movq \$0, (%rsp)
        cmp %r11, %rsp
        jne 1b
        $2
        add \$0x40000, %rsp
        mov %r11, %rax
        pop %rbp
        ret
END
}
planted() { made 'mov %rdx, %r11' 'nop' && tools/stack-probes "$work/made.o" >"$work/out"; [ $? -eq 1 ] && grep -q 'r11 is written' "$work/out"; }
harmless() { made 'nop' 'mov %rdx, %r11' && tools/stack-probes "$work/made.o" >/dev/null; }

check "bench/walk runs" bench/walk --once
check "no number lost in the library, the benchmark's archive and the programs" tools/stack-probes target/staticlib/libvelkunshe.a target/staticlib/libbench_walk.a target/bin/rulecheck target/bin/ruleroute
check "a number lost is found" planted
check "a number kept is none" harmless
rm -rf "$work"
finish
