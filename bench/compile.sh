#!/bin/sh
# Times `stab compile` on a source whose image has about 60,000 words, and on sources of half and a quarter of that size, beside GNU `as` and `ld` for RISC-V on the
# listings of these images, whose comments are taken off. Prints the best of five runs in seconds and as a rate, and the most memory in kilobytes (GNU time). Exits with 1 where the
# assembler makes other words, or is faster. Without the assembler (Debian: binutils-riscv64-unknown-elf) it prints the times of `compile` alone.
. "$(dirname "$0")/common.sh"

# A source by the number of elements: a guarded `forall` over them, and a few more than half as many updates again that are written out, with reads of
# arrays, of an input and of a static table. Each element weighs 48 words of the frame and 432 of the rule, and each update 288.
source_of() {
    awk -v elements="$1" 'BEGIN {
        updates = elements * 25 / 16
        printf "%%source\nmachine bench\ndomain D = 0 to 9\ndomain I = 0 to %d\n", elements - 1
        printf "controlled x(I) : D\ncontrolled y(I) : D\ninput p : D\nstatic s(D) : D = [ 9, 8, 7, 6, 5, 4, 3, 2, 1, 0 ]\n"
        printf "rule par forall i in I with (x(i) != s(p)) do x(i) := cond((x(i) < 5), s(x(i)), (x(i) - 1)) end"
        for (i = 0; i < updates; i++) {
            a = i * 7 % elements; b = i * 5 % elements
            printf " ;\n  y(%d) := cond((x(%d) < 5), s(y(%d)), (x(%d) - 1))", i % elements, a, b, a
        }
        printf " end\n"
    }'
}

# A listing as GNU `as` reads it: a target is written as a displacement from the instruction.
for_assembler() {
    sed -E 's/ *#.*//; s/^(jal x[0-9]+|b[a-z]+ x[0-9]+, x[0-9]+), (-?[0-9]+)$/\1, . + \2/; s/\+ -/- /'
}

compile() {
    "$program" compile <"$1" >"$1.report"
}

assemble() {
    riscv64-unknown-elf-as -march=rv32i -mabi=ilp32 -mno-relax -o "$1.o" "$1.s" && riscv64-unknown-elf-ld -m elf32lriscv --no-relax -Ttext 0 -e 0 -o "$1.linked" "$1.o"
}

# the nanoseconds of the best of five runs: a command with its words
best_of_five() {
    best=""
    for run in 1 2 3 4 5; do
        from="$(date +%s%N)"
        "$@" || exit 1
        to="$(date +%s%N)"
        best="$(printf '%s\n%s\n' "$best" "$((to - from))" | grep . | sort -n | head -n 1)"
    done
    echo "$best"
}

for elements in 16 32 64; do
    job="$work/$elements"
    source_of "$elements" >"$job"
    ours="$(best_of_five compile "$job")" || exit 1
    memory="$( { /usr/bin/env time -f '%M' "$program" compile <"$job" >/dev/null; } 2>&1 | tail -n 1)"
    sed '1,/^words/d; /^end/d' "$job.report" >"$job.words"
    words="$(wc -l <"$job.words")"
    awk -v words="$words" -v best="$ours" -v memory="$memory" 'BEGIN { printf "compile: %d words, best of five runs %.4f s, %.1f million words a second, most memory %d KB\n", words, best / 1e9, words / best * 1e3, memory }'
    command -v riscv64-unknown-elf-as >/dev/null && command -v riscv64-unknown-elf-ld >/dev/null || continue
    { echo %rom; cat "$job.words"; } | "$program" list | for_assembler >"$job.s"
    theirs="$(best_of_five assemble "$job")" || exit 1
    riscv64-unknown-elf-objcopy -O binary "$job.linked" "$job.bytes" || exit 1
    od -An -v -tx4 -w4 --endian=little "$job.bytes" | tr -d ' ' | cmp - "$job.words" || { echo "the assembler makes other words"; exit 1; }
    awk -v words="$words" -v best="$theirs" -v ours="$ours" 'BEGIN { printf "as and ld: the same %d words, best of five runs %.4f s, %.1f times as long\n", words, best / 1e9, best / ours }'
    [ "$ours" -lt "$theirs" ] || { echo "the assembler is faster"; exit 1; }
done
