#!/bin/sh
# Times `stab asm` and `stab list`: words of all kinds of instructions, twice as many each time up to 65,536, and a text of labels
# with a branch to each. Prints the best of ten runs in seconds and as a rate; the start of the program is part of each time.
. "$(dirname "$0")/common.sh"

# the best of ten runs of a mode on a job: mode, job, words, what it is
best_of() {
    best_time "$1" "$2" | awk -v what="$4" -v words="$3" '{ printf "%s: %d words, best of ten runs %.3f s, %.1f million words a second\n", what, words, $1 / 1e9, words / $1 * 1e3 }'
}

for words in 16384 32768 65536; do
    awk -v words="$words" 'BEGIN {
        print "%rom"
        n = split("007302b3 fff30313 00c32283 fe62ae23 fe5296e3 0040006f 12345537 4033d393 0ff0000f 00000073 ffffffff 00008067", kind, " ")
        for (i = 0; i < words; i++) print kind[i % n + 1]
    }' >"$work/list.job"
    best_of list "$work/list.job" "$words" list
    # The comments of a listing would pass the limit of a job, so that only the instructions are assembled.
    { printf '%%source\n'; "$program" list <"$work/list.job" | sed 's/ *#.*//; s/, /,/g'; } >"$work/asm.job"
    best_of asm "$work/asm.job" "$words" asm
done

for labels in 10000 20000 40000; do
    awk -v labels="$labels" 'BEGIN {
        print "%source"
        for (i = 0; i < labels; i++) printf "l%d:jal x1,l%d\n", i, (i * 7919) % labels
    }' >"$work/labels.job"
    best_of asm "$work/labels.job" "$labels" "asm of labels"
done
