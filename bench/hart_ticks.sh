#!/bin/sh
# Times `stab exec` on 10,000,000 ticks of a loop with loads, stores and branches: the time of the whole run of the program,
# its start included. Prints the best of ten runs in seconds and as a rate, and the same for half as many ticks.
. "$(dirname "$0")/common.sh"

# Sums and shifts of a counter in RAM, by way of a word, a half and a byte, with one branch that is taken every second time.
cat >"$work/loop.asm" <<'END'
%source
        lui x1, 0x10000
loop:   lw x2, 0(x1)
        addi x2, x2, 1
        sw x2, 0(x1)
        andi x3, x2, 1
        beq x3, x0, even
        lbu x4, 1(x1)
        add x5, x5, x4
even:   sh x2, 4(x1)
        lh x6, 4(x1)
        slli x7, x6, 3
        xor x8, x8, x7
        bltu x0, x2, loop
        ecall
END
"$program" asm <"$work/loop.asm" >"$work/words" || exit 1

for ticks in 5000000 10000000; do
    { printf '%%rom\n'; cat "$work/words"; printf '%%run\nticks %d\n' "$ticks"; } >"$work/job"
    best=""
    for run in 1 2 3 4 5 6 7 8 9 10; do
        from="$(date +%s%N)"
        "$program" exec <"$work/job" >/dev/null || exit 1
        to="$(date +%s%N)"
        best="$(printf '%s\n%s\n' "$best" "$((to - from))" | grep . | sort -n | head -n 1)"
    done
    awk -v ticks="$ticks" -v best="$best" 'BEGIN { printf "%d ticks: best of ten runs %.3f s, %.0f million ticks a second\n", ticks, best / 1e9, ticks / best * 1e3 }'
done
