#!/bin/sh
# Times `stab check` on the dearest sources that there are: one guard of comparisons that fills half of the source, around updates that fill the
# other half, so that each updated value is cut by each comparison. Prints the time of one run in seconds, for an eighth to a whole megabyte, and that of
# a megabyte of guards of ten comparisons each.
. "$(dirname "$0")/common.sh"

# one run on a job: job, what it is
one_run() {
    from="$(date +%s%N)"
    "$program" check <"$1" >"$work/text"
    to="$(date +%s%N)"
    awk -v what="$2" -v size="$(wc -c <"$1")" -v taken="$((to - from))" -v says="$(head -n 1 "$work/text")" 'BEGIN { printf "%s: %d bytes, %.3f s, %s\n", what, size, taken / 1e9, says }'
}

for size in 131072 262144 524288 1048576; do
    awk -v limit="$size" '
    # a conjunction of so many comparisons, as deep as it must be
    function guard(count) { if (count == 1) { printf "(x<9)" } else { printf "("; guard(int(count / 2)); printf "and"; guard(count - int(count / 2)); printf ")" } }
    BEGIN {
        printf "%%source\nmachine m\ndomain D = 0 to 9\ncontrolled x : D\nrule if "
        guard(int(limit / 2 / 10) - 10)
        printf " then par "
        for (i = int(limit / 2 / 5) - 30; i > 0; i--) printf "x:=x;"
        printf "skip end end\n"
    }' >"$work/guard.job"
    one_run "$work/guard.job" "one guard"
done
awk -v limit=1048576 'BEGIN {
    text = "%source\nmachine m\ndomain D = 0 to 9\ncontrolled x : D\ncontrolled y : D\nrule par\n"
    printf "%s", text
    size = length(text)
    line = "if (((((x>0)and(x<9))and((y>0)and(y<9)))and(((x!=y)and(y!=x))and((x<=y)and(y>=x))))and((x>=1)and(y<=8))) then par x := (x + 1) ; y := (y - 1) end end ;\n"
    while (size + 160 < limit) { printf "%s", line; size += length(line) }
    printf "skip end\n"
}' >"$work/guards.job"
one_run "$work/guards.job" "guards of ten comparisons"
