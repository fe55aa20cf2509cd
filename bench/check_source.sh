#!/bin/sh
# Times `stab check` on sources of a quarter, a half and a whole megabyte: one of domains, whose canonical text is written, and one of rules of all
# kinds, whose names are judged. Prints the best of ten runs in seconds; the start of the program is part of each time.
. "$(dirname "$0")/common.sh"

# the best of ten runs on a job: job, what it is
best_of() {
    best="$(best_time check "$1")"
    awk -v what="$2" -v size="$(wc -c <"$1")" -v best="$best" -v says="$(head -n 1 "$work/text")" 'BEGIN { printf "%s: %d bytes, best of ten runs %.3f s, %s\n", what, size, best / 1e9, says }'
}

for size in 262144 524288 1048576; do
    awk -v limit="$size" 'BEGIN {
        text = "%source\nmachine m\n"
        printf "%s", text
        size = length(text)
        for (i = 0; size + 60 < limit; i++) { line = "domain d" i "=0 to 9\n"; printf "%s", line; size += length(line) }
        printf "controlled f : d0\nrule f := 7\n"
    }' >"$work/domains.job"
    best_of "$work/domains.job" domains
    awk -v limit="$size" 'BEGIN {
        text = "%source\nmachine m\ndomain D = 0 to 9\ndomain C = { a, b }\ncontrolled x : D\ncontrolled f(D, D) : D\ncontrolled c : C\nrule par\n"
        printf "%s", text
        size = length(text)
        kind[0] = "x := min((x + 1), 9) ;\n"
        kind[1] = "if ((c = a) and not (x < 3)) then f(x, 2) := cond((c != b), x, max(x, 7)) else skip end ;\n"
        kind[2] = "forall i in D with (i != x) do f(i, x) := i end ;\n"
        kind[3] = "choose k in C with (k = c) do c := k else c := a end ;\n"
        kind[4] = "let v = (x - 1) in if (v >= 0) then x := max(v, 0) end end ;\n"
        for (i = 0; size + 120 < limit; i++) { line = kind[i % 5]; printf "%s", line; size += length(line) }
        printf "skip end\n"
    }' >"$work/rules.job"
    best_of "$work/rules.job" rules
done
