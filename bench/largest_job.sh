#!/bin/sh
# Times `stab compile` on the largest jobs with little to compile: a megabyte of domains, and a megabyte of comments, both around 64 functions.
# Prints the best of ten runs in seconds, and the most memory in kilobytes (GNU time).
. "$(dirname "$0")/common.sh"

awk 'BEGIN {
    text = "%source\nmachine m\n"
    for (i = 0; i < 64; i++) functions = functions "controlled f" i " : d0\n"
    functions = functions "rule f63 := 7\n"
    printf "%s", text
    size = length(text) + length(functions)
    for (i = 0; size + 40 < 1048576; i++) { line = "domain d" i "=0 to 9\n"; printf "%s", line; size += length(line) }
    printf "%s", functions
}' >"$work/domains.job"

awk 'BEGIN {
    printf "%%source\nmachine m\ndomain d0=0 to 9\n"
    for (i = 0; i < 64; i++) printf "controlled f%d : d0\n", i
    printf "rule f63 := 7\n"
    for (i = 0; i < 16300; i++) printf "// %060d\n", i
}' >"$work/comments.job"

for job in domains comments; do
    best=""
    most=0
    for run in 1 2 3 4 5 6 7 8 9 10; do
        line="$( { /usr/bin/env time -f '%e %M' "$program" compile <"$work/$job.job" >/dev/null; } 2>&1 | tail -n 1)"
        seconds="${line% *}"
        memory="${line#* }"
        best="$(printf '%s\n%s\n' "$best" "$seconds" | grep . | sort -n | head -n 1)"
        [ "$memory" -gt "$most" ] && most="$memory"
    done
    echo "$job: $(wc -c <"$work/$job.job") bytes, best of ten runs $best s, most memory $most KB"
done
