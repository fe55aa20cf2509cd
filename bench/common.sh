# What the benchmarks share: the built program, a folder for their files, and the best of ten runs. To be read by `.` with `$0` in this folder.
top="$(cd "$(dirname "$0")/.." && pwd)"
"$top/stab" compile <"$top/examples/seven.job" >/dev/null || exit 1
program="$top/crates/stab_cli/out/stab_cli"
work="$(mktemp -d)"
trap 'rm -rf "$work"' EXIT

# the nanoseconds of the best of ten runs of a mode on a job, whose text is then in $work/text: mode, job
best_time() {
    best=""
    for run in 1 2 3 4 5 6 7 8 9 10; do
        from="$(date +%s%N)"
        "$program" "$1" <"$2" >"$work/text"
        to="$(date +%s%N)"
        best="$(printf '%s\n%s\n' "$best" "$((to - from))" | grep . | sort -n | head -n 1)"
    done
    echo "$best"
}
