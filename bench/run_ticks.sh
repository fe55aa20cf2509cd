#!/bin/sh
# Times `stab run` beside `stab exec` on as many ticks of the same image from the same hart, and on a trace of a million lines. Prints the best of ten runs
# of each in seconds, and the most memory in kilobytes of a run with few rounds and with many. Exits with 1 where a job is refused, and where a bar is passed:
# `run` takes at most 1.5 times as long as `exec`, a million lines less than 2 s, and many rounds at most 256 KB more than few, though their traces differ by more than 1 MB.
. "$(dirname "$0")/common.sh"
passed=0

# says that a bar is passed where a number is greater than it: what is measured, number, bar
hold() {
    awk -v number="$2" -v bar="$3" 'BEGIN { exit !(number <= bar) }' && return
    echo "run_ticks.sh: $1: $2 is more than $3" >&2
    passed=1
}

# runs a job to its end, with its text in $work/text; where it is refused that is said: job
run_job() {
    "$program" run <"$1" >"$work/text" && return
    echo "run_ticks.sh: the job that ends with \"$(tail -n 1 "$1")\" isn't run: $(tail -n 1 "$work/text")" >&2
    exit 1
}

# the most memory of a run in kilobytes, by GNU time; where that is missing, by what the kernel says of the process whenever a piece of its text comes, which
# takes a text that is longer than a pipe holds: job
memory() {
    if [ -x /usr/bin/time ]; then
        { /usr/bin/time -f '%M' "$program" run <"$1" >/dev/null; } 2>&1 | tail -n 1
        return
    fi
    python3 - "$program" "$1" <<'END'
import re
import subprocess
import sys

most = 0
with open(sys.argv[2]) as job, subprocess.Popen([sys.argv[1], "run"], stdin=job, stdout=subprocess.PIPE) as run:
    while run.stdout.read1(4096):
        with open("/proc/%d/status" % run.pid) as status:
            most = max([most] + [int(peak) for peak in re.findall(r"^VmHWM:\s*(\d+) kB", status.read(), re.MULTILINE)])
print(most)
END
}

# Rounds of some 40,000 ticks, so that few lines are written: a fault that changes nothing keeps the play going up to its time. The anchor bound is 131,026 and
# the round bound 65,512, so that with one round behind the fault the trace may take 9,996,538 of the 10,000,000 ticks.
last=9800000
cat >"$work/long" <<END
%source
machine m
domain D = 0 to 9
domain Big = 0 to 1127
controlled x : D
rule forall i in Big do x := 7 end
END
{ cat "$work/long"; printf '%%run\nat %d reg 1 0\n' "$last"; } >"$work/run"
run_job "$work/run"
ticks="$(tail -n 1 "$work/text" | cut -d ' ' -f 2)"
{ printf '%%rom\n'; sed '1,/^words/d; /^end/,$d' "$work/text"; printf '%%run\nticks %d\n' "$ticks"; } >"$work/exec"
run="$(best_time run "$work/run")"
exec="$(best_time exec "$work/exec")"
awk -v ticks="$ticks" -v run="$run" -v exec="$exec" 'BEGIN { printf "%d ticks: run %.3f s, exec %.3f s, %.2f times as long\n", ticks, run / 1e9, exec / 1e9, run / exec }'
hold "run beside exec" "$(awk -v run="$run" -v exec="$exec" 'BEGIN { print run / exec }')" 1.5

# The shortest rounds that there are: those of a machine without a state, a few ticks each. How many is what lies between two heads.
{ printf '%%source\nmachine m\nrule skip\n'; } >"$work/short"
{ cat "$work/short"; printf '%%run\nrounds 2\n'; } >"$work/two"
run_job "$work/two"
round="$(awk '$1 == "round" && NF == 2 { before = now; now = $2 } END { print now - before }' <"$work/text")"
{ cat "$work/short"; printf '%%run\nat %d reg 1 0\n' "$((1000000 * round))"; } >"$work/many"
run_job "$work/many"
lines="$(sed '1,/^end$/d' "$work/text" | wc -l)"
many="$(best_time run "$work/many")"
awk -v lines="$lines" -v many="$many" 'BEGIN { printf "%d lines: run %.3f s\n", lines, many / 1e9 }'
hold "lines that are wanted beside those that came" 1000000 "$lines"
hold "seconds of $lines lines" "$(awk -v many="$many" 'BEGIN { print many / 1e9 }')" 2

# Rounds of at most 138 ticks each: of these up to 72,461 are allowed.
for rounds in 10000 72000; do
    printf '%%source\nmachine m\ndomain D = 0 to 9\ncontrolled x : D\nrule x := 7\n%%run\nrounds %d\n' "$rounds" >"$work/rounds"
    run_job "$work/rounds"
    memory="$(memory "$work/rounds")"
    echo "$rounds rounds: $memory KB, and the text has $(wc -c <"$work/text") bytes"
    [ "$rounds" = 10000 ] && few="$memory"
done
hold "KB of many rounds" "$memory" "$((few + 256))"
exit "$passed"
