#!/bin/sh
# Times `stab model`: 20 rounds of a `forall` over 65,536 elements, 20 rounds in which a nested `forall` yields 65,536 updates that clash in the last one,
# and 1,000,000 rounds of a counter. Prints the best of ten runs in seconds; writing the text is part of each time.
. "$(dirname "$0")/common.sh"

# the best of ten runs on a job: job, what it is
best_of() {
    best="$(best_time model "$1")"
    awk -v what="$2" -v best="$best" -v size="$(wc -c <"$work/text")" -v says="$(tail -n 1 "$work/text")" 'BEGIN { printf "%s: best of ten runs %.3f s, %d bytes, %s\n", what, best / 1e9, size, says }'
}

cat >"$work/forall.job" <<'END'
%source
machine m
domain I = 0 to 65535
domain D = 0 to 9
controlled x : D
rule forall i in I with (i < 65535) do if (i = 7) then x := cond((x = 9), 0, min((x + 1), 9)) end end
%run
rounds 20
END
best_of "$work/forall.job" "forall over 65,536"

cat >"$work/clash.job" <<'END'
%source
machine m
domain I = 0 to 255
domain D = 0 to 9
controlled x : D
rule par forall i in I do forall j in I do x := 1 end end ; x := 2 end
%run
rounds 20
END
best_of "$work/clash.job" "65,536 updates and a clash"

cat >"$work/counter.job" <<'END'
%source
machine counter
domain D = 0 to 9
controlled x : D
rule x := cond((x = 9), 0, min((x + 1), 9))
%run
rounds 1000000
END
best_of "$work/counter.job" "1,000,000 rounds of a counter"
