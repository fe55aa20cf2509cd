#!/bin/sh
# Times `stab hex`, `unhex`, `elf` and `unelf` on 65,536 words, and `unhex` and `unelf` on hostile files of a megabyte. Prints the best of ten runs in seconds, and
# the most memory in kilobytes (GNU time) beside that of a run on an empty file; the start of the program is part of each time.
. "$(dirname "$0")/common.sh"

# the kilobytes of a run of a mode on a file: mode, file
memory_of() {
    { /usr/bin/env time -f '%M' "$program" "$1" <"$2" >/dev/null; } 2>&1 | tail -n 1
}

# the best of ten runs of a mode on a file: mode, file, what it is
best_of() {
    best="$(best_time "$1" "$2")"
    awk -v mode="$1" -v what="$3" -v best="$best" -v size="$(wc -c <"$2")" -v most="$(memory_of "$1" "$2")" -v says="$(head -n 1 "$work/text" | tr -dc '[:print:]' | cut -c 1-40)" \
        'BEGIN { printf "%s, %s: %d bytes, best of ten runs %.3f s, %d KB, %s\n", mode, what, size, best / 1e9, most, says }'
}

: >"$work/empty"
best_of unhex "$work/empty" "an empty file"

awk 'BEGIN { print "%rom"; for (i = 0; i < 65536; i++) printf "%08x\n", i * 65537 }' >"$work/words.job"
for mode in hex elf; do
    best_of "$mode" "$work/words.job" "65,536 words"
    cp "$work/text" "$work/file"
    best_of "un$mode" "$work/file" "65,536 words"
    tail -n +2 "$work/words.job" | cmp - "$work/text" || exit 1
done

# a line that is repeated: line, count
repeated() {
    awk -v line="$1" -v count="$2" 'BEGIN { for (i = 0; i < count; i++) print line }'
}
awk 'BEGIN { printf ":FF"; for (i = 3; i < 1048576; i++) printf "0" }' >"$work/line"
best_of unhex "$work/line" "one line"
repeated "" 1048576 >"$work/blank"
best_of unhex "$work/blank" "a million blank lines"
repeated ":" 524288 >"$work/colons"
best_of unhex "$work/colons" "lines of a colon"
awk 'BEGIN { for (i = 0; i < 32768; i++) print ":020000020000FC\n:020000040000FA" }' >"$work/bases"
best_of unhex "$work/bases" "types 02 and 04 in turn"
repeated ":0000000000" 87381 >"$work/no_data"
best_of unhex "$work/no_data" "records without data"
# Single bytes, each 4 below the one before it, from the last address of each of the four pages down.
awk 'BEGIN {
    for (page = 3; page >= 0; page--) {
        printf ":02000004%04X%02X\n", page, 250 - page
        for (i = 0; i < 15000; i++) {
            at = 65535 - 4 * i
            printf ":01%04X0000%02X\n", at, (255 - int(at / 256) - at % 256 + 1024) % 256
        }
    }
    print ":00000001FF"
}' >"$work/bytes"
best_of unhex "$work/bytes" "single bytes from the last address down"
repeated "7f454c46" 116508 >"$work/no_elf"
best_of unelf "$work/no_elf" "text"
