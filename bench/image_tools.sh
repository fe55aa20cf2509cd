#!/bin/sh
# Has other tools read what `stab elf` and `hex` write, and `stab unhex` what they write, each where it is installed: readelf, objdump, srec_cat, objcopy. Prints what
# readelf and objdump say of a small image, and a line for each comparison. Exits with 1 where a tool finds other words than those of the job.
. "$(dirname "$0")/common.sh"

# whether a command is installed; says so where it isn't
is_there() {
    command -v "$1" >/dev/null && return
    echo "$1: not installed"
    return 1
}

# compares the words of two files: what it is, one file, the other
compare() {
    cmp "$2" "$3" || { echo "$1: other words"; exit 1; }
    echo "$1: the same $(wc -l <"$2") words"
}

# the words in a file of their bytes: file
words_of() {
    od -An -v -tx4 -w4 --endian=little "$1" | tr -d ' '
}

"$program" asm <"$top/examples/doubler_source.job" >"$work/small" || exit 1
awk 'BEGIN { for (i = 0; i < 65536; i++) printf "%08x\n", i * 65537 }' >"$work/large"
for image in small large; do
    for mode in hex elf; do
        { printf '%%rom\n'; cat "$work/$image"; } | "$program" "$mode" >"$work/$image.$mode" || exit 1
    done
    tail -c +85 "$work/$image.elf" >"$work/$image.bytes"
    words_of "$work/$image.bytes" >"$work/words"
    compare "od, elf, $image" "$work/$image" "$work/words"
done

if is_there readelf; then
    readelf -h -l "$work/small.elf"
    for image in small large; do
        size="$(printf '0x%05x' "$(wc -c <"$work/$image.bytes")")"
        readelf -h -l "$work/$image.elf" 2>&1 | tr -s ' ' | grep -q "LOAD 0x000054 0x00000000 0x00000000 $size $size R E 0x4" || { echo "readelf, $image: another segment"; exit 1; }
    done
fi

# `-d` takes sections apart, of which the file has none, so that it shows the format alone. The bytes behind the headers are taken apart by `-D`.
for tool in riscv64-unknown-elf-objdump riscv64-linux-gnu-objdump; do
    if is_there "$tool"; then
        "$tool" -d "$work/small.elf" || exit 1
        "$tool" -D -z -b binary -m riscv:rv32 -M no-aliases,numeric --start-address=84 "$work/small.elf" | tee "$work/text"
        awk '$1 ~ /^[0-9a-f]+:$/ { print $2 }' "$work/text" >"$work/words"
        compare "$tool, elf, small" "$work/small" "$work/words"
    fi
done

if is_there srec_cat; then
    for image in small large; do
        srec_cat "$work/$image.hex" -intel -o "$work/bytes" -binary || exit 1
        words_of "$work/bytes" >"$work/words"
        compare "srec_cat, hex, $image" "$work/$image" "$work/words"
        for length in 2 3 4; do
            # Addresses of two bytes end at 65,535.
            [ "$length" = 2 ] && [ "$image" = large ] && continue
            srec_cat "$work/$image.bytes" -binary -o - -intel -address-length="$length" | "$program" unhex >"$work/words" || exit 1
            compare "unhex, srec_cat with addresses of $length bytes, $image" "$work/$image" "$work/words"
        done
    done
fi

if is_there objcopy; then
    for image in small large; do
        objcopy -I ihex -O binary "$work/$image.hex" "$work/bytes" || exit 1
        words_of "$work/bytes" >"$work/words"
        compare "objcopy, hex, $image" "$work/$image" "$work/words"
        objcopy -I binary -O ihex "$work/$image.bytes" "$work/file" || exit 1
        "$program" unhex <"$work/file" >"$work/words" || exit 1
        compare "unhex, objcopy, $image" "$work/$image" "$work/words"
    done
fi
