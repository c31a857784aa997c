#!/bin/sh
# What it costs to read a CIL text, test its program, print that and compare, and to print it once more: instruction counts by callgrind
# beside those of gcc -fsyntax-only on the text, and peak memory, at about 2, 4 and 8 MB.
# It needs awk, gcc, valgrind and GNU time, and prints its figures; its status is 1 where one is too large.
here=$(dirname "$0")
program=$here/../crates/text_bench/out/text_bench
folder=$(mktemp -d) || exit 1
trap 'rm -rf "$folder"' EXIT

# The instructions of a command and of the processes that it starts, whose input is a file.
instructions() {
    input=$1
    shift
    valgrind --tool=callgrind --callgrind-out-file=/dev/null --trace-children=yes "$@" 2>&1 >/dev/null <"$input" |
        awk '/Collected : / { sum += $NF } END { printf "%.0f\n", sum }'
}

status=0
printf '%9s %15s %15s %9s %7s %12s %11s\n' bytes instructions "gcc's" 'of gcc' ratio 'peak bytes' 'bytes/byte'
before=0
for parts in 1500 3000 6000; do
    text=$folder/text-$parts.c
    awk -v kind=text -v n=$parts -f "$here/cil.awk" >"$text"
    if ! "$program" <"$text" | cmp -s - "$text"; then
        echo "text.sh: the text of $parts parts is not read and printed as it is"
        status=1
    fi
    count=$(instructions "$text" "$program")
    gcc=$(instructions /dev/null gcc -std=c11 -w -fsyntax-only "$text")
    peak=$(/usr/bin/time -f %M "$program" <"$text" 2>&1 >/dev/null | tail -n 1)
    size=$(stat -c %s "$text")
    awk -v c="$count" -v g="$gcc" -v b="$before" -v p="$peak" -v s="$size" 'BEGIN {
        r = b > 0 ? sprintf("%.2f", c / b) : "-"
        printf "%9d %15.0f %15.0f %9.3f %7s %12.0f %11.1f\n", s, c, g, c / g, r, p * 1024, p * 1024 / s
        if (c == 0 || g == 0) { print "text.sh: nothing was counted at " s " bytes"; bad = 1 }
        if (c > 3 * g) { print "text.sh: more than 3 times the instructions of gcc at " s " bytes"; bad = 1 }
        if (b > 0 && c > 2.1 * b) { print "text.sh: " s " bytes take more than 2.1 times the instructions of half of them"; bad = 1 }
        if (p * 1024 > 40 * s) { print "text.sh: more than 40 bytes of memory a byte at " s " bytes"; bad = 1 }
        exit bad
    }' || status=1
    before=$count
done
exit $status
