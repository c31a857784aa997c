# What a merge of a preprocessed unit costs beside gcc -fsyntax-only, and how it grows: instruction counts by callgrind, and peak memory,
# at 1, 2 and 4 MiB. Read by lex.sh, parse.sh and check.sh. Needs python3, gcc, valgrind and GNU time.

# The instructions of a command and of the processes that it starts.
instructions() {
    valgrind --tool=callgrind --callgrind-out-file=/dev/null --trace-children=yes "$@" 2>&1 >/dev/null |
        awk '/Collected : / { sum += $NF } END { printf "%.0f\n", sum }'
}

# Compares the program with gcc. NAME: who complains; PROGRAM; FRONT and BEHIND: what is put in front of the unit that gcc reads, and
# behind it; TOLD: how the line on standard error ends, by which it is seen that the program went so far and no further; the most
# instructions for each of gcc's, and bytes of memory for each byte of the unit, without those that a unit of nothing else takes; and what the
# unit is made of, as unit.py has it.
beside() {
    name=$1 program=$2 front=$3 behind=$4 told=$5 most=$6 bytes=$7 kind=${8:-mixed}
    folder=$(mktemp -d) || return 1
    trap 'rm -rf "$folder"' EXIT
    status=0
    { printf '%s\n' "$front" && printf '%s' "$behind"; } >"$folder/least.c"
    least=$(/usr/bin/time -f %M "$program" merge "$folder/least.c" 2>&1 >/dev/null | tail -n 1)
    printf '%4s %15s %15s %9s %7s %12s %11s\n' MiB instructions "gcc's" 'of gcc' ratio 'peak bytes' 'bytes/byte'
    before=0
    for mib in 1 2 4; do
        theirs=$folder/gcc-$mib.c unit=$folder/unit-$mib.c
        "$(dirname "$0")/unit.py" $mib "$kind" >"$theirs" || return 1
        gcc -std=c11 -fsyntax-only "$theirs" || return 1
        { printf '%s\n' "$front" && cat "$theirs" && printf '%s' "$behind"; } >"$unit"
        line=$("$program" merge "$unit" 2>&1 >/dev/null)
        case $line in
        *": $told") ;;
        *)
            echo "$name: at $mib MiB the program tells '$line', not $told"
            status=1
            ;;
        esac
        count=$(instructions "$program" merge "$unit")
        gcc=$(instructions gcc -std=c11 -fsyntax-only "$theirs")
        peak=$(/usr/bin/time -f %M "$program" merge "$unit" 2>&1 >/dev/null | tail -n 1)
        size=$(stat -c %s "$unit")
        awk -v n="$name" -v most="$most" -v bytes="$bytes" -v m="$mib" -v c="$count" -v g="$gcc" -v b="$before" -v p="$peak" -v l="$least" -v s="$size" 'BEGIN {
            r = b > 0 ? sprintf("%.2f", c / b) : "-"
            each = (p - l) * 1024 / s
            printf "%4d %15.0f %15.0f %9.3f %7s %12.0f %11.1f\n", m, c, g, c / g, r, p * 1024, each
            if (c == 0 || g == 0) { print n ": nothing was counted at " m " MiB"; bad = 1 }
            if (c > most * g) { print n ": more than " most " of the instructions of gcc at " m " MiB"; bad = 1 }
            if (b > 0 && c > 2.1 * b) { print n ": " m " MiB take more than 2.1 times the instructions of half of it"; bad = 1 }
            if (each > bytes) { print n ": more than " bytes " bytes of memory a byte at " m " MiB"; bad = 1 }
            exit bad
        }' || status=1
        before=$count
    done
    return $status
}
