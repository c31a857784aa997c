#!/bin/sh
# What an access to the store of objects costs: nanoseconds for a load or store of a global, a local of the
# running activation and an object of malloc, and for a call and return with four locals, beside a C program
# that makes as many array accesses; and the process memory that one object of 64 MiB takes, that each of many
# objects of 8, 64 and 2,048 bytes takes, that each of 24 bytes takes beside one of 4,096 bytes that ends,
# and that each freed number of malloc below a live one takes.
# Usage: bench/memory.sh PROGRAM. Needs cc and GNU time. The checksums of the two programs must agree.
program=${1:-crates/memory_bench/out/memory_bench}
folder=$(mktemp -d) || exit 1
trap 'rm -rf "$folder"' EXIT
cc -O2 -o "$folder/plain" "$(dirname "$0")/memory.c" || exit 1
turns=10000000
calls=1000000
# Seconds of processor that each run takes, one line a run; what the machine does beside only adds to a run, so the
# least of twelve counts, and the runs of one sort stand apart from each other.
user() { printf '%s ' "$1"; shift; /usr/bin/time -f %U "$@" 2>&1 >/dev/null | tail -n 1; }
for round in 1 2 3 4 5 6 7 8 9 10 11 12; do
    user plain "$folder/plain" globals $turns
    for mode in globals locals heap; do
        user $mode "$program" $mode $turns
        user $mode-made "$program" $mode 0
    done
    user calls "$program" calls $calls
done >"$folder/times"
least() { awk -v sort="$1" '$1 == sort && (least == "" || $2 < least) { least = $2 } END { print least + 0 }' "$folder/times"; }
# One run each without turns is taken off: it makes the objects.
cost() { awk -v a="$1" -v b="$2" -v n="$3" 'BEGIN { printf "%.1f", (a - b) * 1e9 / n }'; }
plain=$(cost "$(least plain)" 0 $((2 * turns)))
want=$("$folder/plain" globals $turns)
printf '%-8s %10s %7s\n' access ns ratio
printf '%-8s %10s %7s\n' plain "$plain" 1.0
status=0
for mode in globals locals heap; do
    got=$("$program" $mode $turns)
    if [ "$got" != "$want" ]; then
        echo "memory.sh: $mode gives $got and not $want"
        status=1
    fi
    each=$(cost "$(least $mode)" "$(least $mode-made)" $((2 * turns)))
    printf '%-8s %10s %7s\n' $mode "$each" "$(awk -v a="$each" -v b="$plain" 'BEGIN { printf "%.1f", a / b }')"
    if awk -v a="$each" 'BEGIN { exit !(a > 40) }'; then
        echo "memory.sh: an access to $mode takes more than 40 ns"
        status=1
    fi
done
each=$(cost "$(least calls)" 0 $calls)
printf '%-8s %10s\n' calls "$each"
if awk -v a="$each" 'BEGIN { exit !(a > 400) }'; then
    echo "memory.sh: a call and return with four locals takes more than 400 ns"
    status=1
fi
peak=$(/usr/bin/time -f %M "$program" block 0 2>&1 >/dev/null | tail -n 1)
printf '64 MiB of malloc: %s KiB of process memory\n' "$peak"
if [ "$peak" -gt 204800 ]; then
    echo "memory.sh: 64 MiB of malloc takes more than 200 MiB"
    status=1
fi
# Kilobytes of process memory at most, and bytes for each of so many objects of it.
kilobytes() { /usr/bin/time -f %M "$program" "$@" 2>&1 >/dev/null | tail -n 1; }
each() { awk -v a="$1" -v b="$2" -v n="$3" 'BEGIN { printf "%.0f", (a - b) * 1024 / n }'; }
nothing=$(kilobytes small 0)
while read -r mode size many; do
    bytes=$(each "$(kilobytes "$mode" "$many")" "$nothing" "$many")
    printf 'an object of %s bytes, of %s: %s bytes\n' "$size" "$many" "$bytes"
    if [ "$bytes" -gt $((3 * size + 256)) ]; then
        echo "memory.sh: an object of $size bytes takes more than three bytes a byte and 256 besides"
        status=1
    fi
done <<EOF
tiny 8 1000000
small 64 1000000
large 2048 30000
beside 24 300000
EOF
many=1000000
freed=$(each "$(kilobytes freed $many)" "$nothing" $many)
printf 'a freed number of malloc below a live one: %s bytes\n' "$freed"
if [ "$freed" -gt 8 ]; then
    echo "memory.sh: a freed number of malloc takes more than 8 bytes"
    status=1
fi
exit $status
