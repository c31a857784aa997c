#!/bin/sh
# How the cost of a merge grows with its unit: instruction counts by callgrind, and peak memory, at 1, 2 and 4 MiB.
# Usage: bench/thin.sh PROGRAM. Needs python3, valgrind and GNU time. Each text but the last is a unit of the form that is read.
program=${1:-crates/cil/out/cil}
folder=$(mktemp -d) || exit 1
trap 'rm -rf "$folder"' EXIT
python3 - "$folder" <<'PY'
import sys

FRONT, BACK = b"int main(void) { return ", b"; }"


def blanks(size):
    return FRONT + b" " * (size - len(FRONT) - len(BACK) - 1) + b"1" + BACK


def deep(size):
    inner = b"(" * 500 + b"1" + b")" * 500
    return FRONT + b" " * (size - len(FRONT) - len(BACK) - len(inner)) + inner + BACK


def dense(size):
    # Two bytes an operand: 100 groups of 50 groups (for each MiB) of 100 operands.
    operands = b"(" + b"+".join([b"1"] * 100) + b")"
    groups = b"(" + b"+".join([operands] * (50 * (size >> 20))) + b")"
    body = b"+".join([groups] * 100)
    return FRONT + body + b" " * (size - len(FRONT) - len(BACK) - len(body)) + BACK


def open_only(size):
    return FRONT + b"(" * (size - len(FRONT))


for name, make in (("blanks", blanks), ("deep", deep), ("dense", dense), ("open", open_only)):
    for mib in (1, 2, 4):
        with open(f"{sys.argv[1]}/{name}-{mib}.c", "wb") as f:
            text = make(mib << 20)
            assert len(text) <= 4194304, (name, mib, len(text))
            f.write(text)
PY
status=0
printf '%-8s %4s %15s %7s %12s %11s\n' unit MiB instructions ratio 'peak bytes' 'bytes/byte'
for name in blanks deep dense open; do
    before=
    for mib in 1 2 4; do
        unit=$folder/$name-$mib.c
        count=$(valgrind --tool=callgrind --callgrind-out-file=/dev/null "$program" merge "$unit" 2>&1 >/dev/null |
            sed -n 's/.*Collected : \([0-9]*\).*/\1/p')
        peak=$(/usr/bin/time -f %M "$program" merge "$unit" 2>&1 >/dev/null | tail -n 1)
        size=$(stat -c %s "$unit")
        awk -v n="$name" -v m="$mib" -v c="$count" -v b="${before:-0}" -v p="$peak" -v s="$size" 'BEGIN {
            r = b > 0 ? sprintf("%.2f", c / b) : "-";
            printf "%-8s %4d %15.0f %7s %12.0f %11.1f\n", n, m, c, r, p * 1024, p * 1024 / s
        }'
        if [ -n "$before" ] && awk -v c="$count" -v b="$before" 'BEGIN { exit !(c > 2.1 * b) }'; then
            echo "thin.sh: $name at $mib MiB takes more than 2.1 times the instructions of half of it"
            status=1
        fi
        # A token takes 24 bytes, so a unit of one-byte tokens takes more than 8 bytes a byte.
        if [ "$name" != dense ] && [ "$name" != open ] && awk -v p="$peak" -v s="$size" 'BEGIN { exit !(p * 1024 > 8 * s) }'; then
            echo "thin.sh: $name at $mib MiB takes more than 8 bytes of memory a byte"
            status=1
        fi
        before=$count
    done
done
exit $status
