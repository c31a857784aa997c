#!/bin/sh
# What a merge costs, in seconds of the processor and in memory: one unit of 1 and of 4 MiB, of bench/unit.py, beside gcc -fsyntax-only, and the
# units of `cil sample 7 N` for 100, 500 and 1,000 units beside gcc -O0, and beside tcc and Frama-C where they are installed; of these units the
# instructions too, by callgrind. Seconds are the least of seven runs, those of gcc -O0 and Frama-C of one.
# Usage: bench/merge.sh PROGRAM. Needs python3, gcc, valgrind and GNU time.
program=$(realpath "${1:-crates/cil/out/cil}") || exit 1
bench=$(realpath "$(dirname "$0")")
folder=$(mktemp -d) || exit 1
trap 'rm -rf "$folder"' EXIT
cd "$folder" || exit 1
status=0
. "$bench/beside.sh"

# The least seconds of some runs of a command, to the microsecond, and the greatest memory of another one in bytes.
measured() {
    runs=$1
    shift
    /usr/bin/time -o memory -f %M "$@" >/dev/null 2>&1 || {
        echo "merge.sh: $1 fails" >&2
        return 1
    }
    python3 - "$runs" "$@" <<'PY'
import os, subprocess, sys
seconds = []
for run in range(int(sys.argv[1])):
    child = subprocess.Popen(sys.argv[2:], stdout=subprocess.DEVNULL, stderr=subprocess.DEVNULL)
    _, status, used = os.wait4(child.pid, 0)
    if status:
        sys.exit(f"merge.sh: {sys.argv[2]} fails")
    seconds.append(used.ru_utime + used.ru_stime)
with open("memory") as file:
    print(f"{min(seconds):.4f} {1024 * int(file.read())}")
PY
}

complain() {
    echo "merge.sh: $1"
    status=1
}

# Whether a figure passes a limit.
above() {
    awk -v a="$1" -v b="$2" 'BEGIN { exit !(a > b) }'
}

printf '%8s %9s %9s %9s %11s\n' unit seconds "gcc's" 'of gcc' 'bytes/byte'
for mib in 1 4; do
    "$bench/unit.py" $mib >unit.c || exit 1
    size=$(stat -c %s unit.c)
    ours=$(measured 7 "$program" merge unit.c) && gcc=$(measured 7 gcc -std=c11 -fsyntax-only unit.c) || exit 1
    of=$(awk -v a="${ours% *}" -v b="${gcc% *}" 'BEGIN { printf "%.2f", a / b }')
    room=$(awk -v a="${ours#* }" -v b="$size" 'BEGIN { printf "%.1f", a / b }')
    printf '%5s MiB %9s %9s %9s %11s\n' $mib "${ours% *}" "${gcc% *}" "$of" "$room"
    above "$of" 1.5 && complain "at $mib MiB more than 1.5 times the seconds of gcc -fsyntax-only"
    above "$room" 250 && complain "at $mib MiB more than 250 bytes of memory a byte"
done

printf '\n%6s %9s %13s %7s %11s %9s %9s %9s\n' units seconds instructions ratio bytes 'gcc -O0' tcc Frama-C
before=0
for units in 100 500 1000; do
    mkdir "$units" && "$bench/sample.py" 7 $units "$units" && cd "$units" || exit 1
    names=$(seq -f 'sample-%g.c' 0 $((units - 1)))
    ours=$(measured 7 "$program" merge $names) && gcc=$(measured 1 gcc -w -O0 -o all $names) || exit 1
    tcc='-' frama='-'
    if command -v tcc >/dev/null 2>&1; then tcc=$(measured 7 tcc -o all $names) || exit 1; fi
    if command -v frama-c >/dev/null 2>&1; then frama=$(measured 1 frama-c -print $names) || exit 1; fi
    count=$(instructions "$program" merge $names)
    cd ..
    seconds=${ours% *} room=${ours#* }
    ratio=$(awk -v a="$count" -v b="$before" 'BEGIN { printf "%.2f", (b > 0 ? a / b : 0) }')
    printf '%6s %9s %13s %7s %11s %9s %9s %9s\n' $units "$seconds" "$count" "$ratio" "$room" "${gcc% *}" "${tcc% *}" "${frama% *}"
    [ $units -eq 1000 ] && above "$ratio" 2.1 && complain "1,000 units take more than 2.1 times the instructions of 500"
    above "$room" 80000000 && complain "$units units take more than 80,000,000 bytes"
    [ "$tcc" != - ] && above "$seconds" "$(awk -v a="${tcc% *}" 'BEGIN { print 5 * a }')" && complain "$units units take more than 5 times the seconds of tcc"
    [ "$frama" != - ] && above "$(awk -v a="$seconds" 'BEGIN { print 15 * a }')" "${frama% *}" && complain "$units units take more than a fifteenth of the seconds of Frama-C"
    before=$count
done
exit $status
