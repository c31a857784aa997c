#!/bin/sh
# What it costs to run CIL texts: seconds of the processor for `cil run`, beside tcc -run, clang's address and undefined sanitizers,
# valgrind's memcheck (each where it is installed) and gcc -O0, the time of a turn of the loop of arithmetic, and peak memory; each text also
# at double its size. Behind them a turn through a switch of few and of many cases, and what a run must bear: 64 MiB of malloc, 100,000
# activations, and 1,000,000,000 steps.
# Usage: bench/run.sh PROGRAM. Needs awk, gcc and GNU time. It prints its figures; its status is 1 where a run ends otherwise than gcc's program,
# or a figure is too large.
here=$(dirname "$0")
cil=${1:-crates/cil/out/cil}
folder=$(mktemp -d) || exit 1
trap 'rm -rf "$folder"' EXIT
status=0

# Runs a command, whose output, status and cost (seconds and kilobytes) go to files.
try() {
    /usr/bin/time -o "$folder/cost" -f '%U %M' "$@" >"$folder/out" 2>/dev/null </dev/null
    echo $? >"$folder/status"
}

# The least seconds of three tries of a command; a dash where it is missing.
seconds() {
    if ! command -v "$1" >/dev/null 2>&1; then
        echo -
        return
    fi
    for _ in 1 2 3; do
        try "$@"
        tail -n 1 "$folder/cost"
    done | awk 'NR == 1 || $1 < least { least = $1 } END { print least }'
}

# The seconds of tcc -run: a twentieth of those of twenty runs, since the hundredths of one tell little.
tcc_seconds() {
    if command -v tcc >/dev/null 2>&1; then
        # shellcheck disable=SC2016
        seconds sh -c 'for _ in 1 2 3 4 5 6 7 8 9 10 11 12 13 14 15 16 17 18 19 20; do tcc -run "$0"; done' "$folder/text.c" | awk '{ print $1 / 20 }'
    else
        echo -
    fi
}

# Writes a text of a kind, so large and with so many cases, builds gcc's program of it, and keeps what that does.
prepare() {
    awk -v kind="$1" -v n="$2" -v m="${3:-0}" -f "$here/cil.awk" >"$folder/text.c"
    gcc -std=c11 -w -O0 -o "$folder/gcc" "$folder/text.c" || exit 1
    rm -f "$folder/asan"
    clang -std=c11 -w -O0 -fsanitize=address,undefined -o "$folder/asan" "$folder/text.c" 2>/dev/null
    try "$folder/gcc"
    mv "$folder/out" "$folder/want-out"
    mv "$folder/status" "$folder/want-status"
}

# Tells where the last run did not do what gcc's program does.
compare() {
    if ! cmp -s "$folder/out" "$folder/want-out" || ! cmp -s "$folder/status" "$folder/want-status"; then
        echo "run.sh: $1 $2 ends otherwise than gcc's program"
        status=1
    fi
}

printf '%-10s %9s %8s %6s %8s %8s %8s %8s %8s %9s %9s %8s\n' text n cil ratio tcc 'of tcc' asan valgrind gcc 'a turn' 'steps/s' 'peak MB'
before=0
while read -r kind n turns; do
    prepare "$kind" "$n"
    g=$(seconds "$folder/gcc")
    c=$(seconds "$cil" run --steps 1000000000000 "$folder/text.c")
    compare "$kind" "$n"
    peak=$(tail -n 1 "$folder/cost")
    t=$(tcc_seconds)
    a=$(seconds "$folder/asan")
    v=-
    command -v valgrind >/dev/null 2>&1 && v=$(seconds valgrind -q "$folder/gcc")
    awk -v k="$kind" -v n="$n" -v c="$c" -v t="$t" -v a="$a" -v v="$v" -v g="$g" -v peak="$peak" -v u="$turns" -v b="$before" 'BEGIN {
        split(peak, cost)
        r = b > 0 ? sprintf("%.2f", c / b) : "-"
        of = t > 0 ? sprintf("%.0f", c / t) : "-"
        each = u > 0 ? sprintf("%.0f ns", c / u * 1000000000) : "-"
        rate = u > 0 && c > 0 ? sprintf("%.1f M", u / c / 1000000) : "-"
        printf "%-10s %9d %8s %6s %8s %8s %8s %8s %8s %9s %9s %8.1f\n", k, n, c, r, t, of, a, v, g, each, rate, cost[2] / 1024
        if (k == "arithmetic" && t > 0 && c > 150 * t) { print "run.sh: more than 150 times the seconds of tcc -run"; bad = 1 }
        if (b > 0 && c > 2.5 * b) { print "run.sh: more than 2.5 times the seconds of half the size"; bad = 1 }
        exit bad
    }' || status=1
    [ "$before" = 0 ] && before=$c || before=0
done <<END
arithmetic 20000000 20000000
arithmetic 40000000 40000000
sieve 1000000 0
sieve 2000000 0
list 200000 0
list 400000 0
calls 27 0
calls 28 0
output 200000 0
output 400000 0
END

# The seconds and the MiB of the last run.
cost() {
    tail -n 1 "$folder/cost" | awk '{ printf "%s s, %.0f MiB\n", $1, $2 / 1024 }'
}

# A turn through a switch of few cases and of many, each of which jumps to the end of the loop's body.
for m in 16 16384; do
    prepare wide 2000000 "$m"
    seconds "$cil" run --steps 1000000000000 "$folder/text.c" >"$folder/wide-$m"
    compare wide "$m"
done
awk -v few="$(cat "$folder/wide-16")" -v many="$(cat "$folder/wide-16384")" 'BEGIN {
    printf "2,000,000 turns through a switch of 16 cases: %s s; of 16,384 cases: %s s, %.2f times\n", few, many, many / few
    if (many > 2.5 * few) { print "run.sh: a step of the larger program takes more than 2.5 times the seconds"; exit 1 }
}' || status=1

prepare room 67108864
try "$cil" run "$folder/text.c"
compare room 67108864
echo "64 MiB of malloc: $(cost)"
tail -n 1 "$folder/cost" | awk '{ exit $2 > 200 * 1024 }' || status=1

prepare deep 100000
try "$cil" run "$folder/text.c"
compare deep 100000
echo "100,000 activations: $(cost)"

awk -v kind=forever -f "$here/cil.awk" >"$folder/text.c"
try "$cil" run --steps 1000000000 "$folder/text.c"
echo "1,000,000,000 steps: $(cost), $(tail -n 1 "$folder/cost" | awk '{ printf "%.0f M", 1000 / $1 }') steps a second"
[ "$(cat "$folder/status")" = 124 ] || status=1
exit $status
