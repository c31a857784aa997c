#!/bin/sh
# Measures how an arena of types is built and laid out: the instructions of 100,000 types against those of
# 50,000 (at most 2.1 times), and the bytes of peak memory a type (at most 104).
# It needs valgrind and GNU time, and prints its figures; its status is 1 where one is too large.
set -eu
cd "$(dirname "$0")/.."
scripts/build-program types_bench > /dev/null
cd crates/types_bench

instructions() {
    valgrind --tool=callgrind --callgrind-out-file=/dev/null ./out/types_bench "$1" 2>&1 | sed -n 's/.*Collected : //p'
}

kilobytes() {
    /usr/bin/time -f %M ./out/types_bench "$1" 2>&1 > /dev/null
}

half=$(instructions 50000)
whole=$(instructions 100000)
least=$(kilobytes 4)
most=$(kilobytes 100000)
echo "instructions: $half for 50000 types, $whole for 100000"
echo "peak memory: $(((most - least) * 1024 / 100000)) bytes a type"
[ $((whole * 10)) -le $((half * 21)) ] && [ $(((most - least) * 1024)) -le 10400000 ]
