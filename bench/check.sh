#!/bin/sh
# What lexing, parsing and checking cost: the merge of a unit whose last two declarations conflict, so that all of it is checked and nothing
# is lowered. The units are those of unit.py: one that is mixed, one of large initialisers and one of declarations.
# Usage: bench/check.sh PROGRAM.
. "$(dirname "$0")/beside.sh"
all=0
for kind in mixed initialisers declarations; do
    echo "$kind"
    (beside check.sh "${1:-crates/cil/out/cil}" '' 'int conflicting; long conflicting; ' 'constraint: conflict' 0.8 120 "$kind") || all=1
done
exit $all
