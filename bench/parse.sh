#!/bin/sh
# What lexing and parsing cost: the merge of a grammatical unit whose first two declarations conflict, which is told behind the grammar and
# before anything else of the unit is looked at.
# Usage: bench/parse.sh PROGRAM.
. "$(dirname "$0")/beside.sh"
beside parse.sh "${1:-crates/cil/out/cil}" 'int conflicting; long conflicting; ' '' 'constraint: conflict' 0.5 40
