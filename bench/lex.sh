#!/bin/sh
# What lexing costs: the merge of a unit whose last byte is a lexical fault, so that it is cut into tokens as a whole and nothing else is done.
# Usage: bench/lex.sh PROGRAM.
. "$(dirname "$0")/beside.sh"
beside lex.sh "${1:-crates/cil/out/cil}" '' '@' 'lexical fault' 0.2 8
