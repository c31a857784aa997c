#!/bin/sh
# What lowering costs: in a merge of the unit and of one with a lexical fault behind it, so that the first is lowered and nothing is merged,
# the instructions of what stands between the syntax tree and the CIL program (`parsed_front`), without those of the checker and without
# those of giving the typed unit back. It is held against those of lexing and parsing the unit in the same merge.
# Instructions by callgrind, at 1, 2 and 4 MiB: of a preprocessed unit (unit.py), and of units of one shape (shapes.py), which are only held
# against those of half the size. Needs python3, gcc and valgrind.
# Usage: bench/lower.sh PROGRAM [SHAPE...].
here=$(dirname "$0")
program=${1:-crates/cil/out/cil}
[ $# -gt 0 ] && shift
folder=$(mktemp -d) || exit 1
trap 'rm -rf "$folder"' EXIT
status=0
printf '@\n' >"$folder/fault.c"

# The instructions of lowering a unit, of giving the typed unit back, of lexing and of parsing, in one line. The C library keeps small blocks
# that were given back in lists that it sweeps now and then: one such sweep would be a tenth of what is counted, so it keeps no such lists here.
counts() {
    unit=$1
    line=$("$program" merge "$unit" "$folder/fault.c" 2>&1 >/dev/null)
    case $line in
    *": lexical fault") ;;
    *) echo "lower.sh: the program answers '$line', no lexical fault" >&2 ;;
    esac
    GLIBC_TUNABLES=glibc.malloc.mxfast=0 valgrind --tool=callgrind --callgrind-out-file="$folder/counts" \
        "$program" merge "$unit" "$folder/fault.c" >/dev/null 2>&1
    # (a function's line has a star, and behind it come the lines of what it calls, each with what that took, up to an empty line)
    callgrind_annotate --tree=calling --inclusive=yes --threshold=100 "$folder/counts" 2>/dev/null |
        awk 'function number(text) { gsub(",", "", text); return text }
            / \*  .*c_lexer::lexer::lex / { lexing = number($1) }
            / \*  .*c_parser::units::parse[: ]/ { parsing = number($1) }
            / \*  .*unit_front::units::parsed_front / { front = number($1); within = 1; next }
            /^ *$/ { within = 0 }
            within && /check_unit/ { checking = number($1) }
            within && /drop/ { dropping += number($1) }
            END { printf "%.0f %.0f %.0f %.0f\n", checking ? front - checking - dropping : 0, dropping, lexing, parsing }'
}

printf '%-9s %4s %14s %14s %14s %14s %11s %11s %7s\n' unit MiB lowering dropping lexing parsing 'of the two' 'of parsing' ratio
for shape in ${*:-mixed chains calls branches images locals}; do
    before=0
    for mib in 1 2 4; do
        unit=$folder/unit.c
        case $shape in
        mixed) "$here/unit.py" $mib >"$unit" ;;
        *) "$here/shapes.py" "$shape" $mib >"$unit" ;;
        esac
        gcc -std=c11 -fsyntax-only "$unit" || status=1
        counted=$(counts "$unit")
        echo "$counted" | awk -v s="$shape" -v m="$mib" -v b="$before" '{
            c = $1; l = $3; q = $4
            if (c <= 0 || l <= 0 || q <= 0) { print "lower.sh: nothing was counted of " s " at " m " MiB"; exit 1 }
            r = b > 0 ? sprintf("%.2f", c / b) : "-"
            printf "%-9s %4d %14.0f %14.0f %14.0f %14.0f %11.3f %11.3f %7s\n", s, m, c, $2, l, q, c / (l + q), c / q, r
            if (s == "mixed" && c > 0.5 * (l + q)) { print "lower.sh: lowering takes more than half of the instructions of lexing and parsing at " m " MiB"; bad = 1 }
            if (b > 0 && c > 2.1 * b) { print "lower.sh: " s ": " m " MiB take more than 2.1 times the instructions of half of it"; bad = 1 }
            exit bad
        }' || status=1
        before=${counted%% *}
    done
done
exit $status
