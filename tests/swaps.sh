#!/bin/sh
# Tries tests/names.c itself: would it see a constant of include/ollskuvan.h that names the wrong number?
#
#   tests/swaps.sh [ARCHIVE [LIBRARIES]]    target/staticlib/libollskuvan.a unless another archive is named
#
# 1. Every numeric constant of the header has a row of tests/names.inc.
# 2. The numbers of each two constants that stand in one paragraph of the header are swapped, and in the words of a
#    value also those of a type with the words of every record and of the trailer. names.c must fail for each pair.
#    Since only macros change, all pairs are compiled in one file: the two swapped lines, then the numbers that all
#    constants now have.
# 3. The first pair of each paragraph is swapped in a whole copy of the header, and names.c is compiled anew and run.
# Everything is built in target/tests/swaps. Needs a C compiler (CC, or cc).
set -eu
cd "$(dirname "$0")/.."
archive=${1:-target/staticlib/libollskuvan.a}
[ $# -eq 0 ] || shift
cc=${CC:-cc}
out=target/tests/swaps
header=include/ollskuvan.h

stop() { echo "tests/swaps.sh: $*" >&2; exit 1; }
[ -f "$archive" ] || stop "$archive is missing"
rm -rf "$out"
mkdir -p "$out"
compile() { "$cc" -std=c99 -O0 "$@"; }

# A constant a line: its paragraph's number, "word" or "-", its name, its text. Blanks in a text are dropped.
awk '
    /^$/ { paragraph++ }
    /The words of a value/ { area = "word" }
    /^ \* The calls/ { area = "" }
    /^#define OLLSKUVAN_[A-Z0-9_]+ [(0-9U]/ && $2 !~ /^OLLSKUVAN_VERSION/ {
        text = $0
        sub(/^#define [A-Z0-9_]+ /, "", text)
        sub(/ *\/\*.*/, "", text)
        gsub(/ /, "", text)
        print paragraph + 0, (area == "" || $2 == "OLLSKUVAN_FIELDS") ? "-" : area, $2, text
    }
' "$header" >"$out/constants"
count=$(wc -l <"$out/constants")
[ "$count" -gt 0 ] || stop "no constant is found in $header"

# 1. A row that only says what a kept word stands after tries nothing.
sed -e 's|/\*.*\*/||' -e 's/AFTER([A-Z0-9_]*)//g' tests/names.inc |
    grep -oE 'OLLSKUVAN_[A-Z0-9_]+' | sort -u >"$out/named"
missing=$(awk '{ print $3 }' "$out/constants" | sort | comm -23 - "$out/named")
# shellcheck disable=SC2086
[ -z "$missing" ] || stop "no row of tests/names.inc names:" $missing

# 2. The pairs: two names and their texts a line.
awk '
    { set[NR] = $1; area[NR] = $2; name[NR] = $3; text[NR] = $4 }
    $3 == "OLLSKUVAN_TYPE" { every = $1 }
    $3 == "OLLSKUVAN_TRAILER_PID" { trailer = $1 }
    function common(s) { return s == every || s == trailer }
    END {
        for (i = 1; i <= NR; i++)
            for (j = i + 1; j <= NR; j++)
                if (text[i] != text[j] && (set[i] == set[j] ||
                        area[i] == "word" && area[j] == "word" && (common(set[i]) || common(set[j]))))
                    print set[i] == set[j] && !first[set[i]]++ ? "first" : "-", name[i], text[i], name[j], text[j]
    }
' "$out/constants" >"$out/pairs"
pairs=$(wc -l <"$out/pairs")

awk '
    function define(n, t) { printf "#undef %s\n#define %s %s\n", n, n, t }
    FILENAME ~ /constants$/ {
        all = all "," $3
        quoted = quoted ",\"" $3 "\""
        constants++
        next
    }
    FNR == 1 {
        printf "enum { CONSTANTS = %d };\n", constants
        printf "static const char *const constant_names[] = {%s};\n", substr(quoted, 2)
        printf "#define ALL %s\n", substr(all, 2)
    }
    {
        define($2, $5)
        define($4, $3)
        printf "static const uint32_t swap_%d[] = {ALL};\n", FNR
        define($2, $3)
        define($4, $5)
        table = table sprintf("    {\"%s and %s\", swap_%d},\n", $2, $4, FNR)
    }
    END {
        print "static const struct swap { const char *names; const uint32_t *numbers; } swaps[] = {"
        printf "%s};\n", table
    }
' "$out/constants" "$out/pairs" >"$out/swaps.h"
compile -Iinclude -I. -DSWAPS="\"$out/swaps.h\"" -o "$out/all" tests/names.c "$archive" "$@"
"$out/all" || stop "names.c misses a swapped pair, or fails on the header itself"

# 3. Whole copies of the header.
copies=0
while read -r first a of_a b of_b; do
    [ "$first" = first ] || continue
    awk -v a="$a" -v b="$b" -v of_a="$of_a" -v of_b="$of_b" '
        $1 == "#define" && $2 == a { print $1, $2, of_b; next }
        $1 == "#define" && $2 == b { print $1, $2, of_a; next }
        { print }
    ' "$header" >"$out/ollskuvan.h"
    compile -I"$out" -o "$out/one" tests/names.c "$archive" "$@"
    if "$out/one" >"$out/log"; then
        stop "names.c passes with $a and $b swapped in the header"
    fi
    grep -qE "$a |$b |no row names" "$out/log" ||
        stop "with $a and $b swapped it fails for another reason: $(head -n 1 "$out/log")"
    copies=$((copies + 1))
done <"$out/pairs"
echo "swaps: $count constants, all named; $pairs swapped pairs, all seen; $copies of them by a copy of the whole header"
