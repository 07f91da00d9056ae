#!/bin/sh
# docs/FORMAT.md and include/ollskuvan.h tell the same numbers: the word of each field, the number of each type and of
# each answer and meaning, the kinds of entries and the places in them, bounds. Every word, type, answer, meaning and kind,
# and every place in an entry, is on the page. No tag begins two rows.
set -eu
cd "$(dirname "$0")/.."

awk -F'|' '
    function strip(s) { gsub(/^ +| +$|`/, "", s); return s }
    function wrong(what) { print "tests/format.sh: " what; bad = 1 }
    # the constant of that name has this number
    function compare(name, number) {
        if (!(name in due))
            wrong("line " FNR ": the header has no " name)
        else if (due[name] != number)
            wrong("line " FNR ": " name " is " due[name] " in the header, " number " on the page")
        seen[name] = 1
        compared++
    }
    FILENAME ~ /\.h$/ {
        if ($0 ~ /The words of a value/) area = "word"
        if ($0 ~ /^ \* The calls/) area = ""
        if (match($0, /^#define OLLSKUVAN_[A-Z0-9_]+ [0-9]+u/)) {
            split(substr($0, RSTART, RLENGTH), part, " ")
            due[part[2]] = part[3] + 0
            if (area == "word" && part[2] != "OLLSKUVAN_FIELDS" ||
                    part[2] ~ /^OLLSKUVAN_(TYPE_|STOP_|REFUSED_|DIRTY_|MEANS_|JOURNAL_|EVENTS_|KIND_|STORE_|COMPARED_|CHANGE_)/)
                must[part[2]] = 1
        }
        next
    }
    /^## / { prefix = "OLLSKUVAN_" }
    /^### [0-9]+ / {
        split($0, part, " ")
        compare("OLLSKUVAN_TYPE_" part[3], part[2])
        prefix = "OLLSKUVAN_" part[3] "_"
    }
    # a row begins with its tag, in a table or in a list
    match($0, /^(\| |- )[A-Z]+[0-9]+( \||:)/) {
        tag = $0
        gsub(/^(\| |- )|( \||:).*/, "", tag)
        if (tag in told)
            wrong("line " FNR ": the tag " tag " stands at line " told[tag] " already")
        told[tag] = FNR
        tags++
    }
    # bounds, in a row or in a sentence: a number, the constant in brackets
    {
        rest = $0
        while (match(rest, /[0-9]+ \(`[A-Z_]+`\)/)) {
            split(substr(rest, RSTART, RLENGTH), part, / \(/)
            sub(/\)$/, "", part[2])
            compare("OLLSKUVAN_" strip(part[2]), part[1])
            rest = substr(rest, RSTART + RLENGTH)
        }
    }
    !/^\|/ { table = 0; next }
    !table {
        table = 1
        field = word = number = constant = place = 0
        for (i = 2; i < NF; i++) {
            title = strip($i)
            if (title == "field") field = i
            if (title == "word") word = i
            if (title == "no.") number = i
            if (title == "at") place = i
            if (title == "constant") constant = i
        }
        next
    }
    field && word && strip($word) ~ /^[0-9]+$/ { compare(prefix strip($field), strip($word)) }
    constant && number && $number !~ /---/ { compare("OLLSKUVAN_" strip($constant), strip($number)) }
    constant && place && $place !~ /---/ { compare("OLLSKUVAN_" strip($constant), strip($place)) }
    # an answer in a row: a number, a comma, the constant
    match($0, /[0-9]+, `[A-Z_]+`/) {
        split(substr($0, RSTART, RLENGTH), part, /, /)
        compare("OLLSKUVAN_" strip(part[2]), part[1])
    }
    END {
        for (name in must)
            if (!(name in seen))
                wrong("the page does not tell " name)
        if (bad || !compared || !tags)
            exit 1
        print "format: " compared " numbers of docs/FORMAT.md are those of the header; " tags " tags, each once"
    }
' include/ollskuvan.h docs/FORMAT.md
