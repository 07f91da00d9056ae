#!/usr/bin/env python3
"""The names of a value's words are the same in the definitions (meaning/specs/WordNames), in words/ollskuvan_words.c and
in docs/FORMAT.md: by type and by number, but for the departures listed here (docs/DECISIONS.md, 56). The fields that
docs/FORMAT.md numbers for a comparison are those of the words' table, in its order. The numbers are the header's."""
import os
import re
import sys

os.chdir(os.path.join(os.path.dirname(os.path.abspath(__file__)), ".."))
BODY, TRAILER = 3, 48
bad = []

# The definitions' name, and how the words' table spells it there.
DEPARTURES = {
    ("AUX", "size"): "aux size",
    ("KSYMBOL", "kind"): "ksym type",
    ("BPF_EVENT", "kind"): "bpf type",
    ("READ", "enabled"): "enabled time",
    ("READ", "running"): "running time",
    ("SAMPLE", "filled"): "filled length",
    ("SAMPLE", "value"): "read value",
    ("SAMPLE", "values count"): "read values count",
    ("SAMPLE", "enabled"): "read enabled time",
    ("SAMPLE", "running"): "read running time",
    ("SAMPLE", "lost"): "read lost",
    ("SAMPLE", "values"): "read values",
}

# The table's name, and the field of docs/FORMAT.md and the header, where that is not the same in capitals.
FIELDS = {
    "enabled time": "ENABLED", "running time": "RUNNING", "read enabled time": "READ_ENABLED",
    "read running time": "READ_RUNNING", "raw size": "RAW_COUNT", "hardware index": "HW_INDEX",
    "hardware id": "HW_ID", "stack size": "STACK_COUNT", "filled length": "STACK_FILLED",
    "build id size": "BUILD_ID_COUNT", "old length": "OLD_COUNT", "new length": "NEW_COUNT",
    "old text": "OLD", "new text": "NEW",
}


def wrong(what):
    bad.append(what)
    print("tests/words.py: " + what)


def text(path):
    with open(path, encoding="utf-8") as file:
        return file.read()


def header():
    """The numbers of the header: types by name, words by constant."""
    found = re.findall(r"^#define OLLSKUVAN_(\w+) (\d+)u", text("include/ollskuvan.h"), re.M)
    return {name: int(number) for name, number in found}


def spelled(word):
    return word.replace("_", " ")


def defined(numbers):
    """(type, word): name, as the definitions have it."""
    source = text("crates/meaning/specs/WordNames.antt")
    lists = {}

    def names(line):
        out = []
        for token in re.findall(r"\w+", line.split("--")[0]):
            out += lists[token] if token in lists else [spelled(token)]
        return out

    for name, body in re.findall(r"^(\w+_names) =(.*?)(?=\n\n|\Z)", source, re.M | re.S):
        lists[name] = [names(line) for line in body.strip("\n").split("\n")] if name == "word_names" \
            else [word for line in body.split("\n") for word in names(line)]
    out = {("", k): name for k, name in enumerate(lists["header_names"])}
    out.update({("", TRAILER + k): name for k, name in enumerate(lists["trailer_names"])})
    types = {number: name[5:] for name, number in numbers.items() if name.startswith("TYPE_")}
    for number, row in enumerate(lists["word_names"]):
        for k, name in enumerate(row):
            out[types[number], BODY + k] = name
    # in a SAMPLE the second id is that of the read values
    ids = [key for key in sorted(out) if key[0] == "SAMPLE" and out[key] == "id"]
    if len(ids) == 2:
        out[ids[1]] = "read id"
    return out


def tabled(numbers):
    """(type, word): name and form, in the order of the words' table."""
    source = text("words/ollskuvan_words.c")
    source = source[source.index("ollskuvan_words[] = {"):]
    out = {}
    for kind, args in re.findall(r"^    (HEADER|FIELD|LIST|TRAILER)\(([^;]*?)\),\n", source, re.M):
        part = [p.strip().strip('"') for p in args.split(",")]
        if kind in ("HEADER", "TRAILER"):
            prefix = "TRAILER_" if kind == "TRAILER" else ""
            out["", numbers[prefix + part[0]]] = part[1], part[3] if kind == "TRAILER" else "HEADER"
        else:
            out[part[0], numbers[part[0] + "_" + part[1]]] = part[2], part[4]
    return out


def paged():
    """(type, word): field, as docs/FORMAT.md has it."""
    out, prefix, columns = {}, "", None
    for line in text("docs/FORMAT.md").split("\n"):
        if line.startswith("## "):
            prefix = ""
        heading = re.match(r"### \d+ (\w+)", line)
        if heading:
            prefix = heading.group(1)
        if not line.startswith("|"):
            columns = None
            continue
        cells = [cell.strip().strip("`") for cell in line.split("|")[1:-1]]
        if columns is None:
            columns = cells
        elif "field" in columns and "word" in columns and cells[columns.index("word")].isdigit():
            out[prefix, int(cells[columns.index("word")])] = cells[columns.index("field")]
    return out


def numbered():
    """type: the fields of a comparison from 5 on, as docs/FORMAT.md lists them."""
    page = text("docs/FORMAT.md")
    rows = re.search(r"\| type \| fields, in this order \|\n\|---\|---\|\n((?:\|.*\n)*)", page).group(1)
    out, last = {}, ()
    for row in rows.strip().split("\n"):
        kinds, names = [cell.strip() for cell in row.split("|")[1:-1]]
        if kinds != "and on":
            last = tuple(re.findall(r"\d+ ([A-Z_0-9]+)", kinds)) or (("",) if kinds.startswith("the trailer") else ())
        for kind in last:
            names = names.replace("then ", "").replace(" or ", ", ")
            out.setdefault(kind, []).extend(n for n in re.split(r", *", names) if n and n != "none")
    return out


def compared(table, kind):
    """The same from the words' table: no header, count, flag or identifier; the read values under one name."""
    out = []
    for (of, word), (name, form) in table.items():
        if of == kind and form not in ("HEADER", "COUNT", "FLAG") and not name.endswith("identifier"):
            name = re.sub("^trailer ", "", name)
            first = {"READ": 5, "SAMPLE": 13}.get(kind)
            if first is not None and first <= word < first + 7:
                name = "read values"
            if not (name == "read values" and out and out[-1] == name):
                out.append(name)
    return out


def main():
    numbers = header()
    names, table, page = defined(numbers), tabled(numbers), paged()
    used = set()
    for key in sorted(set(names) | set(table) | set(page)):
        where = "%s word %d" % (key[0] or "any type,", key[1])
        if key not in names or key not in table or key not in page:
            wrong("%s: in the definitions %s, in the words' table %s, on the page %s"
                  % (where, names.get(key), table.get(key), page.get(key)))
            continue
        due = DEPARTURES.get((key[0], names[key]), names[key])
        if due != names[key]:
            used.add((key[0], names[key]))
        if key[0] == "" and key[1] >= TRAILER:
            due = "trailer " + due
        if table[key][0] != due:
            wrong("%s: %s by the definitions, %s in the words' table" % (where, due, table[key][0]))
        name = table[key][0]
        field = FIELDS.get(name, name.upper().replace(" ", "_"))
        if (key[0], name) == ("AUX", "aux size"):
            field = "SIZE"
        elif name == "aux size":
            field = "AUX_COUNT"
        if page[key] != field:
            wrong("%s: %s in the words' table, %s on the page" % (where, name, page[key]))
    for unused in sorted(set(DEPARTURES) - used):
        wrong("no word departs by %s %s" % unused)
    fields = numbered()
    for kind in sorted(set(key[0] for key in table) | set(fields)):
        if fields.get(kind, []) != compared(table, kind):
            wrong("a comparison numbers of %s: %s by the words' table, %s on the page"
                  % (kind or "the trailer", ", ".join(compared(table, kind)), ", ".join(fields.get(kind, []))))
    if bad or len(names) < 100:
        sys.exit(1)
    print("words: %d words have one name in the definitions, in the words' table and on the page; %d departures"
          % (len(names), len(DEPARTURES)))


main()
