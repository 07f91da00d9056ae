#!/usr/bin/env bash
# README and docs: lines of at most 120 columns, and that they tell what is there; each must-fail edit among it.
set -u
cd "$(dirname "$0")/.." || exit 2
export LC_ALL=C.UTF-8
bad=0
say() { printf 'pages: %s\n' "$*"; bad=1; }

# tools/wrap.py wraps them
for page in *.md docs/*.md docs/landings/*.md tests/cases/README.md rings/README.md examples/README.md; do
  case $page in docs/PORT.md | docs/DESIGN-PASS.md) continue ;; esac # their statements stand as they are
  wide=$(grep -nE '^.{121,}' "$page" | cut -d: -f1 | tr '\n' ' ')
  [ -z "$wide" ] || say "$page has lines above 120 columns: $wide"
done

# the packages, the first and the last line of `make run`, the line of the report
grep -qxF "    $(tools/needs.sh line)" README.md || say "README shows another line than: $(tools/needs.sh line)"
if [ -x target/bin/ringdump ]; then
  ring=$(sed -n 's/^RING ?= //p' Makefile)
  for line in "$(target/bin/ringdump <"$ring" | sed -n 1p)" "$(target/bin/ringdump <"$ring" | tail -n 1)"; do
    grep -qxF "    $line" README.md || say "README does not show this line of make run: $line"
  done
else
  echo "pages: target/bin/ringdump is not built: README's lines of make run are not compared"
fi
while read -r line; do
  grep -qxF "$line" examples/expected/kiln.txt || say "README shows a line that the report does not print: $line"
done < <(sed -n 's/^    \(late: .*\)/\1/p' README.md)

# files and folders that README and CONTRIBUTING name; a name in capitals stands for any
named=$(grep -ohE '\b(docs|tests|tools|bench|examples|include|packaging|rings|crates)/[A-Za-z0-9_./-]*[A-Za-z0-9_]' README.md CONTRIBUTING.md)
for path in $(echo "$named" | grep -v NAME | sort -u); do
  [ -e "$path" ] || say "there is no $path, which README or CONTRIBUTING names"
done

# the crates of docs/ARCHITECTURE.md's two tables are those of crates.txt
listed=$(sed -n 's/^\([a-z0-9_]*\)\( staticlib\)\?:.*/\1/p' crates.txt | sort)
[ "$(wc -w <<<"$listed")" -ge 100 ] || say "crates.txt was not read"
for table in 'The crates, one above the other' 'Size and time'; do
  told=$(awk -v title="## $table" '/^## / { on = $0 == title } on' docs/ARCHITECTURE.md | sed -n 's/^| `\([a-z0-9_]*\)` |.*/\1/p' | sort)
  [ -n "$told" ] || say "docs/ARCHITECTURE.md has no table under '$table'"
  for crate in $(comm -23 <(echo "$listed") <(echo "$told")); do say "docs/ARCHITECTURE.md, '$table': no row for crate $crate"; done
  for crate in $(comm -13 <(echo "$listed") <(echo "$told")); do say "docs/ARCHITECTURE.md, '$table': crate $crate is not in crates.txt, or told twice"; done
done

# each must-fail edit has a line in docs/WRONG-READERS.md, and each that it names is there
edits=$(python3 tools/refused.py labels)
told=$(grep -oP '(?<![\w/])[a-z0-9_]+/[a-z0-9_]+(?![\w/])' docs/WRONG-READERS.md | sort -u |
  while IFS=/ read -r crate label; do [ -d "crates/$crate" ] && echo "$crate/$label"; done)
[ "$(wc -l <<<"$edits")" -ge 100 ] || say "the must-fail edits were not found"
for edit in $(comm -23 <(echo "$edits") <(echo "$told")); do say "docs/WRONG-READERS.md has no line for $edit"; done
for edit in $(comm -13 <(echo "$edits") <(echo "$told")); do say "docs/WRONG-READERS.md names $edit, and there is no such edit"; done

tests/format.sh || say 'docs/FORMAT.md is not what the header says'
python3 tests/words.py || say 'a word of a value has another name elsewhere'
[ "$bad" -eq 0 ] && echo "pages: width, lines of README, named files, lists of crates, $(wc -l <<<"$edits") must-fail edits, format, words: all fine"
exit "$bad"
