#!/usr/bin/env bash
# Small checks of the tree itself: no open place in a proof, every crate folder listed, no `requires` on an entry point, pages that tell what is there. (The
# layout of the crates' files is looked at by `rt ci`.)
set -u
cd "$(dirname "$0")/.." || exit 2
bad=0
say() { printf 'selfcheck: %s\n' "$*"; bad=1; }

open=$(grep -rnE '(^|[ (=])\?($|[ );])' --include='*.antt' --exclude-dir=out crates | head -n 3)
[ -n "$open" ] && say "a place in a proof is left open: $open"
bash tools/pages.sh || say 'a page is not as it should be'
tests/bad_words.sh || say 'a script takes what it should refuse'
for d in crates/*/; do
  name=$(basename "$d")
  grep -qE "^$name( staticlib)?:" crates.txt || say "crate $name is not listed in crates.txt"
done
# Entry points refuse instead of asking: the exports, and the functions that decision 38 names. A line for each public function: its name, and
# whether it asks.
public() { # CRATE
  awk -v crate="$1" '
    /^ *pub (extern "C" )?fn / { name = $0; sub(/^ *pub (extern "C" )?fn /, "", name); sub(/[^a-z0-9_].*/, "", name); asks = "refuses" }
    name != "" && /requires/ { asks = "asks" }
    name != "" && /^ *{/ { print crate "::" name, asks; name = "" }
  ' "crates/$1/src/lib.rt"
}
named=$(tr -s '\n ' ' ' <docs/DECISIONS.md | sed -n 's/.*- 38\. .*the entry points \(.*\) and all exports have none.*/\1/p' | grep -oE '[a-z_]+::[a-z_]+')
[ "$(wc -w <<<"$named")" -ge 10 ] || say "decision 38 does not name the entry points: $named"
exports=$(for crate in $(sed -n "s/^exports='\(.*\)'$/\1/p" tools/library.sh); do
  sed -n "s/^pub extern \"C\" fn \([a-z_]*\).*/$crate::\1/p" "crates/$crate/src/lib.rt"
done)
[ "$(wc -w <<<"$exports")" -ge 18 ] || say "the crates that tools/library.sh names do not have the exports: $exports"
for entry in $named $exports; do
  grep -qx "$entry refuses" <(public "${entry%%::*}") || say "an entry point asks, or is not there: $entry"
done
# each proof says in its first line why it holds; no crate takes a law out of another crate's proofs, but for the statements that moved there from specs/
for d in $(find crates -name out -prune -o \( -name Answers.antt -o -name Invariants.antt \) -printf '%h\n' | sort -u); do
  f=$d/Answers.antt
  [ -f "$f" ] || f=$d/Invariants.antt
  head -n 1 "$f" | grep -q '^-- ' || say "$f does not say in its first line why it holds"
done
moved=$(sed -n 's/^### \([a-z0-9_]*\): .* to proofs\/\([A-Za-z0-9]*\)\.antt$/\1\/\2/p' docs/PORT.md | sort -u)
[ "$(wc -w <<<"$moved")" -ge 100 ] || say "docs/PORT.md's list of the files that moved was not read"
borrowed=$(grep -roE --include='*.antt' --include='*.rt' --exclude-dir=out '^ *(pub )?(ghost )?use Rattle\.[a-z0-9_]+\.proofs\.[A-Za-z0-9]+' crates |
  sed -E 's/^crates\/([a-z0-9_]+)\/.*use Rattle\.([a-z0-9_]+)\.proofs\.(.*)/\1 \2 \3/' | awk '$1 != $2 && $2 != "std" { print $2 "/" $3 }' | sort -u | comm -23 - <(echo "$moved"))
[ -z "$borrowed" ] || say "laws that are taken out of another crate's proofs: $(tr '\n' ' ' <<<"$borrowed")"
python3 tools/chains.py --check || say 'crates layouts, pass_sample and pass_types are not what their script writes'
python3 tools/write_chains.py --check || say 'the arms of fit_chains::own_end are not what their script writes'
bash tools/uniqueness.sh || say 'a public function has no theorem of uniqueness'
bash tools/never_used.sh && bash tools/never_used.sh --teeth || say '10 has a meaning again'
bash tools/slips.sh || say 'a slip of the definitions is not seen'
[ "$bad" -eq 0 ] && echo "selfcheck: open places, list of crates, $(wc -w <<<"$named $exports") entry points: all fine"
exit "$bad"
