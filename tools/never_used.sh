#!/usr/bin/env bash
# 10 is no answer and never will be (M-104): no row of a definition, no list of numbers, no constant and no text gives it a meaning, and the header says so.
# `never_used.sh --teeth` plants a meaning of 10 in a copy, place by place: each must be found.
set -u
home=$(cd "$(dirname "$0")/.." && pwd) || exit 2
copy=
bad=0

# a line for each place that gives 10 a meaning as an answer. The one row that may stand is document 01's old one, in the theorem that it never answers
meanings() { # TREE
  cd "$1" || return 2
  # rows of refusals, and the lists of numbers that stops and answers are in
  grep -rnE --exclude-dir=out '\brefusal .* 10( |\)|$)|stop_at 10\b' crates --include='*.antt' | grep -vE '^crates/promises/proofs/Header\.antt:[0-9]*:crossing n tail = '
  grep -rnE --exclude-dir=out '(_numbers|measured) = .*\b10 ∷|\bis_in .*\b10 ∷' crates --include='*.antt'
  # a choice of which 10 is one side
  grep -rnE --exclude-dir=out '\bcond\b.* (10 [0-9(]|[0-9]+ 10\b)|\bcond\b.*\) 10\b' crates --include='*.antt'
  grep -nE '\bstop [0-9]+( [0-9]+| \([^)]*\)){6} 10$' crates/tables/specs/Rows.antt
  # the reasons' numbers, in the code and in the definitions; functions that tell a number
  awk '/^pub enum Reason / { on = 1 } /^}/ { on = 0 } on { print FILENAME ":" FNR ":" $0 }' crates/meaning/src/lib.rt | grep -E ' = 10,'
  grep -nE '^number_of [A-Za-z]+ = 10$' crates/meaning/specs/Reasons.antt
  grep -rnE --exclude-dir=out '\b(refuse|refused|told)\(([a-z]+, )?10\b|\btell\([0-9], 10\b|return 10;|(stop|answer|refused|why): 10\b|\{ 10 \}|^ +10$' crates --include='*.rt'
  # constants of the header, and the name that 10 had
  grep -nE '#define OLLSKUVAN_(STOP|REFUSED)_[A-Z_]+ 10u?\b' include/ollskuvan.h
  grep -rnI --exclude-dir=out 'HEADER_CROSSES' include words tool examples tests bench packaging docs/FORMAT.md crates README.md
  # texts: a row of words, of the manual page, of the page that tells the format
  grep -rnE '\{ *10u?, *(NULL|")' words tool
  grep -nE '^10(	|$)' packaging/ollskuvan.3
  grep -nE '^\| 10 \| `(STOP|REFUSED)_' docs/FORMAT.md
  # the other readers, in C (but for `fit_fields`, which gives a word's number) and in Rust
  awk '/^static unsigned fit_fields\(/ { word = 1 } /^}/ { word = 0 } !word { print FILENAME ":" FNR ":" $0 }' bench/careful*.c |
    grep -E '\b(stop|answer|why)(\[[^]]*\])? = ([^;]*[?:] )?10\b|\breturn ([^;]*[?:] )?10\b|\bstopped\([^,]*, 10\)|\? 10 :'
  grep -nE '\b(Some|Err|refused)\(10\)|\breturn 10;|=> 10,|\{ 10 \}|^ +10$|\b(stop|answer): 10\b|\bstop = 10\b' tests/reader/*.rs bench/*.rs
  # orders of stops that still count it
  grep -rnE --exclude-dir=out '8, 9, 10, 6|5, 0, 10, 6' include packaging docs/FORMAT.md docs/ARCHITECTURE.md README.md crates
  return 0
}

look() { # TREE: says what it found, and fails
  local found
  found=$(meanings "$1")
  [ -z "$found" ] || { printf 'never_used: 10 has a meaning: %s\n' "$found"; return 1; }
  grep -q '^/\* 10 is never used again\.' "$1/include/ollskuvan.h" || { echo 'never_used: the header does not say that 10 is never used again'; return 1; }
}

# a place, what stands there, what is planted: sed, on a copy
teeth() {
  local planted=0 file edit
  copy=$(mktemp -d) || exit 2
  trap 'rm -rf "$copy"' EXIT
  tar -C "$home" --exclude='crates/*/out' -cf - crates include words tool examples tests bench packaging docs README.md | tar -C "$copy" -xf -
  look "$copy" || bad=1
  while IFS='|' read -r file edit; do
    sed -i -E "$edit" "$copy/$file"
    cmp -s "$home/$file" "$copy/$file" && { echo "never_used: nothing was planted in $file"; bad=1; }
    look "$copy" >/dev/null && { echo "never_used: a meaning of 10 in $file is not seen: $edit"; bad=1; }
    cp "$home/$file" "$copy/$file"
    planted=$((planted + 1))
  done <<'PLANTS'
crates/meaning/specs/Ring.antt|s/^( *∷ refusal \(ltb journal 16\)) 9$/\1 10/
crates/editions/specs/Numbers.antt|s/^(stop_numbers = .*9 ∷)/\1 10 ∷/
crates/meaning/src/lib.rt|s/^(    JournalFull =) 9,/\1 10,/
crates/meaning/specs/Reasons.antt|s/^(number_of JournalFull =) 9$/\1 10/
crates/meaning/specs/Reasons.antt|s/^(number_of DirtyName =) 44$/\1 10/
crates/replaying/src/lib.rt|s/return 0;/return 10;/
crates/tables/specs/Rows.antt|s/(∷ stop 1 8 8 0 1 15 0) 9$/\1 10/
include/ollskuvan.h|s/^(#define OLLSKUVAN_STOP_JOURNAL) 9u/\1 10u/
include/ollskuvan.h|s/^\/\* 10 is never used again\./\/* 10 is free./
words/ollskuvan_words.c|s/\{ OLLSKUVAN_STOP_JOURNAL,/{ 10, "something new", NULL },\n    &/
packaging/ollskuvan.3|s/^9	T\{$/10	T{/
docs/FORMAT.md|s/^\| 9 \| `STOP_JOURNAL`/| 10 | `STOP_JOURNAL`/
crates/salvage/specs/Salvage.antt|s/54 0\)/10 0)/
crates/meaning/specs/Records.antt|s/0 44\)/0 10)/
crates/meaning/specs/Records.antt|s/^(check rows e a xs = .*\)) 2$/\1 10/
crates/meaning/specs/Events.antt|s/0 40\)/0 10)/
crates/promises/proofs/Settings.antt|s/\(0 ∷ 11 ∷ 1 ∷ 2 ∷ 40 ∷/(0 ∷ 10 ∷ 1 ∷ 2 ∷ 40 ∷/
crates/salvaging/src/lib.rt|s/answer: reason\.number\(\) as u32/answer: 10/
crates/comparing/src/lib.rt|s/tell\(4, reason\.number\(\),/tell(4, 10,/
crates/one/src/lib.rt|s/stop: 0,/stop: 10,/
crates/settings_read/src/lib.rt|s/answer: 0,/answer: 10,/
crates/pairs/src/lib.rt|s/\{ 1 \}/{ 10 }/
crates/fast_check/src/lib.rt|s/^    0$/    10/
bench/careful.c|s/stop = 6;/stop = 10;/
bench/careful.c|s/stopped\(tail, 11\)/stopped(tail, 10)/
bench/careful.c|s/p->answer\[k\] = 20;/p->answer[k] = 10;/
bench/careful_check.c|s/\? 44 : 0/? 10 : 0/
bench/careful_write.c|s/return 43;/return 10;/
bench/careful_store.c|s/\? 51 : 52/? 51 : 10/
bench/careful_replay.c|s/\? 0 : 53/? 0 : 10/
bench/careful_salvage.c|s/answer = 54;/answer = 10;/
bench/careful_walk.c|s/\? 5 : 0/? 10 : 0/
tests/reader/ring.rs|s/Some\(9\)/Some(10)/
tests/reader/backward.rs|s/=> 13,/=> 10,/
tests/reader/events.rs|s/Err\(26\)/Err(10)/
tests/reader/record.rs|s/return 12;/return 10;/
tests/reader/replay.rs|s/^        11$/        10/
tests/reader/salvage.rs|s/refused\(54\)/refused(10)/
tests/reader/store.rs|s/=> 50,/=> 10,/
PLANTS
  [ "$bad" -eq 0 ] && echo "never_used: $planted meanings of 10, each found"
}

case ${1:-} in
--teeth) teeth ;;
?*) echo "never_used: no such word: $1 (--teeth, or nothing)" >&2; exit 2 ;;
*) if look "$home"; then echo 'never_used: nothing answers 10'; else bad=1; fi ;;
esac
exit "$bad"
