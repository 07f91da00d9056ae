#!/usr/bin/env bash
# Slips in the definitions are seen: each file of tools/slips/ is an edit of crates/meaning/specs, and must be refused by crates/tables alone, at the
# theorem that the file names. Slips that touch different theorems are tried together, a batch in one check. `slips.sh --each [NAME..]` tries
# them one by one and lists every theorem that sees them.
set -u
cd "$(dirname "$0")/.." || exit 2
root=$PWD
wrong() { echo "slips: $*" >&2; exit 2; }
case ${1:-} in
--each) for name in "${@:2}"; do [ -f "tools/slips/$name.edit" ] || wrong "no such slip: $name (tools/slips/$name.edit)"; done ;;
?*) wrong "no such word: $1 (--each [NAME..], or nothing)" ;;
esac
work=$(mktemp -d) || exit 2
trap 'rm -rf "$work"' EXIT
bad=0

# a copy of both crates with the given slips in it, checked; what the check says goes to NAME.log
try() { # NAME SLIP..
  local at=$work/$1 name=$1 slip
  shift
  mkdir -p "$at/crates"
  tar -C "$root" --exclude=out --exclude=must-fail -cf - crates/meaning crates/tables | tar -C "$at" -xf -
  mkdir "$at/.git" # the top of a repository
  printf 'meaning:\ntables: meaning\n' >"$at/crates.txt"
  for slip in "$@"; do apply "$at/crates/meaning" "$slip" || return 1; done
  (cd "$at/crates/tables" && rt check --jobs 1) >"$work/$name.log" 2>&1
  rm -rf "$at"
  return 0
}

# each old text stands in its file exactly once
apply() { # CRATE SLIP
  local line file='' old='' new
  while IFS= read -r line; do
    case $line in
    'file: '*) file=$1/${line#file: } ;;
    'old: '*) old=${line#old: } ;;
    'new: '*)
      new=${line#new: }
      OLD=$old NEW=$new awk '
        { text = text $0 "\n" }
        END {
          old = ENVIRON["OLD"]; at = index(text, old); rest = substr(text, at + length(old))
          if (!at || index(rest, old)) exit 3
          printf "%s%s%s", substr(text, 1, at - 1), ENVIRON["NEW"], rest
        }' "$file" >"$file.new" || { echo "slips: ${2##*/}: its old text is not once in ${file##*/}"; return 1; }
      mv "$file.new" "$file" ;;
    esac
  done <"$2"
}

of_batch() { grep -lx "batch: $1" tools/slips/*.edit; }
value() { sed -n "s/^$1: //p" "$2"; }
theorems() { sed -n 's/^\(\.\/\)\?\(specs\|proofs\)\/[A-Za-z]*\.antt:[0-9:]*: error: `\([^`]*\)`.*/\3/p' "$1" | sort -u | tr '\n' ' '; }

# meaning itself must still be accepted, and the named theorem refused
seen() { # LOG SLIP
  grep -q '^crate tables: ' "$1" 2>/dev/null && grep -qF " error: \`$(value seen "$2")\`:" "$1"
}

judge() { # LOG SLIP
  if seen "$1" "$2"; then count=$((count + 1)); else echo "slips: ${2##*/} is not seen by $(value seen "$2")"; bad=1; fi
}

count=0
if [ "${1:-}" = --each ]; then
  shift
  for slip in $(if [ $# -gt 0 ]; then printf 'tools/slips/%s.edit\n' "$@"; else ls tools/slips/*.edit; fi); do
    name=$(basename "$slip" .edit)
    try "$name" "$slip" || { bad=1; continue; }
    echo "$name ($(value batch "$slip")): $(theorems "$work/$name.log")"
    judge "$work/$name.log" "$slip"
  done
else
  batches=$(cat tools/slips/*.edit | value batch - | sort -un)
  for batch in $batches; do # two at a time
    while [ "$(jobs -rp | wc -l)" -ge 2 ]; do wait -n; done
    try "batch$batch" $(of_batch "$batch") &
  done
  wait
  for batch in $batches; do
    twice=$(sed -n 's/^seen: //p' $(of_batch "$batch") | sort | uniq -d)
    [ -z "$twice" ] || { echo "slips: two slips of batch $batch name $twice"; bad=1; }
    for slip in $(of_batch "$batch"); do judge "$work/batch$batch.log" "$slip"; done
  done
fi
[ "$bad" -eq 0 ] && echo "slips: $count slips of the definitions, each seen by the second statement"
exit "$bad"
