#!/usr/bin/env bash
# Lines of each crate: code (src/), definitions and laws (specs/), proofs (proofs/), and its must-fail edits; last the sums.
# With what tools/prove.sh said as the argument (tools/prove.sh uniqueness 2>LOG), the seconds of each crate's check too.
set -u
cd "$(dirname "$0")/.." || exit 2
log=${1:-}
[ $# -le 1 ] || { echo 'sizes: one log at most' >&2; exit 2; }
[ -z "$log" ] || [ -r "$log" ] || { echo "sizes: there is no log $log" >&2; exit 2; }
lines() { find "$@" -name '*.rt' -o -name '*.antt' 2>/dev/null | xargs -r cat | wc -l; }
seconds() { [ -n "$log" ] && sed -n "s/^proved: $1 (\([0-9]*\) s)$/\1/p" "$log" | tail -n 1; }
printf '| crate | code | specs | proofs | edits | check |\n|---|---|---|---|---|---|\n'
edits=$(python3 tools/refused.py labels)
sum=(0 0 0 0 0)
for name in $(sed -n 's/^\([a-z0-9_]*\)\( staticlib\)\?:.*/\1/p' crates.txt); do
  d=crates/$name
  row=("$(lines "$d/src")" "$(lines "$d/specs")" "$(lines "$d/proofs")" "$(grep -c "^$name/" <<<"$edits")" "$(seconds "$name")")
  printf '| `%s` | %s | %s | %s | %s | %s |\n' "$name" "${row[@]}"
  for i in 0 1 2 3 4; do sum[i]=$((sum[i] + ${row[i]:-0})); done
done
printf '| all | %s | %s | %s | %s | %s |\n' "${sum[@]}"
