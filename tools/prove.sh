#!/bin/sh
# Proves a crate and all that it stands on, and says little: a line for each crate that is proved now, and at a failure the last lines of all that rt wrote.
#   tools/prove.sh ringdump
set -u
cd "$(dirname "$0")/.." || exit 2
[ $# -eq 1 ] && [ -d "crates/$1/src" ] || { echo "use: tools/prove.sh CRATE" >&2; exit 2; }
mkdir -p target
log=$PWD/target/prove.log
status=$PWD/target/prove.status
{ (cd "crates/$1" && rt check) 2>&1; echo $? >"$status"; } | tee "$log" | {
  crate=
  while IFS= read -r line; do
    case $line in
      'rt: chose --jobs '*) crate=${line##* } began=$(date +%s) ;;
      'logic=proved '*) [ -z "$crate" ] || echo "proved: $crate ($(($(date +%s) - began)) s)" >&2; crate= ;;
    esac
  done
}
status=$(cat "$status")
[ "$status" -eq 0 ] || tail -n 20 "$log" >&2
exit "$status"
