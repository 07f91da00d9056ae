#!/usr/bin/env bash
# Instructions a record of drain, check, read and write on other targets, beside careful C that the target's own gcc -O3 compiled, by qemu's counting plugin
# (bench/count.sh). For people to read; not part of the gate.
#
#   bench/boards.sh [TARGET..]      aarch64-linux-gnu and riscv64-linux-gnu, unless some are named; needs make lib TARGET=..
#   bench/boards.sh kinds [TARGET..]   of the drain, a record more on every kind of ring: the slowest against careful C; status 1 above 1.1 times it,
#                                      with a table above 1.25 (aarch64-linux-gnu, unless some are named)
set -eu
cd "$(dirname "$0")/.."
out=target/bench
die() { echo "bench/boards.sh: $*" >&2; exit 2; }
kinds= slow=0
[ "${1:-}" != kinds ] || { kinds=1; shift; [ $# -gt 0 ] || set -- aarch64-linux-gnu; }
[ $# -gt 0 ] || set -- aarch64-linux-gnu riscv64-linux-gnu
mkdir -p $out
sources=$(sed -n 's/^"${CC:-gcc}" $flags -o "$program" \(bench\/.*\) "$library".*/\1/p' bench/run.sh)
[ -n "$sources" ] || die "bench/run.sh names no sources"
for target in "$@"; do
  emulator=$(awk -v target="$target" '$1 == target { print $3 }' tools/boards/targets.txt)
  [ -n "$emulator" ] || die "no such target: $target"
  for tool in "$target-gcc" "$emulator"; do command -v "$tool" >/dev/null || die "$tool is missing (tools/needs.sh boards prints the line that installs it)"; done
  archive=target/boards/$target/libollskuvan.a program=$out/bench-$target
  [ -f "$archive" ] || die "$archive is missing: run make lib TARGET=$target"
  # shellcheck disable=SC2086
  "$target-gcc" -std=c11 -O3 -g -Wall -Wextra -Werror -static -Iinclude -o "$program" $sources "$archive"
  counted() { # FUNCTION WORDS..: instructions a record; the plugin's own line comes when the emulator ends
    local name=$1
    shift
    EMULATOR=$emulator sh bench/count.sh "$name" "$program" "$@" >$out/count.log 2>&1 || { cat $out/count.log >&2; die "it failed: $*"; }
    awk '/^records/ { n = $2 } /^Collected/ { c = $NF } END { print (n > 0 ? c / n : c) }' $out/count.log
  }
  kinds() { # kinds|table-kinds MOST
    local drain name folder=$out/kinds-$target
    rm -rf "$folder" && mkdir "$folder"
    for drain in careful ours; do
      name=careful_drain
      [ $drain = careful ] || name=ollskuvan_drain
      [ "$1" = kinds ] || name=${name}_events
      EACH=$folder/kinds.$drain.counts EMULATOR=$emulator sh bench/count.sh $name "$program" "$1" $drain >"$folder/kinds.$drain.names" 2>"$folder/log" || { cat "$folder/log" >&2; die "it failed: $1 $drain"; }
    done
    python3 bench/kinds.py "$folder" "$2" || slow=1
  }
  if [ -n "$kinds" ]; then
    echo "$target"
    kinds kinds 1.1
    echo "with a table of eleven events"
    kinds table-kinds 1.25
    continue
  fi
  row() { awk -v name="$1" -v ours="$2" -v careful="$3" 'BEGIN { printf "%-24s%12.1f%12.1f%12.2f\n", name, ours, careful, ours / careful }'; }
  printf '%s: instructions a record\n%-24s%12s%12s%12s\n' "$target" '' ours 'careful C' ratio
  number=0
  for workload in side-band 'small samples' 'fat samples'; do
    row "drain, $workload" "$(counted ollskuvan_drain once ours "$workload")" "$(counted careful_drain once careful "$workload")"
    row "check, $workload" "$(counted ollskuvan_check check ours $number)" "$(counted careful_check check careful $number)"
    for call in read write; do
      row "$call, $workload" "$(counted ollskuvan_$call $call ours "$workload")" "$(counted careful_$call $call careful "$workload")"
    done
    number=$((number + 1))
  done
done
exit $slow
