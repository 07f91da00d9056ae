#!/usr/bin/env bash
# Builds the bench and runs it. Everything goes to target/bench.
#
#   bench/run.sh                 all of it: the comparison, times, ring sizes, values, instructions
#   bench/run.sh --short         the comparison alone, without a table and with one, and of replay, and of salvage: fails only if careful C and ours
#                                differ (the gate)
#   bench/run.sh --time | --sizes | --values | --reads | --writes | --instructions | --kinds | --tables | --stores | --replay | --walks | --salvage | --compare    one part, after a short comparison
#   bench/run.sh --sanitize      the comparison with address and undefined-behaviour sanitizers on the C side
#
# Options before the part: --library FILE (an archive other than target/staticlib/libollskuvan.a),
# --standin (the independent reader of tests/reader in its place: to try the bench itself, it says nothing of the library),
# --rings N, --seed N (the comparison), --rounds N (the times). RUSTC and CC name another rustc and C compiler (gcc).
set -u
cd "$(dirname "$0")/.." || exit 2
out=target/bench
library=target/staticlib/libollskuvan.a
rings=20000 seed=1 rounds= part=all link=
rustc=${RUSTC:-rustc}

die() { echo "bench/run.sh: $*" >&2; exit 2; }
number() { # OPTION NUMBER: from 1 on, at most nine digits
  case ${2:-} in
    '' | *[!0-9]* | 0* | ??????????*) die "$1: a number from 1 to 999999999 is wanted, not '${2:-}'" ;;
  esac
}

while [ $# -gt 0 ]; do
  case "$1" in
    --library) [ $# -gt 1 ] || die "--library needs a file"; library=$2; shift ;;
    --standin) library=standin ;;
    --rings) number "$1" "${2:-}"; rings=$2; shift ;;
    --seed) number "$1" "${2:-}"; seed=$2; shift ;;
    --rounds) number "$1" "${2:-}"; rounds=$2; shift ;;
    --short | --time | --sizes | --values | --reads | --writes | --instructions | --kinds | --tables | --walks | --stores | --replay | --salvage | --compare | --sanitize)
      [ "$part" = all ] || die "one part at a time: --$part or $1"
      part=${1#--} ;;
    -h | --help) sed -n '2,12p' "$0" | sed 's/^# \{0,1\}//'; exit 0 ;;
    *) die "unknown argument: $1 (see --help)" ;;
  esac
  shift
done
mkdir -p "$out" || exit 2

if [ "$library" = standin ]; then
  command -v "$rustc" >/dev/null || die "the stand-in needs rustc"
  "$rustc" --edition 2021 -C opt-level=3 -C panic=abort --crate-type staticlib -o "$out/libstandin.a" tests/reader/standin.rs ||
    die "the stand-in does not build"
  library=$out/libstandin.a
  link="-lpthread -ldl -lm"
  echo "bench: the stand-in of tests/reader takes the place of libollskuvan.a"
fi
[ -f "$library" ] || die "no such archive: $library (make lib writes it)"

# Debian's linux-perf-event-reader, if it is there: plain rustc, no network
debian=/usr/share/cargo/registry
build_other() {
  local c crate
  command -v "$rustc" >/dev/null || { echo "$rustc is missing"; return 1; }
  for c in bitflags byteorder memchr linux-perf-event-reader; do
    crate=$(ls -d "$debian/$c"-[0-9]* 2>/dev/null | tail -n 1)
    [ -n "$crate" ] || { echo "no $c in $debian (Debian's librust-linux-perf-event-reader-dev)"; return 1; }
    case "$c" in
      bitflags) set -- --edition 2018 ;;
      byteorder) set -- --edition 2018 --cfg 'feature="std"' ;;
      memchr) set -- --edition 2018 --cfg 'feature="std"' --cfg memchr_runtime_simd --cfg memchr_runtime_sse2 \
        --cfg memchr_runtime_sse42 --cfg memchr_runtime_avx ;;
      *) set -- --edition 2021 --extern "bitflags=$out/other/libbitflags.rlib" --extern "byteorder=$out/other/libbyteorder.rlib" \
        --extern "memchr=$out/other/libmemchr.rlib" ;;
    esac
    "$rustc" "$@" -C opt-level=3 -C codegen-units=1 --crate-type rlib --crate-name "${c//-/_}" --cap-lints allow \
      -o "$out/other/lib${c//-/_}.rlib" "$crate/src/lib.rs" 2>"$out/other/log" || { echo "$c does not build with this rustc"; return 1; }
  done
  "$rustc" --edition 2021 -C opt-level=3 -C codegen-units=1 -C lto=fat -C panic=abort --crate-type cdylib -L "$out/other" \
    --extern "linux_perf_event_reader=$out/other/liblinux_perf_event_reader.rlib" --extern "byteorder=$out/other/libbyteorder.rlib" \
    -o "$out/other/libother.so" bench/other.rs 2>"$out/other/log" || { echo "bench/other.rs does not build"; return 1; }
}
other='' other_there=''
case "$part" in
  short | sanitize) ;; # the comparison does not need it
  *)
    mkdir -p "$out/other"
    if [ -f "$out/other/libother.so" ] && [ "$out/other/libother.so" -nt bench/other.rs ] || why=$(build_other); then
      other="-DWITH_OTHER" other_there=1
      link="$link -L$out/other -lother -Wl,-rpath,\$ORIGIN/other"
    else
      echo "bench: without linux-perf-event-reader: $why"
    fi ;;
esac

flags="-std=c11 -O3 -g -Wall -Wextra -Werror -Iinclude $other"
program=$out/bench
if [ "$part" = sanitize ]; then
  flags="-std=c11 -O1 -g -Wall -Wextra -Werror -Iinclude -fsanitize=address,undefined -fno-sanitize-recover=all"
  program=$out/bench-sanitized
fi
# shellcheck disable=SC2086 # the flags are words
"${CC:-gcc}" $flags -o "$program" bench/bench.c bench/compare.c bench/timing.c bench/made.c bench/kinds.c bench/replay.c bench/salvage.c bench/rings.c bench/careful.c bench/careful_check.c bench/careful_read.c bench/values.c bench/careful_write.c bench/writes.c bench/careful_replay.c bench/careful_store.c bench/stores.c bench/careful_walk.c bench/walks.c bench/careful_salvage.c bench/floor.c "$library" $link ||
  die "the bench does not build"

# instructions of one drain under callgrind, which repeat exactly
instructions() { # [BUDGET]
  local drain workload name log budget=${1:-}
  command -v valgrind >/dev/null || { echo "bench: instructions skipped: valgrind is missing"; return 0; }
  log=$out/callgrind.log
  printf '\ninstructions a record, by callgrind%s (the last column: a call on an empty ring, fat samples\x27 attributes)\n' "${budget:+, budget $budget}"
  printf '%-14s' ''
  "$program" list | sed -n 's/^workload //p' | while read -r workload; do printf '%16s' "$workload"; done
  printf '\n'
  for drain in $("$program" list | sed -n 's/^drain //p'); do
    case "$drain" in
      memcpy) continue ;;
      ours) name=ollskuvan_drain ;;
      *) name=${drain//-/_}_drain ;;
    esac
    printf '%-14s' "$drain"
    while read -r workload; do
      valgrind --tool=callgrind --toggle-collect="$name" --callgrind-out-file=/dev/null "$program" once "$drain" "$workload" $budget \
        >"$log" 2>&1 </dev/null || { cat "$log"; die "callgrind failed"; }
      awk '/^records/ { n = $2 } /Collected/ { c = $NF } END { printf "%16.1f", (n > 0 ? c / n : c) }' "$log"
    done < <("$program" list | sed -n 's/^workload //p')
    printf '\n'
  done
}

# instructions a record with a table of events, of both; and what the same ring costs where the table has events without
# records. With a budget of 1 the whole call is told, with one of 0 a call on an empty ring
tables() { # [BUDGET]
  local drain name mix log=$out/callgrind.log budget=${1:-}
  command -v valgrind >/dev/null || { echo "bench: tables skipped: valgrind is missing"; return 0; }
  rm -f "$out"/tables.*
  printf '\ninstructions a record with a table of events, by callgrind%s\n%-14s' "${budget:+, budget $budget}" ''
  "$program" list | sed -n 's/^mix //p' | while read -r mix; do printf '%18s' "$mix"; done
  printf '\n'
  for drain in careful ours; do
    name=careful_drain_events
    [ "$drain" = ours ] && name=ollskuvan_drain_events
    printf '%-14s' "$drain"
    while read -r mix; do
      valgrind --tool=callgrind --toggle-collect="$name" --callgrind-out-file=/dev/null "$program" once "$drain" "$mix" $budget \
        >"$log" 2>&1 </dev/null || { cat "$log"; die "callgrind failed"; }
      awk '/^records/ { n = $2 } /Collected/ { c = $NF } END { printf "%.1f\n", (n > 0 ? c / n : c) }' "$log" | tee -a "$out/tables.$drain" |
        awk '{ printf "%18.1f", $1 }'
    done < <("$program" list | sed -n 's/^mix //p')
    printf '\n'
  done
  printf '%-14s' ratio
  paste "$out/tables.ours" "$out/tables.careful" | awk '{ printf "%18.3f", $1 / $2 } END { print "" }'
}

# times and instructions of reading and writing a store of settings, of both
stores() {
  local whose call events log=$out/callgrind.log
  "$program" store-times $rounds || exit 1
  command -v valgrind >/dev/null || { echo "bench: instructions of stores skipped: valgrind is missing"; return 0; }
  printf '\ninstructions of a store of 1, 11, 32, 256 and 1024 events, by callgrind\n'
  for call in read write; do
    for whose in careful ours; do
      printf '%-6s%-8s' "$call" "$whose"
      for events in 1 11 32 256 1024; do
        valgrind --tool=callgrind --toggle-collect="$([ $whose = ours ] && echo ollskuvan || echo careful)_${call}_store" --callgrind-out-file=/dev/null \
          "$program" store "$whose" "$call" $events >"$log" 2>&1 </dev/null || { cat "$log"; die "callgrind failed"; }
        awk '/Collected/ { printf "%16d", $NF }' "$log"
      done
      printf '\n'
    done
  done
}

# instructions a record of a trace that is played
replays() {
  local whose name log=$out/callgrind.log
  command -v valgrind >/dev/null || { echo "bench: instructions of replay skipped: valgrind is missing"; return 0; }
  printf '\ninstructions a record of a trace, offered and drained, by callgrind\n'
  for whose in careful ours; do
    name=careful_replay
    [ "$whose" = ours ] && name=ollskuvan_replay
    valgrind --tool=callgrind --toggle-collect="$name" --callgrind-out-file=/dev/null "$program" replay-once "$whose" \
      >"$log" 2>&1 </dev/null || { cat "$log"; die "callgrind failed"; }
    awk -v who="$whose" '/^records/ { n = $2 } /Collected/ { c = $NF } END { printf "%-14s%18.1f\n", who, c / n }' "$log"
  done
}

# instructions a record of a backward ring that is walked, and of the same ring drained
walks() {
  local who name workload log=$out/callgrind.log
  command -v valgrind >/dev/null || { echo "bench: walks skipped: valgrind is missing"; return 0; }
  rm -f "$out"/walks.*
  printf '\ninstructions a record of a backward ring, by callgrind (the last rows: the same rings drained)\n%-14s' ''
  "$program" list | sed -n -e 's/^workload //p' -e 's/^mix //p' | grep -v '^empty$' | while read -r workload; do printf '%18s' "$workload"; done
  printf '\n'
  for who in careful-walk ours-walk careful ours; do
    printf '%-14s' "$who"
    while read -r workload; do
      case "$who" in
        careful-walk) name=careful_walk_back ;;
        ours-walk) name=ollskuvan_walk_back ;;
        careful) name=careful_drain ;;
        *) name=ollskuvan_drain ;;
      esac
      "$program" list | grep -q -x "mix $workload" && name=${name}_events
      valgrind --tool=callgrind --toggle-collect="$name" --callgrind-out-file=/dev/null "$program" once "$who" "$workload" \
        >"$log" 2>&1 </dev/null || { cat "$log"; die "callgrind failed"; }
      awk '/^records/ { n = $2 } /Collected/ { c = $NF } END { printf "%.1f\n", c / n }' "$log" | tee -a "$out/walks.$who" |
        awk '{ printf "%18.1f", $1 }'
    done < <("$program" list | sed -n -e 's/^workload //p' -e 's/^mix //p' | grep -v '^empty$')
    printf '\n'
  done
  printf '%-14s' ratio
  paste "$out/walks.ours-walk" "$out/walks.careful-walk" | awk '{ printf "%18.3f", $1 / $2 } END { print "" }'
}

# instructions for 8 bytes of a stream that is salvaged
salvages() {
  local whose name stream log=$out/callgrind.log
  command -v valgrind >/dev/null || { echo "bench: instructions of salvage skipped: valgrind is missing"; return 0; }
  rm -f "$out"/salvage.*
  printf '\ninstructions of salvage for 8 bytes of a stream of 1 MiB, by callgrind\n%-14s' ''
  "$program" list | sed -n 's/^stream //p' | while read -r stream; do printf '%20s' "$stream"; done
  printf '\n'
  for whose in careful ours; do
    name=careful_salvage
    [ "$whose" = ours ] && name=ollskuvan_salvage
    printf '%-14s' "$whose"
    while read -r stream; do
      valgrind --tool=callgrind --toggle-collect="$name" --callgrind-out-file=/dev/null "$program" salvage-once "$whose" "$stream" \
        >"$log" 2>&1 </dev/null || { cat "$log"; die "callgrind failed"; }
      awk '/^words/ { n = $2 } /Collected/ { c = $NF } END { printf "%.1f\n", c / n }' "$log" | tee -a "$out/salvage.$whose" |
        awk '{ printf "%20.1f", $1 }'
    done < <("$program" list | sed -n 's/^stream //p')
    printf '\n'
  done
  printf '%-14s' ratio
  paste "$out/salvage.ours" "$out/salvage.careful" | awk '{ printf "%20.3f", $1 / $2 } END { print "" }'
}

# instructions a record of two rings that are alike but for ignored bytes in each record
alike() {
  local what which name log=$out/callgrind.log
  command -v valgrind >/dev/null || { echo "bench: instructions of compare skipped: valgrind is missing"; return 0; }
  rm -f "$out"/alike.*
  printf '\ninstructions for a pair of records alike but for ignored bytes, by callgrind (side-band, small, fat)\n'
  for what in compare read drain; do
    case "$what" in
      drain) name=ollskuvan_drain_events ;;
      *) name=ollskuvan_$what ;;
    esac
    printf '%-14s' "$what"
    for which in 0 1 2; do
      valgrind --tool=callgrind --toggle-collect="$name" --callgrind-out-file=/dev/null "$program" rings-once "$what" "$which" \
        >"$log" 2>&1 </dev/null || { cat "$log"; die "callgrind failed"; }
      awk '/^records/ { n = $2 } /Collected/ { c = $NF } END { printf "%.1f\n", c / n }' "$log" | tee -a "$out/alike.$what" |
        awk '{ printf "%16.1f", $1 }'
    done
    printf '\n'
  done
  printf '%-14s' 'compare/read'
  paste "$out/alike.compare" "$out/alike.read" | awk '{ printf "%16.3f", $1 / $2 } END { print "" }'
}

# instructions of one call with one record or value, of both: the workloads, then a record of each type; by callgrind, or under an emulator by
# bench/count.sh
one_of() { # FUNCTION MODE WHOSE WHAT
  if [ -n "${OLLSKUVAN_EMULATED:-}" ]; then bench/count.sh "$1" "$program" "$2" "$3" "$4"
  else valgrind --tool=callgrind --toggle-collect="$1" --callgrind-out-file=/dev/null "$program" "$2" "$3" "$4"; fi 2>&1 </dev/null |
    awk '/^records/ { n = $2 } /Collected/ { c = $NF } END { if (n > 0 && c > 0) printf "%.1f\n", c / n; else exit 1 }'
}
one_by_one() { # MODE TITLE
  local what careful ours
  [ -n "${OLLSKUVAN_EMULATED:-}" ] || command -v valgrind >/dev/null || { echo "bench: ${1}s skipped: valgrind is missing"; return 0; }
  printf '\ninstructions of %s\n%-20s%10s%10s%8s\n' "$2" '' careful ours ratio
  while read -r what; do
    careful=$(one_of "careful_$1" "$1" careful "$what") && ours=$(one_of "ollskuvan_$1" "$1" ours "$what") || die "a $1 was not counted: $what"
    awk -v what="$what" -v c="$careful" -v o="$ours" 'BEGIN { printf "%-20s%10.1f%10.1f%8.2f\n", what, c, o, o / c }'
  done < <("$program" ones-list)
}

# the same reads beside a reader from the shelf, whose figure holds its loop over the ring and a journal entry too
reads_elsewhere() {
  local workload name other ours
  [ -n "$other_there" ] && command -v valgrind >/dev/null || { echo "bench: linux-perf-event-reader is not there, or valgrind: no reads beside it"; return 0; }
  printf '\ninstructions of a read beside the parse of linux-perf-event-reader\n%-20s%10s%10s%8s\n' '' parse ours ratio
  for workload in 'side-band' 'small samples' 'fat samples'; do
    other=$(one_of other_drain once other "$workload") && ours=$(one_of ollskuvan_read read ours "$workload") || die "a read was not counted: $workload"
    awk -v what="$workload" -v c="$other" -v o="$ours" 'BEGIN { printf "%-20s%10.1f%10.1f%8.2f\n", what, c, o, o / c }'
  done
}

# instructions of one record check
checks() {
  local whose name which log=$out/callgrind.log
  command -v valgrind >/dev/null || return 0
  printf '\ninstructions of a record check, by callgrind (side-band, small, fat)\n'
  for whose in careful ours; do
    name=careful_check
    [ "$whose" = ours ] && name=ollskuvan_check
    printf '%-14s' "$whose"
    for which in 0 1 2; do
      valgrind --tool=callgrind --toggle-collect="$name" --callgrind-out-file=/dev/null "$program" check "$whose" "$which" >"$log" 2>&1 </dev/null ||
        { cat "$log"; die "callgrind failed"; }
      awk '/^records/ { n = $2 } /Collected/ { c = $NF } END { printf "%16.1f", c / n }' "$log"
    done
    printf '\n'
  done
}

# instructions of a record more, on every kind of ring: the slowest against careful C
kinds() { # kinds|table-kinds
  local drain name
  command -v valgrind >/dev/null || { echo "bench: kinds skipped: valgrind is missing"; return 0; }
  rm -f "$out"/kinds.*
  for drain in careful ours; do
    name=careful_drain
    [ "$drain" = ours ] && name=ollskuvan_drain
    [ "$1" = table-kinds ] && name=${name}_events
    valgrind --tool=callgrind --toggle-collect="$name" --dump-after="$name" --callgrind-out-file="$out/kinds.$drain" \
      "$program" "$1" "$drain" >"$out/kinds.$drain.names" 2>"$out/kinds.$drain.log" </dev/null || { cat "$out/kinds.$drain.log"; die "callgrind failed"; }
  done
  python3 bench/kinds.py "$out"
}

case "$part" in
  short) "$program" stores $((rings / 2)) "$seed" || exit 1; "$program" kinds || exit 1; "$program" table-kinds || exit 1; "$program" reads $((rings / 4)) "$seed" || exit 1; "$program" writes $((rings / 10)) "$seed" || exit 1; "$program" compare "$rings" "$seed" || exit 1; "$program" tables $((rings / 2)) "$seed" || exit 1
    "$program" compare-replay $((rings / 10)) "$seed" || exit 1; "$program" walks $((rings / 2)) "$seed" || exit 1
    "$program" compare-salvage $((rings / 10)) "$seed" || exit 1; "$program" compare-rings $((rings / 20)) "$seed" || exit 1 ;;
  sanitize) "$program" stores $((rings / 2)) "$seed" || exit 1; "$program" reads $((rings / 4)) "$seed" || exit 1; "$program" writes $((rings / 10)) "$seed" || exit 1; "$program" compare "$rings" "$seed" || exit 1; "$program" tables $((rings / 2)) "$seed" || exit 1
    "$program" compare-replay $((rings / 10)) "$seed" || exit 1; "$program" walks $((rings / 2)) "$seed" || exit 1
    "$program" compare-salvage $((rings / 10)) "$seed" || exit 1; "$program" compare-rings $((rings / 20)) "$seed" || exit 1 ;;
  *)
    "$program" stores $((rings / 2)) "$seed" || die "no times: the two differ on a store"
    "$program" writes $((rings / 10)) "$seed" || die "no times: the writers of one record differ"
    "$program" kinds || die "no times: the drains differ, or a kind is missing"
    "$program" table-kinds || die "no times: the drains with a table differ"
    "$program" reads $((rings / 4)) "$seed" || die "no times: the readers of one record differ"
    "$program" compare "$rings" "$seed" || die "no times: the drains differ"
    "$program" tables $((rings / 2)) "$seed" || die "no times: the drains with a table differ"
    "$program" compare-replay $((rings / 10)) "$seed" || die "no times: the replays differ"
    "$program" walks $((rings / 2)) "$seed" || die "no times: the walks differ"
    "$program" compare-salvage $((rings / 10)) "$seed" || die "no times: the salvages differ"
    "$program" compare-rings $((rings / 20)) "$seed" || die "no times: rings and their copies are told otherwise than is due"
    case "$part" in all | time) "$program" time $rounds || exit 1 ;; esac
    case "$part" in all | time | tables) "$program" mixes $rounds || exit 1 ;; esac
    case "$part" in all | replay) "$program" replay $rounds || exit 1; replays || exit 1 ;; esac
    case "$part" in all | salvage) "$program" salvage $rounds || exit 1; salvages || exit 1 ;; esac
    case "$part" in all | compare) "$program" rings $rounds || exit 1; alike || exit 1 ;; esac
    case "$part" in all | sizes) "$program" sizes $rounds || exit 1 ;; esac
    case "$part" in all | values) "$program" values $rounds || exit 1 ;; esac
    case "$part" in all | reads) one_by_one read 'a read of one record into words' && reads_elsewhere || exit 1 ;; esac
    case "$part" in all | instructions) instructions && instructions 1 && checks || exit 1 ;; esac
    case "$part" in all | writes) one_by_one write 'a write of one value' || exit 1 ;; esac
    case "$part" in all | stores) stores || exit 1 ;; esac
    case "$part" in all | instructions | tables) tables && tables 0 && tables 1 && tables 32 || exit 1 ;; esac
    case "$part" in all | instructions | walks) walks || exit 1 ;; esac
    case "$part" in all | kinds) kinds kinds || exit 1; echo; echo "with a table of eleven events"; kinds table-kinds || exit 1 ;; esac ;;
esac
