#!/usr/bin/env bash
# The library and the programs of other targets (make boards), run under qemu-user on this machine:
#
#   tests/boards/run.sh [TARGET..]     all but this machine's own, unless some are named; COUNT calls and more of each export (20000)
#   tests/boards/run.sh teeth TARGET   the tests tried: differences planted in every call, each must be found
#
# 1. the script's own answers: a target that is not known, a module that is not that of the sources, a line of a module that is not known;
# 2. every export from C at its edges (tests/exports.c), every constant of the header by its name (tests/names.c), at three optimizations;
# 3. random calls: the independent reader of tests/reader makes them on this machine's archive, compares what comes back with what the documents
#    say, and hands each call to the targets' players, which make it once more: every byte of every lent slice, at a page that cannot be touched;
# 4. the shipped rings, whole and cut short, and bad words, by the programs ollskuvan and ringdump: each prints what this machine's does.
#
# BUILT=1: target/boards is not made anew. What is missing (the target's compiler, its emulator) is said, with the line that installs it; that target is skipped.
set -eu
waiting=()
cd "$(dirname "$0")/../.."
count=${COUNT:-20000} seed=${SEED:-1}
out=target/boards/tests
rustc=${RUSTC:-rustc}
log=$out/log

stop() { echo "tests/boards/run.sh: $*" >&2; exit 1; }
skip() { echo "boards: $*" | tee -a "${SKIPPED_TO:-/dev/null}"; } # the gate says it once more at its end
targets=tools/boards/targets.txt
column() { awk -v target="$1" -v column="$2" '$1 == target { print $column }' $targets; }
wrong() { echo "tests/boards/run.sh: $*" >&2; exit 2; }
case $count$seed in *[!0-9]*) wrong "COUNT and SEED are numbers, not '$count' and '$seed'" ;; esac
teeth=
[ "${1:-}" != teeth ] || { teeth=1; shift; [ $# -eq 1 ] || wrong "use: tests/boards/run.sh teeth TARGET"; }
for target in "$@"; do [ -n "$(column "$target" 2)" ] || wrong "no such target: $target"; done
[ $# -gt 0 ] || set -- $(awk -v own="$(uname -m)-linux-gnu" '!/^#/ && $1 != own { print $1 }' $targets)
[ "$(uname -m)" = x86_64 ] || { skip "skipped on $(uname -m): the calls are made beside the archive for x86-64"; exit 0; }
command -v "$rustc" >/dev/null || stop "$rustc is missing: the independent reader is written in Rust"

# ---- which of them can be run here
there=()
for target in "$@"; do
  missing=
  for tool in "$target-gcc" "$(column "$target" 3)"; do command -v "$tool" >/dev/null || missing="$missing $tool"; done
  [ -n "$missing" ] || echo '#include <stdlib.h>' | "$target-gcc" -E - >/dev/null 2>&1 || missing=" its C library"
  if [ -n "$missing" ]; then
    skip "$target skipped: missing$missing (apt-get install -y qemu-user $(tools/library.sh packages "$target"))"
  else
    there+=("$target")
  fi
done
[ ${#there[@]} -gt 0 ] || exit 0
[ -n "${BUILT:-}" ] || tools/library.sh "${there[@]}" x86_64-linux-gnu >/dev/null || stop "the targets are not built"
rm -rf $out && mkdir -p $out

emulate() { local target=$1; shift; "$(column "$target" 3)" -L "/usr/$target" "$@"; }
c99() { local target=$1; shift; "$target-gcc" -std=c99 -pedantic -Wall -Wextra -Werror -g -Iinclude -static "$@"; }

# ---- 1. the script's own answers; nothing is written
says() { # WORDS COMMAND..: it fails with 1 and says so
  local words=$1 status=0
  shift
  "$@" >"$log" 2>&1 || status=$?
  [ $status -eq 1 ] && grep -q -- "$words" "$log" || stop "status $status, '$(head -n 2 "$log")' where '$words' is due: $*"
}
script() {
  local target=${there[0]} before
  before=$(ls -lR --time-style=full-iso target/boards/"$target" | sha256sum)
  says 'no such target: vax-linux' tools/library.sh "$target" vax-linux
  says "apt-get install -y gcc-$target " env PATH=/none "$(command -v bash)" -c 'PATH=$1 exec "$2" tools/library.sh "$3"' - "$out/few" "$(command -v bash)" "$target"
  cp -r target/modules $out/stale && echo stale >$out/stale/sum
  says "not those of the sources" env MODULES=$out/stale tools/library.sh "$target"
  [ "$before" = "$(ls -lR --time-style=full-iso target/boards/"$target" | sha256sum)" ] || stop "a call that failed wrote something"
  forms
}
# a path without the target's compiler
few_tools() {
  local tool
  mkdir -p $out/few
  for tool in rt dirname readlink awk sed grep uname tr sort cat find xargs sha256sum cut mktemp mkdir chmod rm ls env; do
    ln -sf "$(command -v $tool)" "$out/few/$tool"
  done
}
# Lines that are not known, one at a time, in a module that is.
forms() {
  local clang module=$out/module.ll line tried=0
  clang=$(dirname "$(dirname "$(readlink -f "$(command -v rt)")")")/toolchain/bin/clang
  "$clang" -x ir target/modules/event_list_c.bc -S -emit-llvm -O0 -Xclang -disable-llvm-passes -Wno-override-module -o $module
  awk -f tools/boards/retarget.awk $module >$out/known.ll || stop "a module is not known"
  # changed: the layout, the triple and the processor's name alone
  [ "$(diff $module $out/known.ll | grep -c '^[<>]')" -eq 4 ] || stop "other lines of a module are changed than those that name the processor"
  while read -r line; do
    tried=$((tried + 1))
    sed "$line" $module >$out/other.ll
    ! cmp -s $module $out/other.ll || stop "the edit does nothing: $line"
    ! awk -f tools/boards/retarget.awk $out/other.ll >/dev/null 2>"$log" || stop "a module is taken that is not known: $line"
    grep -q '^retarget: ' "$log" || stop "no word of why: $line"
  done <<'EDITS'
s/^target triple = .*/target triple = "i686-unknown-linux-gnu"/
s/^target datalayout = "e-m:e/target datalayout = "E-m:e/
/^target triple/d
s/"target-cpu"="x86-64"/"target-cpu"="x86-64-v3"/
s/ "target-cpu"="x86-64"//
s/"target-cpu"="x86-64"/"target-cpu"="x86-64" "target-features"="+avx"/
s/^define noundef i64 @ollskuvan_find_event/define noundef i16 @ollskuvan_find_event/
s/@ollskuvan_find_event/@other_find_event/
0,/^  \(%[a-z0-9]*\) = load i64, ptr \(%[a-z0-9]*\).*/s//  \1 = ptrtoint ptr \2 to i64/
0,/^  \(%[a-z0-9]*\) = load i64, ptr \(%[a-z0-9]*\).*/s//  \1 = load atomic i64, ptr \2 seq_cst, align 8/
0,/^  ret .*/s//  frobnicate i64 0/
0,/^  ret .*/s//  call void asm sideeffect "nop", ""()/
0,/^declare /s//declare i64 @elsewhere(i64)\n&/
$d;s/^!1 = .*/!1 = !{!"tbaa"}/
EDITS
  sed '0,/^  ret .*/s//  %odd = load { i8, i8, ptr }, ptr %r0, align 8/' $module >$out/other.ll
  ! awk -v wide=1 -f tools/boards/retarget.awk $out/other.ll >/dev/null 2>"$log" || stop "a struct is loaded whose pointer stands elsewhere on 32 bits"
  grep -q '^retarget: .*a struct with a pointer' "$log" || stop "no word of why: a struct with a pointer"
  echo "boards: the script refuses what it should, $tried changed modules among it"
}

# ---- 2. from C
calls() { # TARGET
  local level
  for level in -O0 -O1 -O2; do
    c99 "$1" $level -o "$out/$1-exports" tests/exports.c "target/boards/$1/libollskuvan.a"
    emulate "$1" "$out/$1-exports" >"$out/$1.log" || { cat "$out/$1.log"; stop "$1: an export from C"; }
  done
  c99 "$1" -O1 -o "$out/$1-names" tests/names.c "target/boards/$1/libollskuvan.a"
  emulate "$1" "$out/$1-names" >"$out/$1-names.log" || { cat "$out/$1-names.log"; stop "$1: a constant of the header"; }
  echo "$1: $(tail -n 1 "$out/$1.log"); $(tail -n 1 "$out/$1-names.log")"
}

# ---- 3. random calls
wrapped() { for crate in $(sed -n "s/^exports='\(.*\)'$/\1/p" tools/library.sh); do sed -n 's/^pub extern "C" fn \(ollskuvan_[a-z_]*\).*/-C link-arg=-Wl,--wrap=\1/p' "crates/$crate/src/lib.rt"; done; }
build_reader() {
  "${CC:-cc}" -std=gnu11 -Wall -Wextra -Wshadow -Werror -g -O2 -Iinclude -DOF_READER -c -o $out/carry.o tests/fuzz/carry.c
  # shellcheck disable=SC2046
  "$rustc" --edition 2021 -O -C overflow-checks=on -C link-arg=$out/carry.o $(wrapped) -C link-arg=target/staticlib/libollskuvan.a -o $out/reader tests/reader/main.rs
}
build_player() { # TARGET
  "$1-gcc" -std=gnu11 -Wall -Wextra -Wshadow -Werror -g -O2 -DOF_READER -Iinclude -static -o "$out/$1-played" tests/fuzz/played.c "target/boards/$1/libollskuvan.a"
}
# What the reader is asked to make, so that each export is called COUNT times and more. Some have a fixed part of many calls.
streams() {
  cat <<LIST
drains $count
tables $((count / 4))
judged $count
walks $((count / 10 * 14 + 300))
readers $((count / 10 * 7 + 300))
stores $((count / 60))
replays $((count / 60))
salvages $((count / 60))
compares $((count / 60))
values $((count / 10 * 6))
ones $((count / 7))
meanings $count
LIST
}
# One stream of the reader to the players of all targets. Of what misc means the random ones, without all of the 2^16 for each type.
carried() { # NAME COUNT
  local target players=() pipes=() status=0
  rm -f $out/stream.0 && mkfifo $out/stream.0
  for target in "${there[@]}"; do
    rm -f "$out/$target.pipe" && mkfifo "$out/$target.pipe"
    pipes+=("$out/$target.pipe")
    emulate "$target" "$out/$target-played" <"$out/$target.pipe" >"$out/$target-$1.log" 2>&1 &
    players+=("$target $!")
  done
  tee -p "${pipes[@]}" <$out/stream.0 >/dev/null &
  CARRY_TO=$out/stream PLAYERS=1 $out/reader "$1" --count "$2" --seed "$seed" $([ "$1" != meanings ] || echo --from 1) >"$out/reader-$1.log" 2>&1 || status=1
  for player in "${players[@]}"; do
    wait "${player#* }" || { head -c 20000 "$out/${player% *}-$1.log"; stop "${player% *}: $1 with seed $seed differs"; }
  done
  [ $status -eq 0 ] || { tail -n 20 "$out/reader-$1.log"; stop "the reader failed: $1 --count $2 --seed $seed"; }
}
# The calls of all streams by export: none below COUNT.
sums() { # TARGET
  cat "$out/$1"-{drains,tables,judged,walks,readers,stores,replays,salvages,compares,values,ones,meanings}.log |
    awk -v least="$count" -v target="$1" '/ executions, / { all += $4; next } { made[$2] += $3 }
      END { for (f in made) { if (f == "ringdump") continue; n++; if (made[f] < least) { print "only " made[f] " calls of " f; bad = 1 }; if (!few || made[f] < few) few = made[f] }
        printf "%s: %d random calls of %d exports, %d and more of each: none differs\n", target, all, n, few; exit bad }'
}

# ---- 4. the programs: what this machine's own print, they print
shipped_rings() { find rings examples/rings -name '*.img' | LC_ALL=C sort; }
program_inputs() {
  local ring kiln=examples/rings/kiln-cpu
  for ring in $(shipped_rings); do
    printf '%s\n' "dump $ring" "journal $ring" "dump --edition 2 $ring"
  done
  printf '%s\n' "report ${kiln}0.img ${kiln}1.img" "report --short ${kiln}0.img" "report --svg /dev/stdout ${kiln}0.img" \
    'compare rings/tasks.img rings/tasks-plain.img' 'compare rings/tasks.img rings/tasks.img' 'settings tests/stores/version-1.store' 'settings tests/stores/version-2.store' \
    "dump $out/cut.img" "dump $out/none.img" "report $out/cut.img" "salvage" 'explain 13' 'explain 99' '--help' '--version' 'dump --edition 9 rings/tasks.img' nonsense
}
programs() { # TARGET
  local target=$1 line ring tried=0
  while read -r line; do
    tried=$((tried + 1))
    # shellcheck disable=SC2086
    { target/boards/x86_64-linux-gnu/ollskuvan $line; echo "status $?"; } >"$out/$target-own.txt" 2>&1 </dev/null || true
    # shellcheck disable=SC2086
    { emulate "$target" "target/boards/$target/ollskuvan" $line; echo "status $?"; } >"$out/$target.txt" 2>&1 </dev/null || true
    cmp -s "$out/$target-own.txt" "$out/$target.txt" || { diff "$out/$target-own.txt" "$out/$target.txt" | head -n 10; stop "$target: ollskuvan $line prints something else"; }
  done < <(program_inputs)
  for ring in $(shipped_rings) $out/cut.img; do
    tried=$((tried + 1))
    target/bin/ringdump <"$ring" >"$out/$target-own.txt" || true
    emulate "$target" "target/boards/$target/ringdump" <"$ring" >"$out/$target.txt" || true
    cmp -s "$out/$target-own.txt" "$out/$target.txt" || stop "$target: ringdump prints something else of $ring"
  done
  [ $tried -gt 100 ] || stop "$target: the shipped rings were not found"
  echo "$target: $tried runs of ollskuvan and ringdump, all print what this machine's print"
}

# ---- the tests tried: a short stream, then once with each difference planted (PLANT in tests/fuzz/played.c)
planted_in() { # FUNCTION: as carry.sh of the fuzz target has it
  (. tests/fuzz/carry.sh && planted_in "$1")
}
teeth() { # TARGET
  local name number=0 where found=0 stream
  for stream in "drains 40" "tables 40" "judged 60" "walks 80" "readers 40" "stores 5" "replays 5" "salvages 5" "compares 5" "values 5" "ones 40"; do
    CARRY_TO=$out/${stream% *} PLAYERS=1 $out/reader "${stream% *}" --count "${stream#* }" --seed "$seed" >"$log" 2>&1 || stop "the reader failed: $stream"
  done
  CARRY_TO=$out/meanings PLAYERS=1 $out/reader meanings --from 1 --count 40 >"$log" 2>&1
  for name in $(sed -n 's/^    X(\([a-z_]*\), .*/\1/p' tests/fuzz/carried.h); do
    case $name in
      drain | check | copy_name) stream=drains ;; drain_events | find_event | read_one_events) stream=tables ;; check_events | read_events) stream=judged ;;
      walk*) stream=walks ;; publish) stream=readers ;; *_store) stream=stores ;; replay) stream=replays ;; salvage) stream=salvages ;; compare) stream=compares ;;
      read | write) stream=values ;; read_one) stream=ones ;; misc_meaning) stream=meanings ;;
    esac
    for where in $(planted_in "$name"); do
      ! PLANT=$((100 * where + number)) emulate "$1" "$out/$1-played" <"$out/$stream.0" >"$log" 2>&1 || stop "$1: the difference planted in $name at $where was not found"
      grep -q "^DIFFERENCE: $name," "$log" || { head -n 3 "$log"; stop "$1: $name at $where ended otherwise"; }
      found=$((found + 1))
    done
    number=$((number + 1))
  done
  echo "$1: $found differences planted in $number functions, all found"
}

build_reader
for target in "${there[@]}"; do build_player "$target"; done
if [ -n "$teeth" ]; then
  teeth "${there[0]}"
  exit 0
fi
few_tools
script
head -c 3000 rings/tasks.img >$out/cut.img
own_objects() { # the modules, compiled by this script for x86-64, are the objects of the proved archive
  mkdir -p $out/ours $out/proved
  (cd $out/ours && ar x ../../x86_64-linux-gnu/libollskuvan.a) || stop "there is no archive for x86-64 made of the modules: tools/library.sh x86_64-linux-gnu"
  (cd $out/proved && ar x ../../../staticlib/libollskuvan.a) || stop "there is no proved archive: tools/library.sh"
  diff -r $out/ours $out/proved >/dev/null || stop "the archive for x86-64 made of the modules is not the proved one"
  echo "x86_64-linux-gnu: made of the kept modules, each of its $(ls $out/ours | wc -l) objects is the proved archive's, byte for byte"
}
own_objects
for target in "${there[@]}"; do
  (calls "$target" && programs "$target") >"$out/$target-done.log" 2>&1 &
  waiting+=("$target $!")
done
while read -r name number; do carried "$name" "$number"; done < <(streams)
for one in "${waiting[@]}"; do
  wait "${one#* }" || { cat "$out/${one% *}-done.log"; exit 1; }
  cat "$out/${one% *}-done.log"
done
for target in "${there[@]}"; do sums "$target" || stop "$target: too few calls"; done
rm -f $out/*.0 $out/*.pipe
echo "boards: ${#there[@]} targets, all right"
