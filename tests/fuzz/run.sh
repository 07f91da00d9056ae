#!/bin/sh
# The fuzz target (target.c): libollskuvan.a and ringdump beside the independent reader, under libFuzzer
# with clang's address and undefined sanitizers on the C side. Everything is built in target/fuzz/.
#
#   tests/fuzz/run.sh                     200,000 executions, seed 1
#   tests/fuzz/run.sh RUNS [SEED]         so many executions with this seed (0 RUNS: builds it and ends)
#   tests/fuzz/run.sh again FILE          runs an input again that was kept at a difference
#   tests/fuzz/run.sh faults              the target tried on itself: the planted faults of faults.c, each must be found;
#                                         FIRST=25 begins with number 25
#
# With OLLSKUVAN_EMULATED (tools/x86.sh) it is built for x86-64 and run under the emulator, without the address sanitizer,
# which does not work there: the pages that cannot be touched do. With NATIVE=1 it takes the library that tools/native.sh
# built for this machine, with both sanitizers: the same code for another processor, many more executions in a second.
#
# With LIGHT=1 it is built in target/fuzz-light without the address sanitizer and without a call at each comparison, and
# libFuzzer picks inputs by the plain way: several times as many executions in a second. What is lent still ends at a page
# that cannot be touched, and that is what finds a byte outside a slice: the address sanitizer never sees the archive's code.
#
# With CARRY=1 (and NATIVE=1, best with LIGHT=1) each library call of the target of this machine is made once more, by
# played.c on the archive for x86-64, on the same bytes, and compared (carried.h): the archive itself gets every execution.
# PLAYERS says how many processes make them (default 2).
#   CARRY=1 NATIVE=1 LIGHT=1 tests/fuzz/run.sh carry-teeth     the player tried: planted differences, each must be found
#
# MAX_LEN is the longest input (default 1200 bytes: many executions in a second); SECONDS_AT_MOST ends a run
# early. The corpus grows from run to run in target/fuzz/corpus; delete it to start from the seeds again.
# Needs target/staticlib/libollskuvan.a, target/obj/ringdump.o, rustc (RUSTC, or rustc), and Debian's packages clang
# and libclang-rt-dev (here: that of clang's own number; under an emulator: that for amd64). Where a package is missing it
# says so and ends with 0.
set -eu
cd "$(dirname "$0")/../.."

out=target/fuzz
archive=target/staticlib/libollskuvan.a
program=target/obj/ringdump.o
if [ -n "${NATIVE:-}" ]; then
    out=target/native/fuzz archive=target/native/libollskuvan.a program=target/native/ringdump.o
fi
max_len=${MAX_LEN:-1200}
rustc=${RUSTC:-rustc}

stop() { echo "tests/fuzz/run.sh: $*" >&2; exit 1; }
wrong() { echo "tests/fuzz/run.sh: $* (see the head of this file)" >&2; exit 2; }
number() { # WHAT NUMBER MOST-DIGITS
    case $2 in
        '' | *[!0-9]*) wrong "$1: a number is wanted, not '$2'" ;;
    esac
    [ ${#2} -le "$3" ] || wrong "$1: $2 is too great"
}
skip() { echo "== fuzzing skipped: $*"; exit 0; }

runs=${1-200000} seed=${2-1}
case $runs in
    faults) [ $# -eq 1 ] || wrong "nothing follows 'faults'"; number FIRST "${FIRST:-1}" 9 ;;
    carry-teeth)
        [ $# -eq 1 ] || wrong "nothing follows 'carry-teeth'"
        [ -n "${CARRY:-}" ] || wrong "carry-teeth needs CARRY=1"
        ;;
    again)
        [ $# -eq 2 ] || wrong "use: tests/fuzz/run.sh again FILE"
        [ -r "$2" ] || wrong "no such file: $2"
        ;;
    *)
        [ $# -le 2 ] || wrong "a seed is the last word, not '$3'"
        number RUNS "$runs" 18
        number SEED "$seed" 9 # libFuzzer has 32 bits for it
        ;;
esac
number MAX_LEN "$max_len" 9
number SECONDS_AT_MOST "${SECONDS_AT_MOST:-0}" 9

command -v clang >/dev/null || skip "clang is missing (Debian: apt-get install clang)"
command -v "$rustc" >/dev/null || skip "$rustc is missing: the independent reader is written in Rust"
sanitizers=fuzzer,address,undefined objcopy=objcopy machine= of= signals= compares='-C llvm-args=-sanitizer-coverage-trace-compares'
touched='AddressSanitizer: SEGV|AddressSanitizer: .*overflow' # what is said of a byte outside a slice
if [ -n "${OLLSKUVAN_EMULATED:-}" ]; then
    sanitizers=fuzzer,undefined objcopy=x86_64-linux-gnu-objcopy machine='--target=x86_64-linux-gnu -DEMULATED' of=:amd64
    touched='libFuzzer: deadly signal'
    # more than half of the time would go into telling libFuzzer of each comparison, and into wide vectors
    machine="$machine -fno-sanitize-coverage=trace-cmp" compares=
    export QEMU_CPU=qemu64,+popcnt
    # see align_handlers in target.c: a signal that only ends the run needs no handler
    signals='-handle_term=0 -handle_int=0'
fi
if [ -n "${LIGHT:-}" ]; then
    out=$out-light sanitizers=fuzzer,undefined touched='libFuzzer: deadly signal' compares=
    machine="$machine -fno-sanitize-coverage=trace-cmp" signals="$signals -entropic=0"
fi
wrapped=
carry=
if [ -n "${CARRY:-}" ]; then
    [ -n "${NATIVE:-}" ] || wrong "CARRY=1 needs NATIVE=1: the other side is the archive for x86-64"
    number PLAYERS "${PLAYERS:-2}" 1
    out=$out-carry
    . tests/fuzz/carry.sh
fi
command -v $objcopy >/dev/null || skip "$objcopy is missing (Debian: apt-get install binutils)"
mkdir -p "$out"
number=$(clang -dumpversion | cut -d. -f1)
echo 'int LLVMFuzzerTestOneInput(const char *b, unsigned long n) { return !b && n > n + 1; }' >"$out/probe.c"
# shellcheck disable=SC2086
clang $machine -fsanitize=$sanitizers -o "$out/probe" "$out/probe.c" 2>/dev/null ||
    skip "clang has no sanitizer libraries (Debian: apt-get install libclang-rt-$number-dev$of)"
[ -f "$archive" ] || stop "$archive is missing: run 'make lib' (with NATIVE tools/native.sh) first"
[ -f "$program" ] || stop "$program is missing: run 'make run' first"

libraries="-lpthread -ldl -lm"
build() {
    # shellcheck disable=SC2086
    clang $machine -std=gnu11 -Wall -Wextra -Werror -g -O2 -Iinclude -fsanitize=$sanitizers \
        -fno-sanitize-recover=undefined "$@"
}

newer() { # newer MADE SOURCE...: it is there and no source is younger
    made=$1
    shift
    [ -f "$made" ] && [ -z "$(find "$@" -newer "$made" -print)" ]
}

[ -z "${CARRY:-}" ] || build_carry
# The independent reader with libFuzzer's coverage: the archive itself has none, so this leads the search.
# shellcheck disable=SC2086
newer "$out/libindependent.a" tests/reader tests/fuzz/run.sh ||
    "$rustc" --edition 2021 -O -C overflow-checks=on -C panic=abort -C codegen-units=1 --cfg own_names \
        --crate-type staticlib --crate-name independent -C passes=sancov-module \
        -C llvm-args=-sanitizer-coverage-level=4 -C llvm-args=-sanitizer-coverage-inline-8bit-counters \
        -C llvm-args=-sanitizer-coverage-pc-table $compares \
        -o "$out/libindependent.a" tests/reader/library.rs
newer "$out/target" tests/fuzz tests/reader include narrow "$archive" "$program" || {
    # ringdump as it was compiled, with its main, read and write under other names
    $objcopy --redefine-sym main=ringdump_main --redefine-sym read=ringdump_read \
        --redefine-sym write=ringdump_write "$program" "$out/ringdump.o"
    # shellcheck disable=SC2086
    build -o "$out/target" tests/fuzz/target.c narrow/ringdump.c $carry $wrapped "$out/ringdump.o" "$out/libindependent.a" \
        "$archive" $libraries
}
newer "$out/seeds/made-0" tests/reader rings || {
    # the test program makes the seeds; if tests/run.sh has not built it, it is built here without the library
    seeder=target/tests/reader
    newer $seeder tests/reader || {
        seeder=$out/seeder
        "$rustc" --edition 2021 -O --cfg standin -o "$seeder" tests/reader/main.rs
    }
    rm -rf "$out/seeds"
    mkdir -p "$out/seeds"
    "$seeder" seeds "$out/seeds" --rings rings --count 600
}
mkdir -p "$out/corpus" "$out/found"

case ${CARRY:+$runs} in
    '' | 0 | faults) ;;
    carry-teeth) carry_teeth; exit 0 ;;
    *) start_players ;;
esac
if [ "$runs" = again ]; then
    # shellcheck disable=SC2086
    [ -n "${CARRY:-}" ] || exec "$out/target" $signals "$2"
    # shellcheck disable=SC2086
    "$out/target" $signals "$2" || { players_agree; exit 1; }
    players_agree
    exit
fi
if [ "$runs" = faults ]; then
    build -c -o "$out/target.o" tests/fuzz/target.c
    found=0
    # the numbers that faults.c has; not every number is one
    for number in $(grep -oE 'fault\([0-9]+\)' tests/fuzz/faults.c | tr -dc '0-9\n' | sort -nu); do
        [ "$number" -ge "${FIRST:-1}" ] || continue
        # shellcheck disable=SC2086
        build -DFAULT=$number -o "$out/faulty" "$out/target.o" tests/fuzz/faults.c "$out/ringdump.o" \
            "$out/libindependent.a" $libraries
        # shellcheck disable=SC2086
        if "$out/faulty" $signals -runs=1000000 -seed="$seed" -max_len="$max_len" -detect_leaks=0 -artifact_prefix="$out/planted-" \
            -dict=tests/fuzz/ollskuvan.dict "$out/seeds" >"$out/log" 2>&1; then
            stop "planted fault $number was not found"
        fi
        grep -qE "^DIFFERENCE|$touched" "$out/log" ||
            stop "planted fault $number ended otherwise, see $out/log"
        when=$(grep -E '^#[0-9]' "$out/log" | tail -n 1 | cut -f1)
        how=$(grep -oE '^DIFFERENCE: .*|AddressSanitizer: [A-Za-z-]*|libFuzzer: deadly signal' "$out/log" | head -n 1 | cut -c1-80)
        echo "fault $number: found, ${when:-among the seeds}: $how"
        rm -f "$out"/planted-*
        found=$((found + 1))
    done
    [ $found -gt 0 ] || stop "no planted fault from number ${FIRST:-1} on"
    echo "fuzz: $found planted faults, all found (from number ${FIRST:-1} on)"
    exit 0
fi
[ "$runs" -gt 0 ] || exit 0
begun=$(date +%s)
# libFuzzer counts the corpus it starts from as executions too.
# shellcheck disable=SC2086
"$out/target" $signals -runs="$runs" -seed="$seed" -max_len="$max_len" -max_total_time="${SECONDS_AT_MOST:-0}" \
    -dict=tests/fuzz/ollskuvan.dict -detect_leaks=0 -print_final_stats=1 -artifact_prefix="$out/found/" \
    "$out/corpus" "$out/seeds" 2>"$out/log" || {
    grep -v '^#' "$out/log" | head -c 60000 >&2
    [ -z "${CARRY:-}" ] || players_agree || :
    stop "failed with seed $seed: the input is kept in $out/found; run it again: tests/fuzz/run.sh again FILE"
}
grep '^fuzz:' "$out/log"
[ -z "${CARRY:-}" ] || players_agree || stop "the archive differs: the input is kept in $out/found"
done=$(sed -n 's/^stat::number_of_executed_units: *//p' "$out/log")
echo "fuzz: $done executions with seed $seed in $(($(date +%s) - begun)) s, no difference"
