#!/bin/sh
# The tests from outside: what libollskuvan.a and the program ringdump do, against an independent
# reader written in Rust from document 01 (tests/reader), from C (tests/exports.c), and over rings
# taken from a live kernel (rings/).
#
#   tests/run.sh                 all of it, as the gate runs it
#   tests/run.sh standin         with the independent reader in the library's place: tries the tests
#                                themselves and says nothing about the library
#   tests/run.sh long COUNT SEED COUNT drains, COUNT with a table, COUNT walks and COUNT values with this seed, and nothing else
#   tests/run.sh soak MINUTES [SEED]
#                                random and damaged rings, records and images until the time is up, with
#                                progress every ten seconds; stops at the first difference
#
# DRAINS, VALUES and SEED change the counts and the seed of the gate's run. Needs rustc (RUSTC, or rustc; 1.63
# or newer), a C compiler (CC, or cc) and, for the memory check of the C calls, valgrind. Everything is built in
# target/tests/.
set -eu
cd "$(dirname "$0")/.."

mode=${1:-all}
drains=${DRAINS:-200000}
values=${VALUES:-100000}
seed=${SEED:-1}
cc=${CC:-cc}
rustc=${RUSTC:-rustc}
out=target/tests
archive=target/staticlib/libollskuvan.a
libraries=
ringdump=target/bin/ringdump

stop() { echo "tests/run.sh: $*" >&2; exit 1; }
wrong() { echo "tests/run.sh: $*" >&2; exit 2; }
number() { # WHAT NUMBER: digits, at most 19
    case $2 in
        '' | *[!0-9]* | ????????????????????*) wrong "$1: a number is wanted, not '$2'" ;;
    esac
}

case $mode in
    all | standin) [ $# -le 1 ] || wrong "nothing follows '$mode' (see the head of this file)" ;;
    long)
        [ $# -eq 3 ] || wrong "use: tests/run.sh long COUNT SEED"
        drains=$2 values=$2 seed=$3
        ;;
    soak)
        { [ $# -eq 2 ] || [ $# -eq 3 ]; } || wrong "use: tests/run.sh soak MINUTES [SEED]"
        minutes=$2 seed=${3:-1}
        number MINUTES "$minutes"
        ;;
    *) wrong "no such word: $mode (see the head of this file)" ;;
esac
number "DRAINS or COUNT" "$drains"
number "VALUES or COUNT" "$values"
number SEED "$seed"
command -v "$rustc" >/dev/null || stop "$rustc is missing: the independent reader is written in Rust"
command -v "$cc" >/dev/null || stop "$cc is missing: the exports are called from C"
mkdir -p "$out"

parts=0
begun=$(date +%s)
part() { # part WORDS COMMAND...
    echo "== $1"
    shift
    from=$(date +%s)
    "$@" || stop "failed: $*"
    parts=$((parts + 1))
    echo "   $(($(date +%s) - from)) s"
}

rust() { "$rustc" --edition 2021 -O -C overflow-checks=on "$@"; }
c() { "$cc" -std=c99 -pedantic -Wall -Wextra -Werror -g -O1 "$@"; }

case $mode in
    standin)
        part "build the independent reader, and itself as the stand-in" \
            rust --cfg standin -o "$out/reader" tests/reader/main.rs
        part "build the stand-in for C" \
            rust --crate-type staticlib --crate-name ollskuvan -o "$out/libstandin.a" tests/reader/standin.rs
        archive=$out/libstandin.a libraries="-lpthread -ldl -lm"
        # shellcheck disable=SC2086
        part "build the calls from C" c -o "$out/exports" tests/exports.c "$archive" $libraries
        ringdump="$out/reader dump"
        ;;
    *)
        [ -f "$archive" ] || stop "$archive is missing: run 'make lib' first"
        [ $mode = long ] || [ -x "$ringdump" ] || stop "$ringdump is missing: run 'make run' first"
        part "build the independent reader" rust -C link-arg="$archive" -o "$out/reader" tests/reader/main.rs
        [ $mode = soak ] || part "build the calls from C" c -o "$out/exports" tests/exports.c "$archive"
        ;;
esac

if [ $mode = soak ]; then
    exec "$out/reader" soak "$ringdump" --rings rings --folder "$out" --minutes "$minutes" --seed "$seed"
fi
if [ $mode = long ]; then
    part "drains, checks and name copies: $drains cases, seed $seed" \
        "$out/reader" drains --count "$drains" --seed "$seed"
    part "tables of events: $drains drains and their records, seed $seed" \
        "$out/reader" tables --count "$drains" --seed "$seed"
    part "backward rings: $drains walks, seed $seed" "$out/reader" walks --count "$drains" --seed "$seed"
    part "values: $values records, seed $seed" "$out/reader" values --count "$values" --seed "$seed"
    echo "long run: no difference"
    exit 0
fi

part "document 01's examples on the independent reader" "$out/reader" examples
part "kept cases that other readers get wrong" "$out/reader" cases tests/cases
part "every export from C" "$out/exports"
if [ -n "${OLLSKUVAN_EMULATED:-}" ]; then
    echo "== programs run under an emulator: the calls from C ran without valgrind"
elif command -v valgrind >/dev/null; then
    part "every export from C, under valgrind" \
        valgrind -q --error-exitcode=9 --leak-check=full "$out/exports"
else
    echo "== valgrind is missing: the calls from C ran without it"
fi
# shellcheck disable=SC2086
part "build the test of the header's names" c -Iinclude -o "$out/names" tests/names.c "$archive" $libraries
part "every constant of the header, by its name" "$out/names"
# shellcheck disable=SC2086
part "constants swapped in the header are seen" tests/swaps.sh "$archive" $libraries
part "drains, checks and name copies: $drains cases, seed $seed" \
    "$out/reader" drains --count "$drains" --seed "$seed"
part "tables of events: $((drains / 2)) drains and their records, seed $seed" \
    "$out/reader" tables --count $((drains / 2)) --seed "$seed"
part "one record with a table: $values records, seed $seed" "$out/reader" judged --count "$values" --seed "$seed"
part "drains cut anywhere: $((drains / 10)) series, seed $seed" \
    "$out/reader" series --count $((drains / 10)) --seed "$seed" --rings rings
part "two readers of one ring: $values pairs of tails, seed $seed" \
    "$out/reader" readers --count "$values" --seed "$seed"
part "stores of settings: $((values / 2)) made ones, seed $seed" \
    "$out/reader" stores --count $((values / 2)) --seed "$seed"
part "kept stores of both versions" "$out/reader" kept-stores tests/stores
part "replay of traces: $((values / 5)) traces, seed $seed" \
    "$out/reader" replays --count $((values / 5)) --seed "$seed"
part "backward rings: $((drains / 4)) walks, seed $seed" \
    "$out/reader" walks --count $((drains / 4)) --seed "$seed"
part "salvage of damaged streams: $((values / 5)) streams, seed $seed" \
    "$out/reader" salvages --count $((values / 5)) --seed "$seed"
part "two rings compared: $((values / 5)) pairs, seed $seed" \
    "$out/reader" compares --count $((values / 5)) --seed "$seed"
part "where two requests meet: $((values / 5)) meetings, seed $seed" \
    "$out/reader" meets --count $((values / 5)) --seed "$seed"
part "what misc means" "$out/reader" meanings --count "$values" --seed "$seed"
part "real rings" "$out/reader" rings rings
part "real rings of several events" "$out/reader" table-rings rings/events --seed "$seed"
part "real backward rings" "$out/reader" back-rings rings/backward --seed "$seed"
for kernel in rings/kernels/*/; do
    name=$(basename "$kernel")
    part "real rings of another kernel: $name" "$out/reader" rings "$kernel"
    [ ! -d "$kernel/events" ] || part "its rings of several events: $name" "$out/reader" table-rings "$kernel/events" --seed "$seed" --count 500
    [ ! -d "$kernel/backward" ] || part "its backward rings: $name" "$out/reader" back-rings "$kernel/backward" --seed "$seed" --count 200
done
part "each sample bit, read format, type and trailer bit" "$out/reader" bits
part "values: $values records, seed $seed" "$out/reader" values --count "$values" --seed "$seed"
# each ring is lent anew for each of its records
part "the reader of one record: $((values / 5)) rings, seed $seed" \
    "$out/reader" ones --count $((values / 5)) --seed "$seed"
# shellcheck disable=SC2086
part "what ringdump prints" "$out/reader" images $ringdump --rings rings --folder "$out" --seed "$seed" --count 400
# from a folder nothing can be read, a full device takes nothing, a pipe that is closed neither: a word, status 1, and no journal
fails() { # INPUT OUTPUT
    status=0
    "$ringdump" <"$1" >"$2" 2>"$out/ringdump.err" || status=$?
    [ $status -eq 1 ] && [ "$(cat "$out/ringdump.err")" = 'ringdump: a read or a write failed' ]
}
ringdump_fails() {
    fails "$out" "$out/ringdump.out" && [ ! -s "$out/ringdump.out" ] || { echo "a read that fails is not told"; return 1; }
    [ ! -c /dev/full ] || fails rings/switches.img /dev/full || { echo "a full device is not told"; return 1; }
    { sleep 0.5; fails rings/switches.img /dev/stdout; echo $? >"$out/ringdump.closed"; } | true
    [ "$(cat "$out/ringdump.closed")" = 0 ] || { echo "a pipe that is closed is not told"; return 1; }
}
[ $mode = standin ] || part "ringdump where a read or a write fails" ringdump_fails
part "damaged real rings: 5000 cases, seed $seed" "$out/reader" damaged --rings rings --seed "$seed" --count 5000
# under an emulator it is some forty times slower
[ -z "${OLLSKUVAN_EMULATED:-}" ] && fuzzed=100000 || fuzzed=10000
[ $mode = standin ] || part "fuzzing, if clang is there" tests/fuzz/run.sh $fuzzed "$seed"

echo "outside tests: $parts parts done in $(($(date +%s) - begun)) s, none failed"
