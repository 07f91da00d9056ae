#!/bin/sh
# What Debian's linux-perf-event-reader (librust-linux-perf-event-reader-dev) makes of the kept cases, built
# without and with overflow checks. For people to read: the lines "elsewhere" of the cases were taken from it.
set -eu
cd "$(dirname "$0")/../.."
out=target/tests/elsewhere
debian=/usr/share/cargo/registry
skip() { echo "== skipped: $*"; exit 0; }
rustc=${RUSTC:-rustc}
command -v "$rustc" >/dev/null || skip "$rustc is missing"
mkdir -p "$out"

"$rustc" --edition 2021 -O --cfg standin -o "$out/reader" tests/reader/main.rs
"$out/reader" plain tests/cases >"$out/cases"

library() { # library CRATE WORDS...
    name=$1
    shift
    crate=$(ls -d "$debian/$name"-[0-9]* 2>/dev/null | tail -n 1)
    [ -n "$crate" ] || skip "no $name in $debian (Debian: apt-get install librust-linux-perf-event-reader-dev)"
    id=$(echo "$name" | tr - _)
    "$rustc" -O -C overflow-checks="$checks" --crate-type rlib --crate-name "$id" --cap-lints allow -L "$out/$checks" "$@" \
        -o "$out/$checks/lib$id.rlib" "$crate/src/lib.rs"
}

for checks in off on; do
    mkdir -p "$out/$checks"
    library bitflags --edition 2018
    library byteorder --edition 2018 --cfg 'feature="std"'
    library memchr --edition 2018 --cfg 'feature="std"'
    lib=$out/$checks
    library linux-perf-event-reader --edition 2021 --extern bitflags="$lib/libbitflags.rlib" \
        --extern byteorder="$lib/libbyteorder.rlib" --extern memchr="$lib/libmemchr.rlib"
    "$rustc" --edition 2021 -O -C overflow-checks=$checks -L "$lib" \
        --extern linux_perf_event_reader="$lib/liblinux_perf_event_reader.rlib" \
        --extern byteorder="$lib/libbyteorder.rlib" -o "$out/$checks/elsewhere" tests/cases/elsewhere.rs
    echo "== linux-perf-event-reader, overflow checks $checks"
    "$out/$checks/elsewhere" <"$out/cases"
done
