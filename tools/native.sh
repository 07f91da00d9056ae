#!/usr/bin/env bash
# The library compiled for this machine, where it is not x86-64: target/native/libollskuvan.a and ringdump.o. It is the code that the proved archive
# is compiled from, the compiler's own intermediate code, handed to the same compiler for another processor (tools/library.sh). It is not the archive
# that is installed: it serves tests that an emulator makes too slow, as `NATIVE=1 tests/fuzz/run.sh`.
#
#   tools/native.sh
set -eu
cd "$(dirname "$0")/.."
die() { echo "native: $*" >&2; exit 1; }
machine=$(uname -m)
[ "$machine" != x86_64 ] || die "this machine is x86-64: make lib builds its library"
tools/library.sh targets | grep -qxF -e "$machine-linux-gnu" || die "the toolchain has no compiler for $machine"
tools/library.sh "$machine-linux-gnu" >/dev/null
mkdir -p target/native
cp "target/boards/$machine-linux-gnu/libollskuvan.a" "target/boards/$machine-linux-gnu/ringdump.o" target/native/
echo target/native/libollskuvan.a
