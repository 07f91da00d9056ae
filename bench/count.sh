#!/bin/sh
# Counts the instructions of one function where programs for x86-64 run under an emulator (tools/x86.sh), in callgrind's
# place: its last line is 'Collected : N'.
#
#   bench/count.sh FUNCTION PROGRAM [WORD]..
#
# As bench/run.sh builds them: bench/count.sh ollskuvan_drain target/bench/bench once ours side-band, and divide by the
# records that it prints. Needs this machine's own C compiler (NATIVE_CC, or /usr/bin/cc) and qemu-x86_64 with plugins;
# EMULATOR names that of another target, as qemu-aarch64 (bench/boards.sh). EACH=FILE: the count of each call too.
set -u
[ $# -ge 2 ] || { sed -n '2,9p' "$0" | sed 's/^# \{0,1\}//' >&2; exit 2; }
here=$(dirname "$0")
out=$here/../target/bench
name=$1
shift
mkdir -p "$out" || exit 2
if [ ! -f "$out/libcount.so" ] || [ "$here/count.c" -nt "$out/libcount.so" ]; then
  "${NATIVE_CC:-/usr/bin/cc}" -std=gnu11 -Wall -Wextra -Werror -O2 -shared -fPIC -o "$out/libcount.so" "$here/count.c" || exit 2
fi
for emulator in ${EMULATOR:-qemu-x86_64 qemu-x86_64-static}; do
  command -v "$emulator" >/dev/null && "$emulator" -h | grep -q '^-plugin' || continue
  exec "$emulator" -plugin "$out/libcount.so,name=$name${EACH:+,each=$EACH}" "$@"
done
echo "bench/count.sh: no ${EMULATOR:-qemu-x86_64} that takes plugins (Debian: apt-get install qemu-user)" >&2
exit 2
