#!/bin/sh
# Looks for what a command needs before it begins.
#
#   tools/needs.sh run     the toolchain
#   tools/needs.sh test    the toolchain and Debian's packages for the tests
#   tools/needs.sh line    prints the line that installs these packages
#   tools/needs.sh boards  prints the line that installs what the tests of other boards take; with CI=true `test` does it
#
# A package that is missing is installed where this may be done (root, apt-get); elsewhere the line is printed and the
# status is 1. On a machine that is not x86-64 tools/x86.sh adds cross compilers and an emulator for the tests. valgrind
# is wanted and not needed: without it its part of the tests is skipped with a word. A toolchain other than that of
# toolchain.txt is a warning.
set -u
cd "$(dirname "$0")/.." || exit 2
line='apt-get install -y gcc libc6-dev make python3 rustc pkg-config valgrind'
# what the tests of other boards take: without it they are skipped with a word
boards='gcc-aarch64-linux-gnu libc6-dev-arm64-cross gcc-riscv64-linux-gnu libc6-dev-riscv64-cross gcc-arm-linux-gnueabihf libc6-dev-armhf-cross'
boards_line="apt-get install -y --no-install-recommends $boards qemu-user"
cc=${CC:-cc}
rustc=${RUSTC:-rustc}

say() { echo "needs: $*" >&2; }
have() { command -v "$1" >/dev/null 2>&1; }

toolchain() {
  if ! have rt; then
    say "rt is missing: put the Rattle toolchain's rt on the PATH. It proves and builds everything here"
    exit 1
  fi
  [ "$(rt version)" = "$(cat toolchain.txt)" ] ||
    say "warning: the toolchain is '$(rt version)', the proofs were made with '$(cat toolchain.txt)' (toolchain.txt)"
}

# The tools and headers that are missing, by Debian's package.
missing() {
  have "$cc" || echo gcc
  have make || echo make
  have python3 || echo python3
  have "$rustc" || echo rustc
  have pkg-config || echo pkg-config
  if have "$cc"; then
    echo '#include <linux/perf_event.h>' | "$cc" -E - >/dev/null 2>&1 || echo libc6-dev
  fi
}

wanted() { have valgrind || echo valgrind; }

install() {
  [ "$(id -u)" -eq 0 ] && have apt-get || return 1
  say "missing:" "$@" "- installing: $line"
  export DEBIAN_FRONTEND=noninteractive
  # shellcheck disable=SC2086
  $line >&2 || { apt-get update >&2 && $line >&2; }
}

packages() {
  # shellcheck disable=SC2046
  set -- $(missing) $(wanted)
  [ $# -eq 0 ] && return 0
  install "$@" || true
  # shellcheck disable=SC2046
  set -- $(missing)
  if [ $# -gt 0 ]; then
    say "missing:" "$@"
    say "on Debian, as root: $line"
    exit 1
  fi
  [ -z "$(wanted)" ] || say "valgrind is missing: its part of the tests will be skipped"
}

# Cross compilers and emulators, where a machine is there for tests alone.
boards() {
  [ "${CI:-}" = true ] && [ "$(id -u)" -eq 0 ] && have apt-get && sh tools/x86.sh native || return 0
  for tool in aarch64-linux-gnu-gcc riscv64-linux-gnu-gcc arm-linux-gnueabihf-gcc qemu-aarch64 qemu-riscv64 qemu-arm; do
    have $tool && continue
    export DEBIAN_FRONTEND=noninteractive
    # shellcheck disable=SC2086
    $boards_line >&2 || { apt-get update >&2 && $boards_line >&2; } || say "other boards: not everything could be installed"
    return 0
  done
}

case ${1:-} in
  run) toolchain ;;
  test)
    toolchain && packages && boards
    # where it is not ready the gate says what it left out
    sh tools/x86.sh native || sh tools/x86.sh ready || true
    ;;
  line) echo "$line" ;;
  boards) echo "$boards_line" ;;
  *) say "use: tools/needs.sh run|test|line|boards"; exit 2 ;;
esac
