#!/bin/sh
# Compiled code is for x86-64, whatever machine proves it. On another machine it is built by cross compilers and run
# under an emulator; this script makes that ready.
#
#   tools/x86.sh native   status 0 on x86-64: nothing of this is needed
#   tools/x86.sh ready    status 0: programs for x86-64 can be built and run here. What is missing is installed where
#                         this may be done (root, apt-get); else it says what is missing
#   tools/x86.sh line     prints the line that installs it
#
# The compilers' names for x86-64 stand in tools/x86/ (cc, gcc, g++, rustc): who needs them puts that folder first on the
# PATH and sets OLLSKUVAN_EMULATED=1, which leaves out what an emulator cannot do (valgrind, the address sanitizer, live rings).
set -u
cd "$(dirname "$0")/.." || exit 2
packages='gcc-x86-64-linux-gnu g++-x86-64-linux-gnu libc6-dev-amd64-cross rustc libstd-rust-dev:amd64 qemu-user-static binfmt-support'
line="dpkg --add-architecture amd64 && apt-get update && apt-get install -y --no-install-recommends $packages"
formats=/proc/sys/fs/binfmt_misc

say() { echo "x86: $*" >&2; }

# A C program and a Rust program for x86-64, built and run.
runs() {
  into=$(mktemp -d) || return 1
  trap 'rm -rf "$into"' EXIT
  echo 'int main(void) { return sizeof(void *) == 8 ? 0 : 1; }' >"$into/c.c"
  echo 'fn main() { std::process::exit(if cfg!(target_arch = "x86_64") { 0 } else { 1 }) }' >"$into/r.rs"
  sh tools/x86/cc -o "$into/c" "$into/c.c" >/dev/null 2>&1 && "$into/c" 2>/dev/null &&
    sh tools/x86/rustc -o "$into/r" "$into/r.rs" >/dev/null 2>&1 && "$into/r" 2>/dev/null
}

# The kernel hands programs for x86-64 to the emulator.
register() {
  [ -e "$formats/register" ] || mount -t binfmt_misc binfmt_misc "$formats" 2>/dev/null
  [ -e "$formats/qemu-x86_64" ] || update-binfmts --enable qemu-x86_64 2>/dev/null
}

install() {
  [ "$(id -u)" -eq 0 ] && command -v apt-get >/dev/null || return 1
  say "this machine is $(uname -m): installing: $line"
  export DEBIAN_FRONTEND=noninteractive
  sh -c "$line" >&2
}

ready() {
  register
  runs && return 0
  install && register
  runs && return 0
  say "this machine is $(uname -m), and programs for x86-64 cannot be built and run on it"
  say "on Debian, as root: $line"
  return 1
}

case ${1:-} in
  native) [ "$(uname -m)" = x86_64 ] ;;
  ready) [ "$(uname -m)" = x86_64 ] || ready ;;
  line) echo "$line" ;;
  *) say "use: tools/x86.sh native|ready|line"; exit 2 ;;
esac
