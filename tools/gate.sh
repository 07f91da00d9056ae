#!/usr/bin/env bash
# The gate. `rt ci` proves every listed crate, tries each must-fail edit and runs the programs (what an earlier run on this machine passed over the
# same files stands as kept); then the library and ringdump are compiled from what it proved, and the tests from outside run on them. The last line is
# 'N passed, M failed': rt ci's own where everything else passed too, else one that counts the failure.
set -u
cd "$(dirname "$0")/.." || exit 2
log=$(mktemp) || exit 2
trap 'rm -f "$log"' EXIT
began=$(date +%s)

# In memory, where there is room for them and programs may be run from there, the parts' temporary files take less time
folder=
if [ -z "${TMPDIR:-}" ] && [ "$(df -Pk /dev/shm 2>/dev/null | awk 'NR == 2 { print ($4 > 8000000) }')" = 1 ]; then
  folder=$(mktemp -d /dev/shm/gate.XXXXXX) && chmod 711 "$folder" && trap 'rm -rf "$log" "$folder"' EXIT
  cp /bin/true "$folder/true" && "$folder/true" 2>/dev/null || { rm -rf "$folder"; folder=; }
fi
there=${TMPDIR:-${folder:-/tmp}}
rt ci >"$log" 2>&1
status=$?
last=$(tail -n 1 "$log")
grep -E '^rt: ' "$log"
# an edit that cannot be applied or read fails nothing there; here it does
if [ "$status" -eq 0 ] && grep -qE '^rt: ok.*, [0-9]+ bad' "$log"; then
  grep -E 'BAD EDIT' "$log"
  echo 'a must-fail edit is bad'
  echo '0 passed, 1 failed'
  exit 1
fi
if [ "$status" -ne 0 ]; then
  tail -n 60 "$log"
  case "$last" in
    *' passed, 0 failed'* | '') echo '0 passed, 1 failed' ;;
    *' passed, '*' failed'*) ;;                       # its own last line counts what failed
    *) echo '0 passed, 1 failed' ;;
  esac
  exit 1
fi
echo "proved in $(($(date +%s) - began)) s"

# a part from outside: its name, then the command
part() {
  local name=$1 start
  shift
  start=$(date +%s)
  echo "== $name"
  if ! "$@"; then
    echo "$name failed"
    echo "${last%% passed*} passed, 1 failed"
    exit 1
  fi
  echo "   $name: $(($(date +%s) - start)) s"
}
# a part that runs beside the next one, where neither writes what the other reads; its words are shown when both are done
said=$(mktemp) || exit 2
SKIPPED_TO=$(mktemp) || exit 2 # what is left out of the boards is said once more in the last lines
export SKIPPED_TO
trap 'rm -rf "$log" "$said" "$SKIPPED_TO" "$folder"' EXIT
beside() {
  part "$@" >"$said" 2>&1 &
  other=$!
}
both_done() {
  wait "$other"
  status=$?
  cat "$said"
  [ "$status" -eq 0 ] || exit 1
}
part 'each wrong reader where it is wrong' python3 tools/refused.py
part 'the program ringdump' env TMPDIR="$there" bash tools/library.sh ringdump
beside 'the tree itself' env TMPDIR="$there" bash tools/selfcheck.sh
part 'the library for C' env TMPDIR="$there" bash tools/library.sh
both_done
# compiled code is for x86-64: elsewhere it is built and run by an emulator, with fewer random cases, or not at all
if ! sh tools/x86.sh native; then
  if ! sh tools/x86.sh ready; then
    echo "this machine is $(uname -m): everything is proved, and nothing that is compiled was run"
    echo "$last"
    exit 0
  fi
  echo "this machine is $(uname -m): what is compiled runs under an emulator; valgrind, the address sanitizer and live rings are left out"
  export OLLSKUVAN_EMULATED=1 PATH="$PWD/tools/x86:$PATH" RUSTC=rustc CC=cc DRAINS=${DRAINS:-20000} VALUES=${VALUES:-20000}
fi
beside 'careful C beside ours' bash bench/run.sh --short
part 'tests from outside' bash tests/run.sh
both_done
part 'the program for people' make -s tool-test
part 'examples' make -s examples-test
part 'the page for controllers' make -s snippets-test
part 'other boards' bash tests/boards/run.sh
part 'live rings' make -s live-test
part 'the package' make -s install-test
echo "all in $(($(date +%s) - began)) s"
cat "$SKIPPED_TO"
case "$last" in
  *' passed, 0 failed') echo "$last" ;;
  *) echo '0 passed, 1 failed'; exit 1 ;;
esac
