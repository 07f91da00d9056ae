#!/usr/bin/env bash
# The library for C. It is proved and compiled once; what it is compiled from, the compiler's own intermediate code, is kept and handed to the
# same compiler for other processors.
#
#   tools/library.sh                  proves the crates that have exports and puts all of them in one archive for x86-64,
#                                     target/staticlib/libollskuvan.a; keeps their modules in target/modules. On another machine than x86-64 its
#                                     own library is made too, as with its TARGET
#   tools/library.sh ringdump         proves the program ringdump: target/bin/ringdump, and its object and module beside the library's
#   tools/library.sh TARGET..         target/boards/TARGET: libollskuvan.a, libollskuvan_words.a, the programs ollskuvan and ringdump; nothing is
#                                     proved where the modules are there. `all` stands for every target
#   tools/library.sh targets          prints the targets, a line each
#   tools/library.sh packages TARGET..  prints what Debian's apt-get has to install for them
#   tools/library.sh fresh            status 0: the modules are those of the sources as they are
#
# What C calls is a static library, which no other crate can stand on: for each library that has such functions there is a crate with `_c` at its end,
# whose exports call them. Each is compiled as a whole: ollskuvan_find_event stands in event_list, the loops with one attribute set in ollskuvan_loop
# and those with a table of events in ollskuvan_table, where the exact judge has one caller and is compiled into the loop; the others by topic in
# ollskuvan_events, ollskuvan_store, ollskuvan_saved and ollskuvan.
#
# The crates below are proved first, unless all of them stand as `rt` or, in a fresh tree, `rt ci` left them (tools/compile.py). What is compiled here
# runs on every x86-64, where `rt lib` and `rt run` take a later one.
#
# MODULES names another folder of modules. UNALIGNED=1 for riscv64: loads of several bytes at any address, which the plain processor does not promise (docs/BOARDS.md).
set -eu
cd "$(dirname "$0")/.."
exports='event_list_c ollskuvan_loop_c ollskuvan_table_c ollskuvan_events_c ollskuvan_store_c ollskuvan_saved_c ollskuvan_c'
targets=tools/boards/targets.txt
modules=${MODULES:-target/modules}
archives=target/staticlib

die() { echo "library: $*" >&2; exit 1; }
work=
# a folder to work in
begin() { work=$(mktemp -d) && mkdir "$work/modules" "$work/objects" "$work/made"; }
clean() { [ -z "$work" ] || rm -rf "$work"; work=; }
trap clean EXIT

# ---- the targets

column() { awk -v target="$1" -v column="$2" '$1 == target { print $column }' $targets; }
words_for() { awk -v target="$1" '$1 == target { for (i = 4; i <= NF; i++) print $i }' $targets; }
all_targets() { awk '!/^#/ { print $1 }' $targets; }
own_target() { all_targets | grep "^$(uname -m)-" || true; }
is_target() { all_targets | grep -qxF -e "$1"; }
is_own() { [ "$1" = "$(own_target)" ]; }
packages_for() { # a machine's own compiler is gcc; another's has the target in its name
  if is_own "$1"; then echo gcc libc6-dev; else echo "gcc-${1/x86_64/x86-64} libc6-dev-$(column "$1" 2)-cross"; fi
}
tool_of() { # TARGET TOOL
  if ! command -v "$1-$2" && is_own "$1"; then command -v "$2"; fi
}
needed_tools() { # TARGET: those that are missing, with the line that installs them, and status 1
  local tool missing=
  for tool in gcc ar nm objcopy ld; do [ -n "$(tool_of "$1" $tool)" ] || missing="$missing $1-$tool"; done
  [ -z "$missing" ] || { echo "library: missing:$missing; on Debian, as root: apt-get install -y $(packages_for "$1")" >&2; return 1; }
}

# ---- the toolchain

command -v rt >/dev/null || die "rt is missing: put the Rattle toolchain's rt on the PATH"
kit=$(dirname "$(dirname "$(readlink -f "$(command -v rt)")")")
clang=$kit/toolchain/bin/clang

# The toolchain with a compiler in between that keeps the module which it is given.
keeping_toolchain() {
  local part
  mkdir -p "$work/toolchain/bin"
  for part in "$kit/toolchain"/*; do [ "$part" = "$kit/toolchain/bin" ] || ln -s "$part" "$work/toolchain/"; done
  for part in "$kit/toolchain/bin"/*; do [ "$part" = "$clang" ] || ln -s "$part" "$work/toolchain/bin/"; done
  cat >"$work/toolchain/bin/clang" <<KEEPS
#!/bin/sh
for word in "\$@"; do case "\$word" in *.bc) cp "\$word" "$work/module.bc" ;; esac; done
exec "$clang" "\$@"
KEEPS
  chmod +x "$work/toolchain/bin/clang"
}

# ---- the proved archive, and the modules

# What the modules of some crates are made of: the toolchain, and every file of the crates that they reach.
sources_sum() { # CRATE..
  local reached
  reached=$(awk -v wanted="$*" '{ sub(/#.*/, "") } /:/ { i = index($0, ":"); split($0, name, /[ :]/); on[name[1]] = substr($0, i + 1) }
    function visit(crate,    a, n, k) { if (crate in seen || !(crate in on)) return; seen[crate]; print crate; n = split(on[crate], a, " "); for (k = 1; k <= n; k++) visit(a[k]) }
    END { n = split(wanted, a, " "); for (k = 1; k <= n; k++) visit(a[k]) }' crates.txt | sort)
  {
    cat "$kit/KIT-ID" crates.txt
    for crate in $reached; do find "crates/$crate" \( -name must-fail -o -name out \) -prune -o -type f -print; done | LC_ALL=C sort | xargs sha256sum
  } | sha256sum | cut -d' ' -f1
}
# shellcheck disable=SC2086
exports_sum() { sources_sum $exports; }
is_fresh() { [ -f "$modules/sum" ] && [ "$(cat "$modules/sum")" = "$(exports_sum)" ]; }
is_fresh_ringdump() { [ -f "$modules/ringdump.bc" ] && [ -f "$modules/ringdump-sum" ] && [ "$(cat "$modules/ringdump-sum")" = "$(sources_sum ringdump)" ]; }

keep() { # CRATE INTO: proves it, compiles it into INTO by the toolchain that keeps the module
  rm -f "$work/module.bc"
  python3 tools/compile.py stands "$1" >"$work/said" 2>&1 || sh tools/prove.sh "$1" || exit 1
  python3 tools/compile.py "$1" "$work/toolchain" "$2" >"$work/said" 2>&1 || { tail -n 20 "$work/said" >&2; exit 1; }
  [ -f "$work/module.bc" ] || die "$1 was proved, and no module was compiled"
  mv "$work/module.bc" "$work/modules/$1.bc"
}

prove() {
  local crate sum
  begin
  sum=$(exports_sum)
  keeping_toolchain
  mkdir "$work/archives"
  for crate in $exports; do keep "$crate" "$work/archives/lib$crate.a"; done
  join_archives
  echo "$sum" >"$work/modules/sum"
  mkdir -p "$modules"
  mv "$work/modules"/* "$modules/"
  clean
}

# The program, its object and its module.
prove_ringdump() {
  local sum
  begin
  sum=$(sources_sum ringdump)
  keeping_toolchain
  keep ringdump "$work/ringdump.o"
  "$kit/bin/rattle-link" --target x86_64-unknown-linux-gnu --toolchain "$kit/toolchain" -o "$work/ringdump" "$work/ringdump.o" \
    "$kit/c/libos_c.a" "$kit/c/liblibc_c.a" >"$work/said" 2>&1 || { cat "$work/said" >&2; exit 1; }
  mkdir -p "$modules" target/bin target/obj
  mv "$work/ringdump.o" target/obj/ringdump.o
  mv "$work/ringdump" target/bin/ringdump
  mv "$work/modules/ringdump.bc" "$modules/ringdump.bc"
  echo "$sum" >"$modules/ringdump-sum"
  clean
}

# nothing in one archive may have the name of something in another: it would take its place
join_archives() {
  local crate twice
  twice=$(for crate in $exports; do ar t "$work/archives/lib$crate.a"; done | sort | uniq -d)
  [ -z "$twice" ] || die "two archives have" $twice
  (mkdir "$work/joined" && cd "$work/joined" && for crate in $exports; do ar x "../archives/lib$crate.a"; done &&
    ar rcD ../libollskuvan.a $(for crate in ollskuvan_c $exports; do ar t "../archives/lib$crate.a"; done | awk '!seen[$0]++')) >"$work/said" 2>&1 ||
    { cat "$work/said" >&2; exit 1; }
  nm=nm check_names x86_64-linux-gnu "$work/libollskuvan.a"
  mkdir -p $archives
  mv "$work/libollskuvan.a" $archives/libollskuvan.a
}

# ---- a target

# The words that the toolchain gives its compiler for x86-64; the target's are added.
compile() { # TARGET MODULE OBJECT
  local words
  mapfile -t words < <(words_for "$1")
  case $1 in riscv64*) [ -z "${UNALIGNED:-}" ] || words+=(-mno-strict-align) ;; esac
  "$clang" "${words[@]}" -mllvm -no-trap-after-noreturn -ffunction-sections -fdata-sections -mllvm -trap-unreachable -mllvm -no-x86-call-frame-opt \
    -mllvm -disable-machine-licm -mllvm -disable-postra-machine-licm -mllvm -sink-common-insts=false --no-default-config \
    -no-canonical-prefixes -fintegrated-cc1 -fno-crash-diagnostics -Werror -Wno-override-module -c -x ir "$2" -o "$3" -fPIC -O3
}

object() { # TARGET CRATE OBJECT
  local how=
  case $1 in
    x86_64*) compile "$1" "$modules/$2.bc" "$3"; return ;; # as it is: the same object
    riscv64*) how='-v sign=1' ;;
    arm-*) how='-v wide=1' ;;
  esac
  "$clang" -x ir "$modules/$2.bc" -S -emit-llvm -O0 -Xclang -disable-llvm-passes -Wno-override-module -o "$work/module.ll"
  # shellcheck disable=SC2086
  awk $how -f tools/boards/retarget.awk "$work/module.ll" >"$work/target.ll" || die "$2 is not compiled for $1: its module is of a form that is not known"
  compile "$1" "$work/target.ll" "$3"
}

# The objects of the library in $work/objects. Where pointers have 32 bits narrow/ stands before them, one object with names of its own.
objects() { # TARGET
  local crate
  for crate in $exports; do object "$1" "$crate" "$work/objects/$crate.o"; done
  case $1 in arm-*) ;; *) return ;; esac
  "$gcc" -std=c99 -pedantic -Wall -Wextra -Werror -O2 -fPIC -ffunction-sections -fdata-sections -Iinclude -c -o "$work/objects/narrow.o" narrow/narrow.c
  "$ld" -r -o "$work/one.o" "$work/objects"/*.o
  rm "$work/objects"/*.o
  "$objcopy" -w --localize-symbol='ollskuvan_wide_*' "$work/one.o" "$work/objects/ollskuvan_c.o"
}

# Global are the exports of the header alone. Nothing is needed but what every C compiler brings: for 32-bit ARM its division of 64 bits too.
check_names() { # TARGET ARCHIVE
  local due there needed
  due=$(for crate in $exports; do sed -n 's/^pub extern "C" fn \([a-z_]*\).*/\1/p' "crates/$crate/src/lib.rt"; done | sort)
  there=$("$nm" -g --defined-only "$2" | awk 'NF == 3 { print $3 }' | sort)
  [ "$due" = "$there" ] || die "$2 has other names than the exports: $(diff <(echo "$due") <(echo "$there") | grep '^[<>]' | tr '\n' ' ')"
  needed=$("$nm" -u "$2" | awk 'NF == 2 { print $2 }' | sort -u | grep -vxE 'memcpy|memset|memmove' || true)
  case $1 in arm-*) needed=$(echo "$needed" | grep -vx '__aeabi_uldivmod' || true) ;; esac
  [ -z "$needed" ] || die "$2 needs" $needed
}

library_for() { # TARGET INTO
  objects "$1"
  # in the order of the crates, as the archive for x86-64 has them
  (cd "$work/objects" && "$ar" rcD "$2/libollskuvan.a" $(for crate in ollskuvan_c $exports; do [ ! -f "$crate.o" ] || echo "$crate.o"; done | awk '!seen[$0]++'))
  check_names "$1" "$2/libollskuvan.a"
  "$gcc" -std=c99 -pedantic -Wall -Wextra -Werror -O2 -g -Iinclude -fPIC -c -o "$work/ollskuvan_words.o" words/ollskuvan_words.c
  "$ar" rcD "$2/libollskuvan_words.a" "$work/ollskuvan_words.o"
}

programs_for() { # TARGET INTO
  local sources
  object "$1" ringdump "$2/ringdump.o"
  "$gcc" -std=gnu99 -Wall -Wextra -Werror -O2 -o "$2/ringdump" "$2/ringdump.o" narrow/ringdump.c
  # the program's files, as its own rules name them; two at a time, and the first that fails ends it
  mapfile -t sources < <(make -s --no-print-directory -C examples command-sources | tr ' ' '\n')
  [ ${#sources[@]} -gt 0 ] || die "examples/Makefile names no files of the program's commands"
  printf '%s\0' tool/*.c "${sources[@]/#/examples/}" | xargs -0 -n 1 -P 2 sh -c 'gcc=$0 into=$1 source=$2; shift 2
    "$gcc" -std=c11 -Wall -Wextra -Werror -O2 -g -Iinclude -Iwords -Iexamples -c -o "$into/tool-$(echo "$source" | tr / -).o" "$source" || exit 255' "$gcc" "$work" ||
    die "the program does not compile for $1"
  "$gcc" -o "$2/ollskuvan" "$work"/tool-*.o "$2/libollskuvan_words.a" "$2/libollskuvan.a" -lm
}

# All of a target or nothing: it is made beside its place.
board() { # TARGET
  local into
  begin
  into=$work/made
  for tool in gcc ar nm objcopy ld; do printf -v "$tool" %s "$(tool_of "$1" $tool)"; done
  library_for "$1" "$into"
  programs_for "$1" "$into"
  chmod 755 "$into"
  mkdir -p "target/boards"
  rm -rf "target/boards/$1"
  mv "$into" "target/boards/$1"
  clean
  echo "target/boards/$1/libollskuvan.a"
}

boards() { # TARGET..
  local target bad=0
  for target in "$@"; do
    is_target "$target" || die "no such target: $target (there are: $(all_targets | tr '\n' ' '))"
  done
  for target in "$@"; do needed_tools "$target" || bad=1; done
  [ $bad -eq 0 ] || exit 1
  [ -f "$modules/sum" ] || prove
  is_fresh || die "the modules are not those of the sources as they are: 'make lib' proves them anew"
  is_fresh_ringdump || prove_ringdump
  for target in "$@"; do board "$target"; done
}

case ${1:-} in
  '')
    prove
    if [ "$(uname -m)" != x86_64 ] && [ -n "$(own_target)" ]; then
      needed_tools "$(own_target)" && boards "$(own_target)" || echo "library: this machine's own library is not made" >&2
    fi
    ;;
  ringdump) is_fresh_ringdump && [ -x target/bin/ringdump ] && [ -f target/obj/ringdump.o ] || prove_ringdump ;;
  targets) all_targets ;;
  packages) shift; for target in "$@"; do is_target "$target" || die "no such target: $target"; packages_for "$target"; done | xargs ;;
  fresh) is_fresh ;;
  all) [ $# -eq 1 ] || die "nothing follows 'all'"; mapfile -t every < <(all_targets); boards "${every[@]}" ;;
  *) boards "$@" ;;
esac
