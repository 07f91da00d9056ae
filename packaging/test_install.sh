#!/usr/bin/env bash
# Installs into a temporary folder and uses the library as a stranger does: the examples are copied out of the tree and built with
# what pkg-config says alone, the report of a shipped ring comes out as expected, the program runs and every page is found by its
# name. Then everything is removed again.
#   packaging/test_install.sh        ARCHIVE, WORDS_ARCHIVE and PROGRAM name other files than those of make lib tool
set -u
here=$(cd "$(dirname "$0")" && pwd)
root=$(cd "$here/.." && pwd)
failures=0
wrong() { echo "WRONG: $*"; failures=$((failures + 1)); }
die() { echo "test_install: $*" >&2; exit 1; }
command -v pkg-config >/dev/null || die "pkg-config is missing (Debian: pkg-config)"
tmp=$(mktemp -d) || exit 2
trap 'rm -rf "$tmp"' EXIT

# ---- the manual page says what the header says
numbers() { grep -oE '^#define OLLSKUVAN_(STOP|REFUSED|DIRTY)_[A-Z_]+ [0-9]+u' "$root/include/ollskuvan.h" | grep -E "_($1)_" | sed 's/.* \([0-9]*\)u/\1/' | sort -un; }
page() { awk -v want="$1" '/^\.SS / { on = index($0, want) } on && /^[0-9]+\t/ { print $1 }' "$here/ollskuvan.3" | sort -un; }
[ "$(numbers STOP)" = "$(page 'Why a drain or a walk stopped')" ] || wrong "the page's stops are not the header's"
[ "$(numbers 'REFUSED|DIRTY')" = "$(page 'Why a record')" ] || wrong "the page's refusals, and 44, are not the header's"
for call in $(grep -oE 'ollskuvan_[a-z_]+\(' "$root/include/ollskuvan.h" | tr -d '(' | sort -u); do
  grep -q "$call" "$here/ollskuvan.3" || wrong "the page does not name $call"
done
version=$(cat "$here/VERSION")
check_page() {
  grep -q "\"ollskuvan $version\"" "$here/$1" || wrong "$1 is of another version than $version"
  if command -v mandoc >/dev/null; then
    # a page without a date is meant: it is of a version
    mandoc -Tlint -W warning "$here/$1" | grep -v 'missing date' >"$tmp/lint"
    [ ! -s "$tmp/lint" ] || { wrong "mandoc warns of $1"; cat "$tmp/lint"; }
  fi
  if command -v man >/dev/null; then
    man -l --warnings=w "$here/$1" 2>"$tmp/lint" >/dev/null
    [ ! -s "$tmp/lint" ] || { wrong "man warns of $1"; cat "$tmp/lint"; }
  fi
}
check_page ollskuvan.3
check_page ollskuvan.1
# the program's page names each of its commands, which its help lists by two blanks
program=${PROGRAM:-$root/target/tool/ollskuvan}
for command in $("$program" --help | sed -nE 's/^  ([a-z]+) .*/\1/p'); do
  grep -q "^\.SS $command\$" "$here/ollskuvan.1" || wrong "the program's page does not name $command"
  for option in $("$program" "$command" --help | grep -oE -- '--[a-z]+' | sort -u); do
    grep -q -- "$(echo "$option" | sed 's/-/\\\\-/g')\b" "$here/ollskuvan.1" || wrong "the program's page does not name $command $option"
  done
done

# ---- install: exactly these files
calls=$(grep -oE '\bollskuvan_[a-z_]+\(' "$root/include/ollskuvan.h" | tr -d '(' | sort -u)
prefix=$tmp/usr
PREFIX=$prefix "$here/install.sh" >"$tmp/installed" || die "install.sh failed"
find "$prefix" -type f | sort >"$tmp/there"
sort "$tmp/installed" | cmp -s - "$tmp/there" || wrong "install.sh does not name exactly what it installs"
cat >"$tmp/due" <<LIST
$prefix/bin/ollskuvan
$prefix/include/ollskuvan.h
$prefix/lib/libollskuvan.a
$prefix/lib/libollskuvan_words.a
$prefix/lib/pkgconfig/ollskuvan.pc
$prefix/share/man/man1/ollskuvan.1
$prefix/share/man/man3/ollskuvan.3
$(for call in $calls; do echo "$prefix/share/man/man3/$call.3"; done)
LIST
diff "$tmp/due" "$tmp/there" || wrong "install.sh installs other files than it should"
cmp -s "$root/include/ollskuvan.h" "$prefix/include/ollskuvan.h" || wrong "the header is another one"

# ---- the program, and the pages by name
[ "$("$prefix/bin/ollskuvan" --version)" = "ollskuvan $version" ] || wrong "the installed program is of another version"
"$prefix/bin/ollskuvan" dump "$root/rings/switches.img" | grep -q '^stop 0 tail' || wrong "the installed program reads no ring"
if command -v man >/dev/null; then
  for call in $calls; do
    man -M "$prefix/share/man" "$call" 2>/dev/null | grep -q "$call" || wrong "man $call finds nothing"
  done
  man -M "$prefix/share/man" ollskuvan 2>/dev/null | grep -q 'EXIT STATUS' || wrong "man ollskuvan is not the program's page"
else
  echo "the pages by name not tried: man is missing"
fi

# ---- pkg-config alone; nothing of the tree
export PKG_CONFIG_PATH=$prefix/lib/pkgconfig
[ "$(pkg-config --modversion ollskuvan)" = "$version" ] || wrong "pkg-config tells another version"
mkdir "$tmp/mine" && cp "$root"/examples/*.c "$root"/examples/*.h "$root"/examples/Makefile "$tmp/mine/" || exit 2
env -u MAKEFLAGS -u MAKEOVERRIDES -u OLLSKUVAN_CFLAGS -u OLLSKUVAN_LIBS make -s -C "$tmp/mine" >"$tmp/make.log" 2>&1 ||
  { tail -n 20 "$tmp/make.log"; die "the examples do not build with pkg-config alone"; }
"$tmp/mine/late" "$root/examples/rings/kiln-cpu0.img" "$root/examples/rings/kiln-cpu1.img" >"$tmp/report" || wrong "late failed"
cmp -s "$tmp/report" "$root/examples/expected/kiln.txt" || wrong "the installed library gives another report"

# ---- the header from other languages' compilers
cat >"$tmp/one.c" <<'ONE'
#include <ollskuvan.h>
/* a COMM without a name; behind the name's zero a byte that is not zero */
static const uint8_t dirty[24] = { OLLSKUVAN_TYPE_COMM, 0, 0, 0, 0, 0, 24, 0, 0, 0, 0, 0, 0, 0, 0, 0, 0, 1 };
int main(void)
{
    uint64_t fields[OLLSKUVAN_FIELDS];
    return ollskuvan_check(0, 0, 0, 0, 0, 0, 0, 0, OLLSKUVAN_EDITION_4) == OLLSKUVAN_REFUSED_LENGTH &&
        ollskuvan_check(dirty, sizeof dirty, 0, 0, 0, 0, 0, 0, OLLSKUVAN_EDITION_4) == OLLSKUVAN_DIRTY_NAME &&
        ollskuvan_read(dirty, sizeof dirty, 0, 0, 0, 0, 0, 0, OLLSKUVAN_EDITION_4, fields, OLLSKUVAN_FIELDS) == OLLSKUVAN_OK &&
        fields[OLLSKUVAN_COMM_NAME_FLAG] == 1 && ollskuvan_type_name(9)[0] == 'S' ? 0 : 1;
}
ONE
cp "$tmp/one.c" "$tmp/one.cc"
# shellcheck disable=SC2046 # words are wanted
${CC:-cc} -std=c99 -pedantic -Wall -Wextra -Werror $(pkg-config --cflags ollskuvan) -o "$tmp/one" "$tmp/one.c" $(pkg-config --libs ollskuvan) &&
  "$tmp/one" || wrong "a C99 program"
if command -v g++ >/dev/null; then
  # shellcheck disable=SC2046
  g++ -std=c++11 -pedantic -Wall -Wextra -Werror $(pkg-config --cflags ollskuvan) -o "$tmp/two" "$tmp/one.cc" $(pkg-config --libs ollskuvan) &&
    "$tmp/two" || wrong "a C++ program"
else
  echo "the header in C++ not tried: g++ is missing"
fi

# ---- uninstall: all of these, and nothing else
touch "$prefix/include/neighbour.h"
PREFIX=$prefix "$here/uninstall.sh" >/dev/null || wrong "uninstall.sh failed"
[ "$(find "$prefix" -type f)" = "$prefix/include/neighbour.h" ] || wrong "uninstall.sh leaves or takes too much"
PREFIX=$prefix "$here/uninstall.sh" >/dev/null || wrong "uninstall.sh fails where nothing is installed"

# ---- into another folder, as packagers do; and what is refused
DESTDIR=$tmp/stage PREFIX=/usr LIBDIR=lib/x86_64-linux-gnu "$here/install.sh" >/dev/null || wrong "install.sh with DESTDIR failed"
grep -q '^prefix=/usr$' "$tmp/stage/usr/lib/x86_64-linux-gnu/pkgconfig/ollskuvan.pc" || wrong "the pkg-config file names the stage"
DESTDIR=$tmp/stage PREFIX=/usr LIBDIR=lib/x86_64-linux-gnu "$here/uninstall.sh" >/dev/null
[ -z "$(find "$tmp/stage" -type f)" ] || wrong "uninstall.sh with DESTDIR leaves files"
PREFIX=relative "$here/install.sh" >/dev/null 2>&1 && wrong "a relative PREFIX is accepted"
PREFIX="$tmp/a b" "$here/install.sh" >/dev/null 2>&1 && wrong "a PREFIX with a blank is accepted"
ARCHIVE=$tmp/none.a PREFIX=$tmp/no "$here/install.sh" >/dev/null 2>&1 && wrong "a missing archive is installed"
[ ! -e "$tmp/no" ] || wrong "install.sh leaves files behind when it fails"

[ "$failures" -eq 0 ] || { echo "install test: $failures wrong"; exit 1; }
echo "install test: all right"
