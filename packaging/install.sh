#!/usr/bin/env bash
# Installs the header, the two static libraries, the pkg-config file, the program and the manual pages, and no more.
#   PREFIX=/usr/local packaging/install.sh       see packaging/paths.sh for LIBDIR and DESTDIR
# ARCHIVE, WORDS_ARCHIVE and PROGRAM name other files than those that `make lib tool` writes.
set -eu
here=$(cd "$(dirname "$0")" && pwd)
. "$here/paths.sh"

root=$here/..
source=${ARCHIVE:-$root/target/staticlib/libollskuvan.a}
words_source=${WORDS_ARCHIVE:-$root/target/staticlib/libollskuvan_words.a}
program_source=${PROGRAM:-$root/target/tool/ollskuvan}
for file in "$source" "$words_source" "$program_source"; do
  [ -f "$file" ] || say "no such file: $file (make lib tool writes it)"
done
version=$(cat "$here/VERSION")

# all that can fail without a trace comes before the first file is written
made=$(mktemp)
trap 'rm -f "$made"' EXIT
sed -e "s|@PREFIX@|$prefix|" -e "s|@LIBDIR@|$libdir|" -e "s|@VERSION@|$version|" "$here/ollskuvan.pc.in" >"$made"
! grep -q '@' "$made" || say "ollskuvan.pc.in has a mark that is not filled in"

put() { install -d "$(dirname "$2")" && install -m "${3:-644}" "$1" "$2" && echo "$2"; }
put "$root/include/ollskuvan.h" "$header"
put "$source" "$archive"
put "$words_source" "$words"
put "$made" "$pc"
put "$program_source" "$program" 755
put "$here/ollskuvan.1" "$program_page"
put "$here/ollskuvan.3" "$library_page"
echo '.so man3/ollskuvan.3' >"$made"
for function in $functions; do
  put "$made" "$(page_of "$function")"
done
