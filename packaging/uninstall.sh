#!/usr/bin/env bash
# Removes what install.sh installed under the same PREFIX, LIBDIR and DESTDIR, and nothing else.
set -eu
here=$(cd "$(dirname "$0")" && pwd)
. "$here/paths.sh"

take_away() {
  if [ -e "$1" ] || [ -L "$1" ]; then
    rm -f "$1"
    echo "removed $1"
  fi
}
for file in "$header" "$archive" "$words" "$pc" "$program" "$program_page" "$library_page"; do
  take_away "$file"
done
for function in $functions; do
  take_away "$(page_of "$function")"
done
