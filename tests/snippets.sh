#!/usr/bin/env bash
# The C of docs/CONTROLLER.md: its blocks, in order, are one file; it is compiled, run on a store that it writes and on shipped rings
# (tests/snippets/main.c), and what each scene prints is compared with the page's block of that name (```output NAME). Each stop and
# refusal of the header stands on the page, with its number. Where the kernel allows perf events the page's live ring runs too.
#
#   tests/snippets.sh            all of it, as the gate runs it
#   tests/snippets.sh --teeth    breaks a copy of the page, place by place: each must be seen
#   tests/snippets.sh PAGE       another page than docs/CONTROLLER.md
#
# Needs a C compiler (CC, or cc) and target/staticlib/libollskuvan.a. Everything is built in target/snippets/.
set -u
cd "$(dirname "$0")/.." || exit 2
page=docs/CONTROLLER.md
out=target/snippets
archive=target/staticlib/libollskuvan.a
header=include/ollskuvan.h
scenes='store step readers flight kept numbers'

wrong() { echo "snippets: $*"; exit 1; }

# the lines of the fenced blocks whose first line is this one
blocks() { # PAGE FIRST-LINE
  awk -v first="$2" '!inside && $0 == first { inside = 1; next } inside && /^```$/ { inside = 0; next } inside' "$1"
}

# every stop and answer by its constant and number; none that the header does not have
numbers() { # PAGE
  local due told
  due=$(sed -nE 's/^#define (OLLSKUVAN_((STOP|REFUSED)_[A-Z_]+|DIRTY_NAME)) ([0-9]+)u.*/\4 \1/p' $header | sort)
  told=$(sed -nE 's/^- ([0-9]+), `(OLLSKUVAN_[A-Z_]+)`\. .*/\1 \2/p' "$1" | sort)
  [ "$due" = "$told" ] || { diff <(echo "$due") <(echo "$told") | sed -n 's/^</the page does not tell/p; s/^>/not so in the header:/p'; return 1; }
}

build() { # PAGE FOLDER
  mkdir -p "$2" && blocks "$1" '```c' >"$2/page.new" || return 1
  [ -n "${built:-}" ] && [ -x "$2/program" ] && cmp -s "$2/page.new" "$2/page.c" && return # with --teeth: the same C once more
  rm -f "$2/program"
  mv "$2/page.new" "$2/page.c" || return 1
  "${CC:-cc}" -std=gnu11 -Wall -Wextra -Werror -g -O1 -Iinclude -I"$2" -Itests/snippets -o "$2/program" \
    tests/snippets/main.c tests/snippets/numbers.c $archive
}

# says what is wrong, and fails
look() { # PAGE FOLDER
  local scene named
  numbers "$1" || return 1
  grep -nE '^ *```' "$1" | grep -vE '^[0-9]+:```(c|output [a-z]+)?$' && { echo 'a block that is neither C nor an output'; return 1; }
  named=$(sed -nE 's/^```output (.*)/\1/p' "$1" | tr '\n' ' ')
  [ "$named" = "$scenes " ] || { echo "the page's outputs are '$named' and not '$scenes '"; return 1; }
  build "$1" "$2" || { echo 'the C of the page does not compile'; return 1; }
  for scene in $scenes; do
    timeout 60 "$2/program" "$scene" "$2" >"$2/$scene.txt" || { echo "scene $scene failed"; return 1; }
    blocks "$1" "\`\`\`output $scene" | diff - "$2/$scene.txt" || { echo "scene $scene prints something else than the page"; return 1; }
  done
}

# a busy machine may fill the ring with its own records once: what errs errs every time
live() { timeout 60 $out/program live $out; }

# each of these must be seen: a C block that is missing, a line of an output that differs, a wrong call, a wrong number of an answer
planted=0
bites() { # WHAT: the page was broken in this way
  cmp -s $page $out/teeth/page.md && wrong "nothing was planted: $1"
  look $out/teeth/page.md $out/teeth >$out/teeth/said 2>&1 && wrong "not seen: $1"
  planted=$((planted + 1))
}
# what a live ring alone shows, where there is one
live_teeth() {
  local edit
  build $page $out/teeth || wrong 'the page is wrong as it stands'
  $out/teeth/program live $out/teeth | grep -q skipped && { echo 'snippets: nothing is planted in the live part'; return; }
  while IFS= read -r edit; do
    sed -E "$edit" $page >$out/teeth/page.md
    cmp -s $page $out/teeth/page.md && wrong "nothing was planted: $edit"
    build $out/teeth/page.md $out/teeth || wrong "does not compile: $edit"
    timeout 60 $out/teeth/program live $out/teeth >$out/teeth/said 2>&1 && wrong "not seen live: $edit"
    planted=$((planted + 1))
  done <<'PLANTS'
s/PERF_EVENT_IOC_SET_OUTPUT, r->fds\[0\]\) != 0/PERF_EVENT_IOC_RESET, 0) != 0/
s/PERF_EVENT_IOC_ID, &r->table\[i\]\.identifier\)/PERF_EVENT_IOC_RESET, 0)/
s/\.sample_id_all = 1, \.disabled = 1/.disabled = 1/
PLANTS
}
teeth() {
  local count block line edit
  mkdir -p $out/teeth
  cp $page $out/teeth/page.md
  look $out/teeth/page.md $out/teeth || wrong 'the page is wrong as it stands'
  built=1
  count=$(grep -c '^```c$' $page)
  for block in $(seq "$count"); do
    awk -v due="$block" '$0 == "```c" && ++n == due { left = 1 } !left { print } /^```$/ { left = 0 }' $page >$out/teeth/page.md
    bites "C block $block left out"
  done
  for line in $(awk '/^```output / { inside = 1; next } /^```$/ { inside = 0 } inside { print NR }' $page); do
    sed "${line}s/[0-9]\([^0-9]*\)\$/x\1/; ${line}s/another/an other/" $page >$out/teeth/page.md
    bites "line $line, of an output"
  done
  while IFS= read -r edit; do
    sed -E "$edit" $page >$out/teeth/page.md
    bites "$edit"
  done <<'PLANTS'
s/^(    return s\.bytes);/\1/
s/OLLSKUVAN_BIT_ADDR \| //
s/\.interrupt_mask = 0x1c0/.interrupt_mask = 0x1c1/
s/r->set\.events != EVENTS \|\| memcmp.*$/r->set.events != EVENTS ||/
s/^(    case OLLSKUVAN_STOP_SIZE: .*)$/    case 99:/
s/^(    case OLLSKUVAN_REFUSED_IDENTIFIER: .*)$/    case 99:/
s/d\.stop != OLLSKUVAN_STOP_DISTANCE \? head - d\.tail : 0/head - d.tail + 8/
s/^(    give_back\(r, )d\.tail\);/\1head);/
s/^(        give_back\(r, )p\.tail\);/\1head);/
s/^        d\.tail = head;$/        (void)head;/
s/look_at\(r, head \+ w\.bytes, /look_at(r, head, /
s/journal \+ \(i - 1\) \* /journal + i * /
s/r->scratch, sizeof r->scratch, f, OLLSKUVAN_FIELDS\)/r->scratch, sizeof r->scratch, f, 1)/
s/r->set\.edition, f, OLLSKUVAN_FIELDS\)\.answer/r->set.edition, f, 1).answer/
s/^(    return &r->table\[j\.inspected) - 1\];/\1];/
s/^(    if \(j\.inspected == 0) \|\| .*$/\1)/
s/^(    if \()j\.inspected == 0 \|\| /\1/
s/^- 13, `OLLSKUVAN_STOP_OVERWRITTEN`/- 12, `OLLSKUVAN_STOP_OVERWRITTEN`/
s/^- 27, `OLLSKUVAN_REFUSED_NO_IDENTIFIER`/- 27/
s/^```output flight$/```output walk/
0,/^```c$/s/^```c$/```C/
s/s->name, sizeof s->name\)/s->name, 4)/
PLANTS
  live_teeth
  echo "snippets: $planted broken pages, each seen"
}

usage() { echo "snippets: $* (see the head of tests/snippets.sh)" >&2; exit 2; }
[ $# -le 1 ] || usage 'one word at most'
case ${1:-} in
--teeth) ;;
-*) usage "no such word: $1" ;;
?*) [ -f "$1" ] || usage "no such page: $1" ;;
esac
[ -f $archive ] || wrong "$archive is missing: run 'make lib' first"
case ${1:-} in
--teeth) teeth ;;
*)
  page=${1:-$page}
  look "$page" $out || wrong "$page: see above"
  live || live || live || wrong "$page: the live part failed"
  echo "snippets: $(grep -c '^```c$' "$page") blocks of C, $(wc -w <<<"$scenes") outputs and $(grep -cE '^- [0-9]+, `OLLSKUVAN_' "$page") numbers of $page are as it says"
  ;;
esac
