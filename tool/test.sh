#!/usr/bin/env bash
# The program as a user meets it: every command, every shipped ring, every kind of bad input and output, damaged
# images under the sanitizers; and what ollskuvan.h says of words, widths, sizes and stack, tried over the exports.
#
#   tool/test.sh            needs target/tool/ollskuvan (make tool)
#   tool/test.sh --write    writes the expected dumps anew: read the difference before you keep it
set -u
cd "$(dirname "$0")/.." || exit 2
tool=target/tool/ollskuvan
out=target/tool/test
header=include/ollskuvan.h
archives='target/staticlib/libollskuvan_words.a target/staticlib/libollskuvan.a'
failures=0
tried=0
wrong() { echo "WRONG: $*"; failures=$((failures + 1)); }
[ -x $tool ] || { echo "tool/test.sh: $tool is not built (make tool)" >&2; exit 1; }
rm -rf $out && mkdir -p $out tool/expected || exit 2

# ---- the test programs
build() { # NAME FLAGS.. FILES..: C99 with the tool's own files
  local name=$1
  shift
  # shellcheck disable=SC2086 # words are wanted
  ${CC:-cc} -std=c99 -pedantic -Wall -Wextra -Werror -g -Iinclude -Iwords -Iexamples -Itool -o "$out/$name" "$@" \
    $archives || { echo "tool/test.sh: $name does not build"; exit 1; }
}
shared='tool/image.c tool/command.c examples/events.c examples/file.c examples/flight.c examples/memory.c examples/messages.c examples/text.c'
# what a writing of a store is made of, so that it can end or fail at each step
steps='-Wl,--wrap=write,--wrap=fsync,--wrap=rename,--wrap=fchmod,--wrap=close'
# shellcheck disable=SC2086
{
  build stores -O1 $steps tool/tests/stores.c examples/settings.c examples/file.c
  build values -O1 tool/tests/values.c tool/show.c $shared
  build fields -O1 tool/tests/fields.c tool/show.c $shared
  build stack -O1 -fno-optimize-sibling-calls -Wl,-z,now tool/tests/stack.c $shared
  # under an emulator the sanitizers do not run
  sanitizers='-fsanitize=address,undefined -fno-sanitize-recover=all'
  [ -z "${OLLSKUVAN_EMULATED:-}" ] || sanitizers=
  build damage -O1 $sanitizers tool/tests/damage.c tool/dump.c \
    tool/journal.c tool/show.c words/ollskuvan_words.c $shared
  # the controller's own file in the test, with what else the command is made of
  commands=$(ls target/tool/commands/*.o | grep -v '/record_command\.o$')
  ${CC:-cc} -std=c11 -Wall -Wextra -Werror -g -O1 -Iinclude -Iexamples -o $out/gaps tool/tests/gaps.c $commands $archives -lm ||
    { echo "tool/test.sh: gaps does not build"; exit 1; }
  build stores-checked -O1 $sanitizers $steps tool/tests/stores.c \
    examples/settings.c examples/file.c
}

# ---- the header's constants and the one table of words
constants() {
  awk '/^\/\* Every record/ { on = 1 } /^ \* The calls/ { on = 0 } on && /^#define/ { print $2 }' $header | sort
}
rows() {
  sed -nE -e 's/^ *HEADER\(([A-Z_]+),.*/OLLSKUVAN_\1/p' -e 's/^ *TRAILER\(([A-Z_]+),.*/OLLSKUVAN_TRAILER_\1/p' \
    -e 's/^ *(FIELD|LIST)\(([A-Z0-9_]+), ([A-Z_]+),.*/OLLSKUVAN_\2_\3/p' words/ollskuvan_words.c | sort
}
diff <(constants) <(rows) >$out/rows.diff ||
  { wrong "a constant of the header has no row, or not one alone"; head $out/rows.diff; }
[ "$(constants | wc -l)" -gt 100 ] || wrong "the header's constants were not found"
widths() { # CONSTANT BYTES, where the width is not 8
  sed -nE -e 's/^ *HEADER\(([A-Z_]+), "[^"]*", ([124])\).*/OLLSKUVAN_\1 \2/p' \
    -e 's/^ *TRAILER\(([A-Z_]+), "[^"]*", ([124]),.*/OLLSKUVAN_TRAILER_\1 \2/p' \
    -e 's/^ *FIELD\(([A-Z0-9_]+), ([A-Z_0-9]+), "[^"]*", ([124]),.*/OLLSKUVAN_\1_\2 \3/p' words/ollskuvan_words.c | sort
}
marks() {
  sed -nE 's/^#define (OLLSKUVAN_[A-Z0-9_]+) [0-9]+u +\/\* u(8|16|32)\b.*/\1 \2/p' $header |
    awk '{ print $1, $2 / 8 }' | sort
}
diff <(widths) <(marks) >$out/widths.diff ||
  { wrong "the header marks other widths than the table's"; head $out/widths.diff; }
version=$(cat packaging/VERSION)
grep -q "^#define OLLSKUVAN_VERSION \"$version\"$" $header || wrong "the header's version is not packaging/VERSION"
IFS=. read -r major minor patch <packaging/VERSION
number=$((major * 10000 + minor * 100 + patch))
grep -q "^#define OLLSKUVAN_VERSION_NUMBER $number$" $header || wrong "the header's version number"
build names -O2 tool/tests/names.c
$out/names || wrong "the names of words, types and answers"

# ---- the header's sentences on values and stack
mkdir -p $out/made && $out/values made $out/made || wrong "the images of every type"
mkdir -p $out/indexed && $out/values indexed $out/indexed || wrong "the images with a branch sample type"
$out/values dirty $out/made || wrong "the image of dirty names"
$out/values check >$out/values.txt || { wrong "the header's sentences on values"; head $out/values.txt; }
tail -n 1 $out/values.txt
$out/stack rings/*.img rings/events/*.img rings/backward/*.img examples/rings/*.img $out/made/*.img $out/indexed/*.img ||
  wrong "a call uses more stack than the header says"

# ---- every ring: dump beside ringdump, from a file and from standard input
records() { # what a dump says in ringdump's terms: type and answer of each record
  awk '/^record / { type = $0; sub(/.*, type /, "", type); sub(/,.*/, "", type); types[++n] = type; answers[n] = 0 }
       /^    refused: / { answers[n] = $2 + 0 }
       END { for (i = 1; i <= n; i++) print types[i], answers[i] }'
}
entries() { # the same of ringdump: bytes 4 and 5, 6 and 7 of each entry
  awk 'function digit(at) { return index("0123456789abcdef", substr($0, at, 1)) - 1 }
       function two(at) { return digit(at) * 16 + digit(at + 1) + 256 * (digit(at + 2) * 16 + digit(at + 3)) }
       /^1/ { print two(9), two(13) }'
}
for image in rings/*.img examples/rings/*.img $out/made/*.img; do
  name=$(basename "$image" .img)
  target/bin/ringdump <"$image" >$out/ringdump.txt
  $tool journal "$image" >$out/journal.txt || wrong "journal $image failed"
  cmp -s $out/journal.txt $out/ringdump.txt || wrong "journal $image is not what ringdump prints"
  $tool journal - <"$image" | cmp -s - $out/ringdump.txt || wrong "journal of standard input: $image"
  $tool dump "$image" >"$out/$name.txt" || wrong "dump $image failed"
  # shellcheck disable=SC2002 # a pipe is wanted
  cat "$image" | $tool dump - | cmp -s - "$out/$name.txt" || wrong "dump of a pipe: $image"
  cmp -s <(records <"$out/$name.txt") <(entries <$out/ringdump.txt) ||
    wrong "dump $image: other types or answers than ringdump"
  $tool dump --all "$image" >$out/all.txt || wrong "dump --all $image failed"
  ! grep -q '^ *\.\. and' $out/all.txt || wrong "dump --all $image leaves something out"
  tried=$((tried + 1))
done
[ $tried -ge 18 ] || wrong "only $tried rings were read"

# ---- images with a branch sample type, 8 bytes behind the ring: ringdump takes none of them, and reads none wrongly
for image in $out/indexed/*.img; do
  name=$(basename "$image" .img)
  target/bin/ringdump <"$image" | grep -q '^stop 1 tail ' || wrong "ringdump takes $image for a ring"
  $tool dump "$image" >"$out/$name.txt" || wrong "dump $image failed"
  $tool dump - <"$image" | cmp -s - "$out/$name.txt" || wrong "dump of standard input: $image"
  $tool journal "$image" >$out/journal.txt || wrong "journal $image failed"
  cmp -s <(records <"$out/$name.txt") <(entries <$out/journal.txt) || wrong "dump $image: other answers than its journal"
  tried=$((tried + 1))
done
# the same ring as an image of before, without the 8 bytes: the branch sample type is 0, and the index a word too many
head -c -8 $out/indexed/indexed.img >$out/not-indexed.img
$tool dump $out/not-indexed.img | grep -q '^branch type 0x0$' || wrong "an image without a branch sample type"
$tool journal $out/not-indexed.img | cmp -s - <(target/bin/ringdump <$out/not-indexed.img) ||
  wrong "journal of an image without a branch sample type is not ringdump's"
{ head -c -8 $out/indexed/indexed.img; head -c 8 /dev/zero; } >$out/indexed-0.img
$tool dump $out/indexed-0.img | cmp -s - <($tool dump $out/not-indexed.img) || wrong "a branch sample type of 0 behind the ring"

# ---- an event's branch sample type stands in the table: the same records as by the image's own, and not by another event's
head -c -8 $out/indexed/indexed-event.img >$out/event.img
table_of() { printf '%s 0x14804 0x0 0x0 0x0 %s 1\n' 1003 "$1" 1054 "$2" >$out/event.table; } # of the SAMPLE's event, of the others'
table_of 0x20009 0x0
$tool dump $out/event.img >$out/event.txt || wrong "dump with an event's branch sample type failed"
cmp -s <(sed -n '/^record 0/,$p' $out/event.txt) <(sed -n '/^record 0/,$p' $out/indexed-event.txt) &&
  grep -q '^    hardware index      0x401$' $out/event.txt || wrong "dump with an event's branch sample type: other fields than without a table"
table_of 0x0 0x20009
$tool dump $out/event.img | grep -q ' 1 refused$' || wrong "dump takes another event's branch sample type"

# ---- two events with branch stacks, the one with the hardware index, the other without: each by its own branch sample type
word() { printf '\\%03o\\%03o\\0\\0\\0\\0\\0\\0' $(($1 & 255)) $(($1 >> 8)); }
words() { for n; do word "$n"; done; }
sample() { printf '\\011\\0\\0\\0\\0\\0\\%03o\\0' $((8 + 8 * $#)) && words "$@"; }
printf %b "$(words 128 0)" '\0\010\001\0\0\0\0\0' "$(words 0 0 0)" '\004\001' \
  "$(sample 7 2 1025 1 2 0 3 4 0)" "$(sample 8 1 5 6 0)" >$out/branches.img
branch_types() { printf '%s 0x10800 0 0 0 %s 1\n' 7 "$1" 8 "$2" >$out/branches.table; }
branch_types 0x20009 0x9
$tool dump $out/branches.img | sed -n '/^record 0/,$p' >$out/branches.txt
diff - $out/branches.txt >$out/branches.diff <<'END' || { wrong "dump of two events with branch stacks"; head -n 5 $out/branches.diff; }
record 0 at tail 0: SAMPLE, type 9, misc 0x0, size 80
    identifier          7
    hardware index      0x401
    branches            2 entries, 48 bytes at 32
        from 0x1 to 0x2 flags 0x0
        from 0x3 to 0x4 flags 0x0
record 1 at tail 80: SAMPLE, type 9, misc 0x0, size 48
    identifier          8
    branches            1 entry, 24 bytes at 24
        from 0x5 to 0x6 flags 0x0
stop 0 tail 128: nothing to take
2 records, 128 bytes, 0 refused
END
branch_types 0x9 0x20009
$tool dump $out/branches.img | grep -q ' 2 refused$' || wrong "dump of two events with each other's branch sample types"
tried=$((tried + 1))

# ---- rings of several events: with the table beside them no record is refused; without it some are
for image in rings/events/*.img; do
  name=events-$(basename "$image" .img)
  $tool dump "$image" >"$out/$name.txt" || wrong "dump $image failed"
  grep -q '^edition     3, a table of 4 events$' "$out/$name.txt" || wrong "dump $image: without its table"
  grep -q ' bytes, 0 refused$' "$out/$name.txt" || wrong "dump $image: records are refused"
  [ "$(grep -c '^event ' "$out/$name.txt")" -eq 4 ] || wrong "dump $image: four events are due"
  $tool journal "$image" >$out/journal.txt || wrong "journal $image failed"
  cmp -s <(records <"$out/$name.txt") <(entries <$out/journal.txt) || wrong "journal $image: other answers than dump's"
  $tool dump - <"$image" | grep -q 'refused: ' || wrong "standard input has no table, and no record is refused"
  tried=$((tried + 1))
done
# each event's own fields: an address of page faults, read values of switches, registers of the clock
for words in 'addr ' 'read value ' 'user registers ' 'trailer cpu '; do
  grep -q "^    $words" $out/events-counters.txt || wrong "the dump of several events has no '$words'"
done
cp rings/events/counters.img $out/spoilt.img && sed 's/^/x/' rings/events/counters.table >$out/spoilt.table
$tool dump $out/spoilt.img >/dev/null 2>$out/spoilt.err && wrong "a table that is none"
grep -q 'spoilt.img: no table of events: line 1' $out/spoilt.err || wrong "a table that is none is not named"

# ---- backward rings: the oldest record first, as many as the walk takes, each as one of its event; a drain takes none of them
ends() { # NAME STOP WORDS
  grep -q "^stop $2 after [0-9]* bytes: $3\$" "$out/backward-$1.txt" || wrong "dump of backward/$1: $(grep '^stop' "$out/backward-$1.txt")"
}
for image in rings/backward/*.img; do
  name=backward-$(basename "$image" .img)
  $tool dump "$image" >"$out/$name.txt" || wrong "dump $image failed"
  grep -q '^written     backward: the oldest record first$' "$out/$name.txt" || wrong "dump $image: not as a backward ring"
  grep -q ' bytes, 0 refused$' "$out/$name.txt" || wrong "dump $image: records are refused"
  awk '/^record / { sample = /: SAMPLE,/ } /^    trailer time / { print $3 } sample && /^    time / { print $2 }' "$out/$name.txt" >$out/times.txt
  [ -s $out/times.txt ] && sort -n -c $out/times.txt 2>/dev/null || wrong "dump $image: a record stands before an older one"
  $tool journal "$image" >$out/journal.txt 2>/dev/null && wrong "journal $image: exit 0"
  cmp -s $out/journal.txt <(echo 'stop 4 tail 0') && target/bin/ringdump <"$image" | cmp -s - $out/journal.txt ||
    wrong "journal $image: a backward ring is drained"
  tried=$((tried + 1))
done
ends short 0 'the ring has not gone round'
ends round 13 'the oldest record is overwritten in part'
ends whole 0 'the whole length'
ends events 13 'the oldest record is overwritten in part'
grep -q '^edition     3, a table of 4 events$' $out/backward-events.txt || wrong "dump of backward/events: without its table"
# damaged: the size of the oldest record but one says 4; a head that is odd is no backward ring's
byte_at() { printf "$3" | dd of="$out/$1.img" bs=1 seek="$2" conv=notrunc status=none; }
cp rings/backward/short.img $out/back-size.img && byte_at back-size $((50 + 4096 - 80 + 6)) '\004'
$tool dump $out/back-size.img >$out/back-size.txt 2>$out/back-size.err && wrong "a backward ring with a size of 4: exit 0"
grep -q '^stop 6 after 880 bytes: ' $out/back-size.txt && grep -q 'not read to its end: stop 6' $out/back-size.err ||
  wrong "a backward ring with a size of 4"
cp rings/backward/short.img $out/back-odd.img && byte_at back-odd 0 '\001'
$tool dump $out/back-odd.img >$out/back-odd.txt 2>&1 && wrong "a backward ring with an odd head: exit 0"
grep -q 'stop 4 at tail 0' $out/back-odd.txt || wrong "a backward ring with an odd head"

# ---- the dumps that are kept
for name in backward-short tasks kernel every-type every-type-plain every-type-edition-2 every-type-edition-3 lost-counts indexed indexed-edition-2 dirty-names; do
  if [ "${1:-}" = --write ]; then
    cp "$out/$name.txt" "tool/expected/$name.txt"
  else
    diff -u "tool/expected/$name.txt" "$out/$name.txt" >$out/expected.diff ||
      { wrong "dump $name is not as expected"; head -n 20 $out/expected.diff; }
  fi
done
for type in $(sed -nE 's/^#define OLLSKUVAN_TYPE_([A-Z0-9_]+) .*/\1/p' $header); do
  grep -q "^record .*: $type, type" $out/every-type.txt || wrong "the dump of every type has no $type"
done

# ---- names with stale bytes: the flag, and no refusal; nowhere else
for type in MMAP COMM MMAP2 KSYMBOL CGROUP; do
  grep -q "^record .*: $type, type" $out/dirty-names.txt || wrong "the dump of dirty names has no $type"
done
[ "$(grep -c '^    name flag           1 (stale bytes .*: 73 72 71)$' $out/dirty-names.txt)" -eq 5 ] &&
  grep -q '^5 records, .* 0 refused$' $out/dirty-names.txt || wrong "the dump of dirty names"
! grep -l 'name flag           [^0]' $out/every-type*.txt $out/tasks.txt $out/kernel.txt || wrong "a name that is not dirty"

# ---- names: no byte reaches the terminal that is no plain sign
patch() { # NAME OFFSET OCTAL-BYTES: tasks.img with other bytes
  cp rings/tasks.img "$out/$1.img" && printf "$3" | dd of="$out/$1.img" bs=1 seek="$2" conv=notrunc status=none
}
patch escape 66 '\033["\\\377'
$tool dump $out/escape.img | grep -qF 'name                "\x1b[\x22\x5c\xff", 5 bytes at 16' ||
  wrong "a name with signs that are not plain"

# ---- wrong images and wrong usage: exit status, words, and nothing printed as if it were a dump
says() { # STATUS WORDS ARGUMENT..
  local status=$1 words=$2 said
  shift 2
  said=$($tool "$@" 2>&1 >$out/printed.txt </dev/null)
  [ $? -eq "$status" ] || wrong "ollskuvan $*: another exit status than $status"
  case "$said" in "ollskuvan"*"$words"*) ;; *) wrong "ollskuvan $*: does not say '$words' but: $said" ;; esac
  tried=$((tried + 1))
}
refuses() { says "$@"; [ ! -s $out/printed.txt ] || wrong "ollskuvan $3 prints something for $4"; }
: >$out/empty.img
head -c 49 rings/tasks.img >$out/49.img
head -c 50 rings/tasks.img >$out/50.img
head -c $((50 + 63)) rings/tasks.img >$out/63.img
head -c $((50 + 4095)) rings/tasks.img >$out/4095.img
head -c -1 $out/indexed/indexed.img >$out/7-behind.img
{ cat $out/indexed/indexed.img; printf 0; } >$out/9-behind.img
{ cat rings/tasks.img; head -c 1048576 /dev/zero; } >$out/long.img
{ printf PERFILE2; head -c 4000 /dev/zero; } >$out/perf.data
refuses 1 'No such file' dump $out/none.img
refuses 1 'Is a directory' dump rings
refuses 1 'it is empty' dump $out/empty.img
refuses 1 'standard input: no ring image: it is empty' dump -
refuses 1 'it has 49 bytes, and 50 stand before the ring' dump $out/49.img
refuses 1 '0 bytes follow the first 50, and a ring' dump $out/50.img
refuses 1 '63 bytes follow' dump $out/63.img
refuses 1 "4095 bytes follow the first 50, and a ring's length is a power of two from 64 to 1048576" dump $out/4095.img
refuses 1 'more than 1048576 bytes follow' dump $out/long.img
refuses 1 '8199 bytes follow' dump $out/7-behind.img
refuses 1 '8201 bytes follow' dump $out/9-behind.img
refuses 1 'perf.data' dump $out/perf.data
patch edition 48 '\007'
patch head-odd 0 '\001'
patch head-far 2 '\377'
patch size-0 56 '\000\000'
patch size-past 56 '\370\377'
says 1 'stop 2 at tail 0: the edition is not' dump $out/edition.img
says 1 'stop 5 at tail 0: head or tail is no multiple of 8' dump $out/head-odd.img
says 1 'stop 4 at tail 0: head and tail are further apart' dump $out/head-far.img
says 1 'stop 6 at tail 0' dump $out/size-0.img
says 1 'stop 7 at tail 0' journal $out/size-past.img
for image in empty 49 50 63 4095 edition head-odd head-far size-0 size-past; do
  $tool journal $out/$image.img 2>/dev/null | cmp -s - <(target/bin/ringdump <$out/$image.img) ||
    wrong "journal of $image.img is not ringdump's"
done
says 1 'no ring image' journal $out/49.img
refuses 2 'which command' ''
refuses 2 'no such command: dumb' dumb
refuses 2 'too few words' dump
refuses 2 'too many words' dump a b
refuses 2 'unknown option --whole' dump --whole rings/tasks.img
refuses 2 'a number is wanted, not x' explain x
refuses 2 'a number is wanted, not -' explain -
refuses 2 'unknown option -1' explain -1
refuses 2 'a NUMBER or --all' explain
refuses 2 '' report --nonsense
refuses 2 '' record --nonsense
refuses 1 'no stop or refusal has the number 99' explain 99
refuses 1 '10 is no stop or refusal any more: it could never be given, and is never used again' explain 10
(exec <&-; $tool dump - 2>&1 >/dev/null) | grep -q 'dump: standard input: ' || wrong "a closed standard input"
$tool dump -- rings/tasks.img | cmp -s - $out/tasks.txt || wrong "dump -- IMAGE"

# ---- stores of settings: written, shown; what is wrong with one is said with its number and place
stores=$out/kept-stores
mkdir -p $stores/cut $stores/changed $stores/links
writes() { # FILE OPTION..
  $tool settings write "$@" >$out/printed.txt 2>$out/said.txt || wrong "settings write $*: $(cat $out/said.txt)"
  grep -q "^kept in $1: " $out/printed.txt || wrong "settings write $*: it does not say what it kept"
  tried=$((tried + 1))
}
shows() { # FILE WORDS..: a line each
  local file=$1
  shift
  $tool settings show "$file" >$out/shown.txt || wrong "settings show $file failed"
  for words in "$@"; do grep -q "^$words\$" $out/shown.txt || wrong "settings show $file: no line '$words'"; done
  tried=$((tried + 1))
}
writes $stores/one
shows $stores/one 'store       version 2, 83 bytes, 1 event' 'edition     4' 'budget      32' 'event 0     identifier 1'
[ "$(wc -c <$stores/one)" -eq 83 ] || wrong "a store of one event has other than 83 bytes"
writes $stores/three --events page-faults,cpu-clock --edition 3 --budget 7 --pages 1
shows $stores/three 'store       version 2, 195 bytes, 3 events' 'budget      7' 'event 2     identifier 3'
writes $stores/branch --branch 0x20009
shows $stores/branch 'branch type 0x20009.*' 'sample type 0x10987 .*'
cp $stores/three $stores/again
writes $stores/again --events page-faults,cpu-clock --edition 3 --budget 7 --pages 1
cmp -s $stores/three $stores/again || wrong "the same settings are kept in other bytes"
ln -s ../one $stores/links/one && cp $stores/one $stores/kept
writes $stores/links/one --budget 9
[ -L $stores/links/one ] && shows $stores/one 'budget      9' || wrong "a link to a store is replaced, and not the store"
writes $stores/one
[ "$(ls $stores | grep -c new)" -eq 0 ] || wrong "settings write leaves files behind"
$tool settings show - <$stores/three | cmp -s - <($tool settings show $stores/three) || wrong "settings show of standard input"
$tool settings show $stores/one $stores/three >$out/both.txt || wrong "settings show of two stores"
[ "$(grep -c '^store ' $out/both.txt)" -eq 2 ] && grep -q "^$stores/three\$" $out/both.txt || wrong "settings show of two stores"
if [ "${1:-}" = --write ]; then
  $tool settings show $stores/three >tool/expected/settings.txt
else
  $tool settings show $stores/three | diff -u tool/expected/settings.txt - >$out/expected.diff ||
    { wrong "settings show is not as expected"; head -n 20 $out/expected.diff; }
fi
# of a saved ring with its table: the identifiers that its records have
writes $stores/image --image rings/events/counters.img --budget 5
shows $stores/image 'store       version 2, 251 bytes, 4 events' 'budget      5' 'edition     3'
for id in $(sed -n 's/^\([0-9][0-9]*\) .*/\1/p' rings/events/counters.table); do
  grep -q "^event .* identifier $id\$" $out/shown.txt || wrong "settings write --image: no event $id"
done
# a store of 1,024 events, and a table of 1,025
cp rings/events/counters.img $stores/many.img
seq 1 1024 | sed 's/$/ 0x10000 0 0 0 0 1/' >$stores/many.table
writes $stores/many --image $stores/many.img
shows $stores/many 'store       version 2, 57371 bytes, 1024 events' 'event 1023  identifier 1024'
seq 1 1025 | sed 's/$/ 0x10000 0 0 0 0 1/' >$stores/many.table
refuses 1 'one more event than a table may have' settings write $stores/many --image $stores/many.img
# a table of 1,024 events beside a ring: what is read is what its own events read; one event more is refused
own=$(grep -c '^[0-9]' rings/events/counters.table)
cp rings/events/counters.img $out/wide.img
{ seq 900000 $((900000 + 1023 - own)) | sed 's/$/ 0x10000 0 0 0 0 1/'; cat rings/events/counters.table; } >$out/wide.table
$tool journal $out/wide.img | cmp -s - <($tool journal rings/events/counters.img) || wrong "journal with 1,024 events"
records() { $tool dump "$1" | tac | sed '/^branch type/q' | tac; } # behind the last event of the table
records $out/wide.img | cmp -s - <(records rings/events/counters.img) || wrong "dump with 1,024 events"
[ "$(records $out/wide.img | wc -l)" -gt 100 ] || wrong "dump with 1,024 events shows no records"
$tool compare rings/events/counters.img $out/wide.img >$out/compared.txt || wrong "compare with a table of 1,024 events: $(cat $out/compared.txt)"
echo '1 0x10000 0 0 0 0 1' >>$out/wide.table
refuses 1 'one more event than a table may have' dump $out/wide.img
# kept stores of both versions: one that the writer of version 1 wrote, and one of version 2
shows tests/stores/version-1.store 'store       version 1, 1787 bytes, 32 events' 'event 31    identifier 1217' 'budget      4096'
shows tests/stores/version-2.store 'store       version 2, 57371 bytes, 1024 events' 'event 1023  identifier 8161' 'edition     4'
# faults of version 1 by their numbers and places: a row of version 2's length, an index of another event, one event more
refused_as() { # FILE WORDS: it is no store, and these words say why
  refuses 1 "$1: no settings: refused with $2" settings show "$1"
}
{ printf '\010\0\0\0\001\0\001\0'; tail -c +9 $stores/three; } >$out/old-rows
refused_as $out/old-rows '51 at byte 8: an entry of kind 2 and 56 bytes, which fits no known kind'
{ printf '\010\0\0\0\001\0\002\0'; tail -c +9 tests/stores/version-1.store; } >$out/new-rows
refused_as $out/new-rows '51 at byte 8: an entry of kind 2 and 55 bytes, which fits no known kind'
{ head -c 1768 tests/stores/version-1.store; printf '\067\0\0\0\002\0\040'; head -c 63 tests/stores/version-1.store | tail -c 48
  tail -c 19 tests/stores/version-1.store; } >$out/old-33
refused_as $out/old-33 '11 at byte 1842: 33 events, where 1 to 32 are allowed'
# what cannot be kept replaces nothing
seq 1 3 | sed 's/$/ 0x86 0 0 0 0 1/' >$stores/many.table
cp $stores/many $out/kept
refuses 1 'these settings cannot be kept: 11, the table of events is not allowed' settings write $stores/many --image $stores/many.img
refuses 1 'no table of events beside it' settings write $stores/many --image rings/tasks.img
refuses 1 'No such file' settings write $stores/many --image $out/none.img
refuses 1 'no ring image' settings write $stores/many --image $out/49.img
(trap '' XFSZ; ulimit -f 0; exec $tool settings write $stores/many --budget 3) >/dev/null 2>&1
[ $? -eq 1 ] || wrong "settings write where nothing can be written"
cmp -s $stores/many $out/kept || wrong "a store that could not be written replaces one"
[ "$(ls $stores | grep -c 'new-')" -eq 0 ] || wrong "settings write leaves files behind"
refuses 1 'it is no file' settings write /dev/null
refuses 1 'it is no file' settings write $stores
refuses 1 'No such file' settings write $out/none/store
# each fault by its number and place; the place is that of the first faulty entry
fault() { # NAME OFFSET OCTAL-BYTES WORDS: store three with other bytes
  cp $stores/three "$stores/$1" && printf "$3" | dd of="$stores/$1" bs=1 seek="$2" conv=notrunc status=none
  refuses 1 "$stores/$1: no settings: refused with $4" settings show "$stores/$1"
}
fault version 6 '\011' '50 at byte 0: version 9'
fault kind 4 '\002' '51 at byte 0: an entry of kind 2 and 8 bytes, which fits no known kind'
fault length 8 '\005' '51 at byte 8: an entry of 5 bytes, where 6 to 187 are possible'
fault long 11 '\001' '51 at byte 8: an entry of 16777272 bytes'
fault index 70 '\005' '52 at byte 64: index 5, where 1 is due'
fault high-index 71 '\001' '52 at byte 64: index 257, where 1 is due'
fault ring 183 '\003' '52 at byte 176: a ring of 768 bytes, which is not allowed'
fault edition 190 '\005' '52 at byte 176: edition 5, which this build does not know'
fault twins 72 '\001' '11 at byte 64: events 0 and 1 have the identifier 1'
fault unmarked 82 '\000' '11 at byte 64: event 1 lacks sample bit 16'
head -c 194 $stores/three >$stores/cut-194
refuses 1 'refused with 51 at byte 176: an entry of 19 bytes, where 6 to 18 are possible' settings show $stores/cut-194
head -c 176 $stores/three >$stores/cut-176
refuses 1 "refused with 51 at byte 176: it ends before the ring's length" settings show $stores/cut-176
head -c 65 $stores/three >$stores/cut-65
refuses 1 'refused with 51 at byte 64: 1 byte is left' settings show $stores/cut-65
: >$stores/empty
refuses 1 'refused with 51 at byte 0: it is empty' settings show $stores/empty
cat $stores/three $stores/three >$stores/doubled
refuses 1 'refused with 52 at byte 195: an entry behind the last one' settings show $stores/doubled
{ head -c 8 $stores/three; cat $stores/three; } >$stores/second
refuses 1 'refused with 52 at byte 8: a version for the second time' settings show $stores/second
tail -c +9 $stores/three >$stores/headless
refuses 1 'refused with 52 at byte 0: the first entry does not tell the version' settings show $stores/headless
{ head -c 8 $stores/three; tail -c 19 $stores/three; } >$stores/eventless
refuses 1 'refused with 11 at byte 27: 0 events, where 1 to 1024 are allowed' settings show $stores/eventless
refuses 1 'refused with 51 at byte 0' settings show rings/tasks.img
refuses 1 'No such file' settings show $stores/none
refuses 1 'Is a directory' settings show $stores
says 1 'refused with 50 at byte 0' settings show $stores/version $stores/one
grep -q '^store       version 2, 83 bytes' $out/printed.txt || wrong "after a store that is none, the next is not shown"
refuses 2 'show or write?' settings
refuses 2 'show or write is wanted, not read' settings read
refuses 2 'which FILE?' settings show
refuses 2 'one FILE is wanted' settings write
refuses 2 'one FILE is wanted' settings write $stores/one $stores/two
refuses 2 'a FILE is wanted, not -' settings write -
refuses 2 '--budget: a number from 1 to 4096 is wanted' settings write $stores/one --budget 0
refuses 2 '--edition: a number from 1 to 4 is wanted' settings write $stores/one --edition 5
refuses 2 '--pages: a power of two' settings write $stores/one --pages 3
refuses 2 'are the same counter' settings write $stores/one --clock --events cpu-clock
refuses 2 '--image tells the events' settings write $stores/one --image rings/events/counters.img --pages 1
refuses 2 "try 'ollskuvan settings --help'" settings write $stores/one --nonsense
# of every byte of a store one change, and of damaged ones: the number and the place are those of the independent reader
if [ -x target/tests/reader ]; then
  target/tests/reader store-damage $stores/three $stores/changed --count 400 || wrong "no damaged stores"
  target/tests/reader store-told $stores/changed/*.store |
    sed -E -e 's/: (1?[0-9]*) at byte /: refused with \1 at byte /' -e 's/: 11$/: refused with 11 at byte .*/' >$out/due.txt
  $tool settings show $stores/changed/*.store >$out/shown.txt 2>$out/said.txt
  sed -E -e 's/^ollskuvan settings: //' -e 's/: no settings: (refused with [0-9]+ at byte [0-9]+): .*/: \1/' \
    -e 's/: (refused with 11 at byte) .*/: \1 .*/' $out/said.txt >$out/told.txt
  grep ': refused with' $out/due.txt | cmp -s - $out/told.txt ||
    { wrong "settings show tells other numbers or places than the independent reader"; grep ': refused with' $out/due.txt | diff - $out/told.txt | head -n 6; }
  [ "$(grep -c ': version [12], ' $out/due.txt)" -eq "$(grep -c '^store ' $out/shown.txt)" ] || wrong "settings show reads other stores than the independent reader"
  for number in 11 50 51 52; do grep -q "refused with $number at" $out/told.txt || wrong "no damaged store was refused with $number"; done
  $out/stores-checked show $stores/changed/*.store $stores/[a-z]* >$out/checked.txt 2>&1 ||
    wrong "a damaged store under the sanitizers: $(head -n 5 $out/checked.txt)"
  echo "settings: $(wc -l <$out/due.txt) changed stores, $(wc -l <$out/told.txt) of them refused, by the numbers and places of the independent reader"
else
  echo "settings: places not compared: target/tests/reader is not built (tests/run.sh)"
fi
$out/gaps >$out/gaps.txt 2>$out/gaps.err || wrong "gaps of a live ring: $(grep WRONG $out/gaps.err)"
! grep 'stop 4' $out/gaps.txt | grep -q ' bytes$' || wrong "bytes are told at stop 4"
$out/stores cut $stores/cut || wrong "a writing of a store that is cut short"

# ---- replay: a trace by hand over a ring of 64 bytes from 2^64 - 8: across the end, full, a drop, two drains
mkdir -p $out/replay
printf '7 0x10000 0 0 0 0 1\n' >$out/replay/seven
switch='\026\0\0\0\020\0''\016\0\0\0\0\0\020\0\007\0\0\0\0\0\0\0' # offers 16 bytes
lost='\046\0\0\0\020\0''\002\0\0\0\0\0\040\0\005\0\0\0\0\0\0\0\006\0\0\0\0\0\0\0\007\0\0\0\0\0\0\0'
drain2='\012\0\0\0\021\0\002\0\0\0' drain7='\012\0\0\0\021\0\007\0\0\0'
trace() { # NAME ENTRIES: the trace with its table
  # shellcheck disable=SC2059 # the entries are the format
  printf "$2" >$out/replay/"$1" && cp $out/replay/seven $out/replay/"$1".table
}
plays() { # NAME OPTION..: prints what stands on standard input
  local name=$1
  shift
  $tool replay $out/replay/"$name" "$@" >$out/replay/printed 2>&1 || wrong "replay of $name failed"
  diff - $out/replay/printed >$out/replay/diff || { wrong "replay of $name $*"; head -n 5 $out/replay/diff; }
  tried=$((tried + 1))
}
trace worked "$switch$lost$switch$switch$drain2$lost$drain7"
plays worked --ring 64 --start 18446744073709551608 <<'END'
100000000e000000f8ffffffffffffff
10000000020000000800000000000000
100000000e0000002800000000000000
10000000020000003800000000000000
entries 7 head 88 tail 88
offered 112 bytes: drained 96 in 4 records, dropped 16 in 1 record, still in the ring 0
END
plays worked <<'END'
100000000e0000000000000000000000
10000000020000001000000000000000
100000000e0000003000000000000000
100000000e0000004000000000000000
10000000020000005000000000000000
entries 7 head 112 tail 112
offered 112 bytes: drained 112 in 5 records, dropped 0 in 0 records, still in the ring 0
END
plays worked --ring 128 --edition 1 <<'END'
100000000e0014000000000000000000
10000000020015001000000000000000
100000000e0014003000000000000000
100000000e0014004000000000000000
10000000020015005000000000000000
entries 7 head 112 tail 112
offered 112 bytes: drained 112 in 5 records, dropped 0 in 0 records, still in the ring 0
END
trace nothing ''
plays nothing <<'END'
entries 0 head 0 tail 0
offered 0 bytes: drained 0 in 0 records, dropped 0 in 0 records, still in the ring 0
END
# where it ends before its end: the entry and its place, and what stood before it
trace cut "$switch$drain2$switch"'\012\0\0'
says 1 'cut: not played to its end: 51 at entry 3, byte 54: an entry that is cut short' replay $out/replay/cut
grep -qx 'entries 3 head 32 tail 16' $out/printed.txt && grep -qx '100000000e0000000000000000000000' $out/printed.txt &&
  grep -q 'drained 16 in 1 record, .* still in the ring 16$' $out/printed.txt || wrong "replay of a trace that is cut"
trace store "$switch"'\010\0\0\0\001\0\001\0'
says 1 'store: not played to its end: 52 at entry 1, byte 22: an entry that may not stand there, or holds what is not allowed' replay $out/replay/store
trace other '\016\0\0\0\020\0\016\0\0\0\0\0\020\0'
says 1 'other: not played to its end: 53 at entry 0, byte 0: what is offered is no record' replay $out/replay/other
refuses 1 "worked: not played: 1, the ring's length is not allowed" replay $out/replay/worked --ring 100
refuses 2 '--edition: a number from 1 to 4 is wanted' replay $out/replay/worked --edition 0
refuses 1 'worked: not played: 5, head or tail is no multiple of 8' replay $out/replay/worked --start 4
printf '7 0x10000 0 0 0 0 0\n' >$out/replay/worked.table
refuses 1 'worked: not played: 11, the table of events is not allowed' replay $out/replay/worked
echo x >$out/replay/worked.table
refuses 1 'worked: no table of events: line 1' replay $out/replay/worked
rm $out/replay/worked.table
refuses 1 'worked: there is no table of events beside it' replay $out/replay/worked
refuses 1 'No such file' replay $out/replay/none
refuses 1 'Is a directory' replay rings
refuses 2 'too few words' replay
refuses 2 'too many words' replay a b
refuses 2 'a value is wanted behind --ring' replay $out/replay/worked --ring
refuses 2 '--ring: a number from 0 to 1048576 is wanted' replay $out/replay/worked --ring 1048577
refuses 2 '--start: a number from 0 to 18446744073709551615 is wanted' replay $out/replay/worked --start -8
refuses 2 'unknown option --budget' replay $out/replay/worked --budget 3
refuses 2 '--trace goes with none of --save, --flight and --report' record --trace a --save b
refuses 2 '--trace goes with none of --save, --flight and --report' record --trace a --flight b

# ---- salvage: the records of the real rings of several events, end to end, whole and with holes
straight() { # IMAGE: the bytes from its tail to its head
  local tail head length at
  tail=$(od -An -tu8 -j8 -N8 "$1" | tr -d ' ') head=$(od -An -tu8 -N8 "$1" | tr -d ' ')
  length=$(($(wc -c <"$1") - 50)) at=$((tail % length))
  { tail -c +$((51 + at)) "$1"; tail -c +51 "$1" | head -c $at; } | head -c $((head - tail))
}
mkdir -p $out/salvage
fresh() { # NAME TABLE: a stream from standard input with its table, and nothing else of that name
  rm -f $out/salvage/"$1"* && cat >$out/salvage/"$1" && cp "$2" $out/salvage/"$1".table
}
salvages() { # NAME KEPT-BYTES-AND-RECORDS DROPPED-AND-HOLES [HOLE..]: what is printed, and that what is kept stays so
  local name=$out/salvage/$1 holes=$(($# - 3)) printed
  printed=$($tool salvage "$name" "$name.out" --changes "$name.changes") || wrong "salvage of $1 failed"
  [ "$(echo "$printed" | head -n 1)" = "kept $2; dropped $3" ] || wrong "salvage of $1: $(echo "$printed" | head -n 1)"
  [ "$(echo "$printed" | wc -l)" -eq $((holes + 1)) ] || wrong "salvage of $1 prints another number of holes"
  [ "$(wc -c <"$name.changes")" -eq $((22 * holes)) ] || wrong "salvage of $1: a list of another length"
  shift 3
  for hole; do echo "$printed" | grep -qxF "hole at $hole" || wrong "salvage of $name has no hole at $hole"; done
  cp "$name.table" "$name.out.table"
  $tool salvage --changes "$name.again.changes" "$name.out" "$name.again" >/dev/null || wrong "salvage of $name.out failed"
  cmp -s "$name.out" "$name.again" && [ ! -s "$name.again.changes" ] || wrong "salvage of $name.out changes it"
  tried=$((tried + 1))
}
for name in children counters; do
  straight rings/events/$name.img | fresh $name rings/events/$name.table
  records=$($tool dump rings/events/$name.img | sed -nE 's/^([0-9]+) records, .*/\1/p')
  salvages $name "$(wc -c <$out/salvage/$name) bytes, $records records" '0 bytes, 0 holes'
  cmp -s $out/salvage/$name $out/salvage/$name.out || wrong "salvage of a sound stream does not give it back"
done
# in the stream of one event, whose records are 16 bytes: a switch, zeros, a switch, and what is left of one
printf '7 0x10000 0 0 0 0 1\n' >$out/salvage/seven
switch='\016\0\0\0\0\0\020\0\007\0\0\0\0\0\0\0'
{ printf "$switch"; head -c 24 /dev/zero; printf "$switch"; head -c 3 /dev/zero; } | fresh holes $out/salvage/seven
salvages holes '32 bytes, 2 records' '27 bytes, 2 holes' '16: 24 bytes' '56: 3 bytes, up to the end'
# a hole that is no multiple of 8 loses what follows it; a record of type 22 hides none that lies in its body
{ printf "$switch"; head -c 4 /dev/zero; printf "$switch$switch"; } | fresh shifted $out/salvage/seven
salvages shifted '16 bytes, 1 record' '36 bytes, 1 hole' '16: 36 bytes, up to the end'
{ printf '\026\0\0\0\0\0\050\0'; printf "$switch$switch"; } | fresh inside $out/salvage/seven
salvages inside '32 bytes, 2 records' '8 bytes, 1 hole' '0: 8 bytes'
: | fresh nothing $out/salvage/seven
salvages nothing '0 bytes, 0 records' '0 bytes, 0 holes'
# the table of a store of settings, with none beside the stream
printf '7 0x10000 0 0 0 0 1\n' >$stores/many.table
writes $stores/seven --image $stores/many.img
rm -f $out/salvage/bare* && printf "$switch" >$out/salvage/bare
[ "$($tool salvage $out/salvage/bare $out/salvage/bare.out --settings $stores/seven)" = 'kept 16 bytes, 1 record; dropped 0 bytes, 0 holes' ] ||
  wrong "salvage with the table of a store"
[ "$($tool salvage - $out/salvage/bare.too --settings $stores/seven <$out/salvage/bare)" = 'kept 16 bytes, 1 record; dropped 0 bytes, 0 holes' ] &&
  cmp -s $out/salvage/bare.out $out/salvage/bare.too || wrong "salvage of standard input"
refuses 1 '-: there is no table of events beside it' salvage - $out/salvage/new
head -c 20 $stores/seven >$stores/torn
refuses 1 'torn: ' salvage $out/salvage/bare $out/salvage/new --settings $stores/torn
refuses 1 'No such file' salvage $out/salvage/bare $out/salvage/new --settings $stores/none
# what is there is not overwritten, and a failure leaves no file behind
printf "$switch" | fresh kept $out/salvage/seven
echo old >$out/salvage/old
refuses 1 'old: it is there already, and nothing is overwritten' salvage $out/salvage/kept $out/salvage/old
refuses 1 'old: it is there already' salvage $out/salvage/kept $out/salvage/new --changes $out/salvage/old
refuses 1 'kept: it is there already' salvage $out/salvage/kept $out/salvage/kept
refuses 1 'new: it is there already' salvage $out/salvage/kept $out/salvage/new --changes $out/salvage/new
refuses 1 'No such file' salvage $out/salvage/kept $out/salvage/no/new
[ "$(cat $out/salvage/old)" = old ] && [ ! -e $out/salvage/new ] || wrong "salvage overwrites a file, or leaves one behind"
cmp -s $out/salvage/kept <(printf "$switch") || wrong "salvage overwrites its input"
refuses 1 'No such file' salvage $out/salvage/none $out/salvage/new
refuses 1 'Is a directory' salvage rings $out/salvage/new
refuses 1 'no table of events beside it' salvage rings/tasks.img $out/salvage/new
printf '7 0x10000 0 0 0 0 0\n' >$out/salvage/seven
printf "$switch" | fresh unsound $out/salvage/seven
refuses 1 'not salvaged: 11, the table of events is not allowed' salvage $out/salvage/unsound $out/salvage/new
sed -i 's/^/x/' $out/salvage/unsound.table
refuses 1 'no table of events: line 1' salvage $out/salvage/unsound $out/salvage/new
refuses 2 'too few words' salvage $out/salvage/kept
refuses 2 'too many words' salvage a b c
refuses 2 'a value is wanted behind --changes' salvage $out/salvage/kept $out/salvage/new --changes
refuses 2 'a number from 1 to 4 is wanted' salvage $out/salvage/kept $out/salvage/new --edition 5
refuses 2 'unknown option --list' salvage $out/salvage/kept $out/salvage/new --list
[ ! -e $out/salvage/new ] || wrong "a refused salvage leaves a file behind"
$tool salvage --edition 1 $out/salvage/kept $out/salvage/first | grep -qx 'hole at 0: 16 bytes, up to the end' ||
  wrong "salvage in edition 1, which knows no identifiers"

# ---- compare: rings beside themselves, at other counts, with a byte or a record changed
mkdir -p $out/compare
$out/fields rings/*.img rings/events/*.img $out/made/*.img >$out/fields.txt || { wrong "fields by number"; head $out/fields.txt; }
tail -n 1 $out/fields.txt
compares() { # STATUS LINE A B [OPTION..]: what is printed
  local due=$1 line=$2 said status
  shift 2
  said=$($tool compare "$@" 2>&1)
  status=$?
  [ "$status" -eq "$due" ] && [ "$said" = "$line" ] || wrong "compare $*: exit $status, '$said' and not '$line'"
  tried=$((tried + 1))
}
# an image: head and tail in octal bytes, sample type with bit 16, the edition (4), sample_id_all, then 64 bytes from stdin
image_of() { # NAME HEAD TAIL [EDITION]
  { printf "$2\\0\\0\\0\\0\\0\\0\\0$3\\0\\0\\0\\0\\0\\0\\0\\0\\0\\1\\0\\0\\0\\0\\0"; head -c 24 /dev/zero; printf "\\${4:-4}\\1"
    { cat; head -c 64 /dev/zero; } | head -c 64; } >$out/compare/"$1".img
}
for image in rings/events/children.img rings/events/counters.img rings/tasks.img; do
  records=$($tool dump $image | sed -n 's/^\([0-9]*\) records,.*/\1/p')
  compares 0 "alike: $records records" $image $image
done
lost() { printf '\2\0\0\0\0\0\040\0\5\0\0\0\0\0\0\0\'"$1"'\0\0\0\0\0\0\0\7\0\0\0\0\0\0\0'; }
{ printf "$switch"; lost 6; } | image_of six '\060' '\0'
{ printf "$switch"; lost 7; } | image_of seven '\060' '\0'
# the same records from count 32 on: the LOST begins at 48 and goes on at 0
{ lost 6 | tail -c 16; head -c 16 /dev/zero; printf "$switch"; lost 6 | head -c 16; } | image_of moved '\120' '\040'
printf "$switch" | image_of short '\020' '\0'
{ printf "$switch"; lost 6; } | image_of cut '\050' '\0'
{ printf "$switch$switch"; } | image_of switches '\040' '\0'
{ printf '\016\0\0\0\2\0\020\0\7\0\0\0\0\0\0\0'; lost 6; } | image_of user '\060' '\0'
{ printf '\016\0\0\0\0\0\020\0\6\0\0\0\0\0\0\0'; lost 6; } | image_of other '\060' '\0'
{ printf '\026\0\0\0\0\0\020\0\7\0\0\0\0\0\0\0'; lost 6; } | image_of unknown '\060' '\0'
{ printf '\026\0\0\0\0\0\020\0\7\1\0\0\0\0\0\0'; lost 6; } | image_of unknown-too '\060' '\0'
{ printf '\003\0\0\0\0\0\040\0\1\0\0\0\1\0\0\0kiln\0\0\0\0\7\0\0\0\0\0\0\0'; } | image_of kiln '\040' '\0'
{ printf '\003\0\0\0\0\0\040\0\1\0\0\0\1\0\0\0oven\0\0\0\1\7\0\0\0\0\0\0\0'; } | image_of oven '\040' '\0'
{ printf '\003\0\0\0\0\0\040\0\1\0\0\0\1\0\0\0kiln\0\0\0\1\7\0\0\0\0\0\0\0'; } | image_of dirty '\040' '\0'
of=$out/compare
compares 0 'alike: 2 records' $of/six.img $of/moved.img
compares 1 'record 1 (LOST): field 6, lost, 6 and 7' $of/six.img $of/seven.img
compares 1 'record 1 (LOST): field 6, lost, 7 and 6' $of/seven.img $of/moved.img
compares 1 "$of/short.img ended after 1 equal record" $of/short.img $of/six.img
compares 1 "$of/short.img ended after 1 equal record" $of/six.img $of/short.img
compares 1 'record 1 (LOST and SWITCH): field 1, type, 2 and 14' $of/six.img $of/switches.img
compares 1 'record 0 (SWITCH): field 2, misc, 0 and 2' $of/six.img $of/user.img
compares 1 'record 0 (SWITCH): field 4, identifier, 7 and 6' $of/six.img $of/other.img
compares 1 'record 0 (SWITCH and unknown type): field 0, answer, 0 and 20' $of/six.img $of/unknown.img
compares 0 'alike: 2 records' $of/unknown.img $of/unknown.img
compares 1 'record 0 (unknown type): field 1, the bytes of both, refused with 20, byte 9: 00 and 01' $of/unknown.img $of/unknown-too.img
compares 1 'record 0 (COMM): field 7, name, "kiln" and "oven"' $of/kiln.img $of/oven.img
compares 1 'record 0 (COMM): field 8, name flag, 0 and 1' $of/kiln.img $of/dirty.img
compares 2 "ollskuvan compare: $of/cut.img: stop 7 after 1 equal record: the record's size passes the head" $of/six.img $of/cut.img
compares 2 "ollskuvan compare: $of/cut.img: stop 7 after 1 equal record: the record's size passes the head" $of/cut.img $of/six.img
# under a newer edition than the images' own, which alone accepts their records: their identifiers stand for an event too
newer() { printf '\025\0\0\0\0\0\030\0\'"$1"'\0\0\0\0\0\0\0\7\0\0\0\0\0\0\0'; }
newer 5 | image_of newer '\030' '\0' 3
newer 6 | image_of newer-too '\030' '\0' 3
compares 1 'record 0 (AUX_OUTPUT_HW_ID): field 1, the bytes of both, refused with 20, byte 8: 05 and 06' $of/newer.img $of/newer-too.img
compares 1 'record 0 (AUX_OUTPUT_HW_ID): field 5, hardware id, 5 and 6' $of/newer.img $of/newer-too.img --edition 4
# records that are refused have their own numbers, as in dump, and take no event's place; too short for an identifier they have 27
refused() { printf '\2\0\0\0\0\0\030\0\5\0\0\0\0\0\0\0\'"$1"'\0\0\0\0\0\0\0'; }
refused 6 | image_of refused '\030' '\0'
refused 7 | image_of refused-too '\030' '\0'
{ refused 7; printf "$switch"; } | image_of refused-first '\050' '\0'
printf '\2\0\0\0\0\0\010\0' | image_of no-identifier '\010' '\0'
printf '\2\0\0\0\1\0\010\0' | image_of no-identifier-too '\010' '\0'
$tool dump $of/refused.img | grep -q '^    refused: 30, ' || wrong "a LOST that is too short is not refused with 30"
compares 1 'record 0 (LOST): field 1, the bytes of both, refused with 30, byte 16: 06 and 07' $of/refused.img $of/refused-too.img
compares 1 'record 0 (LOST): field 1, the bytes of both, refused with 30, byte 16: 06 and 07' $of/refused.img $of/refused-first.img
compares 1 'record 0 (LOST): field 1, the bytes of both, refused with 27, byte 4: 00 and 01' $of/no-identifier.img $of/no-identifier-too.img
cp $of/refused-first.img $of/before.img && printf '7 0x10000 0 0 0 0 1\n' >$of/before.table
compares 0 'alike: 2 records' $of/refused-first.img $of/before.img
# tables: one that is not allowed, events that are told otherwise
cp $of/six.img $of/table.img && printf '7 0x10000 0 0 0 0 1\n' >$of/table.table
compares 0 'alike: 2 records' $of/table.img $of/six.img
cp $of/six.img $of/timed.img && printf '7 0x10004 0 0 0 0 1\n' >$of/timed.table
compares 2 "ollskuvan compare: $of/timed.img: event 7 has other attributes than on the other side" $of/six.img $of/timed.img
cp $of/six.img $of/unsound.img && printf '7 0x4 0 0 0 0 1\n' >$of/unsound.table
compares 2 "ollskuvan compare: $of/unsound.img: stop 11 after 0 equal records: the table of events is not allowed" \
  $of/unsound.img $of/unsound.img
refuses 2 'its records carry no identifier' compare rings/switches-cpu-wide.img rings/switches-cpu-wide.img
refuses 2 'edition 4 and' compare $of/six.img rings/tasks.img
refuses 2 'No such file' compare $of/six.img $of/none.img
refuses 2 'no ring image' compare $out/49.img $of/six.img
refuses 2 'a number from 1 to 4 is wanted' compare $of/six.img $of/six.img --edition 5
refuses 2 'too few words' compare $of/six.img
compares 1 'record 1 (LOST): field 1, the bytes of both, refused with 21, byte 16: 06 and 07' --edition 1 $of/six.img $of/seven.img
$tool compare $of/six.img $of/six.img >/dev/full 2>/dev/null
[ $? -eq 2 ] || wrong "compare to a full device is no trouble"

# ---- output that cannot be written
for words in 'dump rings/tasks.img' 'journal rings/tasks.img' 'report rings/tasks.img' 'explain 7' --help --version \
  'dump --help' "settings show $stores/three" 'settings --help'; do
  # shellcheck disable=SC2086
  {
    said=$($tool $words 2>&1 >/dev/full) && wrong "ollskuvan $words to a full device: exit 0"
    [ "$(echo "$said" | grep -c 'cannot be written: No space')" -eq 1 ] || wrong "ollskuvan $words, full device: '$said'"
    said=$($tool $words 2>&1 >&-) && wrong "ollskuvan $words to a closed output: exit 0"
    [ "$(echo "$said" | grep -c 'cannot be written')" -eq 1 ] || wrong "ollskuvan $words, closed output: '$said'"
  }
  tried=$((tried + 2))
done

# ---- help, version, explain
for words in --help -h 'dump --help' 'dump -h' 'journal -h' 'explain -h' 'report -h' 'record -h' 'settings -h' 'replay -h' 'salvage -h' 'compare -h'; do
  # shellcheck disable=SC2086
  $tool $words 2>/dev/null | grep -q '^usage: ollskuvan' || wrong "ollskuvan $words is no help"
done
[ "$($tool --version)" = "ollskuvan $version" ] || wrong "--version"
for number in $(sed -nE 's/^#define OLLSKUVAN_(STOP|REFUSED)_[A-Z_]+ ([0-9]+)u.*/\2/p' $header | sort -un); do
  $tool explain "$number" | grep -qE "^(stop|refusal) $number: ." || wrong "explain $number"
done
used=$(sed -nE 's/^#define OLLSKUVAN_(OK|DIRTY_NAME|(STOP|REFUSED)_[A-Z_]+) ([0-9]+)u.*/\3/p' $header | sort -un | wc -l)
told=$($tool explain --all | sed -n 's/^[a-z]* \([0-9]*\):.*/\1/p' | sort -un | wc -l)
[ "$told" = "$used" ] || wrong "explain --all tells other numbers than the header"
[ "$($tool explain 0 7 23 | grep -c '^[a-z]')" -eq 5 ] || wrong "explain 0 7 23: five answers are due"
$tool explain 43 | grep -q "^refusal 43: the value has a name's flag set" || wrong "explain 43"
$tool explain 44 | grep -q '^answer 44: accepted, with stale bytes after the name' || wrong "explain 44 as no refusal"

# ---- report and record are the examples' own
[ ! -x target/examples/late ] || {
  $tool report examples/rings/kiln-cpu0.img examples/rings/kiln-cpu1.img >$out/report.txt || wrong "report failed"
  target/examples/late examples/rings/kiln-cpu0.img examples/rings/kiln-cpu1.img | cmp -s - $out/report.txt ||
    wrong "report is not what late prints"
}
$tool report $out/49.img >/dev/null 2>&1 && wrong "report of no image"
$tool record --seconds 0.2 --save $out/live >$out/record.txt 2>&1
case $? in
  0)
    for image in $out/live-cpu*.img; do $tool dump "$image" >$out/live.txt || wrong "dump of $image, taken live"; done
    ;;
  3) echo "record: not tried live: $(tail -n 1 $out/record.txt)" ;;
  *) wrong "record failed: $(tail -n 1 $out/record.txt)" ;;
esac

# (a cpu that sleeps all the while has nothing in its ring: each is woken until the time is up)
$tool record --seconds 0.2 --pages 1 --flight $out/flight >$out/record.txt 2>&1 &
while kill -0 $! 2>/dev/null; do
  for cpu in $(seq 0 $(($(getconf _NPROCESSORS_ONLN) - 1))); do taskset -c "$cpu" true 2>/dev/null; done
done
wait $!
case $? in
  0)
    for image in $out/flight-cpu*.img; do
      $tool dump "$image" >$out/live.txt || wrong "dump of $image, a flight recorder's"
      grep -q '^written     backward' $out/live.txt && grep -q ' bytes, 0 refused$' $out/live.txt || wrong "dump of $image, a flight recorder's"
    done
    ;;
  3) ;;
  *) wrong "record --flight failed: $(tail -n 1 $out/record.txt)" ;;
esac

$tool record --seconds 0.2 --events page-faults,cpu-clock --save $out/several >$out/record.txt 2>&1
case $? in
  0)
    for image in $out/several-cpu*.img; do
      $tool dump "$image" >$out/live.txt || wrong "dump of $image, taken live"
      grep -q 'a table of 3 events$' $out/live.txt || wrong "dump of $image, taken live: without its table"
      grep -q ' bytes, 0 refused$' $out/live.txt || wrong "dump of $image, taken live: records are refused"
    done
    ;;
  3) ;;
  *) wrong "record --events failed: $(tail -n 1 $out/record.txt)" ;;
esac

# ---- settings that are kept: written at a start, started from, and replaced by nothing that is none
kept=$stores/live
$tool record --seconds 0.1 --settings $kept --events page-faults --budget 9 --pages 2 >$out/record.txt 2>&1
case $? in
  0)
    grep -q "^kept in $kept: 2 events, .*, edition 4, a budget of 9\$" $out/record.txt || wrong "record --settings does not say what it keeps"
    $tool settings write $stores/same --events page-faults --budget 9 --pages 2 >/dev/null
    cmp -s $kept $stores/same || wrong "record --settings keeps other settings than settings write"
    $tool record --seconds 0.1 --settings $kept >$out/record.txt 2>&1 || wrong "record does not start from its settings: $(tail -n 1 $out/record.txt)"
    grep -q "^settings of $kept: 2 events" $out/record.txt && grep -q ' drains of at most 9 records' $out/record.txt && grep -q '^  of event page-faults' $out/record.txt ||
      wrong "record starts from other settings than it kept"
    ! grep -q '^kept in' $out/record.txt && cmp -s $kept $stores/same || wrong "record --settings writes settings that are there already"
    $tool record --seconds 0.1 --settings $kept --budget 11 >/dev/null 2>&1 || wrong "record --settings with another budget"
    shows $kept 'budget      11' 'event 1     identifier 3'
    ;;
  3) ;;
  *) wrong "record --settings failed: $(tail -n 1 $out/record.txt)" ;;
esac
# a store that is none ends it, whatever the kernel allows, and is left alone; so are settings that it does not open
starts() { # FILE WORDS
  cp "$1" $out/kept
  refuses 1 "$2" record --seconds 0.1 --settings "$1"
  cmp -s "$1" $out/kept || wrong "record --settings $1 changes a store that it does not start from"
}
starts $stores/edition "$stores/edition: no settings: refused with 52 at byte 176: edition 5"
starts $stores/cut-194 'refused with 51 at byte 176'
starts $stores/empty 'refused with 51 at byte 0: it is empty'
starts $stores/image 'is none that this program opens'
other() { cp $stores/three "$stores/$1" && printf "$3" | dd of="$stores/$1" bs=1 seek="$2" conv=notrunc status=none; }
other budget-0 191 '\000'
starts $stores/budget-0 'a budget of 0 records: 1 to 4096 are taken here'
other ring-64 182 '\100\000'
starts $stores/ring-64 'a ring of 64 bytes: a live one has at least a page'
other sampled 72 '\011'
starts $stores/sampled 'event 1, number 9, is none that this program opens'
refuses 2 "--settings: a file is wanted, not '-'" record --settings -

# ---- examples/decode.c on this kernel: a program that starts on cpu 0 is named, mapped and switched to. A busy machine may take
# longer than the second that it looks: three tries
decodes() {
  timeout 1 target/examples/decode 0 >$out/decode.txt 2>$out/decode.err &
  for _ in 1 2 3 4 5; do sleep 0.1; taskset -c 0 /bin/true; done
  wait $!
  ended=$?
  missing=
  if [ $ended -eq 124 ]; then
    for words in ' is called true$' ' maps .*/true$' ' in$' ' out$'; do
      grep -q -- "$words" $out/decode.txt || missing="$missing '$words'"
    done
    [ -z "$missing" ]
  fi
}
if [ -x target/examples/decode ]; then
  decodes || decodes || decodes
  if [ $ended -eq 1 ] && grep -qE 'ermi|not implemented|No such file' $out/decode.err; then
    echo "decode: not tried live: $(cat $out/decode.err)"
  elif [ $ended -ne 124 ]; then
    wrong "decode ended with $ended: $(cat $out/decode.err)"
  elif [ -n "$missing" ]; then
    wrong "decode does not print$missing"
  fi
fi

# ---- damaged images under the sanitizers
$out/damage ${DAMAGED:-1000} $out/damaged.img rings/*.img rings/backward/*.img examples/rings/*.img $out/made/*.img $out/indexed/*.img 2>$out/damage.txt ||
  { wrong "dump or journal of a damaged image: $(head -n 20 $out/damage.txt)"; }
said=$(grep -E 'runtime error|Sanitizer' $out/damage.txt | head -n 3)
[ -z "$said" ] || wrong "the sanitizers: $said"

[ $failures -eq 0 ] || { echo "program: $failures wrong"; exit 1; }
echo "program: $tried images and command lines as expected, ${DAMAGED:-1000} damaged images without a fault"
