#!/usr/bin/env bash
# The report on the shipped rings and on rings of written scenes against the fixed output in examples/expected; what each scene
# says of itself ('# says:', '# never:', '# status:'); wrong arguments and bad input, which are named; exit codes; width; pictures;
# a million records.
#
#   examples/test.sh [FOLDER]            FOLDER holds the built programs (target/examples)
#   examples/test.sh --write [FOLDER]    writes the expected output anew: read the difference before you keep it
set -u
cd "$(dirname "$0")/.." || exit 2
write=
[ "${1:-}" = --write ] && { write=1; shift; }
programs=${1:-target/examples}
late=$programs/late
out=target/examples/reports
for p in late controller make_rings; do
  [ -x "$programs/$p" ] || { echo "examples/test.sh: $programs/$p is not built (see examples/README.md)" >&2; exit 1; }
done
rm -rf "$out" && mkdir -p "$out" examples/expected || exit 2
failures=0
wrong() { echo "WRONG: $*"; failures=$((failures + 1)); }
bad=0

# ---- reports against the expected ones

widest() { awk '{ if (length($0) > n) n = length($0) } END { print n + 0 }' "$1"; }

# the picture: XML, a title on each slice, its first sentence the verdict, and nothing in the legend that is not drawn
look_at_picture() { # NAME
  local svg=$out/$1.svg fill first
  if command -v xmllint >/dev/null; then
    xmllint --noout "$svg" 2>"$out/$1.lint" || wrong "$1: the picture is no XML: $(head -n 1 "$out/$1.lint")"
  elif [ "$(tail -n 1 "$svg")" != '</svg>' ]; then
    wrong "$1: the picture has no end"
  fi
  grep -E 'height="(42|26).0"' "$svg" | grep -qv '<title>.*</title>' && wrong "$1: a slice has no title"
  while read -r fill; do
    grep -F "fill=\"$fill\"" "$svg" | grep -q -E 'height="(42|26).0"' || wrong "$1: the legend has $fill, which is not drawn"
  done < <(sed -n 's/.*height="14" fill="\([^"]*\)".*/\1/p' "$svg")
  first=$(head -n 1 "$out/$1.txt")
  grep -q 'Nothing to draw' "$svg" || grep -q -F -e "${first:0:60}" "$svg" || wrong "$1: the picture does not say: $first"
}

count=0
try() { # NAME STATUS ARGUMENT..
  local name=$1 status=$2 said
  shift 2
  "$late" --svg "$out/$name.svg" "$@" >"$out/$name.txt" 2>"$out/$name.err"
  said=$?
  [ "$said" -eq "$status" ] || wrong "late $*: status $said, not $status: $(head -n 1 "$out/$name.err")"
  [ "$(widest "$out/$name.txt")" -le 80 ] || wrong "$name: a line of $(widest "$out/$name.txt") columns"
  if [ -n "$write" ]; then
    cp "$out/$name.txt" "examples/expected/$name.txt" || exit 2
  elif ! diff -u "examples/expected/$name.txt" "$out/$name.txt" >"$out/$name.diff"; then
    wrong "$name: the report differs from examples/expected/$name.txt"
    head -n 20 "$out/$name.diff"
  fi
  [ -s "$out/$name.svg" ] && look_at_picture "$name"
  count=$((count + 1))
}

# rings without a switch have nobody to watch: 1
for image in rings/*.img; do
  [ -f "$image" ] || continue
  name=$(basename "$image" .img)
  case $name in
    switches) try "$name" 0 "$image" ;;
    *) try "$name" 1 "$image"
      [ "$(head -n 1 "$out/$name.txt")" = 'nobody was switched out and in again: there is nobody to watch' ] || wrong "$name: somebody is watched" ;;
  esac
done
try kiln 0 examples/rings/kiln-cpu0.img examples/rings/kiln-cpu1.img
grep -q "^late: waited 41\.2 ms: cpu 1 ran 'backup' 18805/18805\$" "$out/kiln.txt" || wrong "kiln: another verdict"

# rings of several events, each read with the table beside it: no record is refused
for image in rings/events/*.img; do
  name=events-$(basename "$image" .img)
  try "$name" 0 "$image"
  grep -q 'a table of 4 events$' "$out/$name.txt" || wrong "$name: read without its table"
  grep -q ', 0 refused, ' "$out/$name.txt" || wrong "$name: records of an event are refused"
done
# backward rings: from the oldest record to the newest, as far back as they reach. Those of one thread that only sleeps have nobody
# who waited, but somebody to watch
for image in rings/backward/*.img; do
  name=backward-$(basename "$image" .img)
  case $name in
    *-tasks) try "$name" 1 "$image" ;;
    *) try "$name" 0 "$image" ;;
  esac
  grep -q '^  a flight recorder: the last [0-9.]* ms; ' "$out/$name.txt" || wrong "$name: not read as a backward ring"
  grep -q ', 0 refused, ' "$out/$name.txt" || wrong "$name: records are refused"
  awk '/^times are/ { on = 1; next } on && $1 ~ /^[0-9]+\.[0-9]+$/ { if ($1 + 0 < before) exit 1; before = $1 + 0; n++ } END { exit n == 0 }' "$out/$name.txt" ||
    wrong "$name: a record stands before an older one"
done
grep -q 'it has not gone round$' "$out/backward-short.txt" || wrong "backward-short: it has gone round"
for name in round whole tasks events; do
  grep -q 'what came before is overwritten$' "$out/backward-$name.txt" || wrong "backward-$name: it has not gone round"
done
# the same without one of the events, with no table, and with tables that are none
alter() { # NAME SED-EXPRESSION
  cp rings/events/counters.img "$out/$1.img" && sed "$2" rings/events/counters.table >"$out/$1.table"
}
told() { # NAME STATUS WORDS
  "$late" --short "$out/$1.img" >"$out/$1.txt" 2>"$out/$1.err"
  [ $? -eq "$2" ] || wrong "$1: another status than $2"
  cat "$out/$1.txt" "$out/$1.err" | grep -q -e "$3" || wrong "$1: it does not say '$3'"
  bad=$((bad + 1))
}
cp rings/events/counters.img "$out/tableless.img"
told tableless 0 'edition 3$'
alter fewer '5d'
told fewer 0 ', 10 refused, '
back() { # NAME OFFSET OCTAL-BYTES: a backward ring with other bytes
  cp rings/backward/short.img "$out/$1.img" && printf "$3" | dd of="$out/$1.img" bs=1 seek="$2" conv=notrunc status=none
}
back back-size $((50 + 4096 - 80 + 6)) '\004'
told back-size 1 'NOT READ TO ITS END: stop 6 at tail'
back back-edition 48 '\007'
told back-edition 1 'NOT READ TO ITS END: stop 2 at tail'
back back-odd 0 '\001'
told back-odd 1 'NOT READ TO ITS END: stop 4 at tail'
alter unsound 's/0x10086/0x86/'
told unsound 1 'NOT READ TO ITS END: stop 11 at tail'
alter twice '5p'
told twice 1 'NOT READ TO ITS END: stop 11 at tail'
alter six-words '3s/ 1 #/ #/'
told six-words 1 'no table of events: line 3 has other than the seven words'
alter letters '3s/0x0/zero/'
told letters 1 'no table of events: line 3'
alter too-great '3s/0x0/0x10000000000000000/'
told too-great 1 'no table of events: line 3'
alter eventless '2,$d'
told eventless 1 'no table of events'
alter many '2,$d'
seq 1 1025 | sed 's/$/ 0x10000 0 0 0 0 1/' >>"$out/many.table"
told many 1 'line 1026 has one more event than a table may have'

# ---- scenes: rings that are made of what is written down
tell() { sed -n "s/^# $2: //p" "examples/scenes/$1.txt"; }
for scene in examples/scenes/*.txt; do
  scene=$(basename "$scene" .txt)
  name=scene-$scene
  "$programs/make_rings" "examples/scenes/$scene.txt" "$out/$name" || { wrong "$name: no rings"; continue; }
  images=()
  for cpu in $(tell "$scene" rings); do images+=("$out/$name-cpu$cpu.img"); done
  [ ${#images[@]} -ne 0 ] || images=("$out/$name"-cpu*.img)
  status=$(tell "$scene" status)
  # shellcheck disable=SC2046 # words are wanted
  try "$name" "${status:-0}" $(tell "$scene" arguments) "${images[@]}"
  cat "$out/$name.err" >>"$out/$name.txt"
  while read -r words; do grep -q -E -e "$words" "$out/$name.txt" || wrong "$name: it does not say '$words'"; done < <(tell "$scene" says)
  while read -r words; do grep -q -E -e "$words" "$out/$name.txt" && wrong "$name: it says '$words'"; done < <(tell "$scene" never)
  [ -n "$(tell "$scene" says)" ] || wrong "$name: the scene claims nothing"
done
for expected in examples/expected/*.txt; do
  [ -f "$out/$(basename "$expected")" ] || wrong "$expected: there is no such ring any more"
done
[ "$count" -ge 30 ] || wrong "only $count reports were tried"

# ---- a wider report, standard input, names from a file
kiln=(examples/rings/kiln-cpu0.img examples/rings/kiln-cpu1.img)
"$late" --columns 120 "${kiln[@]}" >"$out/wide.txt" || wrong "late --columns 120 failed"
columns=$(widest "$out/wide.txt")
[ "$columns" -le 120 ] && [ "$columns" -gt 80 ] || wrong "--columns 120: the widest line has $columns"
"$late" - <examples/rings/kiln-cpu1.img | tail -n +30 >"$out/input.txt"
"$late" examples/rings/kiln-cpu1.img | tail -n +30 | cmp -s - "$out/input.txt" || wrong "standard input gives another report"
printf "begin 17880 18115 mixer\nend 12128 12371 it\\\\x27s odd\n" >"$out/names.list"
"$late" --short --names "$out/names.list" "${kiln[@]}" >"$out/named.txt" || wrong "late --names failed"
grep -q "35\.465 ms  'mixer' 17880/18115\$" "$out/named.txt" || wrong "--names: the name of a thread is not shown"
grep -q "31\.895 ms  'it\\\\x27s odd' 12128/12371\$" "$out/named.txt" || wrong "--names: an odd name is not shown as it is"

# ---- 8 bytes behind the ring are the branch sample type, which no record of this ring asks for
{ cat examples/rings/kiln-cpu1.img; printf '\011\000\002\000\000\000\000\000'; } >"$out/branch.img"
"$late" "$out/branch.img" | sed 's/branch\.img/kiln-cpu1.img/' >"$out/branch.txt" || wrong "late failed on an image with a branch sample type"
"$late" examples/rings/kiln-cpu1.img | cmp -s - "$out/branch.txt" || wrong "an image with a branch sample type gives another report"

# ---- wrong arguments and bad input are named, and nothing is printed as if it were a report
refuses() { # STATUS WORDS PROGRAM ARGUMENT..
  local status=$1 words=$2 program=$3 said printed
  shift 3
  said=$("$programs/$program" "$@" 2>&1 >"$out/refused.txt" </dev/null)
  printed=$?
  [ "$printed" -eq "$status" ] || wrong "$program $*: status $printed, not $status"
  case "$said" in *"$words"*) ;; *) wrong "$program $*: does not say '$words' but: $said" ;; esac
  [ ! -s "$out/refused.txt" ] || wrong "$program $*: prints all the same"
  bad=$((bad + 1))
}
head -c 49 examples/rings/kiln-cpu0.img >"$out/short.img"
{ cat examples/rings/kiln-cpu0.img; head -c 1048576 /dev/zero; } >"$out/long.img"
refuses 1 'No such file' late "$out/none.img"
refuses 1 'Is a directory' late "$out"
refuses 1 'fewer than 50 bytes' late "$out/short.img"
refuses 1 'fewer than 50 bytes' late -
refuses 1 'more than 1,048,576 bytes' late "$out/long.img"
refuses 1 'no record tells of a thread nobody' late --watch nobody examples/rings/kiln-cpu1.img
refuses 1 'no record tells of a thread 4294967295' late --watch 4294967295 examples/rings/kiln-cpu1.img
refuses 1 'no file of names' late --names examples/rings/kiln-cpu0.img "${kiln[@]}"
refuses 1 'No such file' late --names "$out/none.list" "${kiln[@]}"
refuses 1 'it cannot be read: Is a directory' late --names "$out" "${kiln[@]}"
refuses 1 'No such file' late --svg "$out/none/kiln.svg" "${kiln[@]}"
refuses 2 'usage: late ' late --nonsense
refuses 2 'usage: late ' late
refuses 2 '--period goes with --watch' late --period 10 "${kiln[@]}"
refuses 2 '--period: more than 0' late --watch kiln --period 0 "${kiln[@]}"
refuses 2 '--period: more than 0' late --watch kiln --period nan "${kiln[@]}"
refuses 2 '--columns: a number from 80' late --columns 79 "${kiln[@]}"
refuses 2 '--seconds and --pages go with --live' late --seconds 1 "${kiln[@]}"
refuses 2 '--seconds: more than 0' late --live --seconds -1
refuses 2 '--names goes with saved rings' late --live --names "$out/names.list"
for p in late controller; do
  live=; [ $p = late ] && live=--live
  for pages in 0 3 5 512 -4 4x ''; do
    refuses 2 "--pages: a power of two from 1 to 256 is wanted, not '$pages'" $p $live --pages "$pages"
  done
done
refuses 2 'usage: controller ' controller --nonsense
refuses 2 '--cpu: cpu 7777 is not online' controller --cpu 7777
refuses 2 '--cpu: a number from 0' controller --cpu -1
refuses 2 '--budget: a number from 1' controller --budget 0
refuses 2 '--edition: a number from 1 to 4' controller --edition 5
for bits in 0 0x '' -1 9x 0xg 0x10000000000000000; do
  refuses 2 "--branch: bits are wanted, as a number or as 0x.. and not 0, not '$bits'" controller --branch "$bits"
done
refuses 2 '--branch and --clock are one event' controller --clock --branch 0x9
for list in '' faults page-faults, page-faults,page-faults 'page-faults cpu-clock'; do
  refuses 2 '--events: some of cpu-clock, page-faults, context-switches and cpu-migrations are wanted' controller --events "$list"
done
refuses 2 '--clock and --events cpu-clock are the same counter' controller --clock --events page-faults,cpu-clock
refuses 2 'RECORDS: a number from 1' make_rings --many x 5 "$out/none"
refuses 2 'LOST: a number from 0' make_rings --many 10 -5 "$out/none"
refuses 2 'RECORDS: a number from 1' load_test 0
refuses 1 'No such file' controller --save "$out/none/saved"
# a store that is none is named with its number and place, and left as it is
printf '\010\000\000\000\001\000\001\000\007' >"$out/broken.store" && cp "$out/broken.store" "$out/broken.kept"
refuses 1 'broken.store: no settings: refused with 51 at byte 8: 1 byte is left' controller --settings "$out/broken.store"
cmp -s "$out/broken.store" "$out/broken.kept" || wrong "controller --settings writes over a store that it cannot read"
refuses 1 'Is a directory' controller --settings "$out"
refuses 2 "--settings: a file is wanted, not '-'" controller --settings -
refuses 1 'No such file' controller --flight "$out/none/saved"
long=$(printf '%600s' '' | tr ' ' x)
refuses 1 '--save: the name is too long' controller --save "$long"
refuses 1 '--flight: the name is too long' controller --flight "$long"
refuses 1 'Is a directory' late --svg "$out" "${kiln[@]}"
refuses 2 'one of --save and --flight is wanted, once' controller --save "$out/a" --flight "$out/b"
refuses 2 'one of --save and --flight is wanted, once' controller --flight "$out/a" --flight "$out/b"
refuses 2 '--late goes with --flight' controller --late 5
refuses 2 '--late goes with --flight' controller --late 5 --save "$out/a"
refuses 2 '--late: more than 0' controller --late 0 --flight "$out/a"
refuses 2 '--again goes with drains' controller --again --flight "$out/a"
refuses 2 '--report goes with none of --save, --flight and --again' controller --report 4 --flight "$out/a"
"$late" --help | grep -q '^usage: late ' || wrong "late --help"
(exec -a 'x/two words' "$late" --help) | grep -q '^usage: two words ' || wrong "the usage does not take its name from argv[0]"

# ---- output that cannot be written
unwritten() { # closed|PATH COMMAND..
  local to=$1 status
  shift
  if [ "$to" = closed ]; then "$@" 2>"$out/unwritten.err" >&-; else "$@" 2>"$out/unwritten.err" >"$to"; fi
  status=$?
  [ $status -eq 1 ] || wrong "$* to $to: status $status, though its output cannot be written"
  grep -q 'cannot be written' "$out/unwritten.err" || wrong "$* to $to: does not say that its output cannot be written"
  bad=$((bad + 1))
}
unwritten /dev/full "$late" "${kiln[@]}"
unwritten closed "$late" --short "${kiln[@]}"
unwritten /dev/full "$late" --help
unwritten /dev/full "$programs/controller" --help
unwritten /dev/null "$late" --svg /dev/full "${kiln[@]}"
# a call that fails loses nothing that was there, and leaves nothing beside it
keeps() { # FILE STATUS COMMAND..
  local file=$1 status=$2 said
  shift 2
  echo old >"$file"
  "$@" >/dev/null 2>"$out/kept.err" </dev/null
  said=$?
  [ $said -eq "$status" ] || wrong "$*: status $said, not $status: $(head -n 1 "$out/kept.err")"
  [ "$(cat "$file")" = old ] || wrong "$*: $file is lost"
  [ -z "$(find "$(dirname "$file")" -name '*.new-*')" ] || wrong "$*: leaves a file behind"
  bad=$((bad + 1))
}
no_room() { (trap '' XFSZ; ulimit -f 0; exec "$@" 2>/dev/null); } # no byte can be written to a file
mkdir -p "$out/keep"
keeps "$out/keep/kiln.svg" 1 "$late" --svg "$out/keep/kiln.svg" "$out/none.img"
keeps "$out/keep/kiln.svg" 1 "$late" --svg "$out/keep/kiln.svg" --watch nobody "${kiln[@]}"
keeps "$out/keep/kiln.svg" 1 no_room "$late" --svg "$out/keep/kiln.svg" "${kiln[@]}"
keeps "$out/keep/ring-cpu0.img" 1 no_room "$programs/make_rings" --many 1000 5 "$out/keep/ring"
rm "$out/keep/ring-cpu0.img"
no_room "$programs/make_rings" --many 1000 5 "$out/keep/ring"
[ ! -e "$out/keep/ring-cpu0.img" ] || wrong "half an image is left where it could not be written"
keeps "$out/keep/firing-names.txt" 2 "$programs/controller" --cpu 7777 --save "$out/keep/firing"
keeps "$out/keep/firing-names.txt" 2 "$programs/controller" --cpu 7777 --flight "$out/keep/firing"
"$late" --svg "$out/closed.svg" "${kiln[@]}" >&- 2>/dev/null
head -c 4 "$out/closed.svg" | grep -q '<svg' || wrong "with standard output closed the report goes into the picture"

# ---- a ring that breaks off is read up to there; the report says so, and so does the status
broken() { # NAME STATUS OFFSET OCTAL-BYTES WORDS
  cp examples/rings/kiln-cpu1.img "$out/$1.img"
  # shellcheck disable=SC2059 # it is a format
  printf "$4" | dd of="$out/$1.img" bs=1 seek="$3" conv=notrunc status=none
  "$late" "$out/$1.img" >"$out/$1.txt" 2>/dev/null
  [ $? -eq "$2" ] || wrong "$1: another status than $2"
  grep -q "$5" "$out/$1.txt" || wrong "$1: the report does not say '$5'"
  bad=$((bad + 1))
}
broken size-0 1 56 '\000\000' 'NOT READ TO ITS END: stop 6 at tail 0'
broken size-12 1 56 '\014\000' 'NOT READ TO ITS END: stop 6 at tail 0'
broken size-huge 1 56 '\370\377' 'NOT READ TO ITS END: stop 7 at tail 0'
broken edition-0 1 48 '\000' 'NOT READ TO ITS END: stop 2 at tail 0'
broken later 1 3392 '\000\000' 'NOT READ TO ITS END: stop 6 at tail 3336'
grep -q 'caution: later.img was not read to its end' "$out/later.txt" || wrong "later: no caution"
broken edition-2 0 48 '\002' 'MMAP2: 23, a build id, which the edition does'
broken edition-1 1 48 '\001' 'nobody was switched out and in again'

# ---- a million records, every fifth of them a LOST: in seconds of processor time (the limit ends it by a signal)
mkdir -p "$out/many" && "$programs/make_rings" --many 1000000 5 "$out/many/ring" || wrong "no million records"
(ulimit -t 30; exec "$late" --short --svg "$out/many.svg" "$out"/many/ring-cpu*.img) >"$out/many.txt" 2>"$out/many.err" ||
  wrong "a million records: $(tail -n 1 "$out/many.err")"
[ "$(sed -n 's/^  \([0-9]*\) records in .*/\1/p' "$out/many.txt" | awk '{ n += $1 } END { print n }')" = 1000000 ] || wrong "not a million records were read"
[ "$(wc -c <"$out/many.svg")" -lt 20000000 ] || wrong "the picture of a million records has $(wc -c <"$out/many.svg") bytes"

# progress where it takes longer than a second: the reader of the report is slow
"$late" "$out"/many/ring-cpu0.img "$out"/many/ring-cpu1.img 2>"$out/progress.err" | (sleep 3; cat >/dev/null)
grep -q '^late: writing the table: [0-9]* of 36000 records$' "$out/progress.err" || wrong "no word of progress"

# a signal ends the report
mkfifo "$out/nobody-reads" && exec 9<>"$out/nobody-reads"
"$late" "$out"/many/ring-cpu0.img >"$out/nobody-reads" 2>/dev/null & pid=$!
sleep 0.3; kill -TERM "$pid"; wait "$pid" 2>/dev/null
[ $? -eq 143 ] || wrong "SIGTERM does not end the report"
exec 9>&-
rm -rf "$out/many"

[ "$failures" -eq 0 ] || { echo "examples: $failures wrong"; exit 1; }
echo "examples: $count reports as expected, $bad bad inputs named, a million records read"
