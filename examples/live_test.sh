#!/usr/bin/env bash
# Live tests: workloads that know what they do are recorded, and the report is compared with what they know, and with what perf
# sched timehist says; signals and exit codes; a ring under load loses nothing without a count. Skipped with a word, and success,
# where the kernel does not allow perf events. What a busy machine may disturb is tried again.
#
#   examples/live_test.sh [FOLDER]     FOLDER holds the built programs (target/examples)
set -u
cd "$(dirname "$0")/.." || exit 2

# A machine that is shared may disturb any of it once. What errs errs every time: a run that was wrong is made again, whole, at most
# twice, and what was wrong in it stays in the output.
if [ "${LIVE_RUN:-}" = "" ]; then
  for run in 1 2 3; do
    LIVE_RUN=$run bash examples/live_test.sh "$@" && exit 0
    [ $run -eq 3 ] || echo "live tests: run $run was wrong; made again"
  done
  exit 1
fi
programs=${1:-target/examples}
work=target/examples/live
failures=0

die() { echo "live_test: $*" >&2; exit 1; }
wrong() { echo "WRONG: $*"; failures=$((failures + 1)); }

for p in controller late load_test workload; do
  [ -x "$programs/$p" ] || die "$programs/$p is not built (make -C examples; see examples/README.md)"
done
rm -rf "$work" && mkdir -p "$work" || exit 2

# ---- may we?
said=$("$programs/controller" --seconds 0.05 2>&1 >/dev/null)
case $? in
  0) ;;
  3) echo "live tests skipped: $said"; exit 0 ;;
  *) die "controller failed: $said" ;;
esac

# ---- the workload's own words against the report
# the report, each record on one line, blanks squeezed
flat() {
  awk '/^ *([0-9]+\.[0-9]+|-) +([0-9]+|-) (in|out|name|fork|exit|mapped|LOST|sample|REFUSED|other) / { if (line != "") print line; line = $0; next }
    line != "" { sub(/^ +/, ""); line = line " " $0 } END { print line }' "$1" | tr -s ' '
}

record() {
  "$programs/late" --live -- "$programs/workload" known "$work/facts" >"$work/report" 2>"$work/late.err" ||
    { cat "$work/late.err" >&2; die "late failed on the workload"; }
  flat "$work/report" >"$work/flat"
  [ "$(tail -n 1 "$work/facts")" = end ] || die "the workload did not reach its end"
}

for try in 1 2 3; do
  record
  grep -q ' lost by the kernel' "$work/report" || die "the report has no summary"
  grep -q -E ' [1-9][0-9]* lost by the kernel' "$work/report" || break
  echo "records were lost on a busy machine: recorded again ($try)"
done
longest=$(awk '{ if (length($0) > n) n = length($0) } END { print n + 0 }' "$work/report")
[ "$longest" -le 80 ] || wrong "the report has a line of $longest columns"
grep -q -E ' [1-9][0-9]* refused' "$work/report" && wrong "a record of the live kernel was refused"

facts=$work/facts
pid=$(awk '$1 == "pid" { print $2 }' "$facts")
program=$(sed -n 's/^program //p' "$facts")
sees() { grep -q -E -e "$2" "$work/flat" || wrong "$1 is not in the report ($2)"; }

sees "the program's start" " name '[^']*' $pid/$pid runs a new program: 'workload'\$"
while read -r name; do
  sees "the name $name" " name '[^']*' $pid/$pid is now called '$name'\$"
done < <(awk '$1 == "name" { print $2 }' "$facts")
while read -r child name; do
  sees "the fork of $child" " fork '[^']*' $child/$child started by '[^']*' $pid/$pid\$"
  sees "the name of child $child" " name '[^']*' $child/$child is now called '$name'\$"
  sees "the run of child $child" " in '[^']*' $child/$child"
  sees "the end of child $child" " exit '$name' $child/$child\$"
done < <(awk '$1 == "child" { print $2, $3 }' "$facts")
while read -r tid name; do
  sees "the start of thread $tid" " fork '[^']*' $pid/$tid started by '[^']*' $pid/$pid\$"
  sees "the name of thread $tid" " name '[^']*' $pid/$tid is now called '$name'\$"
  sees "the end of thread $tid" " exit '$name' $pid/$tid\$"
done < <(awk '$1 == "thread" { print $2, $3 }' "$facts")
sees "the end of the program" " exit '[^']*' $pid/$pid\$"

# switches between two names: not fewer than the kernel counted within, not more than around
read -r low high < <(awk '$1 == "naps" { print $2, $3 }' "$facts")
outs=$(awk -v who="$pid/$pid" '/is now called .naps-begin.$/ { on = 1 } /is now called .naps-end.$/ { on = 0 }
  on && $3 == "out" && index($0, " " who " ") { n++ } END { print n + 0 }' "$work/flat")
[ "$outs" -ge "$low" ] && [ "$outs" -le "$high" ] || wrong "switches out while it napped: $outs, the kernel counted $low to $high"

# mappings and build ids, as readelf shows them
build_id=
command -v readelf >/dev/null && build_id=$(readelf -n "$program" 2>/dev/null | sed -n 's/^ *Build ID: *//p')
if [ -z "$build_id" ]; then
  echo "build ids not compared: readelf is missing, or $program has none"
  build_id='[0-9a-f]*'
fi
plain() { printf '%s' "$1" | sed 's/[][\.*^$+?(){}|]/\\&/g'; }
with_id="( build id $build_id)"
grep -q ' build id ' "$work/flat" || { echo "this kernel gives no build ids"; with_id=""; }
if [ ${#program} -le 72 ]; then
  sees "the program's own mapping" " mapped '[^']*' $pid/$pid $(plain "$program")$with_id\$"
else
  sees "the program's own mapping" " mapped '[^']*' $pid/$pid \\(a name of ${#program} bytes: too long to show\\)"
fi
file=$(sed -n 's/^mapped //p' "$facts")
if [ -n "$file" ]; then
  sees "a name of 72 bytes" " mapped '[^']*' $pid/$pid $(plain "$file")$with_id\$"
  sees "a name of 73 bytes, said to be too long" " mapped '[^']*' $pid/$pid \\(a name of 73 bytes: too long to show\\)"
else
  echo "names of 72 and 73 bytes not tried: the folder's name is too long"
fi
echo "workload: $(wc -l <"$facts") facts compared with a report of $(wc -l <"$work/report") lines; $outs switches, the kernel counted $low to $high"

# ---- saved rings: what is saved can be read, and ringdump takes rings of four pages
"$programs/controller" --budget 7 --pages 4 --save "$work/saved" -- "$programs/workload" kiln >"$work/controller.out" 2>&1 ||
  { cat "$work/controller.out"; die "controller failed"; }
grep -q 'refused' "$work/controller.out" && wrong "the controller refused a record of the live kernel"
images=0
for image in "$work"/saved-cpu*.img; do
  [ -f "$image" ] || die "no image was saved"
  "$programs/late" --short "$image" >"$image.txt" 2>"$image.err"
  records=$(sed -n 's/^ *\([0-9]*\) records* in .*/\1/p' "$image.txt")
  if [ -x target/bin/ringdump ]; then
    entries=$(target/bin/ringdump <"$image" | grep -c '^10000000')
    [ "$entries" = "$records" ] || wrong "$image: late takes $records records, ringdump $entries"
  fi
  images=$((images + 1))
done

# ---- the same drains once more, as one: what a ring's drains gave is what one drain gives (M-113)
"$programs/controller" --budget 3 --pages 1 --again -- "$programs/workload" kiln >"$work/again.out" 2>&1 ||
  { cat "$work/again.out"; wrong "controller --again failed"; }
grep -q -E '  once more: [1-9][0-9]* records? in [1-9][0-9]* drains?, .*; 0 gave something else$' "$work/again.out" ||
  wrong "the drains of live rings once more, as one: $(grep 'once more' "$work/again.out")"
grep 'once more' "$work/again.out"

# ---- an old reader on new records: refuses, and goes on to the end
"$programs/controller" --edition 1 -- "$programs/workload" kiln >"$work/edition1.out" 2>&1 || wrong "controller failed in edition 1"
grep -q 'refused with 20 ' "$work/edition1.out" || wrong "edition 1 refused no record type"

# ---- workloads of which the truth is known
# Another machine may take the processor away at any time, or everything comes late, and perf misses a switch now and then: a try is
# repeated until one is right. A report that errs does so every time: where no try of twelve is right and three or more were wrong, it
# is wrong. The checks answer 0 right, 1 wrong, 2 disturbed (the workload's own clock tells), 3 not possible here; $why says it.
undisturbed() { # CHECK
  local try wrongs=0 differed=
  for ((try = 1; try <= 12; try++)); do
    why=
    "$1"
    case $? in
      0) [ $wrongs -eq 0 ] || echo "$1: right at try $try; it differed $wrongs times before: $differed"
         return ;;
      1) wrongs=$((wrongs + 1)) differed=$why ;;
      3) echo "$1 not tried: $why"; return ;;
    esac
  done
  if [ $wrongs -ge 3 ]; then
    wrong "$1: $wrongs tries of 12 wrong and none right: $differed"
  else
    echo "$1 not compared: the machine is too busy ($why)"
  fi
}
record_it() { # NAME COMMAND-BEFORE..: the rings go to $work/NAME-cpuN.img, what the workload says to $work/NAME.facts
  local name=$1
  shift
  "$@" "$programs/controller" --save "$work/$name" -- "$programs/workload" "$name" "$work/$name.facts" >"$work/$name.out" 2>"$work/$name.err" ||
    { why="recording failed: $(tail -n 1 "$work/$name.err")"; return 1; }
  grep -q 'the program ended with 3' "$work/$name.err" && { why="it needs two cpus and the right to a rank"; return 3; }
  grep -q -E 'the program|the ring is full' "$work/$name.err" && { why=$(tail -n 1 "$work/$name.err"); return 2; }
  return 0
}
fact() { awk -v what="$2" -v n="$3" '$1 == what { print $n; exit }' "$work/$1.facts"; }
explain() { # NAME ARGUMENT..: the report of what was recorded
  local name=$1
  shift
  "$programs/late" --names "$work/$name-names.txt" "$@" "$work/$name"-cpu*.img >"$work/$name.txt" 2>>"$work/$name.err" || wrong "late cannot read $name"
  tr -s '\n ' ' ' <"$work/$name.txt" >"$work/$name.line"
}
near() { awk -v a="$1" -v b="$2" -v most="$3" 'BEGIN { d = a - b; exit !(d <= most && -d <= most) }'; }

# A heater loses cpu A to 'backup'; 40 ms later it is moved to cpu B, where 'innocent' runs all the time.
moved() {
  record_it moved || return
  local a b heater backup from to
  a=$(fact moved cpus 2) b=$(fact moved cpus 3) heater=$(fact moved heater 2) backup=$(fact moved backup 2)
  from=$(fact moved heater 6) to=$(fact moved heater 7) # its longest pause, ns
  why="the times of the workload"
  near "$from" "$(fact moved backup 4)" 1000000 && near "$to" "$(fact moved moved 2)" 1000000 || return 2
  [ $(($(fact moved backup 7) - $(fact moved backup 6))) -lt 1000000 ] || return 2
  explain moved --short --watch "$heater"
  why="$(head -c 400 "$work/moved.line") (the heater $heater was kept from running for $((to - from)) ns)"
  grep -q -E "^late: waited [0-9.]+ ms: lost cpu $a to 'backup' $backup/$backup, came back on cpu $b these records do not tell when it moved" "$work/moved.line" || return 1
  grep -q -E "it waited for cpu $a, in the first [0-9.]+ ms at most: cpu $a ran 'backup' $backup/$backup after that, if at all, for cpu $b," "$work/moved.line" || return 1
  near "$(sed -n 's/^late: waited \([0-9.]*\) ms.*/\1/p' "$work/moved.txt")" "$(awk -v ns=$((to - from)) 'BEGIN { print ns / 1e6 }')" 1 || return 1
  echo "moved: $(head -n 1 "$work/moved.txt") (it says $((to - from)) ns itself)"
}
undisturbed moved

# A heater that sleeps until its next step, every 20 ms; a backup delays one of them. What the heater's clock says may be off by as
# much as its other steps came late; where that is much, it is tried again.
periodic() {
  record_it periodic || return
  local backup heater own off first
  backup=$(fact periodic backup 2) heater=$(fact periodic heater 2)
  own=$(awk '$1 == "late" { print $2 / 1e6 }' "$work/periodic.facts")
  off=$(awk '$1 == "jitter" { off += $2 } $1 == "delayed" { off += $2 } $1 == "backup" { off -= $9 } END { print (off < 0 ? -off : off) / 1e6 }' "$work/periodic.facts")
  why="the heater's steps are off by $off ms"
  near "$off" 0 4 || return 2
  # a sleep is not late, whoever ran meanwhile; where it was preempted before it had its rank, or by a thread of the kernel, that is
  explain periodic --watch "$heater"
  first=$(head -n 1 "$work/periodic.txt")
  why="without a period: $first"
  case "$first" in
    "slept "*": these records do not tell when it was woken") ;;
    *backup* | *hog*) return 1 ;;
    "late: waited "*) flat "$work/periodic.txt" | grep -q " out '[^']*' $heater/$heater preempted" || return 1 ;;
    *) return 1 ;;
  esac
  explain periodic --short --watch "$heater" --period 20
  why="with a period: $(head -n 1 "$work/periodic.txt") (it says $own ms itself, off by $off ms at most)"
  near "$(sed -n 's/^late: \([0-9.]*\) ms past its period of 20 ms.*/\1/p' "$work/periodic.txt")" "$own" "$(awk -v off="$off" 'BEGIN { print off + 0.3 }')" || return 1
  grep -q -E "^late: [0-9.]+ ms past its period of 20 ms; meanwhile cpu [0-9]+ ran 'backup' $backup/$backup it slept before: these records do not tell" "$work/periodic.line" || return 1
  echo "periodic: $(head -n 1 "$work/periodic.txt") (it says $own ms itself)"
}
undisturbed periodic

# ---- beside perf sched timehist: each time off the cpu is as long, and asleep or preempted as perf says
# the heater's rows: when it was back (s), how long it was away (ms), and how it had left
perfs() {
  perf sched timehist -i "$work/perf.data" --state --tid "$1" 2>"$work/perf.err" |
    awk -v own="[$1" '/^ *[0-9]+\.[0-9]+ \[/ && index($0, own) { state = $NF; run = $(NF - 1); away = $(NF - 3)
      if (how != "" && away > 0) printf "%.6f %s %s\n", $1 - run / 1000, away, how
      how = state ~ /^[RW]/ ? "waited" : "slept" }' # W: the kernel's R+, in a perf that is older than the kernel
}
# the same of the report's table
ours() {
  local base
  base=$(sed -n 's/^times are ms since \([0-9.]*\) s .*/\1/p' "$work/periodic.txt")
  flat "$work/periodic.txt" | awk -v who="$1/$1" -v base="$base" '$3 == "in" && index($0, " " who " ") && $(NF - 2) ~ /^(slept|waited)$/ {
    printf "%.6f %s %s\n", base + $1 / 1000, $(NF - 1), $(NF - 2) }'
}
# the spans in which perf's records lack a switch to this thread: it leaves a cpu twice and has not come back between
untold() {
  perf script -i "$work/perf.data" -F time,event,trace 2>/dev/null | awk -v tid="$1" '/sched:sched_switch:/ { at = $1; sub(/:$/, "", at)
    if (index($0, " next_pid=" tid " ")) back = 1
    if (index($0, " prev_pid=" tid " ")) { if (out != "" && !back) print out, at; out = at; back = 0 } }'
}
beside_perf() {
  local heater status
  record_it periodic perf sched record -k CLOCK_MONOTONIC -o "$work/perf.data" --
  status=$?
  [ $status -ne 1 ] || return 3 # perf cannot: the tracepoints are not to be had
  [ $status -eq 0 ] || return $status
  heater=$(fact periodic heater 2)
  explain periodic --watch "$heater"
  perfs "$heater" >"$work/perf.waits"
  grep -q -i lost "$work/perf.err" && { why="perf lost records"; return 2; }
  untold "$heater" >"$work/perf.untold"
  ours "$heater" | awk -v spans="$work/perf.untold" 'BEGIN { while ((getline line <spans) > 0) { split(line, span); from[++n] = span[1]; to[n] = span[2] } }
    { for (i = 1; i <= n; i++) if ($1 >= from[i] && $1 <= to[i]) next; print }' >"$work/our.waits"
  awk 'NR == FNR { at[++n] = $1; away[n] = $2; how[n] = $3; next }
    { best = 0; nearest = 0.001
      for (i = 1; i <= n; i++) { d = $1 - at[i]; if (d < 0) d = -d; if (d < nearest) { best = i; nearest = d } }
      if (best == 0) { print "perf has no return at " $1; next }
      d = $2 - away[best]
      if (d > 0.2 || d < -0.2) print "away " $2 " ms, perf says " away[best]
      else if ($3 != how[best]) print "it " $3 ", perf says it " how[best] }' "$work/perf.waits" "$work/our.waits" >"$work/perf.differences"
  why="$(head -n 3 "$work/perf.differences" | tr '\n' ';') $(wc -l <"$work/our.waits") times off the cpu"
  [ "$(wc -l <"$work/our.waits")" -ge 20 ] || return 2
  # perf misses a switch from idle at times, which makes two rows wrong; and the two take their times some microseconds apart
  grep -q 'perf says it' "$work/perf.differences" && return 1
  case $(wc -l <"$work/perf.differences") in 0) ;; 1 | 2) return 2 ;; *) return 1 ;; esac
  echo "beside perf sched timehist: $(wc -l <"$work/our.waits") times off the cpu, all as perf says"
}
if command -v perf >/dev/null; then
  undisturbed beside_perf
else
  echo "perf sched not compared: perf is missing (Debian: linux-perf)"
fi

# ---- signals: during the recording they end it, after it they end the program
# the signals that a process catches, as /proc shows them: bit 1 is SIGINT, bit 14 SIGTERM
catches() { [ $((0x$(sed -n 's/^SigCgt:[[:space:]]*//p' "/proc/$1/status" 2>/dev/null || echo 0) & 0x4002)) -ne 0 ]; }
until_it() { # yes|no PID: catches them; at most thirty seconds
  local i
  for ((i = 0; i < 3000; i++)); do
    if catches "$2"; then [ "$1" = yes ] && return 0; else [ "$1" = no ] && return 0; fi
    sleep 0.01
  done
  return 1
}
"$programs/late" --short --live --seconds 60 >"$work/signal.txt" 2>"$work/signal.err" & pid=$!
until_it yes "$pid" || wrong "late does not wait for a signal while it records"
sleep 0.3
kill -TERM "$pid"; wait "$pid" || wrong "SIGTERM while recording: the report fails ($?)"
[ -s "$work/signal.txt" ] || wrong "SIGTERM while recording: no report"
mkfifo "$work/nobody-reads" && exec 9<>"$work/nobody-reads"
# the program takes long enough that the catching is seen from outside
"$programs/late" --live --seconds 60 -- sh -c 'sleep 0.4; exec "$0" 20000 1' "$programs/load_test" >"$work/nobody-reads" 2>"$work/signal.err" & pid=$!
until_it yes "$pid" && until_it no "$pid" || wrong "late does not give the signals back after recording"
kill -TERM "$pid"; wait "$pid" 2>/dev/null
[ $? -eq 143 ] || wrong "SIGTERM does not end late after the recording"
exec 9>&-

# ---- a trace of live rings, played again: what was taken live and what the replay takes are the same entries but for the tail
# counts' start. With the start of the live ring they are the same; with another one all but the tail counts are
tool=target/tool/ollskuvan
plays_again() { # one recording in drains of this many records: every ring's trace gives its journal
  local trace said ring start traces=0
  rm -f "$work"/traced-*
  "$programs/controller" --budget "$1" --pages 1 --trace "$work/traced" "${@:2}" -- "$programs/workload" kiln >"$work/traced.out" 2>&1 ||
    { tail -n 2 "$work/traced.out"; return 1; }
  while read -r trace ring start; do
    said=$("$tool" replay --ring "$ring" --start "$start" "$trace") || return 1
    cmp -s <(echo "$said" | head -n -2) "$trace.journal" || return 1
    [ -s "$trace.journal" ] || continue
    said=$("$tool" replay --ring "$ring" --start 18446744073709547520 "$trace") || return 1
    cmp -s <(echo "$said" | head -n -2 | cut -c 1-16) <(cut -c 1-16 "$trace.journal") || return 1
    echo "$said" | sed -n 1p | grep -q '00f0ffffffffffff$' || return 1
    echo "$said" | grep -q 'dropped 0 in 0 records, still in the ring 0$' || return 1
    traces=$((traces + 1))
  done < <(sed -nE 's/^saved (.*\.trace): .* --ring ([0-9]+) --edition [0-9]+ --start ([0-9]+)$/\1 \2 \3/p' "$work/traced.out")
  [ $traces -gt 0 ]
}
if [ -x $tool ]; then
  for options in 3 '32 --events page-faults,cpu-clock'; do
    played=
    for try in 1 2 3 4 5 6 7 8 9 10 11 12; do
      # shellcheck disable=SC2086
      plays_again $options && { played=$try; break; }
    done
    if [ -n "$played" ]; then
      echo "traces: $(cat "$work"/traced-*.journal | wc -l) records of live rings (--budget $options) play again as they were taken"
    else
      wrong "a live trace (--budget $options) does not play again as it was taken"
    fi
  done
else
  echo "traces not tried: $tool is not built (make tool)"
fi
# ---- branches with the hardware index: saved with their branch sample type, or it is said that there are none here
said=$("$programs/controller" --seconds 0.2 --branch 0x20009 --save "$work/branch" 2>&1)
case $? in
  0)
    image=$(ls "$work"/branch-cpu*.img | head -n 1)
    [ "$(tail -c 8 "$image" | od -An -tx8 | tr -d ' ')" = 0000000000020009 ] || wrong "the branch sample type is not saved behind the ring"
    ;;
  3) case $said in *"has no branch stacks of this branch sample type"*) echo "branches not tried: $said" ;; *) wrong "controller --branch: $said" ;; esac ;;
  *) wrong "controller --branch failed: $said" ;;
esac

# ---- what cannot be done has a status
fails() { # STATUS WORDS COMMAND..
  local status=$1 words=$2 said printed
  shift 2
  said=$("$@" 2>&1 >"$work/fails.out")
  printed=$?
  [ "$printed" -eq "$status" ] || wrong "$*: status $printed, not $status"
  case "$said" in *"$words"*) ;; *) wrong "$*: does not say '$words' but: $said" ;; esac
}
fails 1 "$work/none did not start: No such file" "$programs/late" --live -- "$work/none"
fails 1 "$work/none did not start: No such file" "$programs/controller" -- "$work/none"
fails 1 'did not start: Permission denied' "$programs/controller" -- /etc/passwd
fails 2 '--report goes with none of' "$programs/controller" --report 2 --save "$work/none"
fails 0 'the program ended with 7' "$programs/controller" -- sh -c 'exit 7'
fails 0 'the program was ended by signal 9' "$programs/controller" -- sh -c 'kill -KILL $$'
for p in "late --live --short --seconds 0.05" "controller --seconds 0.05" "load_test 100"; do
  # shellcheck disable=SC2086 # words are wanted
  "$programs"/$p >/dev/full 2>"$work/full.err" && wrong "$p: done, though its output cannot be written"
  grep -q 'standard output cannot be written' "$work/full.err" || wrong "$p: does not say that its output cannot be written"
  # shellcheck disable=SC2086
  "$programs"/$p >&- 2>/dev/null && wrong "$p: done, though standard output is closed"
done

# ---- a ring that is saved and runs full: it is said, and so by the report
if taskset -c 0 true 2>/dev/null; then
  "$programs/controller" --pages 1 --cpu 0 --save "$work/small" -- taskset -c 0 "$programs/load_test" 2000 1 >"$work/small.out" 2>"$work/small.err" ||
    wrong "controller --pages 1 --save failed"
  grep -q 'cpu 0: the ring is full after' "$work/small.err" || wrong "a ring runs full, and controller does not say it"
  "$programs/late" --short "$work/small-cpu0.img" 2>&1 | tr -s '\n ' ' ' | grep -q 'small-cpu0.img is full: what came after its last record is not known' ||
    wrong "a ring is full, and late does not say it"
else
  echo "a full ring not tried: cpu 0 is not to be had, or taskset is missing"
fi

# ---- several events in one ring: every record has its event, and what is saved reads with its table
"$programs/controller" --events cpu-clock,page-faults,context-switches -- "$programs/workload" known "$work/facts" >"$work/events.txt" 2>"$work/events.err" ||
  wrong "controller --events failed: $(tail -n 1 "$work/events.err")"
grep -q 'refused' "$work/events.txt" && wrong "controller --events refuses records of a live kernel"
for event in switches 'mappings of the program' cpu-clock page-faults; do
  grep -q -E "^  of event $event +[1-9]" "$work/events.txt" || wrong "controller --events: no record of event $event"
done
[ "$(sed -n 's/^  of event .* \([0-9]*\)$/\1/p' "$work/events.txt" | awk '{ n += $1 } END { print n }')" = "$(sed -n 's/^\([0-9]*\) records\{0,1\}, .*/\1/p' "$work/events.txt")" ] ||
  wrong "controller --events: the records of the events do not add up"
"$programs/controller" --edition 1 --seconds 0.2 --events cpu-clock >"$work/events1.txt" 2>/dev/null || wrong "controller --edition 1 --events failed"
grep -q -E 'refused with 21 ' "$work/events1.txt" || wrong "edition 1 reads records by identifier"
"$programs/controller" --seconds 0.3 --events page-faults,cpu-clock --save "$work/several" >/dev/null 2>"$work/events.err" || wrong "controller --events --save failed"
"$programs/late" --short "$work"/several-cpu*.img >"$work/several.txt" 2>&1
grep -q 'a table of 3 events$' "$work/several.txt" || wrong "a saved ring is read without its table"
grep -q -E ' [1-9][0-9]* refused' "$work/several.txt" && wrong "a saved ring of several events: records are refused"
"$programs/controller" --seconds 0.1 --save "$work/several" >/dev/null 2>&1
! ls "$work"/several-cpu*.table >/dev/null 2>&1 || wrong "a table of an earlier recording is left beside a ring of one event"

# ---- settings that are kept: a second start is as the first, without its arguments; what the kernel does not open is not kept
kept=$work/kept.store
"$programs/controller" --seconds 0.2 --settings "$kept" --events page-faults,cpu-clock --budget 5 --pages 2 --edition 3 >"$work/kept1.txt" 2>&1 ||
  wrong "controller --settings failed: $(tail -n 1 "$work/kept1.txt")"
grep -q "^kept in $kept: 3 events, .*, edition 3, a budget of 5\$" "$work/kept1.txt" || wrong "controller --settings does not say what it keeps"
cp "$kept" "$kept.first"
"$programs/controller" --seconds 0.2 --settings "$kept" >"$work/kept2.txt" 2>&1 || wrong "controller does not start from its settings"
grep -q "^settings of $kept: 3 events" "$work/kept2.txt" || wrong "controller --settings does not say what it starts from"
grep -q ' drains\{0,1\} of at most 5 records;' "$work/kept2.txt" || wrong "controller starts with another budget than it kept"
for event in switches cpu-clock page-faults; do
  grep -q -E "^  of event $event +[0-9]" "$work/kept2.txt" || wrong "controller starts without event $event that it kept"
done
cmp -s "$kept" "$kept.first" || wrong "controller changes settings that it starts from as they are"
said=$("$programs/controller" --seconds 0.1 --settings "$kept" --branch 0xffffffffffffffff 2>&1) && wrong "a branch sample type that no kernel knows is opened"
cmp -s "$kept" "$kept.first" || wrong "settings that the kernel does not open are kept: $said"
"$programs/controller" --seconds 0.1 --settings "$kept" --budget 6 >"$work/kept3.txt" 2>&1 || wrong "controller --settings --budget failed"
grep -q "^kept in $kept: 3 events, .*, edition 3, a budget of 6\$" "$work/kept3.txt" || wrong "what is given at a start is not kept, or the rest is lost"
head -c 100 "$kept" >"$kept.cut" && cp "$kept.cut" "$kept.before"
"$programs/controller" --seconds 0.1 --settings "$kept.cut" >/dev/null 2>"$work/kept.err" && wrong "controller starts from a store that is cut short"
grep -q 'refused with 51 at byte 64' "$work/kept.err" || wrong "a store that is cut short: $(cat "$work/kept.err")"
cmp -s "$kept.cut" "$kept.before" || wrong "controller writes over a store that it cannot read"

# ---- flight recorders: rings that run over themselves until they are paused
fly() { # NAME COMMAND-BEFORE.. -- OPTION..: the workload NAME under a flight recorder
  local name=$1 before=()
  shift
  while [ "$1" != -- ]; do before+=("$1"); shift; done
  shift
  "${before[@]}" "$programs/controller" --flight "$work/$name" "$@" -- "$programs/workload" "$name" "$work/$name.facts" >"$work/$name.out" 2>"$work/$name.err" ||
    { why="controller --flight failed: $(tail -n 1 "$work/$name.err")"; return 1; }
  grep -q 'the program ended with 3' "$work/$name.err" && { why=$(head -n 1 "$work/$name.err"); return 3; }
  why="$(head -n 1 "$work/$name.out") $(tail -n 1 "$work/$name.err")"
  ! grep -q 'the program' "$work/$name.err" || return 2
  ! grep -q 'refused' "$work/$name.out" || return 1
}
last_time() { # NAME: of the last record of the report, ns
  flat "$work/$1.txt" | awk -v base="$(sed -n 's/^times are ms since \([0-9.]*\) s .*/\1/p' "$work/$1.txt")" \
    '$1 ~ /^[0-9]+\.[0-9]+$/ { ms = $1 } END { split(base, part, "."); ns = part[2] + int(ms * 1000000)
      printf "%d%09d\n", part[1] + int(ns / 1000000000), ns % 1000000000 }'
}
# At a signal: a heater whose step came late asks for the rings and goes on. What it did after that is not in them.
firing() {
  local asked own
  fly firing -- || return
  asked=$(fact firing asked 2) own=$(awk '$1 == "asked" { print $4 / 1e6 }' "$work/firing.facts")
  why="the heater's step was not late"
  [ -n "$asked" ] || return 2
  why="$(head -n 1 "$work/firing.out") (it asked after a step that came $own ms late)"
  grep -q -E '^paused after [0-9.]+ s: a signal came$' "$work/firing.out" || return 1
  [ $(($(fact firing heater 4) - asked)) -gt 50000000 ] || return 1
  explain firing --watch "$(fact firing heater 2)" --period 10
  why="$(head -n 1 "$work/firing.txt") (it asked after a step that came $own ms late)"
  [ "$(last_time firing)" -lt "$(fact firing heater 4)" ] || return 1
  [ $(($(last_time firing) - asked)) -lt 30000000 ] || return 2
  near "$(sed -n 's/^late: \([0-9.]*\) ms past its period of 10 ms.*/\1/p' "$work/firing.txt")" "$own" 5 || return 1
  grep -q -E "^late: [0-9.]+ ms past its period of 10 ms; meanwhile cpu [0-9]+ ran 'backup'" "$work/firing.line" || return 1
  echo "firing: $(head -n 1 "$work/firing.txt") (it asked after a step that came $own ms late; the rings end $((($(last_time firing) - asked) / 1000)) us after that)"
}
undisturbed firing
# By itself: a backup keeps the recorder from its own step. The program goes on to its end.
stalled() {
  local late pid
  command -v taskset >/dev/null || { why="taskset is missing"; return 3; }
  fly stalled taskset -c 0 -- --late 60 || return
  late=$(sed -n 's/^paused after [0-9.]* s: a step of 5 ms came \([0-9.]*\) ms late$/\1/p' "$work/stalled.out")
  [ -n "$late" ] && near "$late" 120 40 || return 1
  pid=$(sed -n 's/^end \([0-9]*\) [0-9]* controller$/\1/p' "$work/stalled-names.txt" | tail -n 1)
  [ -n "$(fact stalled cpu 4)" ] && [ -n "$pid" ] || return 1
  explain stalled --watch "$pid" --period 6
  why="$(head -n 1 "$work/stalled.txt") (the recorder says $late ms)"
  near "$(sed -n 's/^late: \([0-9.]*\) ms past its period of 6 ms.*/\1/p' "$work/stalled.txt")" "$late" 5 || return 1
  grep -q -E "^late: .* meanwhile cpu 0 ran 'backup'" "$work/stalled.line" || return 1
  [ "$(last_time stalled)" -lt "$(fact stalled cpu 4)" ] || return 1
  echo "stalled: $(head -n 1 "$work/stalled.txt") (the recorder says $late ms)"
}
undisturbed stalled
# Rings of one page go round many times: what is left is read whole, and none of it is refused; with several events too.
goes_round() { # OPTION..
  "$programs/controller" --flight "$work/round" --pages 1 "$@" -- "$programs/load_test" 20000 16 >"$work/round.out" 2>&1 ||
    { cat "$work/round.out"; wrong "controller --flight $* failed"; return; }
  grep -q 'refused' "$work/round.out" && wrong "controller --flight $* refuses records of a live kernel"
  grep -q -E ': a backward ring of 4096 bytes, [0-9]+ records?, stop (13: the oldest record is overwritten in part|0: the whole length)$' "$work/round.out" ||
    wrong "controller --flight $*: no ring has gone round: $(cat "$work/round.out")"
  "$programs/late" --short "$work"/round-cpu*.img >"$work/round.txt" 2>&1
  grep -q 'a flight recorder: the last [0-9.]* ms; what came before is overwritten$' "$work/round.txt" || wrong "late on the rings of a flight recorder: $(cat "$work/round.txt")"
  grep -q -E ' [1-9][0-9]* refused' "$work/round.txt" && wrong "late refuses records of a flight recorder"
  grep -q 'NOT READ' "$work/round.txt" && wrong "late does not read a flight recorder to its end"
  grep -E '^[0-9]+ records?, .* backward ring' "$work/round.out"
}
goes_round
goes_round --events page-faults,cpu-clock

# ---- under load
for budget in 1 16 40; do
  "$programs/load_test" 100000 "$budget" || wrong "records do not add up with a budget of $budget"
done

# ---- two readers of one ring under load: a slow report holds the kernel's tail back and delays nobody; nothing is lost untold
# How much is lost depends on the machine; that it adds up for each of the two does not, and is never tried again.
slow_report() { # RECORDS A TURN
  "$programs/load_test" 20000 16 "$1" >"$work/two.out" 2>&1 || { cat "$work/two.out"; wrong "two readers, a report of $1 records a turn"; return 0; }
  why="the ring never held more than the report takes"
  grep -q -E "held the kernel's tail back after [1-9]" "$work/two.out" || return 2
  cat "$work/two.out"
}
report_of_one() { slow_report 1; }
report_of_five() { slow_report 5; }
undisturbed report_of_one
undisturbed report_of_five
report_behind() { # WORDS.. more options
  "$programs/controller" --budget 8 --pages 1 --report 1 "$@" -- "$programs/load_test" 5000 16 >"$work/report.out" 2>&1 ||
    { cat "$work/report.out"; wrong "controller --report $* failed"; }
  grep -q -E '^logger: ([0-9]+) records?, ([0-9]+) told as lost; report: \1 records?, \2 told as lost; told the same$' "$work/report.out" ||
    wrong "the controller's two readers $*: $(grep '^logger' "$work/report.out")"
  grep -q -E "^the report held the kernel's tail back [1-9][0-9]* times?, .*; the logger waited for it 0 times\$" "$work/report.out" ||
    wrong "the controller's report $*: $(grep '^the report' "$work/report.out")"
  grep -E '^(logger|the report)' "$work/report.out"
}
report_behind
report_behind --events page-faults,cpu-clock # one ring and one table

[ "$failures" -eq 0 ] || { echo "live tests: $failures wrong"; exit 1; }
echo "live tests: all right"
