#!/usr/bin/env bash
# Does the comparison bite? Plants one mistake at a time in a copy of careful C (careful.c, or careful_walk.c, careful_replay.c,
# careful_salvage.c, careful_store.c) and runs the comparison: each must be found. Not part of the gate; run it after a change of
# made.c or compare.c.
#
#   bench/teeth.sh [ARCHIVE]       target/staticlib/libollskuvan.a; RINGS=20000 SEED=1
set -u
cd "$(dirname "$0")/.." || exit 2
library=${1:-target/staticlib/libollskuvan.a}
for number in "${RINGS:-20000}" "${SEED:-1}"; do
  case $number in '' | *[!0-9]*) echo "bench/teeth.sh: RINGS and SEED are numbers, not '$number'" >&2; exit 2 ;; esac
done
[ $# -le 1 ] || { echo "use: bench/teeth.sh [ARCHIVE]" >&2; exit 2; }
out=target/bench/teeth
[ -f "$library" ] || { echo "bench/teeth.sh: no such archive: $library" >&2; exit 2; }
mkdir -p "$out" || exit 2
found=0 missed=0

# what no mistake is planted in is compiled once
build() { "${CC:-gcc}" -std=c11 -O2 -w -Iinclude "$@" || exit 2; }
rm -f "$out"/*.o
for file in bench/*.c; do
  case $file in bench/careful*.c | bench/count.c) continue ;; esac
  build -c -o "$out/$(basename "$file" .c).o" "$file"
done

plant() { # WORDS SED-EXPRESSION (over the whole file at once) [COMPARISON of bench.c: compare [FILE: that of the comparison]]
  local mode=${3:-compare} file=careful.c
  case $mode in
    stores) file=careful_store.c ;;
    walks) file=careful_walk.c ;;
    compare-replay) file=careful_replay.c ;;
    compare-salvage) file=careful_salvage.c ;;
  esac
  file=${4:-$file}
  rm -rf "$out/planted" && mkdir "$out/planted" && cp bench/careful*.c bench/*.h "$out/planted" || exit 2
  sed -z "$2" "bench/$file" >"$out/planted/$file" || exit 2
  if cmp -s "bench/$file" "$out/planted/$file"; then
    echo "bench/teeth.sh: '$1' changes nothing: $file has moved on" >&2
    exit 2
  fi
  build -o "$out/bench" "$out"/planted/*.c "$out"/*.o "$library"
  # in a shell of its own: some mistakes end in a crash, which is found too
  bash -c '"$@"; exit $?' teeth "$out/bench" "$mode" "${RINGS:-20000}" "${SEED:-1}" >"$out/log" 2>&1
  case $? in
    0) echo "MISSED: $1" && missed=$((missed + 1)) ;;
    2) echo "bench/teeth.sh: no such comparison: $mode" >&2 && exit 2 ;;
    *) found=$((found + 1)) ;;
  esac
}

plant "a build id of 21 bytes" 's/record\[40\] > 20/record[40] > 21/'
plant "the build id's room before its size" 's/size <= 40 + p->trailer/size < 72 + p->trailer/'
plant "8 bytes of padding in TEXT_POKE" 's/end - texts > 7/end - texts > 8/'
plant "interrupt registers by the user mask" 's/? p->interrupt : 0/? p->user : 0/'
plant "registers behind abi 0" 's/load64(at) != 0 ? p->user : 0/p->user/'
plant "filled length not tested" 's/if (load64(at + bytes) > bytes)/if (0)/'
plant "filled length must be below the size" 's/load64(at + bytes) > bytes/load64(at + bytes) >= bytes/'
plant "stack and aux sizes of any kind" 's/at += 8;\n        left -= 8;\n        if (bytes % 8 != 0)\n            return 32;/at += 8;\n        left -= 8;/'
plant "raw: 30 before 32" 's/if (bytes % 8 != 0)\n            return 32;\n        if (bytes > left)\n            return 30;\n        at += bytes;/if (bytes > left)\n            return 30;\n        if (bytes % 8 != 0)\n            return 32;\n        at += bytes;/'
plant "raw size plus 4 wraps" 's/UINT64_C(4) + load32(at)/(uint32_t)(4 + load32(at))/'
plant "a count of branches wraps" 's/if (n > left || 24 \* n > left)/if (24 * n > left)/'
plant "a count of read values wraps" 's/if (n > left || n \* p->read_entry > left)/if (n * p->read_entry > left)/'
plant "a count of namespaces wraps" 's/if (n > left || n \* entry > left)/if (n * entry > left)/'
plant "a zero early in a name" 's/if (at != last \&\& unlikely(zero8(at)))\n        return 33;//'
plant "no zero in a name" 's/return likely(zero8(last)) ? 0 : 33/return 0/'
plant "an empty room is 30" 's/if (at == end)\n        return 33;/if (at == end)\n        return 30;/'
plant "types are cut to 16 bits" 's/type < OLLSKUVAN_KIND_OTHER ? type : OLLSKUVAN_KIND_OTHER/type \& 0xffff/'
plant "9 before 8" 's/stop = most == budget ? 8 : 9/stop = most == room ? 9 : 8/'
plant "row 7 a word late" 's/unlikely(size > distance)/unlikely(size > distance + 8)/'
plant "row 6 allows 12" 's/size < HEADER || size % 8 != 0/size < HEADER || size % 4 != 0/'
plant "scratch a byte short" 's/if (scratch_len < size)/if (scratch_len + 1 < size)/'
plant "a record that crosses is not copied" 's/memcpy(scratch + whole, ring, size - whole);//'
plant "row 4 a word late" 's/head - tail > ring_len/head - tail > ring_len + 8/g'
plant "the trailer without its identifier" 's/sample_type & OLLSKUVAN_TRAILER_BITS/sample_type \& OLLSKUVAN_TRAILER_BITS \& ~UINT64_C(0x10000)/'
plant "21 for SAMPLE alone" 's/new_bits && (k == 9 || id_all)/new_bits \&\& k == 9/'
plant "22 for READ alone" 's/(k == 8 || (k == 9 && bit(sample_type, 4)))/k == 8/'
plant "no 24" 's/k == 9 && bit(sample_type, 14) && bit(sample_type, 24)/0/'
plant "no 25" 's/bit(sample_type, 11) && new_branches(edition, branch_sample_type)/0/'
plant "25 without sample bit 11" 's/bit(sample_type, 11) && new_branches(edition, branch_sample_type)/new_branches(edition, branch_sample_type)/'
plant "25 for any type" 's/k == 9 && bit(sample_type, 11) && new_branches/bit(sample_type, 11) \&\& new_branches/'
plant "the index in edition 2" 's/edition < 3 && bit(branch_sample_type, INDEX_BIT)/edition < 2 \&\& bit(branch_sample_type, INDEX_BIT)/'
plant "branch bit 18 unknown" 's/branch_sample_type >> 19 != 0/branch_sample_type >> 18 != 0/'
plant "branch bit 19 known" 's/branch_sample_type >> 19 != 0/branch_sample_type >> 20 != 0/'
plant "24 before 25" 's/else if (k == 9 && bit(sample_type, 11) && new_b/else if (k == 9 \&\& bit(sample_type, 14) \&\& bit(sample_type, 24))\n            p->answer[k] = 24;\n        else if (k == 9 \&\& bit(sample_type, 11) \&\& new_b/'
plant "no hardware index" 's/bit(branch_sample_type, INDEX_BIT) ? 16 : 8/8/'
plant "the index by bit 16" 's/define INDEX_BIT 17/define INDEX_BIT 16/'
plant "the index after the entries alone" 's/if (left < p->branch_words)/if (left == 0)/'
plant "23 behind the size" 's/if (!p->build_id_known)\n            return 23;\n        if (size <= 40 + p->trailer)\n            return 30;/if (size <= 40 + p->trailer)\n            return 30;\n        if (!p->build_id_known)\n            return 23;/'
plant "the edition narrowed" 's/if (edition - 1 > 3)/if ((uint8_t)edition - 1u > 3)/'
plant "edition 2 knows type 16" 's/last_type\[5\] = { 0, 9, 15, 20, 21 }/last_type[5] = { 0, 9, 16, 20, 21 }/'
plant "edition 1 knows bit 16" 's/last_bit\[5\] = { 0, 15, 18, 24, 24 }/last_bit[5] = { 0, 16, 18, 24, 24 }/'
plant "the code page size is forgotten" 's/LAST_BITS UINT64_C(0xe80000)/LAST_BITS UINT64_C(0x680000)/'
plant "the identifier of a SAMPLE at its end" 's/load64(type == 9 ? record + HEADER : record + size - 8)/load64(record + size - 8)/' tables
plant "the identifier of others behind the header" 's/load64(type == 9 ? record + HEADER : record + size - 8)/load64(record + HEADER)/' tables
plant "26 before 20" 's/if (unlikely(type - 1 >= last_type\[t->edition\]))\n        return 20;//' tables
plant "edition 1 looks an event up" 's/if (unlikely(t->edition == 1))\n        return 21;//' tables
plant "27 at a size of 16" 's/if (unlikely(size < 16))/if (unlikely(size <= 16))/' tables
plant "no 27" 's/if (unlikely(size < 16))\n        return 27;/if (size < 16)\n        return 26;/' tables
plant "a hint that is not looked at" 's/if (unlikely(t->events\[i\].identifier != identifier)) {/if (unlikely(i == 0)) {/' tables
plant "the event after the one that matches" 's/    return &t->plans\[i\];/    return \&t->plans[i + 1 < t->count \&\& (t->made >> (i + 1) \& 1) ? i + 1 : i];/' tables
plant "equal identifiers" 's/if (events\[j\].identifier == events\[i\].identifier)/if (0)/' tables
plant "1,025 events" 's/count > OLLSKUVAN_EVENTS_MAX)/count > OLLSKUVAN_EVENTS_MAX + 1)/' tables
plant "equal identifiers among many" 's/if (events\[t->slot\[at\] - 1\].identifier == events\[i\].identifier)/if (0)/' tables
plant "a slot that is not looked at" 's/if (likely(t->events\[i - 1\].identifier == identifier)) {/if (1) {/' tables
plant "a set by its sample type alone" 's/5 \* sizeof(uint64_t)/sizeof(uint64_t)/' tables
plant "a plan that went is still used" 's/t->set_of\[j\] == k + 1 ? 0 : t->set_of\[j\]/t->set_of[j]/' tables
plant "an event of many without bit 16" 's/\(static bool open_many.*\)!bit(events\[i\].sample_type, 16) || /\1/' tables
plant "no event" 's/if (count < 1 || /if (/' tables
plant "an event without bit 16" 's/!bit(events\[i\].sample_type, 16) || //' tables
plant "sample_id_all narrowed" 's/events\[i\].sample_id_all == 0/(uint32_t)events[i].sample_id_all == 0/' tables
plant "identifiers by their low halves" 's/t->events\[i\].identifier != identifier)\n        i++/(uint32_t)t->events[i].identifier != (uint32_t)identifier)\n        i++/' tables
plant "the event's branch bits are not looked at" 's/v->branch_sample_type);/0);/' tables
plant "an index that is not looked at" 's/!= count)/!= count \&\& 0)/' stores
plant "a version that is not looked at" 's/- 1 > 1)\n        return 50/- 1 > 2)\n        return 50/' stores
plant "33 events in version 1" 's/OLLSKUVAN_STORE_OLD_EVENTS/OLLSKUVAN_EVENTS_MAX/' stores
plant "an index of one byte in version 2" 's/row == ROW ? load16(store + at + HEAD) : store/store/' stores
plant "a row of the other version" 's/row != 0 ? length == row : //' stores
plant "equal identifiers among many of a store" 's/if (identifiers\[slot\[at\] - 1\] == identifiers\[i\])/if (0)/' stores
plant "an index written in one byte" 's/at\[HEAD + 1\] = (uint8_t)(i >> 8)/at[HEAD + 1] = 0/' stores
plant "edition 5 in a store" 's/store\[at + 14\] - 1u > 3/store[at + 14] - 1u > 4/' stores
plant "52 for a first entry that is none" 's/kind == 0 ? 51 : 52;\n    if (load16/52;\n    if (load16/' stores
plant "a row too few" 's/if (events_room < count)/if (events_room + 1 < count)/' stores
plant "what follows the last entry" 's/if (at != length)/if (at > length)/' stores
plant "the edition of a writing narrowed" 's/edition - 1 > 3/(uint8_t)edition - 1u > 3/' stores
plant "a buffer a byte short" 's/if (buffer_len < bytes)/if (buffer_len + 1 < bytes)/' stores
plant "equal identifiers in a store" 's/identifiers\[i - 1\] < identifiers/identifiers[i - 1] <= identifiers/' stores
plant "sample_id_all that is not looked at" 's/ && events\[i\].sample_id_all != 0//' stores
plant "1 before 11" 's/){ 0, 11 };\n    if (!ring/){ 0, ring_allowed(ring_length) ? 11 : 1 };\n    if (!ring/' stores
plant "the free room a word less" 's/if (size > length - (r->head - r->tail)) {/if (size + 8 > length - (r->head - r->tail)) {/' compare-replay
plant "a record cut at the ring's end" 's/memcpy(ring, record + first, size - first);//' compare-replay
plant "53 for a record longer than the ring" 's/size == body ? 0 : 53/size == body \&\& size <= 512 ? 0 : 53/' compare-replay
plant "a version of a store is 51" 's/return length == 8 ? 52 : 51/return 51/' compare-replay
plant "a dropped record that is not counted" 's/        r->dropped++;//' compare-replay
plant "a size of 0 is 6" 's/size == 0 ? 0 : 6/6/' walks
plant "13 before 6" 's/if (unlikely(size < HEADER || size % 8 != 0)) {/if (unlikely(size > rest)) {\n            stop = 13;\n            break;\n        }\n        if (unlikely(size < HEADER || size % 8 != 0)) {/' walks
plant "past the length by a word" 's/unlikely(size > rest)/unlikely(size > rest + 8)/' walks
plant "the length itself is 13" 's/unlikely(size > rest)/unlikely(size >= rest)/' walks
plant "more than one length" 's/if (unlikely(rest == 0)) {/if (unlikely(rest == 0 \&\& left == 0)) {/' walks
plant "8 before 13" 's/if (unlikely(size > rest)) {/if (unlikely(left == 0)) {\n            stop = most == budget ? 8 : 9;\n            break;\n        }\n        if (unlikely(size > rest)) {/' walks
plant "starts without the head" 's/store64(journal + 8, head + way)/store64(journal + 8, way)/' walks
plant "head of any kind" 's/(head \& 7) != 0 ? 5 : 0/0/' walks
plant "11 before 5" 's/uint32_t stop = refused(ring_len, edition, head);\n    if (stop == 0 \&\& !sound/uint32_t stop = refused(ring_len, edition, head);\n    if ((stop == 0 || stop == 5) \&\& !sound/' walks
plant "4 bytes dropped in place of 8" 's/at += length - at < 8 ? length - at : 8;/at += length - at < 4 ? length - at : 4;/' compare-salvage
plant "a hole's start counted in the output" 's/store64(list + OLLSKUVAN_CHANGE_START, hole)/store64(list + OLLSKUVAN_CHANGE_START, p.kept)/' compare-salvage
plant "salvage: row 7 a word late" 's/size % 8 != 0 || size > left))/size % 8 != 0 || size > left + 8))/' compare-salvage
plant "54 a byte late" 's/out_len < p.kept/out_len + 1 < p.kept/' compare-salvage
plant "11 before 2" 's/if (edition - 1 > 3) {\n        told.answer = 2;/if (edition - 1 > 3 \&\& sound(events, event_count)) {\n        told.answer = 2;/' compare-salvage
rm -rf "$out"
echo "planted mistakes: $found found, $missed missed"
[ "$missed" -eq 0 ]
