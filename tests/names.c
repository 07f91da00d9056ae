/*
 * Reads every constant of include/ollskuvan.h by its name. names.inc has a row for each: the records of document 01
 * laid out by hand, field after field, each with the word that must read as the field's own bytes; the kernel's
 * numbers, compared with linux/perf_event.h; the bounds, the journal and the answers, each with a call that shows it.
 *
 * With SWAPS defined, the rows are judged again for every pair of constants that tests/swaps.sh has swapped in the
 * header's text: each must fail.
 */
#include "ollskuvan.h"

#include <linux/perf_event.h>
#include <stdio.h>
#include <stdlib.h>
#include <string.h>

enum { WORDS = 56, RECORD_ROOM = 2048, LONGEST = 1 << 21 };

/* ---- attributes of the records ---- */

struct attributes {
    uint64_t sample_type, read_format;
    uint32_t sample_id_all;
    uint64_t user_mask, interrupt_mask, branch_sample_type;
};

/* The trailer's bits are 1, 2, 6, 7, 9 and 16. Of the masks the one has five ones, the other seven. */
enum { TRAILER_SELECTED = 1 << 1 | 1 << 2 | 1 << 6 | 1 << 7 | 1 << 9 | 1 << 16, ALL_BITS = (1 << 25) - 1 };
#define FIVE_ONES UINT64_C(0x8000000000010046)
#define SEVEN_ONES UINT64_C(0xc000000800000017)

static const struct attributes PLAIN = {0, 0, 0, 0, 0, 0};
static const struct attributes TRAILED = {TRAILER_SELECTED, 0, 1, 0, 0, 0};
static const struct attributes READ_ONE = {TRAILER_SELECTED, 23, 1, 0, 0, 0};
static const struct attributes READ_GROUP = {TRAILER_SELECTED, 15, 1, 0, 0, 0};
static const struct attributes READ_LOST_GROUP = {TRAILER_SELECTED, 31, 1, 0, 0, 0};
static const struct attributes READ_BARE_GROUP = {0, 8, 0, 0, 0, 0};
static const struct attributes SAMPLE_ONE = {ALL_BITS ^ 1 << 24, 23, 1, FIVE_ONES, SEVEN_ONES, 1 << 17};
static const struct attributes SAMPLE_GROUP = {ALL_BITS ^ 1 << 14, 31, 1, FIVE_ONES, SEVEN_ONES, 1 << 17};
static const struct attributes SAMPLE_BRANCHES = {1 << 11, 0, 0, 0, 0, 0x5ffff};

/* ---- the rows ---- */

enum kind {
    RECORD_BEGINS, /* a record of this type and misc, under these attributes, up to the next row of this kind */
    TYPE_WORD, MISC_WORD, SIZE_WORD,
    NUMBER,        /* lays a number of so many bytes; the word reads it */
    COUNTED,       /* the same, of a given value */
    LISTED,        /* lays so many elements of so many bytes; the word reads their place */
    NAMED,         /* lays a name and its zeros, up to a multiple of 8; the word reads its place */
    STALE_NAMED,   /* the same with one zero, and behind it bytes that are not zero */
    LENGTH_WORD,   /* the word reads the elements of the last list, or the bytes of the last name */
    SKIPPED,       /* lays bytes that no word reads */
    RAISED_WORD,   /* the word reads 1: a flag */
    KEPT_WORD,     /* the word reads 0 */
    AFTER_WORD,    /* the kept word before this row has this word's number plus one */
    SAME_NUMBER,
    LEAST_WORDS_READ, OLDEST_EDITION, RING_SHORTEST, RING_LONGEST, RECORD_LONGEST,
    ENTRY_BYTES, ENTRY_OFFSET, ENTRY_KIND_GIVEN,
    MEANING_GIVEN, STOP_GIVEN, CHECK_GIVEN, COPY_GIVEN, WRITE_GIVEN, DIRTY_CHECK_GIVEN, DIRTY_WRITE_GIVEN,
    EVENTS_MOST, TABLE_STOP_GIVEN, EVENT_ANSWER_GIVEN, WALK_STOP_GIVEN, STORE_BYTE_WRITTEN, STORE_READ_GIVEN,
    STORE_WRITE_GIVEN, STORE_VERSION_OLD, STORE_EVENTS_OLD, KIND_OFFERS, KIND_DRAINS, REPLAY_GIVEN, CHANGE_BYTES, CHANGE_OFFSET, CHANGE_KIND_GIVEN,
    SALVAGE_GIVEN, COMPARED_GIVEN
};

struct row {
    enum kind kind;
    const char *name;
    const struct attributes *with;
    uint64_t n[8];
};

/* What names.inc calls its rows. ROW takes the kind, the constant's name and its number. */
#define RECORD(type, misc, with) ROW(RECORD_BEGINS, #type, 0, &with, type, misc)
#define OF_TYPE(w) ROW(TYPE_WORD, #w, w, NULL, 0)
#define OF_MISC(w) ROW(MISC_WORD, #w, w, NULL, 0)
#define OF_SIZE(w) ROW(SIZE_WORD, #w, w, NULL, 0)
#define U16(w) ROW(NUMBER, #w, w, NULL, 2)
#define U32(w) ROW(NUMBER, #w, w, NULL, 4)
#define U64(w) ROW(NUMBER, #w, w, NULL, 8)
#define COUNT8(w, n) ROW(COUNTED, #w, w, NULL, 1, n)
#define COUNT16(w, n) ROW(COUNTED, #w, w, NULL, 2, n)
#define COUNT32(w, n) ROW(COUNTED, #w, w, NULL, 4, n)
#define COUNT64(w, n) ROW(COUNTED, #w, w, NULL, 8, n)
#define LIST(w, n, each) ROW(LISTED, #w, w, NULL, n, each)
#define NAME(w, n) ROW(NAMED, #w, w, NULL, n)
#define STALE_NAME(w, n) ROW(STALE_NAMED, #w, w, NULL, n)
#define LENGTH(w) ROW(LENGTH_WORD, #w, w, NULL, 0)
#define SKIP(n) ROW(SKIPPED, "", 0, NULL, n)
#define RAISED(w) ROW(RAISED_WORD, #w, w, NULL, 0)
#define NOT_RAISED(w) ROW(KEPT_WORD, #w, w, NULL, 0)
#define KEPT(w) ROW(KEPT_WORD, #w, w, NULL, 0)
#define AFTER(w) ROW(AFTER_WORD, #w, w, NULL, 0)
#define SAME(w, n) ROW(SAME_NUMBER, #w, w, NULL, n)
#define LEAST_WORDS(w) ROW(LEAST_WORDS_READ, #w, w, NULL, 0)
#define OLDEST_WITH(w, type) ROW(OLDEST_EDITION, #w, w, NULL, type)
#define SHORTEST_RING(w) ROW(RING_SHORTEST, #w, w, NULL, 0)
#define LONGEST_RING(w) ROW(RING_LONGEST, #w, w, NULL, 0)
#define LONGEST_RECORD(w) ROW(RECORD_LONGEST, #w, w, NULL, 0)
#define ENTRY_LENGTH(w) ROW(ENTRY_BYTES, #w, w, NULL, 0)
#define ENTRY_PLACE(w, number, bytes) ROW(ENTRY_OFFSET, #w, w, NULL, number, bytes)
#define KIND_OF(w, type) ROW(ENTRY_KIND_GIVEN, #w, w, NULL, type)
#define MEANS(w, type, misc) ROW(MEANING_GIVEN, #w, w, NULL, type, misc)
#define STOP(w, ...) ROW(STOP_GIVEN, #w, w, NULL, __VA_ARGS__)
#define ANSWER(w, ...) ROW(CHECK_GIVEN, #w, w, NULL, __VA_ARGS__)
#define COPY(w, ...) ROW(COPY_GIVEN, #w, w, NULL, __VA_ARGS__)
#define WRITTEN(w, ...) ROW(WRITE_GIVEN, #w, w, NULL, __VA_ARGS__)
#define DIRTY(w, ...) ROW(DIRTY_CHECK_GIVEN, #w, w, NULL, __VA_ARGS__)
#define DIRTY_WRITTEN(w, ...) ROW(DIRTY_WRITE_GIVEN, #w, w, NULL, __VA_ARGS__)
#define MOST_EVENTS(w) ROW(EVENTS_MOST, #w, w, NULL, 0)
#define TABLE_STOP(w, ...) ROW(TABLE_STOP_GIVEN, #w, w, NULL, __VA_ARGS__)
#define WALK_STOP(w, ...) ROW(WALK_STOP_GIVEN, #w, w, NULL, __VA_ARGS__)
#define EVENT_ANSWER(w, ...) ROW(EVENT_ANSWER_GIVEN, #w, w, NULL, __VA_ARGS__)
#define STORE_BYTE(w, place) ROW(STORE_BYTE_WRITTEN, #w, w, NULL, place)
#define STORE_READ(w, ...) ROW(STORE_READ_GIVEN, #w, w, NULL, __VA_ARGS__)
#define STORE_WRITTEN(w, ...) ROW(STORE_WRITE_GIVEN, #w, w, NULL, __VA_ARGS__)
#define OLD_VERSION(w) ROW(STORE_VERSION_OLD, #w, w, NULL, 0)
#define OLD_MOST(w) ROW(STORE_EVENTS_OLD, #w, w, NULL, 0)
#define OFFERS(w) ROW(KIND_OFFERS, #w, w, NULL, 0)
#define DRAINS(w) ROW(KIND_DRAINS, #w, w, NULL, 0)
#define REPLAYED(w, ...) ROW(REPLAY_GIVEN, #w, w, NULL, __VA_ARGS__)
#define CHANGE_LENGTH_IS(w) ROW(CHANGE_BYTES, #w, w, NULL, 0)
#define CHANGE_PLACE(w, number, bytes) ROW(CHANGE_OFFSET, #w, w, NULL, number, bytes)
#define CHANGE_KIND_IS(w) ROW(CHANGE_KIND_GIVEN, #w, w, NULL, 0)
#define SALVAGED(w, ...) ROW(SALVAGE_GIVEN, #w, w, NULL, __VA_ARGS__)
#define COMPARED(w, ...) ROW(COMPARED_GIVEN, #w, w, NULL, __VA_ARGS__)

/* The entry that ENTRY_PLACE looks at: a type that no edition knows, at this tail. */
#define ENTRY_KIND 0x7766
#define ENTRY_TAIL UINT64_C(0x8a8988878685a4a8)

/* The one hole that CHANGE_PLACE looks at. */
enum { HOLE_AT = 16, HOLE_BYTES = 40 };

#define ROW(kind, name, number, with, ...) {kind, name, with, {__VA_ARGS__}},
static const struct row rows[] = {
#include "names.inc"
};
enum { ROWS = sizeof rows / sizeof rows[0] };

/* The constants alone, by row. */
#undef ROW
#define ROW(kind, name, number, with, ...) (uint32_t)(number),
static const uint32_t constants[ROWS] = {
#include "names.inc"
};

/* ---- calls that show a bound or an answer ---- */

static uint8_t zeros[LONGEST];

/* Empty attributes: sample type, read format, sample_id_all, both masks, branch sample type. */
#define NONE 0, 0, 0, 0, 0, 0

static void spell(uint8_t *at, uint64_t n, int bytes)
{
    int i;
    for (i = 0; i < bytes; i++)
        at[i] = (uint8_t)(n >> 8 * i);
}

/* Record check of zeros behind a header. */
static uint32_t checked(uint32_t edition, uint64_t sample_type, uint64_t read_format, uint64_t type, uint64_t misc,
    uint64_t size, uint64_t length, uint64_t branch)
{
    static uint8_t record[65536];
    memset(record, 0, (size_t)length);
    spell(record, type, 4);
    spell(record + 4, misc, 2);
    spell(record + 6, size, 2);
    return ollskuvan_check(record, (size_t)length, sample_type, read_format, 0, 0, 0, branch, edition);
}

/* The entry of one record of 8 bytes, of a type, at a tail. */
static size_t journalled(uint64_t type, uint64_t tail, uint8_t entry[64])
{
    uint8_t ring[64] = {0};
    size_t length = 64;
    spell(ring + tail % 64, type, 4);
    spell(ring + tail % 64 + 6, 8, 2);
    memset(entry, 0xc3, length);
    ollskuvan_drain(ring, 64, tail + 8, tail, NONE, 3, 1, NULL, 0, entry, length);
    while (length && entry[length - 1] == 0xc3)
        length--;
    return length;
}

static uint64_t entry_offset(uint64_t number, int bytes)
{
    uint8_t entry[64], due[8];
    size_t at, length = journalled(ENTRY_KIND, ENTRY_TAIL, entry);
    spell(due, number, bytes);
    for (at = 0; at + (size_t)bytes <= length; at++)
        if (memcmp(entry + at, due, (size_t)bytes) == 0)
            return at;
    return 999;
}

/* Of the powers of two the first, or the last, that is allowed. */
static uint64_t ring_length(int longest)
{
    uint64_t length, found = 0;
    for (length = 1; length <= LONGEST; length *= 2)
        if (ollskuvan_drain(zeros, (size_t)length, 0, 0, NONE, 3, 1, NULL, 0, NULL, 0).stop != 1)
            if (longest || !found)
                found = length;
    return found;
}

static uint64_t longest_record(void)
{
    uint64_t size = 65535;
    while (size && checked(3, 0, 0, 14, 0, size, size, 0) == 6)
        size--;
    return size;
}

static uint64_t oldest_edition(uint64_t type)
{
    uint32_t edition = 1;
    while (edition < 9 && checked(edition, 0, 0, type, 0, 8, 8, 0) == 20)
        edition++;
    return edition;
}

static uint64_t least_words(void)
{
    uint8_t record[8] = {14, 0, 0, 0, 0, 0, 8, 0};
    uint64_t words[99];
    size_t length = 0;
    while (length < 99 && ollskuvan_read(record, 8, NONE, 3, words, length) == 40)
        length++;
    return length;
}

static uint64_t stopped(const uint64_t n[8])
{
    uint8_t ring[64] = {0}, scratch[64], journal[64];
    spell(ring + n[2] % 64 / 8 * 8, 14, 4);
    spell(ring + n[2] % 64 / 8 * 8 + 6, n[7], 2);
    return ollskuvan_drain(ring, (size_t)n[0], n[1], n[2], NONE, (uint32_t)n[3], n[4], scratch, (size_t)n[6],
        journal, (size_t)n[5]).stop;
}

/* The walk of a backward ring of zeros whose record at head has this size. */
static uint64_t ended(uint64_t head, uint64_t size)
{
    uint8_t ring[64] = {0}, journal[64];
    spell(ring + head % 64, 14, 4);
    spell(ring + head % 64 + 6, size, 2);
    return ollskuvan_walk_back(ring, 64, head, NONE, 3, 1, NULL, 0, journal, sizeof journal).stop;
}

/* A table of so many events, identifiers 1, 2 and so on, with sample bit 16 and sample_id_all; over a ring whose one
 * record has this type, this size and then zeros up to its last word. */
enum { EVENTS = 1030 };
static uint64_t answered(uint64_t events, uint64_t type, uint64_t size, uint64_t last, uint8_t entry[16])
{
    static struct ollskuvan_event table[EVENTS];
    uint8_t ring[64] = {0};
    uint64_t i;
    for (i = 0; i < events; i++)
        table[i] = (struct ollskuvan_event){i + 1, 1 << 16, 0, 0, 0, 0, 1};
    spell(ring, type, 4);
    if (size > 8)
        spell(ring + size - 8, last, 8);
    spell(ring + 6, size, 2);
    return ollskuvan_drain_events(ring, 64, size, 0, table, (size_t)events, 3, 1, NULL, 0, entry, 16).stop;
}

static uint64_t most_events(void)
{
    uint8_t entry[16];
    uint64_t count = EVENTS;
    while (count && answered(count, 14, 16, 1, entry) != 0)
        count--;
    return count;
}

/* A store of the one event 1: with this ring length and edition, into so many bytes. */
static uint32_t stored(uint64_t length, uint64_t edition, uint8_t *buffer, uint64_t room)
{
    const struct ollskuvan_event event = {1, 1 << 16, 0, 0, 0, 0, 1};
    return ollskuvan_write_store(&event, 1, length, (uint32_t)edition, 7, buffer, (size_t)room).answer;
}

/* Such a store of version 1, laid out by hand, with another byte at this place; so many bytes of it, into so many rows. */
static uint32_t read_changed(uint64_t place, uint64_t byte, uint64_t length, uint64_t rows)
{
    struct ollskuvan_event table[2];
    uint8_t store[82] = {8, 0, 0, 0, 1, 0, 1, 0, 55, 0, 0, 0, 2};
    store[15] = 1; /* the identifier, behind the index */
    store[25] = 1; /* sample bit 16 */
    store[63] = 19;
    store[67] = 3;
    store[69] = 64;
    store[77] = 3;
    store[place] = (uint8_t)byte;
    return ollskuvan_read_store(store, (size_t)length, table, (size_t)rows).answer;
}

static uint64_t store_byte(uint64_t place)
{
    uint8_t store[128] = {0};
    return stored(64, 3, store, sizeof store) ? 999 : (uint64_t)store[place];
}

/* The version that such a store shows where it reads. */
static uint64_t old_version(void)
{
    uint64_t version = 0;
    while (version < 256 && read_changed(6, version, 82, 1) != 0)
        version++;
    return version;
}

/* The most events of 55 bytes that are read in that version. */
static uint64_t old_most(void)
{
    static struct ollskuvan_event rows[64];
    static uint8_t store[27 + 55 * 64];
    uint64_t count, i;
    for (count = 64; count > 0; count--) {
        memset(store, 0, sizeof store);
        store[0] = 8;
        store[4] = 1;
        store[6] = (uint8_t)old_version();
        for (i = 0; i < count; i++) {
            uint8_t *row = store + 8 + 55 * i;
            row[0] = 55;
            row[4] = 2;
            row[6] = row[7] = (uint8_t)i; /* index and identifier */
            row[17] = 1;                  /* sample bit 16 */
        }
        store[8 + 55 * count] = 19;
        store[8 + 55 * count + 4] = 3;
        store[8 + 55 * count + 6] = 64;
        store[8 + 55 * count + 14] = 3;
        if (ollskuvan_read_store(store, (size_t)(27 + 55 * count), rows, 64).answer == 0)
            break;
    }
    return count;
}

/* A trace of one entry, of this length and kind; its body begins with a switch of size 8. What is told. */
static struct ollskuvan_replayed replayed(uint64_t length, uint64_t kind)
{
    const struct ollskuvan_event event = {1, 1 << 16, 0, 0, 0, 0, 1};
    uint8_t trace[99] = {0}, rooms[128], journal[64];
    spell(trace, length, 4);
    spell(trace + 4, kind, 2);
    spell(trace + 6, 14, 4);
    spell(trace + 12, 8, 2);
    return ollskuvan_replay(trace, (size_t)length, 0, &event, 1, 3, rooms, sizeof rooms, journal, sizeof journal);
}

/* The first kind that offers a body of 8 bytes, which is a record; the first that drains with a body of 4. */
static uint64_t first_kind(uint64_t length, uint64_t offered)
{
    uint64_t kind = 0;
    while (kind < 999 && (replayed(length, kind).entries != 1 || replayed(length, kind).offered_bytes != offered))
        kind++;
    return kind;
}

/* A switch of the one event 1, and zeros behind it: its 16 bytes are kept, the others are a hole. What is told of it, and
 * the list. */
static struct ollskuvan_salvaged salvaged(uint64_t out_room, uint64_t list_room, uint8_t list[64])
{
    const struct ollskuvan_event event = {1, 1 << 16, 0, 0, 0, 0, 1};
    uint8_t stream[HOLE_AT + HOLE_BYTES] = {14, 0, 0, 0, 0, 0, 16, 0, 1}, out[64];
    memset(list, 0xc3, 64);
    return ollskuvan_salvage(stream, sizeof stream, &event, 1, 3, out, (size_t)out_room, list, (size_t)list_room);
}

/* What is told of two rings of switches of the one event 1: so many bytes of each, and the right side's misc. */
static uint64_t compared(uint64_t left_bytes, uint64_t right_bytes, uint64_t misc)
{
    const struct ollskuvan_event event = {1, 1 << 16, 0, 0, 0, 0, 1};
    uint8_t left[64] = {0}, right[64] = {0};
    int i;
    for (i = 0; i < 64; i += 16) {
        left[i] = right[i] = 14;
        left[i + 6] = right[i + 6] = 16;
        left[i + 8] = right[i + 8] = 1;
        right[i + 4] = (uint8_t)misc;
    }
    return ollskuvan_compare(left, 64, left_bytes, 0, NULL, 0, right, 64, right_bytes, 0, NULL, 0, &event, 1, 3).what;
}

/* Where in the list's one entry this number of so many bytes stands. */
static uint64_t change_offset(uint64_t number, int bytes)
{
    uint8_t list[64], due[8];
    size_t at, length = (size_t)salvaged(64, 64, list).changes;
    spell(due, number, bytes);
    for (at = 0; at + (size_t)bytes <= length; at++)
        if (memcmp(list + at, due, (size_t)bytes) == 0)
            return at;
    return 999;
}

/* A LOST with this size word, into a buffer of this length: words 0, 1 and 2 are type, misc and size. */
static uint64_t written(uint64_t size, uint64_t length)
{
    uint64_t words[WORDS] = {2, 0, size};
    uint8_t buffer[64];
    return ollskuvan_write(words, WORDS, NULL, 0, NONE, 3, buffer, (size_t)length);
}

/* Record check of zeros behind a header, but for the last byte. */
static uint64_t checked_dirty(uint64_t type, uint64_t size)
{
    uint8_t bytes[64] = {0};
    spell(bytes, type, 4);
    spell(bytes + 6, size, 2);
    bytes[size - 1] = 1;
    return ollskuvan_check(bytes, (size_t)size, NONE, 3);
}

/* Type and size, and in one word 1. */
static uint64_t written_dirty(uint64_t type, uint64_t size, uint64_t word)
{
    uint64_t words[WORDS] = {type, 0, size};
    uint8_t buffer[64];
    words[word] = 1;
    return ollskuvan_write(words, WORDS, NULL, 0, NONE, 3, buffer, sizeof buffer);
}

static uint64_t shown(const struct row *row)
{
    const uint64_t *n = row->n;
    uint8_t buffer[64];
    switch (row->kind) {
    case LEAST_WORDS_READ: return least_words();
    case OLDEST_EDITION: return oldest_edition(n[0]);
    case RING_SHORTEST: return ring_length(0);
    case RING_LONGEST: return ring_length(1);
    case RECORD_LONGEST: return longest_record();
    case ENTRY_BYTES: return journalled(ENTRY_KIND, ENTRY_TAIL, buffer);
    case ENTRY_OFFSET: return entry_offset(n[0], (int)n[1]);
    case ENTRY_KIND_GIVEN: return journalled(n[0], 0, buffer) ? (uint64_t)buffer[4] | (uint64_t)buffer[5] << 8 : 0;
    case MEANING_GIVEN: return ollskuvan_misc_meaning(n[0], n[1]);
    case STOP_GIVEN: return stopped(n);
    case CHECK_GIVEN: return checked((uint32_t)n[0], n[1], n[2], n[3], n[4], n[5], n[6], n[7]);
    case COPY_GIVEN: return ollskuvan_copy_name(zeros, 8, n[0], n[1], buffer, (size_t)n[2]);
    case WRITE_GIVEN: return written(n[0], n[1]);
    case DIRTY_CHECK_GIVEN: return checked_dirty(n[0], n[1]);
    case DIRTY_WRITE_GIVEN: return written_dirty(n[0], n[1], n[2]);
    case EVENTS_MOST: return most_events();
    case WALK_STOP_GIVEN: return ended(n[0], n[1]);
    case TABLE_STOP_GIVEN: return answered(n[0], 14, 16, 1, buffer);
    case EVENT_ANSWER_GIVEN: return answered(1, n[0], n[1], n[2], buffer) ? 999 : (uint64_t)buffer[6];
    case STORE_BYTE_WRITTEN: return store_byte(n[0]);
    case STORE_READ_GIVEN: return read_changed(n[0], n[1], n[2], n[3]);
    case STORE_WRITE_GIVEN: return stored(n[0], n[1], buffer, n[2]);
    case STORE_VERSION_OLD: return old_version();
    case STORE_EVENTS_OLD: return old_most();
    case KIND_OFFERS: return first_kind(14, 8);
    case KIND_DRAINS: return first_kind(10, 0);
    case REPLAY_GIVEN: return replayed(n[0], n[1]).answer;
    case CHANGE_BYTES: return salvaged(64, 64, buffer).changes;
    case CHANGE_OFFSET: return change_offset(n[0], (int)n[1]);
    case CHANGE_KIND_GIVEN: salvaged(64, 64, buffer); return (uint64_t)buffer[4] | (uint64_t)buffer[5] << 8;
    case SALVAGE_GIVEN: return salvaged(n[0], n[1], buffer).answer;
    case COMPARED_GIVEN: return compared(n[0], n[1], n[2]);
    default: return n[0]; /* SAME_NUMBER */
    }
}

/* ---- a record laid out by hand, and read ---- */

static uint8_t record[RECORD_ROOM];
static size_t laid;        /* its bytes so far */
static uint64_t due[ROWS]; /* what each row's word must read */

static void lay(uint64_t n, int bytes)
{
    if (laid + 8 > RECORD_ROOM)
        abort();
    spell(record + laid, n, bytes);
    laid += (size_t)bytes;
}

/* A number unlike all others of the record; its highest byte is not zero. */
static uint64_t fresh(int bytes)
{
    static unsigned serial;
    uint64_t n = 0;
    int i;
    serial = serial % 240 + 1;
    for (i = 0; i < bytes; i++)
        n |= (uint64_t)((serial + 37u * (unsigned)i) % 255 + 1) << 8 * i;
    return n;
}

/* Bytes that are not zero. */
static void lay_bytes(uint64_t count)
{
    while (count--)
        lay(0xe0 | (laid & 15), 1);
}

/* A name, its zero, and zeros or stale bytes up to a multiple of 8. */
static void lay_name(uint64_t count, int stale)
{
    lay_bytes(count);
    lay(0, 1);
    while (laid % 8)
        lay(stale ? 0xd0 | (laid & 15) : 0, 1);
}

static uint64_t lay_row(const struct row *row, uint64_t *length)
{
    uint64_t n = row->n[0], place = laid;
    switch (row->kind) {
    case NUMBER:
        n = fresh((int)row->n[0]);
        lay(n, (int)row->n[0]);
        return n;
    case COUNTED:
        lay(row->n[1], (int)n);
        return row->n[1];
    case LISTED:
        lay_bytes(n * row->n[1]);
        *length = n;
        return place;
    case NAMED:
    case STALE_NAMED:
        lay_name(n, row->kind == STALE_NAMED);
        *length = n;
        return place;
    case LENGTH_WORD: return *length;
    case RAISED_WORD: return 1;
    case SKIPPED: lay_bytes(n); return 0;
    default: return 0; /* kept words; type, misc and size are known at the end */
    }
}

/* Lays the record whose first row is `from`: the number of its rows, that one included. */
static int lay_record(int from)
{
    const uint64_t type = rows[from].n[0], misc = rows[from].n[1];
    uint64_t length = 0;
    int i;
    laid = 0;
    lay(type, 4);
    lay(misc, 2);
    lay(0, 2);
    for (i = from + 1; i < ROWS && rows[i].kind != RECORD_BEGINS && rows[i].kind < SAME_NUMBER; i++)
        due[i] = lay_row(&rows[i], &length);
    spell(record + 6, laid, 2);
    due[from + 1] = type;
    due[from + 2] = misc;
    due[from + 3] = laid;
    return i - from;
}

static uint64_t values[ROWS][WORDS]; /* by the row that begins the record */
static uint32_t answers[ROWS];

static int has_word(enum kind kind)
{
    return kind != RECORD_BEGINS && kind != SKIPPED && kind != AFTER_WORD && kind < SAME_NUMBER;
}

/* Reads every record once, and makes every call. */
static void lay_all(void)
{
    int i, count;
    for (i = 0; i < ROWS; i += count) {
        const struct attributes *with = rows[i].with;
        count = 1;
        if (rows[i].kind != RECORD_BEGINS) {
            due[i] = shown(&rows[i]);
            continue;
        }
        count = lay_record(i);
        answers[i] = ollskuvan_read(record, laid, with->sample_type, with->read_format, with->sample_id_all,
            with->user_mask, with->interrupt_mask, with->branch_sample_type, 4, values[i], WORDS);
    }
}

/* ---- the rows judged, with the header's constants or with swapped ones ---- */

static int told; /* 1: a fault is printed */

static int fault(int at, const char *name, uint64_t got, uint64_t expected)
{
    if (told && rows[at].kind == RECORD_BEGINS)
        printf("names: in a record of type %s: ", rows[at].name);
    else if (told)
        printf("names: ");
    if (told)
        printf("%s is %llu where %llu is due\n", name, (unsigned long long)got, (unsigned long long)expected);
    return 1;
}

/* Each word reads as its field; a kept word has its place; the words that no row names are zero. */
static int judge_record(int from, int count, const uint32_t *numbers)
{
    const uint64_t *value = values[from];
    uint64_t named[WORDS] = {0};
    int i, faults = answers[from] ? fault(from, "the answer", answers[from], 0) : 0;
    for (i = from + 1; i < from + count; i++) {
        const uint32_t number = numbers[i];
        if (rows[i].kind == AFTER_WORD && numbers[i - 1] != number + 1)
            faults += fault(from, rows[i - 1].name, numbers[i - 1], number + 1);
        if (!has_word(rows[i].kind))
            continue;
        if (number >= WORDS)
            return faults + fault(from, rows[i].name, number, WORDS - 1);
        named[number] = 1;
        if (value[number] != due[i])
            faults += fault(from, rows[i].name, value[number], due[i]);
    }
    for (i = 0; i < WORDS; i++)
        if (!named[i] && value[i])
            faults += fault(from, "a word that no row names", value[i], 0);
    return faults;
}

static int judge(const uint32_t *numbers)
{
    int i, count, faults = 0;
    for (i = 0; i < ROWS; i += count) {
        count = 1;
        if (rows[i].kind != RECORD_BEGINS) {
            if (numbers[i] != due[i])
                faults += fault(i, rows[i].name, numbers[i], due[i]);
            continue;
        }
        while (i + count < ROWS && rows[i + count].kind != RECORD_BEGINS && rows[i + count].kind < SAME_NUMBER)
            count++;
        faults += judge_record(i, count, numbers);
    }
    return faults;
}

/* The fields of a record all differ, or a swapped pair of them would pass unseen. The type differs in other records. */
static int judge_differences(void)
{
    int i, j, faults = 0, from = 0;
    for (i = 0; i < ROWS; i++) {
        if (rows[i].kind == RECORD_BEGINS)
            from = i;
        for (j = from; j < i; j++) {
            if (!has_word(rows[i].kind) || !has_word(rows[j].kind) || rows[j].kind == TYPE_WORD)
                continue;
            if (due[i] && due[i] == due[j]) {
                printf("names: %s and %s have the same value here\n", rows[i].name, rows[j].name);
                faults++;
            }
        }
    }
    return faults;
}

#ifdef SWAPS
#include SWAPS

/* Where a row's constant stands among all constants of the header; -1 for a row without one. */
static int constant_of(int row)
{
    int i;
    for (i = 0; i < CONSTANTS; i++)
        if (strcmp(rows[row].name, constant_names[i]) == 0)
            return i;
    return -1;
}

static int judge_swaps(void)
{
    uint32_t numbers[ROWS];
    int at[ROWS], i, j, unseen = 0;
    told = 0;
    for (j = 0; j < ROWS; j++)
        at[j] = constant_of(j);
    for (i = 0; i < (int)(sizeof swaps / sizeof swaps[0]); i++) {
        for (j = 0; j < ROWS; j++)
            numbers[j] = at[j] < 0 ? 0 : swaps[i].numbers[at[j]];
        if (judge(numbers) == 0) {
            printf("names: swapped unseen: %s\n", swaps[i].names);
            unseen++;
        }
    }
    return unseen;
}
#endif

int main(void)
{
    int faults;
    told = 1;
    lay_all();
    faults = judge(constants) + judge_differences();
    if (faults)
        return 1;
    printf("names: every constant of the header reads as document 01 says: %d rows\n", (int)ROWS);
#ifdef SWAPS
    faults = judge_swaps();
#endif
    return faults != 0;
}
