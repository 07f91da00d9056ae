/*
 * The fuzz target: the exports of libollskuvan.a and the program ringdump beside the independent reader
 * (tests/reader, as the archive libindependent.a), in one program, on inputs that libFuzzer makes.
 * A difference between the two, or a byte touched outside a lent slice, ends it with a description;
 * libFuzzer then keeps the input in a file, and `target FILE` runs it again. tests/fuzz/run.sh builds it.
 *
 * The library's code is proved machine code without instrumentation. So that a byte read or written
 * outside a slice is still seen, every slice that is lent to it lies against a page that cannot be
 * touched: after its end, or before its start if flag AT_START is set; on its other side are guard bytes.
 *
 * An input is a control block of 48 bytes, the branch sample type (8 bytes), then what ringdump takes: head,
 * tail, sample type, read format, user mask, interrupt mask (8 bytes each), edition, sample_id_all (1 byte
 * each), and bytes.
 * What is missing is zero. The control block:
 *   0  the call, modulo TRIED: drain (and read one, and the walk of the ring as a backward one), ringdump, record (check, misc,
 *      name copy, read, write again), write, drain with a table of events (and the same with it, the lookup,
 *      record check and read of one record with it, replay, salvage of the bytes, and the ring compared with a copy
 *      at other counts, a byte changed), store of settings (read, written again; written of the table, with the
 *      head's ring length or LAID's, the edition and the tail's budget, and read back; the table in the old version)
 *   1  flags, see below            2  LAID: the ring's length is 64 << (this modulo 9)
 *   3  what buffers hold before    4, 5  scratch: choice and number; ringdump: 4 cuts the input below 50; salvage: out
 *   6, 7  journal; salvage: list   8  budget: 0 is without end, else this minus 1
 *   9, 10  ringdump reads and writes at most so many bytes a call (0: all)
 *   11  words lent for a value, rows lent for a store    12  write: changes to the value, modulo 4
 *   13  write: bytes cut from the source
 *   14  room for a written record or store    15  room for a name
 *   16 to 45  three changes of ten bytes: word, what to do, number
 *   16 to 31  replay: what stands before each record of the trace, in turn: nothing, a drain, or another entry
 *   46, 47  with a table: its events, modulo 40 (from 200 on: one of MANY), and how many of them are given, modulo 40
 *      (0: all): these are the first of the bytes, 56 each, and the others copies of the last, with identifiers that
 *      count up
 * tests/reader/fuzz.rs makes seeds and mutations in this layout.
 */
#include <inttypes.h>
#include <signal.h>
#include <stdarg.h>
#include <stdint.h>
#include <stdio.h>
#include <stdlib.h>
#include <string.h>
#include <sys/mman.h>
#include <unistd.h>

#include "ollskuvan.h"
#include "reader.h"

enum { CONTROL = 48, BRANCH = 8, HEADER = 50, LONGEST = 65536, FIELDS = OLLSKUVAN_FIELDS };
enum { TABLED_CALL = 4, STORE_CALL = 5, TRIED = 6 };

/* Numbers of events about the limits of a table, of both versions of a store, and of an index of one byte. */
static const uint16_t MANY[] = { 31, 32, 33, 34, 255, 256, 257, 258, 300, 500, 1000, 1022, 1023, 1024, 1025, 1026 };
enum { MANY_EVENTS = 1026, MANIES = sizeof MANY / sizeof MANY[0] };

enum {
    LAID = 1,          /* the bytes are records, laid into a ring from the tail on; else they are the ring */
    HEAD_DISTANCE = 2, /* LAID: the head is the tail plus the head's number; else it is after the last record */
    PLACE_NEAR = 4,    /* record: the name's place and count are kept near the record's length */
    FALSE_EDITION = 8, /* the edition plus 256 */
    HIGH_ID_ALL = 16,  /* sample_id_all in the highest byte of its 32 bits */
    AT_START = 32,     /* slices lie against the page before them */
    TRUE_SIZE = 64,    /* record, write: the record's size is made to be its length */
    FLAG_KEPT = 128    /* write: a name's flag stays as it was read; else it is taken off before the changes */
};

/* What else the independent reader has, and ringdump with its main, read and write renamed. */
size_t reader_print(const uint8_t *, size_t, uint8_t *, size_t);
size_t reader_mutate(uint8_t *, size_t, size_t, uint32_t);
int ringdump_main(void);
ssize_t ringdump_read(int, void *, size_t);
ssize_t ringdump_write(int, const void *, size_t);

int LLVMFuzzerInitialize(int *, char ***);
int LLVMFuzzerTestOneInput(const uint8_t *, size_t);
size_t LLVMFuzzerCustomMutator(uint8_t *, size_t, size_t, unsigned);
size_t LLVMFuzzerMutate(uint8_t *, size_t, size_t);

/* The input that is being tried. */
static struct {
    uint8_t control[CONTROL];
    uint64_t head, tail, sample_type, read_format, user_mask, interrupt_mask, branch_sample_type;
    uint32_t edition, sample_id_all;
    uint8_t bytes[LONGEST];
    size_t count;
    int tabled; /* this call has a table */
    struct ollskuvan_event events[MANY_EVENTS];
    size_t event_count;
} in;

#define ATTRIBUTES in.sample_type, in.read_format, in.sample_id_all, in.user_mask, in.interrupt_mask, \
    in.branch_sample_type, in.edition

/* ---- What was reached: told to libFuzzer as if it were coverage, and counted for the end's report. ---- */

enum call { DRAIN, PROGRAM, CHECK, COPY, READ, WRITE, MEANING, ONE_STOP, ONE, TABLED, TABLED_RECORD, STORE_READ,
    STORE_WRITTEN, REPLAY, WALK, TABLED_WALK, SALVAGE, COMPARE, COMPARE_STOP, TABLED_CHECK, TABLED_READ, CALLS };
static const char *const call_names[CALLS] = { "drain", "ringdump", "check", "name copy", "read", "write",
    "misc meaning, without the CPU mode,", "read one, its stops:", "read one", "drain with a table", "records under a table",
    "read store", "write store", "replay",
    "walk", "walk with a table", "salvage", "compare", "compare, its stops:", "check with a table", "read with a table" };

/* by call, type (0, or 22 for every other) and answer */
enum { TYPES = 23, ANSWERS = 64 };
__attribute__((section("__libfuzzer_extra_counters"))) static uint8_t reached[CALLS * TYPES * ANSWERS];
static uint64_t answers[CALLS][ANSWERS];
static uint64_t accepted[5][TYPES];
static uint64_t executions, records_seen, crossings;

static void reach(enum call call, uint64_t type, uint32_t answer)
{
    size_t row = type < TYPES ? (size_t)type : TYPES - 1;

    answers[call][answer % ANSWERS]++;
    reached[(call * TYPES + row) * ANSWERS + answer % ANSWERS] = 1;
}

static void print_reached(void)
{
    int call, answer, type, edition;

    if (executions == 0)
        return;
    fprintf(stderr, "fuzz: %" PRIu64 " executions, no difference; %" PRIu64 " records drained, %" PRIu64
        " across the ring's end\n", executions, records_seen, crossings);
    for (call = 0; call < CALLS; call++) {
        fprintf(stderr, "fuzz: %s answers:", call_names[call]);
        for (answer = 0; answer < ANSWERS; answer++)
            if (answers[call][answer])
                fprintf(stderr, "  %d: %" PRIu64, answer, answers[call][answer]);
        fprintf(stderr, "\n");
    }
    for (edition = 1; edition <= 4; edition++) {
        fprintf(stderr, "fuzz: types accepted by check in edition %d:", edition);
        for (type = 0; type < TYPES; type++)
            if (accepted[edition][type])
                fprintf(stderr, " %d", type);
        fprintf(stderr, "\n");
    }
}

/* ---- Differences. ---- */

static void print_hex(const char *name, const void *bytes, size_t count)
{
    size_t i;

    fprintf(stderr, "  %s, %zu bytes: ", name, count);
    for (i = 0; i < count; i++)
        fprintf(stderr, "%02x", ((const uint8_t *)bytes)[i]);
    fprintf(stderr, "\n");
}

/* The attributes are printed here; the caller has printed what else went in. */
static void differs(const char *words, ...)
{
    va_list rest;

    fprintf(stderr, "DIFFERENCE: ");
    va_start(rest, words);
    vfprintf(stderr, words, rest);
    va_end(rest);
    fprintf(stderr, "\n  edition %" PRIu32 "  sample type %#" PRIx64 "  read format %#" PRIx64
        "  sample_id_all %#" PRIx32 "  user mask %#" PRIx64 "  interrupt mask %#" PRIx64 "  branch %#" PRIx64 "\n",
        in.edition, in.sample_type, in.read_format, in.sample_id_all, in.user_mask, in.interrupt_mask,
        in.branch_sample_type);
    if (in.tabled)
        print_hex("table", in.events, in.event_count * sizeof in.events[0]);
    executions = 0;
    abort();
}

/* ---- Lent slices. ---- */

enum slice { RING, SCRATCH, JOURNAL, RECORD, NAME, VALUE, SOURCE, BUFFER, TABLE, STORE, ROWS, RIGHT, RIGHT_SCRATCH, SLICES };
enum { AREA = 1 << 18, GUARD = 64 };
static uint8_t *areas[SLICES];

/* The place of a slice of so many bytes, with guard bytes on the side that no page protects. */
static uint8_t *lend(enum slice slice, const void *bytes, size_t count)
{
    uint8_t *place;

    if (in.control[1] & AT_START) {
        place = areas[slice];
        memset(place + count, 0xa5, GUARD);
    } else {
        place = areas[slice] + AREA - count;
        memset(place - GUARD, 0xa5, GUARD);
    }
    if (count)
        memcpy(place, bytes, count);
    return place;
}

static void guards_are_kept(enum slice slice, const uint8_t *place, size_t count)
{
    const uint8_t *guard = in.control[1] & AT_START ? place + count : place - GUARD;

    if (guard[0] != 0xa5 || memcmp(guard, guard + 1, GUARD - 1))
        differs("a byte beside slice %d was written to", (int)slice);
}

static void is_kept(enum slice slice, const uint8_t *place, const void *bytes, size_t count)
{
    guards_are_kept(slice, place, count);
    if (count && memcmp(place, bytes, count)) {
        print_hex("before", bytes, count);
        print_hex("after", place, count);
        differs("slice %d, which is only read, was written to", (int)slice);
    }
}

/* A slice after the call: what the reader made of it, and nothing beside it. */
static void is_as(enum slice slice, const uint8_t *place, const void *due, size_t count, const char *name)
{
    guards_are_kept(slice, place, count);
    if (count && memcmp(place, due, count)) {
        print_hex("library", place, count);
        print_hex("independent", due, count);
        differs("%s", name);
    }
}

/* ---- The calls, each by both. ---- */

static uint64_t type_of(const uint8_t *record, size_t count)
{
    return count < 4 ? 0 : record[0] | (uint32_t)record[1] << 8 | (uint32_t)record[2] << 16 | (uint32_t)record[3] << 24;
}

static uint32_t check(const uint8_t *record, size_t count)
{
    const uint8_t *lent = lend(RECORD, record, count);
    uint32_t library = ollskuvan_check(lent, count, ATTRIBUTES);
    uint32_t independent = reader_check(record, count, ATTRIBUTES);
    uint64_t type = type_of(record, count);

    if (library != independent) {
        print_hex("record", record, count);
        differs("check: library %" PRIu32 ", independent %" PRIu32, library, independent);
    }
    is_kept(RECORD, lent, record, count);
    reach(CHECK, type, library);
    if ((library == 0 || library == OLLSKUVAN_DIRTY_NAME) && in.edition < 5 && type < TYPES)
        accepted[in.edition][type]++;
    return library;
}

static void misc_meaning(uint64_t type, uint64_t misc)
{
    uint32_t library = ollskuvan_misc_meaning(type, misc), independent = reader_misc_meaning(type, misc);

    if (library != independent)
        differs("misc %#" PRIx64 " of type %" PRIu64 ": library %" PRIu32 ", independent %" PRIu32, misc, type, library,
            independent);
    reach(MEANING, type, library >> 3);
}

/* The record's own type and misc, and with bits that no header has: the words are the head and the tail. */
static void misc_meanings(const uint8_t *record, size_t count)
{
    uint64_t type = type_of(record, count), misc = count < 6 ? 0 : record[4] | (uint64_t)record[5] << 8;

    misc_meaning(type, misc);
    misc_meaning(type, misc | in.head << 16);
    misc_meaning(type | in.head << 32, misc);
    misc_meaning(in.head, in.tail);
}

static void publish(uint64_t length, uint64_t head, uint64_t first, uint64_t second)
{
    struct ollskuvan_published library = ollskuvan_publish(length, head, first, second);
    struct ollskuvan_published independent = reader_publish(length, head, first, second);

    if (library.tail != independent.tail || library.answer != independent.answer)
        differs("publish of length %" PRIu64 ", head %" PRIu64 ", tails %" PRIu64 " and %" PRIu64 ": library %" PRIu64 " and %" PRIu32
            ", independent %" PRIu64 " and %" PRIu32, length, head, first, second, library.tail, library.answer, independent.tail,
            independent.answer);
}

/* Two readers' tails: any, and such as lie before the head by about a ring length at most. */
static void publish_tails(void)
{
    uint64_t length = UINT64_C(64) << (in.control[15] & 15);

    publish(in.read_format, in.head, in.tail, in.sample_type);
    publish(length, in.head, in.tail, in.sample_type);
    publish(length, in.head, in.head - in.tail % (length + 16), in.head - in.sample_type % (length + 16));
    publish(length, in.head & ~UINT64_C(7), (in.head - in.tail % (length + 16)) & ~UINT64_C(7),
        (in.head - in.sample_type % (length + 16)) & ~UINT64_C(7));
}

static void copy_name(const uint8_t *record, size_t count, uint64_t place, uint64_t bytes, size_t room)
{
    uint8_t before[300];
    uint8_t *lent, *buffer;
    uint32_t library, independent;

    memset(before, in.control[3], sizeof before);
    lent = lend(RECORD, record, count);
    buffer = lend(NAME, before, room);
    library = ollskuvan_copy_name(lent, count, place, bytes, buffer, room);
    independent = reader_copy_name(record, count, place, bytes, before, room);
    if (library != independent) {
        print_hex("record", record, count);
        differs("name copy of %" PRIu64 " bytes at %" PRIu64 ", room %zu: library %" PRIu32 ", independent %" PRIu32,
            bytes, place, room, library, independent);
    }
    is_kept(RECORD, lent, record, count);
    is_as(NAME, buffer, before, room, "name copy: the buffer");
    reach(COPY, 0, library);
}

/* Reads into so many words; the independent reader's words are left in `value`. */
static uint32_t read_value(const uint8_t *record, size_t count, uint64_t *value, size_t words)
{
    uint8_t *lent, *lent_words;
    uint32_t library, independent;
    size_t i;

    for (i = 0; i < words; i++)
        value[i] = UINT64_C(0x0123456789abcdef);
    lent = lend(RECORD, record, count);
    lent_words = lend(VALUE, value, 8 * words);
    library = ollskuvan_read(lent, count, ATTRIBUTES, (uint64_t *)(void *)lent_words, words);
    independent = reader_read(record, count, ATTRIBUTES, value, words);
    if (library != independent) {
        print_hex("record", record, count);
        differs("read into %zu words: library %" PRIu32 ", independent %" PRIu32, words, library, independent);
    }
    is_kept(RECORD, lent, record, count);
    if (memcmp(lent_words, value, 8 * words))
        print_hex("record", record, count);
    is_as(VALUE, lent_words, value, 8 * words, "read: the words of the value");
    reach(READ, type_of(record, count), library);
    return library;
}

static uint8_t written[LONGEST + 512];

/* Writes into so many bytes; the independent writer's buffer is left in `written`. */
static uint32_t write_value(const uint64_t *value, size_t words, const uint8_t *source, size_t count, size_t room)
{
    uint8_t *lent_words, *lent_source, *buffer;
    uint32_t library, independent;

    memset(written, in.control[3], room);
    lent_words = lend(VALUE, value, 8 * words);
    lent_source = lend(SOURCE, source, count);
    buffer = lend(BUFFER, written, room);
    library = ollskuvan_write((const uint64_t *)(void *)lent_words, words, lent_source, count, ATTRIBUTES, buffer, room);
    independent = reader_write(value, words, source, count, ATTRIBUTES, written, room);
    if (library != independent || (room && memcmp(buffer, written, room))) {
        print_hex("value", value, 8 * words);
        print_hex("source", source, count);
    }
    if (library != independent)
        differs("write into %zu bytes: library %" PRIu32 ", independent %" PRIu32, room, library, independent);
    is_kept(VALUE, lent_words, value, 8 * words);
    is_kept(SOURCE, lent_source, source, count);
    is_as(BUFFER, buffer, written, room, "write: the buffer");
    reach(WRITE, words ? value[0] : 0, library);
    return library;
}

/* What was accepted by write, read back: the same numbers. The places of lists may differ; no flag is set. */
static void reads_back(size_t size)
{
    static uint8_t record[LONGEST];
    uint64_t value[FIELDS];

    memcpy(record, written, size);
    if (read_value(record, size, value, FIELDS) != 0 || value[OLLSKUVAN_SIZE] != size || check(record, size) != 0) {
        print_hex("record", record, size);
        differs("what was written does not read back");
    }
}

/* What was read, written again and read back. A value with the flag is 43, and is written once the flag is taken off. */
static void writes_again(uint64_t *value, size_t count, size_t room)
{
    unsigned flag = flag_word(value[OLLSKUVAN_TYPE]);

    if (flag && value[flag]) {
        if (write_value(value, FIELDS, in.bytes, count, room) != OLLSKUVAN_REFUSED_DIRTY_VALUE)
            differs("a value with the flag is not refused with 43");
        value[flag] = 0;
    }
    if (write_value(value, FIELDS, in.bytes, count, room) != 0) {
        print_hex("record", in.bytes, count);
        differs("a record that was read cannot be written again");
    }
    reads_back(count);
}

/* ---- The ring. ---- */

static uint8_t laid[64 << 8];

struct ring {
    const uint8_t *bytes;
    size_t length;
    uint64_t head;
};

static struct ring make_ring(void)
{
    struct ring ring = { in.bytes, in.count, in.head };
    size_t place, first, count;

    if (!(in.control[1] & LAID))
        return ring;
    ring.length = (size_t)64 << in.control[2] % 9;
    ring.bytes = laid;
    count = in.count < ring.length ? in.count : ring.length;
    place = (size_t)(in.tail % ring.length);
    first = count < ring.length - place ? count : ring.length - place;
    memset(laid, 0, ring.length);
    memcpy(laid + place, in.bytes, first);
    memcpy(laid, in.bytes + first, count - first);
    ring.head = in.tail + (in.control[1] & HEAD_DISTANCE ? in.head : count / 8 * 8);
    return ring;
}

static size_t scratch_length(size_t ring_length)
{
    size_t n = in.control[5];

    switch (in.control[4] % 5) {
    case 0: return ring_length;
    case 1: return n;
    case 2: return 8 * n;
    case 3: return ring_length > n ? ring_length - n : 0;
    default: return 8 * n + 7;
    }
}

static size_t journal_length(size_t ring_length)
{
    size_t n = in.control[7];

    switch (in.control[6] % 4) {
    case 0: return 16 * (ring_length / 8 + 1);
    case 1: return n;
    case 2: return 16 * n;
    default: return 16 * n + 15;
    }
}

/* The table of the input, lent: seven words an event, and so aligned. */
static const struct ollskuvan_event *lend_table(void)
{
    return (const struct ollskuvan_event *)(void *)lend(TABLE, in.events, in.event_count * sizeof in.events[0]);
}

static void table_is_kept(const struct ollskuvan_event *lent)
{
    is_kept(TABLE, (const uint8_t *)lent, in.events, in.event_count * sizeof in.events[0]);
}

static void find_event(uint64_t identifier)
{
    const struct ollskuvan_event *table = lend_table();
    size_t library = ollskuvan_find_event(table, in.event_count, identifier);
    size_t independent = reader_find_event(in.events, in.event_count, identifier);

    table_is_kept(table);
    if (library != independent)
        differs("find event %#" PRIx64 ": library %zu, independent %zu", identifier, library, independent);
}

static int same_judged(const char *call, struct ollskuvan_judged a, struct ollskuvan_judged b, const uint8_t *record,
    size_t count)
{
    if (a.answer == b.answer && a.inspected == b.inspected)
        return 1;
    print_hex("record", record, count);
    differs("%s with a table: library %" PRIu32 ", %" PRIu32 " inspected; independent %" PRIu32 ", %" PRIu32, call, a.answer,
        a.inspected, b.answer, b.inspected);
    return 0;
}

/* One record with the table: check, and read into so many words. */
static struct ollskuvan_judged judged(const uint8_t *record, size_t count, size_t words)
{
    const struct ollskuvan_event *table = lend_table();
    const uint8_t *lent = lend(RECORD, record, count);
    struct ollskuvan_judged library = ollskuvan_check_events(lent, count, table, in.event_count, in.edition);

    same_judged("check", library, reader_check_events(record, count, in.events, in.event_count, in.edition), record, count);
    reach(TABLED_CHECK, type_of(record, count), library.answer);
    {
        uint64_t value[FIELDS + 4];
        uint8_t *lent_words;
        struct ollskuvan_judged read;
        size_t i;

        for (i = 0; i < words; i++)
            value[i] = UINT64_C(0x0123456789abcdef);
        lent_words = lend(VALUE, value, 8 * words);
        read = ollskuvan_read_events(lent, count, table, in.event_count, in.edition, (uint64_t *)(void *)lent_words, words);
        same_judged("read", read, reader_read_events(record, count, in.events, in.event_count, in.edition, value, words),
            record, count);
        is_as(VALUE, lent_words, value, 8 * words, "read with a table: the words of the value");
        reach(TABLED_READ, type_of(record, count), read.answer);
    }
    table_is_kept(table);
    is_kept(RECORD, lent, record, count);
    return library;
}

static void print_one(const char *who, const struct ollskuvan_one *one)
{
    fprintf(stderr, "  %s: place %" PRIu64 "  size %" PRIu64 "  tail %#" PRIx64 "  in_scratch %" PRIu32 "  stop %" PRIu32
        "  answer %" PRIu32 "  inspected %" PRIu32 "\n", who, one->place, one->size, one->tail, one->in_scratch, one->stop,
        one->answer, one->inspected);
}

static int same_one(const struct ollskuvan_one *a, const struct ollskuvan_one *b)
{
    return a->place == b->place && a->size == b->size && a->tail == b->tail && a->in_scratch == b->in_scratch
        && a->stop == b->stop && a->answer == b->answer && a->inspected == b->inspected;
}

/* The record at a tail, by both. */
static struct ollskuvan_one read_one(const struct ring *ring, uint64_t tail, size_t scratch_len, size_t words)
{
    static uint8_t scratch[LONGEST];
    uint64_t value[FIELDS + 4];
    const uint8_t *lent_ring = lend(RING, ring->bytes, ring->length);
    uint8_t *lent_scratch, *lent_words;
    struct ollskuvan_one library, independent;
    size_t i;

    memset(scratch, in.control[3], scratch_len);
    for (i = 0; i < words; i++)
        value[i] = UINT64_C(0x0123456789abcdef);
    lent_scratch = lend(SCRATCH, scratch, scratch_len);
    lent_words = lend(VALUE, value, 8 * words);
    if (in.tabled) {
        const struct ollskuvan_event *table = lend_table();

        library = ollskuvan_read_one_events(lent_ring, ring->length, ring->head, tail, table, in.event_count, in.edition,
            lent_scratch, scratch_len, (uint64_t *)(void *)lent_words, words);
        independent = reader_read_one_events(ring->bytes, ring->length, ring->head, tail, in.events, in.event_count,
            in.edition, scratch, scratch_len, value, words);
        table_is_kept(table);
    } else {
        library = ollskuvan_read_one(lent_ring, ring->length, ring->head, tail, ATTRIBUTES, lent_scratch, scratch_len,
            (uint64_t *)(void *)lent_words, words);
        independent = reader_read_one(ring->bytes, ring->length, ring->head, tail, ATTRIBUTES, scratch, scratch_len, value,
            words);
    }
    if (!same_one(&library, &independent)) {
        fprintf(stderr, "  read one: head %#" PRIx64 "  tail %#" PRIx64 "  scratch %zu  words %zu\n", ring->head, tail,
            scratch_len, words);
        print_one("library", &library);
        print_one("independent", &independent);
        print_hex("ring", ring->bytes, ring->length);
        differs("read one: what is told");
    }
    is_kept(RING, lent_ring, ring->bytes, ring->length);
    is_as(SCRATCH, lent_scratch, scratch, scratch_len, "read one: the scratch");
    is_as(VALUE, lent_words, value, 8 * words, "read one: the words of the value");
    if (library.size == 0)
        reach(ONE_STOP, in.tabled, library.stop);
    else
        reach(ONE, library.in_scratch + 2u * (unsigned)in.tabled, library.answer);
    return library;
}

/* The words that are lent for a value, by a byte of the control block. */
static size_t some_words(uint8_t choice)
{
    static const uint8_t lengths[] = { FIELDS, FIELDS - 1, 0, FIELDS + 1, 3, FIELDS + 4, 1, 54 };

    return lengths[choice % 8];
}

/* The records of a journal one by one: check, but for 44, and the reader of one record answer the same; accepted ones are
 * read. */
static void take_apart(const struct ring *ring, const uint8_t *journal, uint64_t taken)
{
    static uint8_t record[LONGEST];
    uint64_t i, tail;
    uint32_t answer, whole;
    size_t at, size, k;

    for (i = 0; i < taken; i++, journal += 16) {
        for (tail = 0, k = 8; k-- > 0;)
            tail = tail << 8 | journal[OLLSKUVAN_JOURNAL_TAIL + k];
        answer = journal[OLLSKUVAN_JOURNAL_ANSWER] | (uint32_t)journal[OLLSKUVAN_JOURNAL_ANSWER + 1] << 8;
        at = (size_t)(tail % ring->length);
        size = ring->bytes[at + 6] | (size_t)ring->bytes[at + 7] << 8;
        crossings += at + size > ring->length;
        if (i >= 6)
            continue;
        for (k = 0; k < size; k++)
            record[k] = ring->bytes[(at + k) % ring->length];
        whole = in.tabled ? answer : check(record, size);
        if (in.tabled) {
            whole = judged(record, size, FIELDS).answer;
            if ((whole == OLLSKUVAN_DIRTY_NAME ? OLLSKUVAN_OK : whole) != answer)
                differs("check with a table does not answer as the journal does: %" PRIu32, answer);
            reach(TABLED_RECORD, type_of(record, size), answer);
        } else if ((whole == OLLSKUVAN_DIRTY_NAME ? OLLSKUVAN_OK : whole) != answer) {
            print_hex("record", record, size);
            differs("check does not answer as the journal does: %" PRIu32, answer);
        }
        struct ollskuvan_one one = read_one(ring, tail, size, FIELDS);
        uint64_t value[FIELDS];

        if (in.tabled && one.inspected != judged(record, size, 0).inspected)
            differs("read one inspects %" PRIu32 " events, and check others", one.inspected);
        if (one.answer != answer || one.size != size || one.in_scratch != (at + size > ring->length))
            differs("read one gives another record than the journal, whose answer is %" PRIu32, answer);
        if (answer == 0 && !in.tabled)
            read_value(record, size, value, FIELDS);
    }
    records_seen += taken;
}

static int same_walk(const struct ollskuvan_walked *a, const struct ollskuvan_walked *b)
{
    return a->taken == b->taken && a->bytes == b->bytes && a->stop == b->stop;
}

/* The ring as a backward one whose newest record starts at this head. What was walked adds up, whatever the reader says: the
 * entries start where the one before ends, and the sizes there are the bytes. */
static void walk_back(const struct ring *ring, uint64_t head, uint64_t budget, size_t scratch_len, size_t journal_len)
{
    static uint8_t scratch[LONGEST], journal[2 * LONGEST + 64];
    const uint8_t *lent_ring = lend(RING, ring->bytes, ring->length);
    uint8_t *lent_scratch, *lent_journal;
    struct ollskuvan_walked library, independent;
    uint64_t i, way = 0;
    size_t at, k;

    memset(scratch, in.control[3], scratch_len);
    memset(journal, in.control[3], journal_len);
    lent_scratch = lend(SCRATCH, scratch, scratch_len);
    lent_journal = lend(JOURNAL, journal, journal_len);
    if (in.tabled) {
        const struct ollskuvan_event *table = lend_table();

        library = ollskuvan_walk_back_events(lent_ring, ring->length, head, table, in.event_count, in.edition, budget,
            lent_scratch, scratch_len, lent_journal, journal_len);
        independent = reader_walk_back_events(ring->bytes, ring->length, head, in.events, in.event_count, in.edition, budget,
            scratch, scratch_len, journal, journal_len);
        table_is_kept(table);
    } else {
        library = ollskuvan_walk_back(lent_ring, ring->length, head, ATTRIBUTES, budget, lent_scratch, scratch_len,
            lent_journal, journal_len);
        independent = reader_walk_back(ring->bytes, ring->length, head, ATTRIBUTES, budget, scratch, scratch_len, journal,
            journal_len);
    }
    if (!same_walk(&library, &independent)) {
        fprintf(stderr, "  walk: head %#" PRIx64 "  budget %" PRIu64 "  scratch %zu  journal %zu\n", head, budget, scratch_len,
            journal_len);
        fprintf(stderr, "  library:     taken %" PRIu64 "  bytes %" PRIu64 "  stop %" PRIu32 "\n", library.taken, library.bytes,
            library.stop);
        fprintf(stderr, "  independent: taken %" PRIu64 "  bytes %" PRIu64 "  stop %" PRIu32 "\n", independent.taken,
            independent.bytes, independent.stop);
        print_hex("ring", ring->bytes, ring->length);
        differs("walk: the results");
    }
    is_as(JOURNAL, lent_journal, journal, journal_len, "walk: the journal");
    is_as(SCRATCH, lent_scratch, scratch, scratch_len, "walk: the scratch");
    is_kept(RING, lent_ring, ring->bytes, ring->length);
    for (i = 0; i < library.taken; i++) {
        uint64_t start = 0;

        for (k = 8; k-- > 0;)
            start = start << 8 | lent_journal[16 * i + OLLSKUVAN_JOURNAL_TAIL + k];
        if (start != head + way)
            differs("walk: entry %" PRIu64 " starts at %#" PRIx64 ", not at %#" PRIx64, i, start, head + way);
        at = (size_t)(start % ring->length);
        way += ring->bytes[at + 6] | (uint64_t)ring->bytes[at + 7] << 8;
    }
    if (way != library.bytes || way > ring->length)
        differs("walk: %" PRIu64 " bytes told of records with %" PRIu64, library.bytes, way);
    reach(in.tabled ? TABLED_WALK : WALK, library.taken < 4 ? library.taken : 4, library.stop);
}

static void try_drain(void)
{
    static uint8_t scratch[LONGEST], journal[2 * LONGEST + 64];
    struct ring ring = make_ring();
    size_t scratch_len = scratch_length(ring.length), journal_len = journal_length(ring.length);
    uint64_t budget = in.control[8] ? in.control[8] - 1u : UINT64_MAX;
    const uint8_t *lent_ring;
    uint8_t *lent_scratch, *lent_journal;
    struct ollskuvan_drained library, independent;

    memset(scratch, in.control[3], scratch_len);
    memset(journal, in.control[3], journal_len);
    lent_ring = lend(RING, ring.bytes, ring.length);
    lent_scratch = lend(SCRATCH, scratch, scratch_len);
    lent_journal = lend(JOURNAL, journal, journal_len);
    if (in.tabled) {
        const struct ollskuvan_event *table = lend_table();

        library = ollskuvan_drain_events(lent_ring, ring.length, ring.head, in.tail, table, in.event_count, in.edition,
            budget, lent_scratch, scratch_len, lent_journal, journal_len);
        independent = reader_drain_events(ring.bytes, ring.length, ring.head, in.tail, in.events, in.event_count,
            in.edition, budget, scratch, scratch_len, journal, journal_len);
        table_is_kept(table);
    } else {
        library = ollskuvan_drain(lent_ring, ring.length, ring.head, in.tail, ATTRIBUTES, budget, lent_scratch,
            scratch_len, lent_journal, journal_len);
        independent = reader_drain(ring.bytes, ring.length, ring.head, in.tail, ATTRIBUTES, budget, scratch, scratch_len,
            journal, journal_len);
    }
    if (library.taken != independent.taken || library.bytes != independent.bytes || library.tail != independent.tail
        || library.stop != independent.stop || memcmp(lent_journal, journal, journal_len)
        || memcmp(lent_scratch, scratch, scratch_len)) {
        fprintf(stderr, "  drain: head %#" PRIx64 "  tail %#" PRIx64 "  budget %" PRIu64 "  scratch %zu  journal %zu\n",
            ring.head, in.tail, budget, scratch_len, journal_len);
        fprintf(stderr, "  library:     taken %" PRIu64 "  bytes %" PRIu64 "  tail %#" PRIx64 "  stop %" PRIu32 "\n",
            library.taken, library.bytes, library.tail, library.stop);
        fprintf(stderr, "  independent: taken %" PRIu64 "  bytes %" PRIu64 "  tail %#" PRIx64 "  stop %" PRIu32 "\n",
            independent.taken, independent.bytes, independent.tail, independent.stop);
        print_hex("ring", ring.bytes, ring.length);
    }
    is_as(JOURNAL, lent_journal, journal, journal_len, "drain: the journal");
    is_as(SCRATCH, lent_scratch, scratch, scratch_len, "drain: the scratch");
    if (library.taken != independent.taken || library.bytes != independent.bytes || library.tail != independent.tail
        || library.stop != independent.stop)
        differs("drain: the results");
    is_kept(RING, lent_ring, ring.bytes, ring.length);
    reach(in.tabled ? TABLED : DRAIN, library.taken < 4 ? library.taken : 4, library.stop);
    take_apart(&ring, journal, library.taken);
    walk_back(&ring, in.tail, budget, scratch_len, journal_len);
    walk_back(&ring, ring.head, budget, scratch_len, journal_len);
    read_one(&ring, in.tail, scratch_len, some_words(in.control[11]));
    read_one(&ring, library.tail, scratch_len, some_words(in.control[11]));
}

/* ---- Replay: the bytes as a trace, and a trace that is made of the records that they are. ---- */

enum { LONGEST_TRACE = 2 * LONGEST + 4096 };

static void print_replayed(const char *who, const struct ollskuvan_replayed *r)
{
    fprintf(stderr, "  %s: entries %" PRIu64 "  offered %" PRIu64 "  drained %" PRIu64 "  dropped %" PRIu64 "  held %" PRIu64
        "  taken %" PRIu64 "  drops %" PRIu64 "  head %#" PRIx64 "  tail %#" PRIx64 "  answer %" PRIu32 "\n", who, r->entries,
        r->offered_bytes, r->drained_bytes, r->dropped_bytes, r->held_bytes, r->taken, r->dropped, r->head, r->tail, r->answer);
}

static int same_replayed(const struct ollskuvan_replayed *a, const struct ollskuvan_replayed *b)
{
    return a->entries == b->entries && a->offered_bytes == b->offered_bytes && a->drained_bytes == b->drained_bytes
        && a->dropped_bytes == b->dropped_bytes && a->held_bytes == b->held_bytes && a->taken == b->taken
        && a->dropped == b->dropped && a->head == b->head && a->tail == b->tail && a->answer == b->answer;
}

static void replay(const uint8_t *trace, size_t length, size_t rooms_len, size_t journal_len)
{
    static uint8_t rooms[2 * (64 << 8) + 8], journal[2 * LONGEST + 64];
    const struct ollskuvan_event *table = lend_table();
    const uint8_t *lent = lend(RECORD, trace, length);
    uint8_t *lent_rooms, *lent_journal;
    struct ollskuvan_replayed library, independent;

    memset(rooms, in.control[3], rooms_len);
    memset(journal, in.control[3], journal_len);
    lent_rooms = lend(RING, rooms, rooms_len);
    lent_journal = lend(JOURNAL, journal, journal_len);
    library = ollskuvan_replay(lent, length, in.tail, table, in.event_count, in.edition, lent_rooms, rooms_len, lent_journal,
        journal_len);
    independent = reader_replay(trace, length, in.tail, in.events, in.event_count, in.edition, rooms, rooms_len, journal,
        journal_len);
    if (!same_replayed(&library, &independent)) {
        print_replayed("library", &library);
        print_replayed("independent", &independent);
        print_hex("trace", trace, length);
        differs("replay from %#" PRIx64 " over rooms of %zu, journal of %zu bytes: what is told", in.tail, rooms_len,
            journal_len);
    }
    is_kept(RECORD, lent, trace, length);
    table_is_kept(table);
    is_as(RING, lent_rooms, rooms, rooms_len, "replay: ring and scratch");
    is_as(JOURNAL, lent_journal, journal, journal_len, "replay: the journal");
    if (library.offered_bytes != library.drained_bytes + library.dropped_bytes + library.held_bytes)
        differs("replay: the bytes offered are not those drained, dropped and held");
    reach(REPLAY, (library.taken != 0) + 2 * (library.dropped != 0) + 4 * (library.held_bytes != 0), library.answer);
}

static size_t put_entry(uint8_t *at, unsigned kind, const uint8_t *body, size_t length)
{
    size_t i;

    for (i = 0; i < 4; i++)
        at[i] = (uint8_t)((6 + length) >> 8 * i);
    at[4] = (uint8_t)kind;
    at[5] = 0;
    memcpy(at + 6, body, length);
    return 6 + length;
}

/* What a byte of the control block puts before a record: mostly nothing, or a drain of few; now and then what is at fault. */
static size_t put_between(uint8_t *at, uint8_t choice)
{
    static const uint8_t zeros[64];
    uint8_t budget[4] = { choice >> 4, 0, 0, 0 };

    switch (choice % 8) {
    case 1:
    case 2: return put_entry(at, OLLSKUVAN_KIND_DRAIN, budget, 4);
    case 3: return choice < 128 ? 0 : put_entry(at, 1 + (choice >> 3) % 3, zeros, (size_t[]){ 2, 49 + (choice >> 6 & 1), 13 }[(choice >> 3) % 3]);
    case 4: return choice < 192 ? 0 : put_entry(at, choice & 31, zeros, choice & 15);
    default: return 0;
    }
}

/* The records of the bytes, cut by their sizes; what is no record is offered as it is. */
static size_t make_trace(uint8_t *trace)
{
    size_t at = 0, size, length = 0, turn = 0;

    while (at < in.count && length < LONGEST_TRACE - 2048) {
        size_t left = in.count - at;

        size = left < 8 ? left : in.bytes[at + 6] | (size_t)in.bytes[at + 7] << 8;
        if (size < 8 || size > left)
            size = left;
        length += put_between(trace + length, in.control[16 + turn++ % 16]);
        if (length + size > LONGEST_TRACE - 2048)
            break;
        length += put_entry(trace + length, OLLSKUVAN_KIND_OFFER, in.bytes + at, size);
        at += size;
    }
    return length + put_entry(trace + length, OLLSKUVAN_KIND_DRAIN, (const uint8_t[4]){ in.control[8], 0, 0, 0 }, 4);
}

static void try_replay(void)
{
    static uint8_t trace[LONGEST_TRACE];
    size_t ring = (size_t)64 << in.control[2] % 9, rooms = 2 * ring, journal = journal_length(ring), length = make_trace(trace);

    if (in.control[4] % 16 == 15)
        rooms = in.control[5];
    replay(trace, length, rooms, journal);
    replay(trace, length - in.control[7] % (length + 1), rooms, journal);
    replay(in.bytes, in.count, rooms, journal);
}

/* ---- Salvage: the bytes are the stream. ---- */

enum { LONGEST_LIST = OLLSKUVAN_CHANGE_ENTRY * (LONGEST / 24 + 1) };

static size_t salvage_room(uint8_t choice, uint8_t number, uint64_t due)
{
    switch (choice % 5) {
    case 0: return (size_t)due;
    case 1: return due ? (size_t)due - 1 : 0;
    case 2: return number;
    case 3: return (size_t)due / 2;
    default: return (size_t)due + number;
    }
}

static int same_salvage(const struct ollskuvan_salvaged *a, const struct ollskuvan_salvaged *b)
{
    return a->kept == b->kept && a->dropped == b->dropped && a->changes == b->changes && a->answer == b->answer;
}

static struct ollskuvan_salvaged salvage(const uint8_t *stream, size_t length, size_t out_len, size_t list_len, uint8_t *out)
{
    static uint8_t list[LONGEST_LIST + 256];
    const struct ollskuvan_event *table = lend_table();
    const uint8_t *lent = lend(RECORD, stream, length);
    uint8_t *lent_out, *lent_list;
    struct ollskuvan_salvaged library, independent;

    memset(out, in.control[3], out_len);
    memset(list, in.control[3], list_len);
    lent_out = lend(BUFFER, out, out_len);
    lent_list = lend(JOURNAL, list, list_len);
    library = ollskuvan_salvage(lent, length, table, in.event_count, in.edition, lent_out, out_len, lent_list, list_len);
    independent = reader_salvage(stream, length, in.events, in.event_count, in.edition, out, out_len, list, list_len);
    if (!same_salvage(&library, &independent)) {
        print_hex("stream", stream, length);
        differs("salvage into %zu and %zu bytes: library kept %" PRIu64 ", dropped %" PRIu64 ", changes %" PRIu64 ", answer %"
            PRIu32 "; independent %" PRIu64 ", %" PRIu64 ", %" PRIu64 ", %" PRIu32, out_len, list_len, library.kept,
            library.dropped, library.changes, library.answer, independent.kept, independent.dropped, independent.changes,
            independent.answer);
    }
    is_kept(RECORD, lent, stream, length);
    table_is_kept(table);
    is_as(BUFFER, lent_out, out, out_len, "salvage: the output");
    is_as(JOURNAL, lent_list, list, list_len, "salvage: the list of changes");
    if (library.answer == 0 && library.kept + library.dropped != length)
        differs("salvage: kept and dropped are not the stream's length");
    reach(SALVAGE, library.changes / OLLSKUVAN_CHANGE_ENTRY, library.answer);
    return library;
}

/* Once into the rooms that the input asks for; and what is kept once more: it stays as it is, without a list. */
static void try_salvage(void)
{
    static uint8_t out[LONGEST + 256], again[LONGEST + 256];
    /* rooms that the header says are always enough */
    struct ollskuvan_salvaged due = salvage(in.bytes, in.count, in.count, OLLSKUVAN_CHANGE_ENTRY * (in.count / 24 + 1), out);

    if (due.answer != 0)
        return;
    salvage(in.bytes, in.count, salvage_room(in.control[4], in.control[5], due.kept),
        salvage_room(in.control[6], in.control[7], due.changes), again);
    if (salvage(out, (size_t)due.kept, (size_t)due.kept, 0, again).kept != due.kept || memcmp(out, again, (size_t)due.kept))
        differs("salvage: what was kept is not kept again");
}

/* ---- Two rings compared: the ring of the input, and its records at other counts with a byte changed. ---- */

static void compare(const struct ring *left, uint64_t left_tail, const struct ring *right, uint64_t right_tail, size_t scratch_len)
{
    static uint8_t left_scratch[LONGEST], right_scratch[LONGEST];
    const struct ollskuvan_event *table = lend_table();
    const uint8_t *lent_left = lend(RING, left->bytes, left->length), *lent_right = lend(RIGHT, right->bytes, right->length);
    uint8_t *lent_left_scratch, *lent_right_scratch;
    size_t right_len = scratch_length(right->length);
    struct ollskuvan_compared library, independent;

    memset(left_scratch, in.control[3], scratch_len);
    memset(right_scratch, in.control[3], right_len);
    lent_left_scratch = lend(SCRATCH, left_scratch, scratch_len);
    lent_right_scratch = lend(RIGHT_SCRATCH, right_scratch, right_len);
    library = ollskuvan_compare(lent_left, left->length, left->head, left_tail, lent_left_scratch, scratch_len, lent_right,
        right->length, right->head, right_tail, lent_right_scratch, right_len, table, in.event_count, in.edition);
    independent = reader_compare(left->bytes, left->length, left->head, left_tail, left_scratch, scratch_len, right->bytes,
        right->length, right->head, right_tail, right_scratch, right_len, in.events, in.event_count, in.edition);
    if (library.records != independent.records || library.what != independent.what || library.field != independent.field ||
        library.stop != independent.stop) {
        print_hex("left", left->bytes, left->length);
        print_hex("right", right->bytes, right->length);
        differs("compare: library %" PRIu64 " records, what %" PRIu32 ", field %" PRIu32 ", stop %" PRIu32 "; independent %"
            PRIu64 ", %" PRIu32 ", %" PRIu32 ", %" PRIu32, library.records, library.what, library.field, library.stop,
            independent.records, independent.what, independent.field, independent.stop);
    }
    is_as(SCRATCH, lent_left_scratch, left_scratch, scratch_len, "compare: the left scratch");
    is_as(RIGHT_SCRATCH, lent_right_scratch, right_scratch, right_len, "compare: the right scratch");
    is_kept(RING, lent_left, left->bytes, left->length);
    is_kept(RIGHT, lent_right, right->bytes, right->length);
    table_is_kept(table);
    reach(COMPARE, library.field < TYPES ? library.field : TYPES - 1, library.what);
    if (library.what >= OLLSKUVAN_COMPARED_LEFT_STOPPED)
        reach(COMPARE_STOP, library.what, library.stop);
}

static void try_compare(void)
{
    static uint8_t other[LONGEST];
    const struct ring left = make_ring();
    struct ring right = { other, left.length, left.head };
    uint64_t distance = left.head - in.tail, shift = 8 * (uint64_t)in.control[8], i;
    size_t scratch_len = scratch_length(left.length);

    if (left.length == 0 || left.length > LONGEST)
        return;
    memset(other, 0, left.length);
    for (i = 0; i < left.length; i++)
        other[(in.tail + shift + i) % left.length] = left.bytes[(in.tail + i) % left.length];
    right.head = left.head + shift;
    compare(&left, in.tail, &right, in.tail + shift, scratch_len);
    if (distance == 0 || distance > left.length)
        return;
    /* the right side ends behind its first record */
    right.head = in.tail + shift + (other[(in.tail + shift + 6) % left.length] & ~7u) % distance;
    compare(&left, in.tail, &right, in.tail + shift, scratch_len);
    compare(&right, in.tail + shift, &left, in.tail, scratch_len);
    right.head = left.head + shift;
    {
        /* where the input says; in the first header; in a body; at the last record's end: identifier, and what is before;
           an input takes every third of them */
        const uint64_t places[] = { in.control[5] | (uint64_t)in.control[7] << 8, 4, 6, 17, distance / 2, distance - 1,
            distance - 8, distance - 9, distance - 12, distance - 17, distance - 25 };

        for (i = in.control[5] % 3; i < sizeof places / sizeof places[0]; i += 3) {
            uint8_t *byte = &other[(in.tail + shift + places[i] % distance) % left.length];

            *byte ^= in.control[6] | 1;
            compare(&left, in.tail, &right, in.tail + shift, scratch_len);
            compare(&right, in.tail + shift, &left, in.tail, scratch_len);
            *byte ^= in.control[6] | 1;
        }
    }
}

static void try_events(void)
{
    size_t i;

    try_drain();
    try_replay();
    try_salvage();
    try_compare();
    judged(in.bytes, in.count, some_words(in.control[11]));
    judged(in.bytes, in.count < in.control[5] ? in.count : in.control[5], FIELDS);
    for (i = 0; i < in.event_count && i < 4; i++)
        find_event(in.events[i].identifier);
    find_event(in.head);
    find_event(in.tail);
}

/* ---- The program ringdump. ---- */

static uint8_t image[HEADER + LONGEST], printed[1 << 17], due[1 << 17];
static size_t image_length, image_taken, printed_length;

ssize_t ringdump_read(int file, void *bytes, size_t count)
{
    size_t left = image_length - image_taken;

    if (file != 0)
        differs("ringdump reads from file %d", file);
    if (in.control[9] && count > in.control[9])
        count = in.control[9];
    if (count > left)
        count = left;
    memcpy(bytes, image + image_taken, count);
    image_taken += count;
    return (ssize_t)count;
}

ssize_t ringdump_write(int file, const void *bytes, size_t count)
{
    if (file != 1)
        differs("ringdump writes to file %d", file);
    if (in.control[10] && count > in.control[10])
        count = in.control[10];
    if (count > sizeof printed - printed_length)
        differs("ringdump prints more than a journal can hold");
    memcpy(printed + printed_length, bytes, count);
    printed_length += count;
    return (ssize_t)count;
}

static void put64(uint8_t *at, uint64_t number)
{
    int i;

    for (i = 0; i < 8; i++)
        at[i] = (uint8_t)(number >> 8 * i);
}

static void try_program(void)
{
    struct ring ring = make_ring();
    size_t length;
    int status;

    put64(image, ring.head);
    put64(image + 8, in.tail);
    put64(image + 16, in.sample_type);
    put64(image + 24, in.read_format);
    put64(image + 32, in.user_mask);
    put64(image + 40, in.interrupt_mask);
    image[48] = (uint8_t)in.edition;
    image[49] = (uint8_t)(in.sample_id_all ? in.sample_id_all | 1 : 0);
    memcpy(image + HEADER, ring.bytes, ring.length);
    image_length = HEADER + ring.length;
    if (in.control[4] && in.control[4] < HEADER)
        image_length = in.control[4];
    image_taken = printed_length = 0;
    status = ringdump_main();
    length = reader_print(image, image_length, due, sizeof due);
    if (status != 0 || length != printed_length || memcmp(printed, due, length)) {
        print_hex("image", image, image_length);
        fprintf(stderr, "  ringdump:\n%.*s  independent:\n%.*s", (int)printed_length, printed, (int)length, due);
        differs("ringdump prints something else, or ends with %d", status);
    }
    /* "stop N tail T" at the end: its number */
    while (length > 1 && due[length - 2] != '\n')
        length--;
    reach(PROGRAM, 0, (uint32_t)atoi((const char *)due + (length > 1 ? length - 1 : 0) + 5));
}

/* ---- One record. ---- */

static size_t true_size(void)
{
    size_t count = in.count > LONGEST - 8 ? LONGEST - 8 : in.count;

    if (in.control[1] & TRUE_SIZE && count >= 8) {
        count = count / 8 * 8;
        in.bytes[6] = (uint8_t)count;
        in.bytes[7] = (uint8_t)(count >> 8);
    }
    return count;
}

/* A number at most one above the record's length, or the same below 2^64, where sums wrap. */
static uint64_t near(uint64_t number, size_t count)
{
    uint64_t small = number % (count + 2);

    return number >> 63 ? 0 - small : small;
}

static void try_record(void)
{
    size_t count = true_size();
    uint64_t place = in.head, bytes = in.tail;

    check(in.bytes, count);
    misc_meanings(in.bytes, count);
    publish_tails();
    if (in.control[1] & PLACE_NEAR) {
        place = near(place, count);
        bytes = near(bytes, count);
    }
    copy_name(in.bytes, count, place, bytes, in.control[15]);
    {
        uint64_t value[FIELDS + 4];
        size_t room = count + (in.control[14] & 7);

        if (in.control[11])
            read_value(in.bytes, count, value, some_words(in.control[11]));
        if (read_value(in.bytes, count, value, FIELDS) == 0)
            writes_again(value, count, room);
    }
}

static size_t buffer_room(uint64_t size)
{
    size_t whole = size < LONGEST ? (size_t)size : LONGEST;

    switch (in.control[14]) {
    case 0: return whole;
    case 1: return whole ? whole - 1 : 0;
    case 2: return 0;
    default: return whole + in.control[14];
    }
}

static void try_write(void)
{
    size_t count = true_size(), source, words = FIELDS;
    uint64_t value[FIELDS + 4] = { 0 };
    int i, k;

    if (reader_read(in.bytes, count, ATTRIBUTES, value, FIELDS) != 0 && count >= 8) {
        value[OLLSKUVAN_TYPE] = type_of(in.bytes, count);
        value[OLLSKUVAN_MISC] = in.bytes[4] | (uint64_t)in.bytes[5] << 8;
        value[OLLSKUVAN_SIZE] = in.bytes[6] | (uint64_t)in.bytes[7] << 8;
    }
    if (!(in.control[1] & FLAG_KEPT) && flag_word(value[OLLSKUVAN_TYPE]))
        value[flag_word(value[OLLSKUVAN_TYPE])] = 0;
    for (i = 0; i < in.control[12] % 4; i++) {
        const uint8_t *change = in.control + 16 + 10 * i;
        uint64_t number = 0, *word = &value[change[0] % FIELDS];

        for (k = 8; k-- > 0;)
            number = number << 8 | change[2 + k];
        switch (change[1] % 6) {
        case 0: *word = number; break;
        case 1: *word += number; break;
        case 2: *word ^= number; break;
        case 3: *word += (int8_t)change[2]; break;
        case 4: *word ^= UINT64_C(1) << change[2] % 64; break;
        default: *word = UINT64_MAX << change[2] % 64; break;
        }
    }
    source = count > in.control[13] ? count - in.control[13] : 0;
    if (in.control[11] > 250)
        words = in.control[11] == 251 ? 0 : in.control[11] - 252 + 54;
    if (write_value(value, words, in.bytes, source, buffer_room(value[OLLSKUVAN_SIZE])) == 0)
        reads_back((size_t)value[OLLSKUVAN_SIZE]);
}

/* ---- The store of settings. ---- */

enum { ROWS_MOST = MANY_EVENTS };
static struct ollskuvan_event rows[ROWS_MOST];
static const size_t ROW = sizeof(struct ollskuvan_event);

static int same_settings(const struct ollskuvan_settings *a, const struct ollskuvan_settings *b)
{
    return a->events == b->events && a->ring_length == b->ring_length && a->edition == b->edition && a->budget == b->budget
        && a->answer == b->answer;
}

/* Reads into so many rows; the independent reader's rows are left in `rows`. */
static struct ollskuvan_settings read_store(const uint8_t *bytes, size_t count, size_t room)
{
    struct ollskuvan_settings library, independent;
    uint8_t *lent, *lent_rows;

    memset(rows, in.control[3], room * ROW);
    lent = lend(STORE, bytes, count);
    lent_rows = lend(ROWS, rows, room * ROW);
    library = ollskuvan_read_store(lent, count, (struct ollskuvan_event *)(void *)lent_rows, room);
    independent = reader_read_store(bytes, count, rows, room);
    if (!same_settings(&library, &independent)) {
        print_hex("store", bytes, count);
        differs("read store into %zu rows: library %" PRIu64 " events, %" PRIu64 " bytes, edition %" PRIu32 ", budget %" PRIu32
            ", answer %" PRIu32 "; independent %" PRIu64 ", %" PRIu64 ", %" PRIu32 ", %" PRIu32 ", %" PRIu32, room,
            library.events, library.ring_length, library.edition, library.budget, library.answer, independent.events,
            independent.ring_length, independent.edition, independent.budget, independent.answer);
    }
    is_kept(STORE, lent, bytes, count);
    is_as(ROWS, lent_rows, rows, room * ROW, "read store: the rows");
    reach(STORE_READ, library.events < 4 ? library.events : 4, library.answer);
    return library;
}

/* Writes into so many bytes; the independent writer's are left in `stored`. */
static uint8_t stored[OLLSKUVAN_STORE_BYTES(ROWS_MOST) + 300];

static struct ollskuvan_stored write_store(const struct ollskuvan_event *table, size_t count, uint64_t length, uint32_t edition,
    uint32_t budget, size_t room)
{
    struct ollskuvan_stored library, independent;
    uint8_t *lent, *buffer;

    memset(stored, in.control[3], room);
    lent = lend(TABLE, table, count * ROW);
    buffer = lend(BUFFER, stored, room);
    library = ollskuvan_write_store((const struct ollskuvan_event *)(void *)lent, count, length, edition, budget, buffer, room);
    independent = reader_write_store(table, count, length, edition, budget, stored, room);
    if (library.bytes != independent.bytes || library.answer != independent.answer) {
        print_hex("table", table, count * ROW);
        differs("write store of length %" PRIu64 ", edition %" PRIu32 ", room %zu: library %" PRIu64 " bytes, answer %" PRIu32
            "; independent %" PRIu64 ", %" PRIu32, length, edition, room, library.bytes, library.answer, independent.bytes,
            independent.answer);
    }
    is_kept(TABLE, lent, table, count * ROW);
    is_as(BUFFER, buffer, stored, room, "write store: the buffer");
    reach(STORE_WRITTEN, count < 4 ? count : 4, library.answer);
    return library;
}

static size_t store_room(size_t bytes)
{
    switch (in.control[14]) {
    case 0: return bytes;
    case 1: return bytes - 1;
    case 2: return 0;
    default: return bytes + in.control[14];
    }
}

static uint8_t back[OLLSKUVAN_STORE_BYTES(ROWS_MOST)];

/* What was read is written again: by the same bytes, if they are of the newest version, else by bytes that read as the same. */
static void store_again(const struct ollskuvan_settings *s)
{
    static struct ollskuvan_event kept[ROWS_MOST];
    const int newest = in.bytes[6] == OLLSKUVAN_STORE_VERSION;
    struct ollskuvan_settings again;
    struct ollskuvan_stored w;

    memcpy(kept, rows, s->events * ROW);
    w = write_store(kept, s->events, s->ring_length, s->edition, s->budget, OLLSKUVAN_STORE_BYTES(s->events));
    if (w.answer != 0 || (newest && (w.bytes != in.count || memcmp(stored, in.bytes, in.count)))) {
        print_hex("store", in.bytes, in.count);
        differs("a store that reads is not what is written of it");
    }
    memcpy(back, stored, w.bytes);
    again = read_store(back, w.bytes, s->events);
    if (!same_settings(&again, s) || memcmp(rows, kept, s->events * ROW)) {
        print_hex("store", in.bytes, in.count);
        differs("a store that was read and written reads otherwise");
    }
}

/* The table as a store of the version before, laid out here: an index of one byte. */
static void try_old_store(uint64_t length)
{
    const size_t count = in.event_count < 300 ? in.event_count : 300, row = 55;
    size_t i;

    memset(back, 0, 8 + row * count + 19);
    back[0] = 8;
    back[4] = OLLSKUVAN_KIND_VERSION;
    back[6] = OLLSKUVAN_STORE_OLD_VERSION;
    for (i = 0; i < count; i++) {
        back[8 + row * i] = (uint8_t)row;
        back[8 + row * i + 4] = OLLSKUVAN_KIND_EVENT;
        back[8 + row * i + 6] = (uint8_t)i;
        memcpy(back + 8 + row * i + 7, &in.events[i], 48);
    }
    back[8 + row * count] = 19;
    back[8 + row * count + 4] = OLLSKUVAN_KIND_RING;
    put64(back + 8 + row * count + 6, length);
    back[8 + row * count + 14] = (uint8_t)in.edition;
    put64(back + 8 + row * count + 15, in.tail & UINT32_MAX); /* its upper bytes lie behind the store, and are 0 */
    read_store(back, 8 + row * count + 19, in.control[11] ? in.control[11] - 1u : 300);
}

/* The input's bytes as a store; what reads is written again. Then its table, written and read back, in either version. */
static void try_store(void)
{
    size_t room = in.control[11] ? in.control[11] - 1u : 300, bytes = OLLSKUVAN_STORE_BYTES(in.event_count);
    uint64_t length = in.control[1] & LAID ? UINT64_C(64) << in.control[2] % 16 : in.head;
    struct ollskuvan_settings s = read_store(in.bytes, in.count, room);
    struct ollskuvan_stored w;

    if (s.answer == 0)
        store_again(&s);
    try_old_store(length);
    w = write_store(in.events, in.event_count, length, in.edition, (uint32_t)in.tail, store_room(bytes));
    if (w.answer == 0) {
        memcpy(back, stored, w.bytes);
        s = read_store(back, w.bytes, in.event_count);
        if (s.answer != 0 || s.events != in.event_count || s.ring_length != length || s.edition != in.edition
            || s.budget != (uint32_t)in.tail) {
            print_hex("store", back, w.bytes);
            differs("what was written does not read back");
        }
    }
}

/* ---- What libFuzzer calls. ---- */

static void take_table(const uint8_t **data)
{
    size_t given = in.control[in.control[47] ? 47 : 46] % 40, i;

    if (given > in.count / sizeof in.events[0])
        given = in.count / sizeof in.events[0];
    if (!in.tabled)
        given = 0;
    memcpy(in.events, *data, given * sizeof in.events[0]);
    *data += given * sizeof in.events[0];
    in.count -= given * sizeof in.events[0];
    in.event_count = given;
    if (in.control[47] && given)
        in.event_count = in.control[46] < 200 ? in.control[46] % 40 : MANY[(in.control[46] - 200) % MANIES];
    for (i = given; i < in.event_count; i++) {
        in.events[i] = in.events[i - 1];
        in.events[i].identifier++;
    }
}

static void take_input(const uint8_t *data, size_t size)
{
    uint8_t head[CONTROL + BRANCH + HEADER] = { 0 };
    const uint8_t *at = head + CONTROL + BRANCH;

    memcpy(head, data, size < sizeof head ? size : sizeof head);
    memcpy(in.control, head, CONTROL);
    in.branch_sample_type = get64(head + CONTROL);
    in.head = get64(at);
    in.tail = get64(at + 8);
    in.sample_type = get64(at + 16);
    in.read_format = get64(at + 24);
    in.user_mask = get64(at + 32);
    in.interrupt_mask = get64(at + 40);
    in.edition = at[48];
    in.sample_id_all = at[49];
    if (in.control[1] & FALSE_EDITION)
        in.edition += 256;
    if (in.control[1] & HIGH_ID_ALL)
        in.sample_id_all <<= 24;
    in.count = size > sizeof head ? size - sizeof head : 0;
    in.tabled = in.control[0] % TRIED == TABLED_CALL || in.control[0] % TRIED == STORE_CALL;
    data += size - in.count;
    take_table(&data);
    memcpy(in.bytes, data, in.count);
}

#ifdef EMULATED
void libfuzzer_crash(void) __asm__("_ZN6fuzzer6Fuzzer25StaticCrashSignalCallbackEv");
void libfuzzer_alarm(void) __asm__("_ZN6fuzzer6Fuzzer19StaticAlarmCallbackEv");

__attribute__((force_align_arg_pointer)) static void crashed(int number)
{
    (void)number;
    libfuzzer_crash();
}

__attribute__((force_align_arg_pointer)) static void took_too_long(int number)
{
    (void)number;
    libfuzzer_alarm();
}
#endif

/* qemu calls a signal's handler with a stack that is not aligned as the calling convention has it, and libFuzzer's handlers
 * then end in a signal of their own: these align it and call libFuzzer, which keeps the input. */
static void align_handlers(void)
{
#ifdef EMULATED
    static const int deadly[] = { SIGABRT, SIGSEGV, SIGBUS, SIGILL, SIGFPE };
    struct sigaction action = { .sa_handler = crashed };
    size_t i;

    for (i = 0; i < sizeof deadly / sizeof deadly[0]; i++)
        sigaction(deadly[i], &action, NULL);
    action.sa_handler = took_too_long;
    sigaction(SIGALRM, &action, NULL);
#endif
}

int LLVMFuzzerInitialize(int *count, char ***words)
{
    size_t page = (size_t)sysconf(_SC_PAGESIZE);
    int i;

    (void)count;
    (void)words;
    align_handlers();
    for (i = 0; i < SLICES; i++) {
        uint8_t *all = mmap(NULL, AREA + 2 * page, PROT_NONE, MAP_PRIVATE | MAP_ANONYMOUS, -1, 0);

        if (all == MAP_FAILED || mprotect(all + page, AREA, PROT_READ | PROT_WRITE) != 0) {
            perror("mmap");
            exit(1);
        }
        areas[i] = all + page;
    }
    atexit(print_reached);
    return 0;
}

int LLVMFuzzerTestOneInput(const uint8_t *data, size_t size)
{
    if (size > CONTROL + BRANCH + HEADER + LONGEST)
        return 0;
    executions++;
    take_input(data, size);
    switch (in.control[0] % TRIED) {
    case 0: try_drain(); break;
    case 1: try_program(); break;
    case TABLED_CALL: try_events(); break;
    case STORE_CALL: try_store(); break;
    case 3: try_write(); break;
    default: try_record(); break;
    }
    return 0;
}

/* Two in three mutations know what a record is; the others are libFuzzer's own, with the dictionary. */
size_t LLVMFuzzerCustomMutator(uint8_t *data, size_t size, size_t most, unsigned seed)
{
    if (seed % 3 == 0)
        return LLVMFuzzerMutate(data, size, most);
    return reader_mutate(data, size, most, seed);
}
