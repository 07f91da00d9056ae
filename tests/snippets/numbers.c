#include "numbers.h"

#include <string.h>

#include "ollskuvan.h"

enum { RING = 64, EDITION = OLLSKUVAN_EDITION_4, NAMED = 7 };

static _Alignas(8) uint8_t ring[RING], scratch[RING], journal[RING / 8 * OLLSKUVAN_JOURNAL_ENTRY];
static const struct ollskuvan_event sound = { .identifier = NAMED, .sample_type = OLLSKUVAN_BIT_IDENTIFIER, .sample_id_all = 1 };

static void put(uint8_t *at, size_t bytes, uint64_t number)
{
    for (size_t i = 0; i < bytes; i++)
        at[i] = (uint8_t)(number >> 8 * i);
}

/* A header at the start of a ring of zeros, and the identifier where the type has it. */
static void put_record(uint32_t type, uint16_t misc, uint16_t size)
{
    memset(ring, 0, sizeof ring);
    put(ring, 4, type);
    put(ring + 4, 2, misc);
    put(ring + 6, 2, size);
    if (size >= 16 && size <= RING)
        put(type == OLLSKUVAN_TYPE_SAMPLE ? ring + 8 : ring + size - 8, 8, NAMED);
}

/* ---- stops ---- */

struct drain {
    size_t ring_len, events, scratch_len, journal_len;
    uint64_t head, tail, budget;
    uint32_t edition;
};
static const struct drain fine = { RING, 1, RING, sizeof journal, 16, 0, 4, EDITION };

static uint32_t stop_of(struct drain d)
{
    return ollskuvan_drain_events(ring, d.ring_len, d.head, d.tail, &sound, d.events, d.edition, d.budget, scratch,
        d.scratch_len, journal, d.journal_len).stop;
}

static uint32_t scratch_stop(void)
{
    struct drain d = fine;
    memset(ring, 0, sizeof ring);
    put(ring + RING - 8, 4, OLLSKUVAN_TYPE_SWITCH);
    put(ring + RING - 2, 2, 16); /* it goes on at the ring's start */
    d.tail = RING - 8;
    d.head = RING + 8;
    d.scratch_len = 15;
    return stop_of(d);
}

static uint32_t overwritten_stop(void)
{
    put_record(OLLSKUVAN_TYPE_SWITCH, 0, RING + 8);
    return ollskuvan_walk_back_events(ring, RING, 0, &sound, 1, EDITION, 4, scratch, RING, journal, sizeof journal).stop;
}

size_t each_stop(uint32_t got[NUMBERS_MOST])
{
    size_t n = 0;
    struct drain d;
    put_record(OLLSKUVAN_TYPE_SWITCH, 0, 16);
    got[n++] = stop_of(fine);
    d = fine, d.ring_len = RING - 1, got[n++] = stop_of(d);
    d = fine, d.edition = 0, got[n++] = stop_of(d);
    got[n++] = scratch_stop();
    put_record(OLLSKUVAN_TYPE_SWITCH, 0, 16);
    d = fine, d.head = RING + 8, got[n++] = stop_of(d);
    d = fine, d.head = 20, got[n++] = stop_of(d);
    put_record(OLLSKUVAN_TYPE_SWITCH, 0, 0);
    got[n++] = stop_of(fine);
    put_record(OLLSKUVAN_TYPE_SWITCH, 0, 24);
    got[n++] = stop_of(fine);
    d = fine, d.budget = 0, got[n++] = stop_of(d);
    d = fine, d.journal_len = 15, got[n++] = stop_of(d);
    d = fine, d.events = 0, got[n++] = stop_of(d);
    got[n++] = overwritten_stop();
    return n;
}

/* ---- refusals of a record ---- */

/* The answer in the journal to the record that stands in the ring, of this size, by this event. */
static uint32_t answer_of(struct ollskuvan_event event, uint32_t edition, uint16_t size)
{
    struct ollskuvan_drained d = ollskuvan_drain_events(ring, RING, size, 0, &event, 1, edition, 1, scratch, RING, journal,
        sizeof journal);
    return d.taken == 1 ? journal[OLLSKUVAN_JOURNAL_ANSWER] + 256u * journal[OLLSKUVAN_JOURNAL_ANSWER + 1] : UINT32_MAX;
}

static uint32_t refused(uint32_t type, uint16_t misc, uint16_t size, uint64_t bits, uint64_t format, uint64_t branch, uint32_t edition)
{
    struct ollskuvan_event event = sound;
    event.sample_type |= bits;
    event.read_format = format;
    event.branch_sample_type = branch;
    put_record(type, misc, size);
    return answer_of(event, edition, size);
}

static uint32_t identifier_refused(void)
{
    struct ollskuvan_event other = sound;
    other.identifier++;
    put_record(OLLSKUVAN_TYPE_SWITCH, 0, 16);
    return answer_of(other, EDITION, 16);
}

static uint32_t name_refused(void)
{
    put_record(OLLSKUVAN_TYPE_COMM, 0, 32);
    memset(ring + 16, 'x', 8); /* all of the name's room */
    return answer_of(sound, EDITION, 32);
}

size_t each_refusal(uint32_t got[NUMBERS_MOST])
{
    const uint64_t bit_25 = UINT64_C(1) << 25, bit_5 = UINT64_C(1) << 5, bit_19 = UINT64_C(1) << 19;
    size_t n = 0;
    got[n++] = refused(0, 0, 16, 0, 0, 0, EDITION);
    got[n++] = refused(OLLSKUVAN_TYPE_SAMPLE, 0, 16, bit_25, 0, 0, EDITION);
    got[n++] = refused(OLLSKUVAN_TYPE_READ, 0, 32, 0, bit_5, 0, EDITION);
    got[n++] = refused(OLLSKUVAN_TYPE_MMAP2, OLLSKUVAN_MISC_MMAP_BUILD_ID, 32, 0, 0, 0, OLLSKUVAN_EDITION_2);
    got[n++] = refused(OLLSKUVAN_TYPE_SAMPLE, 0, 32, OLLSKUVAN_BIT_WEIGHT | OLLSKUVAN_BIT_WEIGHT_STRUCT, 0, 0, EDITION);
    got[n++] = refused(OLLSKUVAN_TYPE_SAMPLE, 0, 32, OLLSKUVAN_BIT_BRANCHES, 0, bit_19, EDITION);
    got[n++] = identifier_refused();
    got[n++] = refused(OLLSKUVAN_TYPE_SWITCH, 0, 8, 0, 0, 0, EDITION);
    got[n++] = refused(OLLSKUVAN_TYPE_LOST, 0, 16, 0, 0, 0, EDITION);
    got[n++] = refused(OLLSKUVAN_TYPE_SWITCH, 0, 24, 0, 0, 0, EDITION);
    got[n++] = refused(OLLSKUVAN_TYPE_SAMPLE, 0, 24, OLLSKUVAN_BIT_RAW, 0, 0, EDITION);
    got[n++] = name_refused();
    return n;
}

/* ---- answers of calls ---- */

#define ATTRIBUTES OLLSKUVAN_BIT_IDENTIFIER, 0, 1, 0, 0, 0

static uint32_t write_of(const uint64_t *fields, size_t fields_len)
{
    return ollskuvan_write(fields, fields_len, ring, RING, ATTRIBUTES, EDITION, scratch, RING);
}

/* A COMM called "kiln", with a stale byte behind the name: its value is written as it was read. */
static size_t dirty_answers(uint32_t *got)
{
    uint64_t fields[OLLSKUVAN_FIELDS];
    put_record(OLLSKUVAN_TYPE_COMM, 0, 32);
    memcpy(ring + 16, "kiln\0\0\0x", 8);
    if (ollskuvan_read(ring, 32, ATTRIBUTES, EDITION, fields, OLLSKUVAN_FIELDS) != OLLSKUVAN_OK)
        return 0;
    got[0] = write_of(fields, OLLSKUVAN_FIELDS);
    got[1] = ollskuvan_check(ring, 32, ATTRIBUTES, EDITION);
    return 2;
}

size_t each_call(uint32_t got[NUMBERS_MOST])
{
    struct ollskuvan_event two[2] = { sound, sound };
    uint8_t store[OLLSKUVAN_STORE_BYTES(2)];
    uint64_t fields[OLLSKUVAN_FIELDS] = { 0 };
    size_t n = 0;
    got[n++] = ollskuvan_write_store(&sound, 1, RING - 1, EDITION, 1, store, sizeof store).answer;
    got[n++] = ollskuvan_write_store(&sound, 1, RING, EDITION + 1, 1, store, sizeof store).answer;
    put_record(OLLSKUVAN_TYPE_SWITCH, 0, 15);
    got[n++] = ollskuvan_check(ring, 16, ATTRIBUTES, EDITION);
    put_record(OLLSKUVAN_TYPE_SWITCH, 0, 16);
    got[n++] = ollskuvan_check(ring, 24, ATTRIBUTES, EDITION);
    got[n++] = ollskuvan_write_store(two, 2, RING, EDITION, 1, store, sizeof store).answer;
    got[n++] = ollskuvan_copy_name((const uint8_t *)"kiln", 4, 0, 4, scratch, 4);
    got[n++] = ollskuvan_read(ring, 16, ATTRIBUTES, EDITION, fields, OLLSKUVAN_FIELDS - 1);
    got[n++] = ollskuvan_copy_name((const uint8_t *)"kiln", 4, 1, 4, scratch, RING);
    fields[OLLSKUVAN_TYPE] = OLLSKUVAN_TYPE_SWITCH; /* its size word is 0, and should be 16 */
    got[n++] = write_of(fields, OLLSKUVAN_FIELDS);
    return n + dirty_answers(got + n);
}

/* ---- answers to a store, a trace, a stream ---- */

static uint32_t store_of(size_t place, uint8_t byte, size_t cut)
{
    struct ollskuvan_event table[1];
    uint8_t store[OLLSKUVAN_STORE_BYTES(1)];
    uint64_t length = ollskuvan_write_store(&sound, 1, RING, EDITION, 1, store, sizeof store).bytes;
    if (place < length)
        store[place] = byte;
    return ollskuvan_read_store(store, (size_t)length - cut, table, 1).answer;
}

size_t each_store(uint32_t got[NUMBERS_MOST])
{
    static const uint8_t offer[6 + 8] = { 14, 0, 0, 0, OLLSKUVAN_KIND_OFFER, 0, OLLSKUVAN_TYPE_SWITCH, 0, 0, 0, 0, 0, 16, 0 };
    static uint8_t rooms[2 * RING];
    size_t n = 0;
    got[n++] = store_of(6, 99, 0);         /* the version */
    got[n++] = store_of(SIZE_MAX, 0, 1);   /* its last byte is missing */
    got[n++] = store_of(OLLSKUVAN_STORE_BYTES(1) - 5, 99, 0); /* the edition, before the budget's four bytes */
    got[n++] = ollskuvan_replay(offer, sizeof offer, 0, &sound, 1, EDITION, rooms, sizeof rooms, journal, sizeof journal).answer;
    put_record(OLLSKUVAN_TYPE_SWITCH, 0, 16);
    got[n++] = ollskuvan_salvage(ring, 16, &sound, 1, EDITION, scratch, 15, journal, sizeof journal).answer;
    return n;
}
