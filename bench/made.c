#include "made.h"

#include <stdbool.h>
#include <string.h>

#include "ollskuvan.h"

/* ---- random numbers: splitmix64 ---- */

uint64_t made_next(struct made_random *r)
{
    uint64_t z = (r->state += UINT64_C(0x9e3779b97f4a7c15));
    z = (z ^ z >> 30) * UINT64_C(0xbf58476d1ce4e5b9);
    z = (z ^ z >> 27) * UINT64_C(0x94d049bb133111eb);
    return z ^ z >> 31;
}

uint64_t made_below(struct made_random *r, uint64_t n)
{
    return made_next(r) % n;
}

static bool one_in(struct made_random *r, uint64_t n)
{
    return made_below(r, n) == 0;
}

/* ---- sound records ---- */

struct pen {
    uint8_t *record;
    size_t at;
    struct made_aims aims;
};

static void put(struct pen *pen, uint64_t number, size_t bytes)
{
    for (size_t i = 0; i < bytes; i++)
        pen->record[pen->at++] = (uint8_t)(number >> 8 * i);
}

/* A number on which the length of what follows depends. */
static void put_count(struct pen *pen, uint64_t number, size_t bytes)
{
    size_t most = sizeof pen->aims.list / sizeof pen->aims.list[0];
    if (pen->aims.count < most) {
        pen->aims.list[pen->aims.count].at = pen->at;
        pen->aims.list[pen->aims.count++].bytes = bytes;
    }
    put(pen, number, bytes);
}

static void put_random(struct made_random *r, struct pen *pen, size_t bytes)
{
    for (size_t i = 0; i < bytes; i++)
        pen->record[pen->at++] = (uint8_t)made_next(r);
}

static void put_name(struct made_random *r, struct pen *pen, size_t length)
{
    size_t room = (length + 8) / 8 * 8;
    for (size_t i = 0; i < room; i++)
        pen->record[pen->at++] = i < length ? (uint8_t)('a' + made_below(r, 26)) : 0;
}

static bool selected(const struct made_attributes *a, unsigned bit)
{
    return a->sample_type >> bit & 1;
}

static void put_read_values(struct made_random *r, const struct made_attributes *a, struct pen *pen, size_t entries)
{
    size_t times = 8 * (size_t)__builtin_popcountll(a->read_format & 3);
    size_t more = 8 * (size_t)__builtin_popcountll(a->read_format & 20); /* id, lost count */
    if (a->read_format >> 3 & 1) {
        put_count(pen, entries, 8);
        put_random(r, pen, times + entries * (8 + more));
    } else {
        put_random(r, pen, 8 + times + more);
    }
}

static void put_registers(struct made_random *r, struct pen *pen, uint64_t mask)
{
    uint64_t abi = made_below(r, 4);
    put_count(pen, abi, 8);
    if (abi != 0)
        put_random(r, pen, 8 * (size_t)__builtin_popcountll(mask));
}

static void put_sample(struct made_random *r, const struct made_attributes *a, struct pen *pen, size_t most)
{
    size_t few = most / 128 + 2; /* list lengths that keep small rings small */
    for (unsigned bit = 0; bit < 17; bit++)
        if ((UINT64_C(0x103cf) >> bit & 1) && selected(a, bit))
            put_random(r, pen, 8);
    if (selected(a, 4))
        put_read_values(r, a, pen, made_below(r, few));
    if (selected(a, 5)) {
        size_t n = made_below(r, few);
        put_count(pen, n, 8);
        put_random(r, pen, 8 * n);
    }
    if (selected(a, 10)) {
        size_t n = 8 * made_below(r, few) + 4;
        put_count(pen, n, 4);
        put_random(r, pen, n);
    }
    if (selected(a, 11)) {
        size_t n = made_below(r, few);
        put_count(pen, n, 8);
        put_random(r, pen, a->branch_sample_type >> 17 & 1 ? 8 : 0); /* the hardware index */
        put_random(r, pen, 24 * n);
    }
    if (selected(a, 12))
        put_registers(r, pen, a->user_mask);
    if (selected(a, 13)) {
        size_t n = 8 * made_below(r, few);
        put_count(pen, n, 8);
        put_random(r, pen, n);
        if (n != 0)
            put_count(pen, made_below(r, n + 1), 8);
    }
    put_random(r, pen, selected(a, 14) || selected(a, 24) ? 8 : 0);
    put_random(r, pen, selected(a, 15) ? 8 : 0);
    put_random(r, pen, selected(a, 17) ? 8 : 0);
    if (selected(a, 18))
        put_registers(r, pen, a->interrupt_mask);
    for (unsigned bit = 19; bit < 24; bit++)
        if (bit != 20 && selected(a, bit))
            put_random(r, pen, 8);
    if (selected(a, 20)) {
        size_t n = 8 * made_below(r, few);
        put_count(pen, n, 8);
        put_random(r, pen, n);
    }
}

static void put_body(struct made_random *r, const struct made_attributes *a, struct pen *pen, unsigned type,
    uint64_t misc, size_t most)
{
    static const uint8_t fixed[22] = {
        [1] = 32, [2] = 16, [3] = 8, [4] = 24, [5] = 24, [6] = 24, [7] = 24, [8] = 8, [10] = 32, [11] = 24,
        [12] = 8, [13] = 8, [15] = 8, [16] = 8, [17] = 16, [18] = 16, [19] = 8, [20] = 8,
        [21] = 8,
    };
    put_random(r, pen, fixed[type]);
    switch (type) {
    case 1: case 3: case 17: case 19:
        put_name(r, pen, made_below(r, most / 2 + 1));
        break;
    case 8:
        put_read_values(r, a, pen, made_below(r, most / 64 + 1));
        break;
    case 9:
        put_sample(r, a, pen, most);
        break;
    case 10:
        if (misc >> 14 & 1) {
            put_count(pen, made_below(r, 21), 1);
            put_random(r, pen, 23);
        } else {
            put_random(r, pen, 24);
        }
        put_random(r, pen, 8);
        put_name(r, pen, made_below(r, most / 2 + 1));
        break;
    case 16: {
        size_t n = made_below(r, most / 64 + 2);
        put_count(pen, n, 8);
        put_random(r, pen, 16 * n);
        break;
    }
    case 20: {
        size_t before = made_below(r, most / 8 + 1), after = made_below(r, most / 8 + 1);
        put_count(pen, before, 2);
        put_count(pen, after, 2);
        put_random(r, pen, before + after);
        put_random(r, pen, (8 - pen->at % 8) % 8);
        break;
    }
    default:
        break;
    }
}

static void put_header(uint8_t *record, uint32_t type, uint16_t misc, uint16_t size)
{
    struct pen pen = { .record = record };
    put(&pen, type, 4);
    put(&pen, misc, 2);
    put(&pen, size, 2);
}

size_t made_record(struct made_random *r, const struct made_attributes *a, unsigned type, size_t most, uint8_t *record,
    struct made_aims *aims)
{
    uint64_t misc = made_next(r) & 0xffff;
    struct pen pen = { .record = record, .at = 8 };
    put_body(r, a, &pen, type, misc, most);
    if (type != 9 && a->sample_id_all != 0)
        put_random(r, &pen, 8 * (size_t)__builtin_popcountll(a->sample_type & OLLSKUVAN_TRAILER_BITS));
    put_header(record, type, (uint16_t)misc, (uint16_t)pen.at);
    *aims = pen.aims;
    return pen.at;
}

/* ---- damage ---- */

static const uint64_t odd_numbers[] = {
    0, 1, 3, 4, 5, 7, 8, 12, 16, 20, 21, 24, 255, 256, 65535, UINT64_C(0xfffffffc), UINT64_C(0xffffffff),
    UINT64_C(1) << 32, UINT64_C(1) << 60, UINT64_C(1) << 61, UINT64_C(1) << 63, UINT64_MAX, UINT64_MAX - 3,
    UINT64_MAX - 7, UINT64_MAX / 8, UINT64_MAX / 24,
};

static uint64_t odd_number(struct made_random *r, size_t size)
{
    if (one_in(r, 2))
        return made_below(r, size + 16);
    return odd_numbers[made_below(r, sizeof odd_numbers / sizeof odd_numbers[0])];
}

static void write_at(uint8_t *record, size_t size, size_t at, uint64_t number, size_t bytes)
{
    for (size_t i = 0; i < bytes && at + i < size; i++)
        record[at + i] = (uint8_t)(number >> 8 * i);
}

/* A count or size that is a little off, or one of the odd numbers. */
static void damage_count(struct made_random *r, uint8_t *record, size_t size, const struct made_aims *aims)
{
    static const int64_t steps[] = { 1, -1, 4, -4, 8, -8, 16, -16 };
    size_t i = made_below(r, aims->count), at = aims->list[i].at, bytes = aims->list[i].bytes;
    uint64_t number = 0;
    for (size_t k = bytes; k-- > 0;)
        number = number << 8 | record[at + k];
    switch (made_below(r, 4)) {
    case 0:
        number += (uint64_t)steps[made_below(r, 8)];
        break;
    case 1: /* right again where a product or a sum wraps */
        number += UINT64_C(1) << (59 + made_below(r, 5));
        break;
    case 2:
        number = bytes == 1 ? 18 + made_below(r, 6) : odd_number(r, size);
        break;
    default:
        number = odd_numbers[made_below(r, sizeof odd_numbers / sizeof odd_numbers[0])];
        break;
    }
    write_at(record, size, at, number, bytes);
}

/* One fault. Returns the size of the slot that the record then fills. */
static size_t damage(struct made_random *r, uint8_t *record, size_t size, const struct made_aims *aims)
{
    static const uint32_t odd_types[] = { 0, 22, 23, 255, 256, 4096, 65534, 65535, 65536, 0x80000003, 0xffffffff };
    if (aims->count != 0 && one_in(r, 2)) {
        damage_count(r, record, size, aims);
        return size;
    }
    switch (made_below(r, 10)) {
    case 0: /* another size, the same slot: the next header is then read from the wrong place */
        write_at(record, size, 6, odd_number(r, size), 2);
        return size;
    case 1:
        write_at(record, size, 6, 8 * made_below(r, size / 8 + 3), 2);
        return size;
    case 2: /* bytes more, bytes less */
    case 3: {
        size_t more = 8 * (1 + made_below(r, 3));
        if (size + more < MADE_RECORD_MAX) {
            memset(record + size, one_in(r, 2) ? 0 : 0x41, more);
            write_at(record, size, 6, size + more, 2);
            return size + more;
        }
        return size;
    }
    case 4:
    case 5: {
        size_t left = 8 * (1 + made_below(r, size / 8));
        write_at(record, size, 6, left, 2);
        return left;
    }
    case 6: /* another type */
        write_at(record, size, 0, one_in(r, 2) ? 1 + made_below(r, 21) : odd_types[made_below(r, 11)], 4);
        return size;
    case 7: /* a zero in the wrong place, or none */
        record[8 + made_below(r, size)] = one_in(r, 2) ? 0 : 1;
        return size;
    case 8:
        write_at(record, size, 8 * made_below(r, size / 8), odd_number(r, size), 8);
        return size;
    default: /* in the body only: counts and sizes */
        write_at(record, size, 8 + 8 * made_below(r, size / 8), odd_number(r, size), one_in(r, 2) ? 8 : 4);
        return size;
    }
}

/* ---- cases for the comparison ---- */

static uint64_t some_bits(struct made_random *r, unsigned bits)
{
    uint64_t all = (UINT64_C(1) << bits) - 1;
    switch (made_below(r, 4)) {
    case 0:
        return made_next(r) & made_next(r) & all;
    case 1:
        return made_next(r) & all;
    case 2:
        return made_next(r) & made_next(r) & made_next(r) & made_next(r) & all;
    default:
        return 0;
    }
}

static uint32_t some_edition(struct made_random *r)
{
    static const uint32_t odd_editions[] = { 0, 5, 257, 258, 259, 0x80000001, UINT32_MAX };
    return one_in(r, 40) ? odd_editions[made_below(r, 7)] : 1 + (uint32_t)made_below(r, 4);
}

/* Often the hardware index where the edition knows it, at times where it does not, seldom a bit from 19 up. */
static uint64_t some_branches(struct made_random *r, uint32_t edition)
{
    uint64_t bits = some_bits(r, 19) & ~OLLSKUVAN_BRANCH_HW_INDEX;
    if (one_in(r, edition == 3 || edition == 4 ? 2 : 12))
        bits |= OLLSKUVAN_BRANCH_HW_INDEX;
    if (one_in(r, 20))
        bits |= UINT64_C(1) << (19 + made_below(r, 45));
    return bits;
}

static void some_attributes(struct made_random *r, uint32_t edition, struct made_attributes *a)
{
    static const unsigned known[5] = { 25, 16, 19, 25, 25 };
    a->sample_type = some_bits(r, known[edition <= 4 ? edition : 0]);
    if (one_in(r, 12))
        a->sample_type |= UINT64_C(1) << made_below(r, 64);
    if ((a->sample_type >> 14 & 1) && (a->sample_type >> 24 & 1) && !one_in(r, 4))
        a->sample_type ^= UINT64_C(1) << 24;
    a->read_format = made_below(r, edition == 4 ? 32 : 16);
    if (one_in(r, 12))
        a->read_format |= UINT64_C(1) << made_below(r, 64);
    a->user_mask = one_in(r, 20) ? UINT64_MAX : some_bits(r, 24);
    a->interrupt_mask = one_in(r, 20) ? UINT64_MAX : some_bits(r, 24);
    a->branch_sample_type = some_branches(r, edition);
    a->sample_id_all = one_in(r, 2) ? 0 : one_in(r, 2) ? 1 : (uint32_t)made_next(r);
}

static size_t some_length(struct made_random *r)
{
    static const size_t odd_lengths[] = { 0, 1, 8, 32, 48, 63, 65, 72, 96, 4095, 4104, 6000, 1048568, 1048584, 2097152 };
    if (one_in(r, 40))
        return odd_lengths[made_below(r, sizeof odd_lengths / sizeof odd_lengths[0])];
    if (one_in(r, 200))
        return (size_t)32768 << made_below(r, 6);
    return (size_t)64 << made_below(r, 9); /* 64 to 16384 */
}

static uint64_t some_count(struct made_random *r, size_t length)
{
    uint64_t count;
    switch (made_below(r, 4)) {
    case 0:
        count = 8 * made_below(r, length / 8 + 1);
        break;
    case 1:
        count = 0 - 8 * made_below(r, length / 8 + 1); /* the counts wrap within this ring */
        break;
    default:
        count = made_next(r) & ~UINT64_C(7);
        break;
    }
    return count;
}

static void lay(struct made_ring *ring, uint64_t count, const uint8_t *record, size_t size)
{
    for (size_t i = 0; i < size; i++)
        ring->bytes[(count + i) % ring->length] = record[i];
}

/* A record behind those that the ring holds; false where it has no room for it. */
static bool append(struct made_ring *ring, const uint8_t *record, size_t size)
{
    if (ring->head - ring->tail + size > ring->length)
        return false;
    lay(ring, ring->head, record, size);
    ring->head += size;
    return true;
}

static void some_ends(struct made_random *r, struct made_ring *ring)
{
    switch (made_below(r, 30)) {
    case 0:
        ring->head += 1 + made_below(r, 7);
        break;
    case 1:
        ring->tail += 1 + made_below(r, 7);
        break;
    case 2:
        ring->head = ring->tail + ring->length + 8 * made_below(r, 3);
        break;
    case 3:
        ring->head = ring->tail - 8 * made_below(r, 4); /* the head behind the tail, or at it */
        break;
    case 4:
        ring->head -= 8; /* the last record passes the head */
        break;
    case 5:
        ring->head = made_next(r);
        break;
    default:
        break;
    }
}

static void some_room(struct made_random *r, struct made_ring *ring, size_t records)
{
    ring->budget = one_in(r, 5) ? made_below(r, records + 2) : one_in(r, 2) ? UINT64_MAX : records + 1;
    ring->scratch_length = ring->length;
    if (one_in(r, 4))
        ring->scratch_length = made_below(r, ring->length + 1);
    ring->journal_length = 16 * (ring->length / 8 + 1);
    if (one_in(r, 6))
        ring->journal_length = made_below(r, 16 * (records + 1));
}

void made_case(struct made_random *r, struct made_ring *ring)
{
    uint8_t record[MADE_RECORD_MAX + 64];
    ring->edition = some_edition(r);
    some_attributes(r, ring->edition, &ring->attributes);
    ring->length = some_length(r);
    for (size_t i = 0; i + 8 <= ring->length; i += 8) {
        uint64_t x = one_in(r, 4) ? made_next(r) : 0;
        memcpy(ring->bytes + i, &x, 8);
    }
    ring->tail = ring->head = some_count(r, ring->length);

    unsigned faults = (unsigned)made_below(r, 4) * 3; /* of 10 records, so many are damaged */
    size_t records = 0;
    while (ring->length >= 64) {
        size_t most = ring->length < 512 ? ring->length / 4 : 512;
        unsigned type = one_in(r, 3) ? 9 : 1 + (unsigned)made_below(r, 21);
        if (ring->length >= 32768 && one_in(r, 8))
            most = 60000; /* records up to some 40,000 bytes */
        struct made_aims aims;
        size_t size = made_record(r, &ring->attributes, type, one_in(r, 50) && most <= 512 ? 4 * most : most, record, &aims);
        if (made_below(r, 10) < faults && one_in(r, 2))
            size = damage(r, record, size, &aims);
        if (!append(ring, record, size))
            break;
        records++;
    }
    some_ends(r, ring);
    some_room(r, ring, records);
}

/* ---- cases with a table ---- */

static void as_event(uint64_t identifier, const struct made_attributes *a, struct ollskuvan_event *event)
{
    *event = (struct ollskuvan_event){ .identifier = identifier, .sample_type = a->sample_type, .read_format = a->read_format,
        .user_mask = a->user_mask, .interrupt_mask = a->interrupt_mask, .branch_sample_type = a->branch_sample_type,
        .sample_id_all = a->sample_id_all };
}

static uint64_t some_identifier(struct made_random *r)
{
    switch (made_below(r, 4)) {
    case 0:
        return made_below(r, 64);
    case 1:
        return made_below(r, 8) << 32 | made_below(r, 8); /* alike in their halves */
    case 2:
        return UINT64_MAX - made_below(r, 64);
    default:
        return made_next(r);
    }
}

static bool has_event(const struct made_ring *ring, uint64_t identifier)
{
    for (size_t i = 0; i < ring->event_count; i++)
        if (ring->events[i].identifier == identifier)
            return true;
    return false;
}

static void some_events(struct made_random *r, struct made_ring *ring, struct made_attributes *attributes)
{
    size_t count = one_in(r, 8) ? 32 : 1 + made_below(r, one_in(r, 4) ? 31 : 5);
    if (one_in(r, 20)) /* long ones, the longest often */
        count = one_in(r, 2) ? OLLSKUVAN_EVENTS_MAX : 33 + made_below(r, OLLSKUVAN_EVENTS_MAX - 33);
    const bool alike = count > 32 && !one_in(r, 3);
    ring->event_count = 0;
    while (ring->event_count < count) {
        struct made_attributes *a = &attributes[ring->event_count];
        uint64_t identifier = count > 60 && !one_in(r, 8) ? made_next(r) : some_identifier(r);
        some_attributes(r, ring->edition, a);
        if (alike && ring->event_count > 3 && !one_in(r, 50)) /* few sets of attributes; else as many as events */
            *a = attributes[made_below(r, ring->event_count)];
        a->sample_type |= UINT64_C(1) << 16;
        a->sample_id_all = 1;
        if (has_event(ring, identifier))
            continue;
        as_event(identifier, a, &ring->events[ring->event_count]);
        ring->events[ring->event_count++].sample_id_all = one_in(r, 4) ? UINT64_C(1) << made_below(r, 64) : 1;
    }
}

/* A table that is refused. */
static void spoil_events(struct made_random *r, struct made_ring *ring)
{
    size_t i = made_below(r, ring->event_count), j = made_below(r, ring->event_count);
    switch (made_below(r, 5)) {
    case 0:
        ring->events[i].sample_type &= ~(UINT64_C(1) << 16);
        break;
    case 1:
        ring->events[i].sample_id_all = 0;
        break;
    case 2:
        ring->events[ring->event_count] = ring->events[i];
        ring->event_count++;
        break;
    case 3:
        ring->events[i].identifier = ring->events[j].identifier; /* the same event at times: then it stays sound */
        break;
    default: {
        size_t count = one_in(r, 2) ? 0 : OLLSKUVAN_EVENTS_MAX + 1 + made_below(r, MADE_EVENTS_MAX - OLLSKUVAN_EVENTS_MAX);
        while (ring->event_count < count) { /* all of them different */
            uint64_t identifier = made_next(r);
            if (has_event(ring, identifier))
                continue;
            ring->events[ring->event_count] = ring->events[i];
            ring->events[ring->event_count++].identifier = identifier;
        }
        ring->event_count = count;
        break;
    }
    }
}

static void put_identifier(uint8_t *record, size_t size, uint64_t identifier)
{
    uint32_t type;
    memcpy(&type, record, 4);
    if (size >= 16)
        write_at(record, size, type == 9 ? 8 : size - 8, identifier, 8);
}

/* A record of one of the events, with its identifier or another. Returns its size. */
static size_t event_record(struct made_random *r, const struct made_ring *ring, const struct made_attributes *attributes,
    unsigned faults, size_t most, uint8_t *record)
{
    struct made_aims aims;
    size_t event = made_below(r, ring->event_count);
    unsigned type = one_in(r, 3) ? 9 : 1 + (unsigned)made_below(r, 21);
    size_t size = made_record(r, &attributes[event], type, most, record, &aims);
    uint64_t identifier = ring->events[event].identifier;
    if (one_in(r, 12)) { /* cut to 8 or 16 bytes */
        size = one_in(r, 2) ? 8 : 16;
        memset(record + 8, 0, 8);
        write_at(record, size, 6, size, 2);
    }
    put_identifier(record, size, identifier);
    if (made_below(r, 10) < faults && one_in(r, 2)) {
        size = damage(r, record, size, &aims);
        if (one_in(r, 2))
            put_identifier(record, size, identifier);
    }
    if (faults != 0 && one_in(r, 12))
        put_identifier(record, size, one_in(r, 2) ? some_identifier(r) : identifier ^ UINT64_C(1) << made_below(r, 64));
    return size;
}

void made_table_case(struct made_random *r, struct made_ring *ring)
{
    uint8_t record[MADE_RECORD_MAX + 64];
    static struct made_attributes attributes[MADE_EVENTS_MAX]; /* too long for a stack */
    ring->edition = one_in(r, 4) ? some_edition(r) : 2 + (uint32_t)made_below(r, 3);
    some_events(r, ring, attributes);
    ring->length = some_length(r);
    memset(ring->bytes, 0, ring->length);
    ring->tail = ring->head = some_count(r, ring->length);
    unsigned faults = (unsigned)made_below(r, 4) * 3;
    size_t records = 0;
    while (ring->length >= 64) {
        size_t size = event_record(r, ring, attributes, faults, ring->length < 512 ? ring->length / 4 : 512, record);
        if (!append(ring, record, size))
            break;
        records++;
    }
    some_ends(r, ring);
    some_room(r, ring, records);
    if (one_in(r, 12))
        spoil_events(r, ring);
}

/* ---- a backward ring ---- */

static uint8_t *at_way(struct made_ring *ring, uint64_t way)
{
    return ring->bytes + ((ring->tail + way) & (ring->length - 1));
}

void made_backward(struct made_random *r, struct made_ring *ring)
{
    const uint64_t length = ring->length, distance = ring->head - ring->tail;
    const uint64_t written = distance > length ? length : distance & ~UINT64_C(7);
    const unsigned how = (unsigned)made_below(r, 4);
    const bool plain = length != 0 && (length & (length - 1)) == 0; /* else it is refused, whatever it holds */
    for (uint64_t way = written; plain && how != 0 && way < length; way++)
        *at_way(ring, way) = how > 1 && written != 0 ? *at_way(ring, way - written) : 0;
    if (how > 1 && made_below(r, 4) != 0) { /* more records than the case had room for */
        ring->journal_length = 2 * length;
        ring->budget = UINT64_MAX;
    }
}

/* ---- workloads ---- */

const char *const made_workload_names[MADE_WORKLOADS] = { "side-band", "small samples", "fat samples" };

static void put_trailer(struct made_random *r, struct pen *pen, uint64_t time)
{
    put(pen, 800 + made_below(r, 100), 4);
    put(pen, 800 + made_below(r, 100), 4);
    put(pen, time, 8);
    put(pen, made_below(r, 4), 8);
    put(pen, 17, 8);
}

/* As a controller sees it: many switches, some mappings, few of the rest. */
static size_t side_band(struct made_random *r, uint64_t time, uint8_t *record)
{
    static const uint8_t kinds[20] = { 14, 14, 14, 14, 15, 15, 15, 15, 15, 15, 10, 10, 10, 10, 3, 3, 7, 4, 2, 14 };
    struct pen pen = { .record = record, .at = 8 };
    unsigned type = kinds[made_below(r, 20)];
    uint16_t misc = 2;
    switch (type) {
    case 14:
    case 15:
        misc = (uint16_t)(made_below(r, 3) << 13); /* in, out, preempted */
        put_random(r, &pen, type == 15 ? 8 : 0);
        break;
    case 10:
        misc = (uint16_t)(made_below(r, 2) << 14 | 2); /* with a build id or without */
        put_random(r, &pen, 32);
        put(&pen, 20, 8);
        put_random(r, &pen, 24);
        put_name(r, &pen, 8 + made_below(r, 193));
        break;
    case 3:
        put_random(r, &pen, 8);
        put_name(r, &pen, 1 + made_below(r, 15));
        break;
    default:
        put_random(r, &pen, type == 2 ? 16 : 24);
        break;
    }
    put_trailer(r, &pen, time);
    put_header(record, type, misc, (uint16_t)pen.at);
    return pen.at;
}

static size_t sample(struct made_random *r, uint64_t time, bool fat, uint8_t *record)
{
    struct pen pen = { .record = record, .at = 8 };
    put(&pen, 17, 8);
    put_random(r, &pen, 16);
    put(&pen, time, 8);
    put(&pen, made_below(r, 4), 8);
    put(&pen, 250000, 8);
    if (fat) {
        put(&pen, 32, 8);
        put_random(r, &pen, 32 * 8);
        put(&pen, 20, 4);
        put_random(r, &pen, 20);
        put(&pen, 8, 8);
        put_random(r, &pen, 8 * 24);
        put(&pen, 2, 8);
        put_random(r, &pen, 16 * 8);
        put(&pen, 512, 8);
        put_random(r, &pen, 512);
        put(&pen, 8 * made_below(r, 65), 8);
    }
    put_header(record, 9, 2, (uint16_t)pen.at);
    return pen.at;
}

void made_fill(enum made_workload which, size_t length, struct made_ring *ring)
{
    static const uint64_t sample_types[MADE_WORKLOADS] = {
        UINT64_C(0x10086),                  /* tid, time, cpu, identifier: the trailer */
        UINT64_C(0x10187),                  /* ip, tid, time, cpu, period, identifier */
        UINT64_C(0x10187) | UINT64_C(0x3c20), /* and callchain, raw, branches, user registers, user stack */
    };
    struct made_random r = { 20 + (uint64_t)which };
    uint8_t record[2048];
    memset(ring->bytes, 0, length);
    ring->attributes = (struct made_attributes){ .sample_type = sample_types[which], .sample_id_all = 1 };
    ring->attributes.user_mask = which == MADE_FAT_SAMPLES ? 0xffff : 0;
    ring->edition = 3;
    ring->length = length;
    ring->tail = ring->head = length - 8 * (length > 128 ? 5 : 1); /* the first record crosses the end */
    ring->budget = UINT64_MAX;
    ring->scratch_length = length;
    ring->journal_length = 16 * (length / 8 + 1);
    size_t misses = 0;
    for (uint64_t time = UINT64_C(90000000000); misses < 64; time += 1000 + made_below(&r, 5000)) {
        size_t size = which == MADE_SIDE_BAND ? side_band(&r, time, record)
                                              : sample(&r, time, which == MADE_FAT_SAMPLES, record);
        misses += !append(ring, record, size); /* a smaller one may still fit */
    }
}

/* ---- workloads with a table ---- */

const struct made_mix made_mixes[MADE_MIXES] = {
    { "1 event", 1, 1, false },
    { "11 events", 11, 11, false },
    { "11 of 32 events", 32, 11, false },
    { "32 events", 32, 32, false },
    { "256 events", 256, 256, false },
    { "1024 events", 1024, 1024, false },
    { "32 shuffled", 32, 32, true },
    { "256 shuffled", 256, 256, true },
    { "1024 shuffled", 1024, 1024, true },
};

/* The attributes of the events in turn: the first is side_band's; the others sample. */
static void mix_attributes(size_t event, struct made_attributes *a)
{
    static const uint64_t sample_types[] = {
        UINT64_C(0x10187), /* ip, tid, time, cpu, period, identifier */
        UINT64_C(0x1018f), /* and addr */
        UINT64_C(0x10197), /* and read values */
        UINT64_C(0x10007), /* ip, tid, time, identifier */
        UINT64_C(0x101a7), /* and a call chain */
        UINT64_C(0x1c186), /* weight and data source, no ip */
        UINT64_C(0x11187), /* and user registers */
    };
    size_t kinds = sizeof sample_types / sizeof sample_types[0];
    *a = (struct made_attributes){ .sample_type = UINT64_C(0x10086), .sample_id_all = 1 };
    if (event == 0)
        return;
    a->sample_type = sample_types[(event - 1) % kinds];
    a->read_format = 7;
    a->user_mask = 0x1c0;
}

/* The first event in a third of the cases; of the others the earlier ones more often. */
static size_t mix_event(struct made_random *r, size_t busy)
{
    if (busy == 1 || one_in(r, 3))
        return 0;
    uint64_t a = made_below(r, busy - 1), b = made_below(r, busy - 1);
    return 1 + (a < b ? a : b);
}

static size_t mix_record(struct made_random *r, const struct made_attributes *a, size_t event, uint64_t time, uint8_t *record)
{
    struct made_aims aims;
    return event == 0 ? side_band(r, time, record) : made_record(r, a, 9, 512, record, &aims);
}

void made_table_fill(const struct made_mix *mix, size_t length, struct made_ring *ring)
{
    static struct made_attributes attributes[OLLSKUVAN_EVENTS_MAX];
    struct made_random r = { 40 + mix->busy };
    uint8_t record[MADE_RECORD_MAX];
    memset(ring->bytes, 0, length);
    ring->edition = 3;
    ring->length = length;
    ring->tail = ring->head = length - 40;
    ring->budget = UINT64_MAX;
    ring->scratch_length = length;
    ring->journal_length = 16 * (length / 8 + 1);
    ring->event_count = mix->events;
    for (size_t i = 0; i < mix->events; i++) {
        mix_attributes(i, &attributes[i]);
        as_event(17 + i, &attributes[i], &ring->events[i]); /* a kernel counts them up */
    }
    for (size_t i = mix->events; mix->shuffled && i > 1; i--) { /* the records are those of the same rows */
        size_t j = (size_t)made_below(&r, i);
        uint64_t kept = ring->events[i - 1].identifier;
        ring->events[i - 1].identifier = ring->events[j].identifier;
        ring->events[j].identifier = kept;
    }
    size_t misses = 0, event = 0;
    for (uint64_t time = UINT64_C(90000000000); misses < 64; time += 1000 + made_below(&r, 5000)) {
        if (!one_in(&r, 3)) /* else the same event once more */
            event = mix_event(&r, mix->busy);
        size_t size = mix_record(&r, &attributes[event], event, time, record);
        put_identifier(record, size, ring->events[event].identifier);
        misses += !append(ring, record, size);
    }
}
