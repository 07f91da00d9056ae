/*
 * The writer of one record: ollskuvan_write and careful C's, compared on the values of made records, and run for a counter.
 */
#include <stdlib.h>
#include <string.h>

#include "bench.h"
#include "values.h"
#include "writes.h"

typedef uint32_t write_function(const uint64_t *, size_t, const uint8_t *, size_t, uint64_t, uint64_t, uint32_t, uint64_t,
    uint64_t, uint64_t, uint32_t, uint8_t *, size_t);

enum { WORDS = 56, TURNS = 100, ANSWERS = 64 };

static uint32_t run_write(write_function *write, const uint64_t *words, size_t count, const uint8_t *source, size_t length,
    const struct made_attributes *a, uint32_t edition, uint8_t *buffer, size_t room)
{
    return write(words, count, source, length, a->sample_type, a->read_format, a->sample_id_all, a->user_mask,
        a->interrupt_mask, a->branch_sample_type, edition, buffer, room);
}

static uint32_t value_of(const uint8_t *record, size_t size, const struct made_attributes *a, uint32_t edition, uint64_t *words)
{
    return ollskuvan_read(record, size, a->sample_type, a->read_format, a->sample_id_all, a->user_mask, a->interrupt_mask,
        a->branch_sample_type, edition, words, WORDS);
}

/* ---- the comparison ---- */

struct tally {
    uint64_t values, differ, answers[ANSWERS];
};

static uint64_t odd_word(struct made_random *r, uint64_t old)
{
    switch (made_below(r, 6)) {
    case 0:
        return 0;
    case 1:
        return old + 1;
    case 2:
        return old - 1;
    case 3:
        return UINT64_MAX - made_below(r, 9);
    case 4:
        return UINT64_C(1) << made_below(r, 64);
    default:
        return made_below(r, 70000);
    }
}

static void compare_one(struct made_random *r, uint64_t *words, const uint8_t *source, size_t size, const struct made_ring *ring,
    uint8_t *mine, uint8_t *theirs, struct tally *t)
{
    size_t length = made_below(r, 8) == 0 ? (size_t)made_below(r, size + 1) : size;
    size_t room = made_below(r, 8) == 0 ? (size_t)made_below(r, size + 1) : size;
    size_t count = made_below(r, 64) == 0 ? (size_t)made_below(r, WORDS) : WORDS;
    memset(mine, 0x5a, size);
    memset(theirs, 0x5a, size);
    uint32_t a = run_write(careful_write, words, count, source, length, &ring->attributes, ring->edition, theirs, room);
    uint32_t b = run_write(ollskuvan_write, words, count, source, length, &ring->attributes, ring->edition, mine, room);
    t->values++;
    t->answers[a % ANSWERS]++;
    if (a != b || memcmp(mine, theirs, size) != 0) {
        if (t->differ++ == 0)
            printf("writes: type %llu, a source of %zu bytes, room for %zu: careful C answers %u, ollskuvan_write %u\n",
                (unsigned long long)words[0], length, room, a, b);
    }
}

/* The values of a ring's records that do not cross its end, each as it is and a few times with words changed. */
static void compare_ring(struct made_random *r, const struct made_ring *ring, uint8_t *mine, uint8_t *theirs, struct tally *t)
{
    uint64_t left = ring->head - ring->tail, words[WORDS], changed[WORDS];
    for (uint64_t at = 0, size; ring->length != 0 && at + 8 <= left && at < ring->length; at += size) {
        size_t place = (size_t)((ring->tail + at) % ring->length);
        if (ring->length - place < 8)
            return;
        size = ring->bytes[place + 6] | (uint64_t)ring->bytes[place + 7] << 8;
        if (size < 8 || size % 8 != 0)
            return;
        if (size > ring->length - place || value_of(ring->bytes + place, (size_t)size, &ring->attributes, ring->edition, words) != 0)
            continue;
        compare_one(r, words, ring->bytes + place, (size_t)size, ring, mine, theirs, t);
        for (unsigned turn = 0; turn < 4; turn++) {
            memcpy(changed, words, sizeof words);
            for (unsigned many = 1 + (unsigned)made_below(r, 3); many > 0; many--) {
                size_t k = (size_t)made_below(r, WORDS);
                changed[k] = odd_word(r, changed[k]);
            }
            compare_one(r, changed, ring->bytes + place, (size_t)size, ring, mine, theirs, t);
        }
    }
}

int compare_writes(uint64_t rings, uint64_t seed)
{
    struct made_ring ring = { .bytes = grab(MADE_RING_MAX), .events = grab(MADE_EVENTS_MAX * sizeof *ring.events) };
    uint8_t *mine = grab(65536), *theirs = grab(65536);
    struct made_random r = { seed };
    struct tally t = { 0, 0, { 0 } };
    for (uint64_t k = 0; k < rings; k++) {
        made_case(&r, &ring);
        compare_ring(&r, &ring, mine, theirs, &t);
    }
    printf("writes: %llu values of %llu rings, answers", (unsigned long long)t.values, (unsigned long long)rings);
    for (unsigned k = 0; k < ANSWERS; k++)
        if (t.answers[k] != 0)
            printf(" %u:%llu", k, (unsigned long long)t.answers[k]);
    printf(": %llu differ\n", (unsigned long long)t.differ);
    free(theirs);
    free(mine);
    free(ring.events);
    free(ring.bytes);
    return t.differ != 0 || t.answers[0] == 0;
}

/* ---- one writer, for a counter ---- */

static int run_type(write_function *write, unsigned type)
{
    struct made_attributes a = { .sample_type = UINT64_C(0x10086), .sample_id_all = 1 };
    struct made_random r = { type };
    struct made_aims aims = { .count = 0 };
    uint8_t *record = grab(MADE_RECORD_MAX), *buffer = grab(MADE_RECORD_MAX);
    uint64_t words[WORDS];
    size_t size = made_record(&r, &a, type, 256, record, &aims), accepted = 0;
    uint32_t why = value_of(record, size, &a, 4, words);
    for (unsigned turn = 0; why == 0 && turn < TURNS; turn++)
        accepted += run_write(write, words, WORDS, record, size, &a, 4, buffer, MADE_RECORD_MAX) == 0;
    printf("records %u accepted %zu\n", TURNS, accepted);
    free(buffer);
    free(record);
    return accepted != TURNS;
}

static int run_workload(write_function *write, enum made_workload which)
{
    struct made_ring ring = { .bytes = grab(MADE_RING_MAX) };
    uint8_t *buffer = grab(MADE_RECORD_MAX);
    uint64_t words[WORDS];
    size_t records = 0, accepted = 0;
    made_fill(which, 65536, &ring);
    /* the first record crosses the ring's end: it is left out */
    uint64_t at = ring.tail + (ring.bytes[(ring.tail + 6) % 65536] | (uint64_t)ring.bytes[(ring.tail + 7) % 65536] << 8);
    for (size_t size; at < ring.head; at += size, records++) {
        const uint8_t *record = ring.bytes + at % 65536;
        size = (size_t)(record[6] | record[7] << 8);
        if (value_of(record, size, &ring.attributes, ring.edition, words) == 0)
            accepted += run_write(write, words, WORDS, record, size, &ring.attributes, ring.edition, buffer, MADE_RECORD_MAX) == 0;
    }
    printf("records %zu accepted %zu\n", records, accepted);
    free(buffer);
    free(ring.bytes);
    return accepted != records;
}

int run_writes(const char *whose, const char *what)
{
    write_function *write = strcmp(whose, "ours") == 0 ? ollskuvan_write : careful_write;
    unsigned number;
    switch (one_named(what, &number)) {
    case ONE_WORKLOAD: return run_workload(write, number);
    case ONE_TYPE: return run_type(write, number);
    default: return 2;
    }
}
