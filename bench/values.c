/*
 * The reader of one record: ollskuvan_read and careful C's, compared on made records, and run for a counter.
 */
#include <stdlib.h>
#include <string.h>

#include "bench.h"
#include "values.h"

typedef uint32_t read_function(const uint8_t *, size_t, uint64_t, uint64_t, uint32_t, uint64_t, uint64_t, uint64_t, uint32_t,
    uint64_t *, size_t);

/* The words lent, with two more behind them. */
enum { WORDS = 56, ROOM = WORDS + 2, TURNS = 100 };

static uint32_t run_read(read_function *read, const uint8_t *record, size_t size, const struct made_attributes *a,
    uint32_t edition, uint64_t *out, size_t words)
{
    return read(record, size, a->sample_type, a->read_format, a->sample_id_all, a->user_mask, a->interrupt_mask,
        a->branch_sample_type, edition, out, words);
}

/* ---- the comparison ---- */

struct tally {
    uint64_t records, accepted, differ;
};

static void compare_one(struct made_random *r, const uint8_t *record, size_t size, const struct made_ring *ring, struct tally *t)
{
    uint64_t mine[ROOM], theirs[ROOM];
    size_t words = made_below(r, 8) == 0 ? (size_t)made_below(r, ROOM + 1) : ROOM;
    for (size_t k = 0; k < ROOM; k++)
        mine[k] = theirs[k] = UINT64_C(0x5a5a5a5a5a5a5a5a) + k;
    uint32_t a = run_read(careful_read, record, size, &ring->attributes, ring->edition, theirs, words);
    uint32_t b = run_read(ollskuvan_read, record, size, &ring->attributes, ring->edition, mine, words);
    t->records++;
    t->accepted += a == 0;
    if (a != b || memcmp(mine, theirs, sizeof mine) != 0) {
        if (t->differ++ == 0) {
            printf("reads: type %u of %zu bytes, %zu words: careful C answers %u, ollskuvan_read %u\n", record[0], size, words, a, b);
            for (size_t k = 0; k < ROOM; k++)
                if (mine[k] != theirs[k])
                    printf("  word %zu: %llu, %llu\n", k, (unsigned long long)theirs[k], (unsigned long long)mine[k]);
        }
    }
}

/* The records of a ring that do not cross its end, with the lengths that their headers say and sometimes others. */
static void compare_ring(struct made_random *r, const struct made_ring *ring, struct tally *t)
{
    uint64_t left = ring->head - ring->tail;
    for (uint64_t at = 0, size; ring->length != 0 && at + 8 <= left && at < ring->length; at += size) {
        size_t place = (size_t)((ring->tail + at) % ring->length);
        if (ring->length - place < 8)
            return;
        size = ring->bytes[place + 6] | (uint64_t)ring->bytes[place + 7] << 8;
        size_t shown = made_below(r, 16) == 0 ? (size_t)made_below(r, size + 9) : (size_t)size;
        if (shown <= ring->length - place)
            compare_one(r, ring->bytes + place, shown, ring, t);
        if (size < 8 || size % 8 != 0)
            return;
    }
}

int compare_reads(uint64_t rings, uint64_t seed)
{
    struct made_ring ring = { .bytes = grab(MADE_RING_MAX), .events = grab(MADE_EVENTS_MAX * sizeof *ring.events) };
    struct made_random r = { seed };
    struct tally t = { 0, 0, 0 };
    for (uint64_t k = 0; k < rings; k++) {
        made_case(&r, &ring);
        compare_ring(&r, &ring, &t);
    }
    printf("reads: %llu records of %llu rings, %llu accepted: %llu differ\n", (unsigned long long)t.records,
        (unsigned long long)rings, (unsigned long long)t.accepted, (unsigned long long)t.differ);
    free(ring.events);
    free(ring.bytes);
    return t.differ != 0 || t.accepted == 0;
}

/* ---- one call at a time, for a counter: the names ---- */

static const char *const types[22] = { NULL, "MMAP", "LOST", "COMM", "EXIT", "THROTTLE", "UNTHROTTLE", "FORK", "READ", "SAMPLE",
    "MMAP2", "AUX", "ITRACE_START", "LOST_SAMPLES", "SWITCH", "SWITCH_CPU_WIDE", "NAMESPACES", "KSYMBOL", "BPF_EVENT", "CGROUP",
    "TEXT_POKE", "AUX_OUTPUT_HW_ID" };

int list_ones(void)
{
    for (unsigned which = 0; which < MADE_WORKLOADS; which++)
        printf("%s\n", made_workload_names[which]);
    for (unsigned type = 1; type < 22; type++)
        printf("%s\n", types[type]);
    return 0;
}

enum one one_named(const char *what, unsigned *number)
{
    for (*number = 0; *number < MADE_WORKLOADS; ++*number)
        if (strcmp(what, made_workload_names[*number]) == 0)
            return ONE_WORKLOAD;
    for (*number = 1; *number < 22; ++*number)
        if (strcmp(what, types[*number]) == 0)
            return ONE_TYPE;
    fprintf(stderr, "bench: no such workload or type: %s (see: bench ones-list)\n", what);
    return ONE_UNKNOWN;
}

/* ---- one reader, for a counter ---- */

static int run_type(read_function *read, unsigned type)
{
    struct made_attributes a = { .sample_type = UINT64_C(0x10086), .sample_id_all = 1 };
    struct made_random r = { type };
    struct made_aims aims = { .count = 0 };
    uint8_t *record = grab(MADE_RECORD_MAX);
    uint64_t out[WORDS];
    size_t size = made_record(&r, &a, type, 256, record, &aims), accepted = 0;
    for (unsigned turn = 0; turn < TURNS; turn++)
        accepted += run_read(read, record, size, &a, 4, out, WORDS) == 0;
    printf("records %u accepted %zu\n", TURNS, accepted);
    free(record);
    return accepted != TURNS;
}

static int run_workload(read_function *read, enum made_workload which)
{
    struct made_ring ring = { .bytes = grab(MADE_RING_MAX) };
    uint64_t out[WORDS];
    size_t records = 0, accepted = 0;
    made_fill(which, 65536, &ring);
    /* the first record crosses the ring's end: it is left out */
    uint64_t at = ring.tail + (ring.bytes[(ring.tail + 6) % 65536] | (uint64_t)ring.bytes[(ring.tail + 7) % 65536] << 8);
    for (size_t size; at < ring.head; at += size, records++) {
        const uint8_t *record = ring.bytes + at % 65536;
        size = (size_t)(record[6] | record[7] << 8);
        accepted += run_read(read, record, size, &ring.attributes, ring.edition, out, WORDS) == 0;
    }
    printf("records %zu accepted %zu\n", records, accepted);
    free(ring.bytes);
    return accepted != records;
}

int run_reads(const char *whose, const char *what)
{
    read_function *read = strcmp(whose, "ours") == 0 ? ollskuvan_read : careful_read;
    unsigned number;
    switch (one_named(what, &number)) {
    case ONE_WORKLOAD: return run_workload(read, number);
    case ONE_TYPE: return run_type(read, number);
    default: return 2;
    }
}
