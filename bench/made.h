/*
 * Rings for the bench: made records of every type, damaged ones, and the three
 * workloads. Everything follows from a seed.
 */
#ifndef BENCH_MADE_H
#define BENCH_MADE_H

#include <stdbool.h>
#include <stddef.h>
#include <stdint.h>

#include "ollskuvan.h"

struct made_random {
    uint64_t state;
};

uint64_t made_next(struct made_random *r);
/* A number below n; n is not 0. */
uint64_t made_below(struct made_random *r, uint64_t n);

struct made_attributes {
    uint64_t sample_type, read_format, user_mask, interrupt_mask, branch_sample_type;
    uint32_t sample_id_all;
};

/* All that a drain is lent but its buffers. */
struct made_ring {
    struct made_attributes attributes;
    uint32_t edition;
    uint8_t *bytes; /* room for MADE_RING_MAX bytes */
    size_t length;
    uint64_t head, tail;
    uint64_t budget;
    size_t scratch_length, journal_length;
    struct ollskuvan_event *events; /* room for MADE_EVENTS_MAX; the comparison with a table uses them, not the attributes */
    size_t event_count;
};

/* Above the greatest table, so that row 11 is met from above too. */
#define MADE_EVENTS_MAX ((size_t)OLLSKUVAN_EVENTS_MAX + 8)

/* Above the greatest allowed length, so that row 1 is met from above too. */
#define MADE_RING_MAX ((size_t)2097152)
/* The greatest record, and room for what damage adds. */
#define MADE_RECORD_MAX ((size_t)65536)

/* Where counts, sizes and abi words lie in a record: what damage aims at. */
struct made_aims {
    struct {
        size_t at, bytes;
    } list[16];
    size_t count;
};

/* A record of this type (1 to 21) that edition 4 accepts under these
 * attributes, of at most `most` bytes as far as the type allows it. Returns its
 * size. The record has room for MADE_RECORD_MAX bytes. */
size_t made_record(struct made_random *r, const struct made_attributes *a, unsigned type, size_t most, uint8_t *record,
    struct made_aims *aims);

/* A ring for the comparison: sound or damaged, of any length, with any counts. */
void made_case(struct made_random *r, struct made_ring *ring);

/* The same with a table: sound or not, identifiers that are not in it, sizes of 8 and 16. */
void made_table_case(struct made_random *r, struct made_ring *ring);

/* The same ring as a backward one, whose newest record starts at its tail: as it is, or with zeros behind its records, or
 * gone round, which is its records once more up to the ring's length. */
void made_backward(struct made_random *r, struct made_ring *ring);

enum made_workload { MADE_SIDE_BAND, MADE_SMALL_SAMPLES, MADE_FAT_SAMPLES, MADE_WORKLOADS };
extern const char *const made_workload_names[MADE_WORKLOADS];

/* A full ring of this length. One record crosses the ring's end where that can be. */
void made_fill(enum made_workload which, size_t length, struct made_ring *ring);

/* Rings with a table, each of 1 MiB: so many events in it, so many of them with records; the identifiers rise from row to
 * row, as a kernel hands them out, or are in no order. */
struct made_mix {
    const char *name;
    size_t events, busy;
    bool shuffled;
};
enum { MADE_MIXES = 9 };
extern const struct made_mix made_mixes[MADE_MIXES];

/* As a live board sends them: the first event tells of switches, names and mappings (a third of the records), the
 * others sample, each with its own attributes; the earlier in the table the more often, and often several in a row. */
void made_table_fill(const struct made_mix *mix, size_t length, struct made_ring *ring);

#endif
