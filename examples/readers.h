/*
 * Two readers of one ring: a logger with a small budget that is always served
 * first, and a report behind it. Each has its own tail, scratch and journal; the
 * kernel gets the tail of the one that is further behind.
 */
#ifndef EXAMPLES_READERS_H
#define EXAMPLES_READERS_H

#include <stdbool.h>
#include <stdint.h>

#include "ollskuvan.h"
#include "perf_ring.h"

enum { READER_BUDGET_MAX = 4096 };

/* What one of them was told. */
struct reader {
    uint64_t tail, taken, drains, refused, names, losts, lost; /* names: COMM; losts: LOST, which tell of `lost` records */
    uint64_t sum; /* over its journal entries, in order: equal entries have equal sums */
    uint32_t stop;
    uint8_t scratch[OLLSKUVAN_RECORD_MAX], journal[READER_BUDGET_MAX * OLLSKUVAN_JOURNAL_ENTRY];
};

struct readers {
    struct reader logger, report;
    uint64_t turns, held; /* turns after which the report held the kernel's tail back, though the logger had taken more */
    uint64_t furthest;    /* how many bytes at most */
    uint64_t delayed;     /* turns after which the logger had not taken all that it found, and not for its budget */
    uint32_t refused;     /* by ollskuvan_publish: 0, or why there was no tail */
};

/* Both begin at the kernel's tail. */
void readers_begin(struct readers *r, const struct perf_ring *ring);
/* One turn: the logger, at most `turns` drains of `budget` records; then the
 * report, one drain of at most `slow` records; then the kernel's tail. False if
 * a drain stopped for anything but nothing to take or its budget, or if there is
 * no tail for the kernel. */
bool readers_turn(struct readers *r, const struct perf_ring *ring, unsigned turns, uint64_t budget, uint64_t slow);
/* Both have taken all that there is. */
bool readers_even(const struct readers *r, const struct perf_ring *ring);

#endif
