/*
 * Drains cut anywhere: what a ring's drains gave, one after the other, is what
 * one drain gives. The bytes that each drain saw are kept, at their places, for
 * at most one ring length; then they are drained once more, as one, and compared.
 */
#ifndef EXAMPLES_AGAIN_H
#define EXAMPLES_AGAIN_H

#include <stdbool.h>
#include <stdint.h>

#include "ollskuvan.h"
#include "perf_ring.h"

/* The drains of one ring since its `first` tail. */
struct again {
    uint64_t first, head, tail, taken;
    uint8_t *bytes;   /* as long as the ring */
    uint8_t *entries; /* of the drains, one after the other */
};

struct again_sums {
    uint64_t drains, records, differences; /* one drain each; the records in them; those that gave something else */
};

/* After a drain from `tail` at `head`, before its tail is given back; `journal`
 * holds its entries. */
void again_follow(struct again *a, struct again_sums *sums, const struct perf_ring *ring, uint64_t head, uint64_t tail,
    const struct ollskuvan_drained *done, const uint8_t *journal);
/* Drains what was kept, as one, and begins anew at the last tail. */
void again_compare(struct again *a, struct again_sums *sums, const struct perf_ring *ring);
void again_free(struct again *a);

#endif
