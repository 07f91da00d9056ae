/*
 * A flight recorder: a ring that is written backward (write_backward) and runs
 * over its oldest records until it is stopped. The newest record starts at head,
 * older ones follow upward; ollskuvan_walk_back and ollskuvan_walk_back_events
 * walk it.
 */
#ifndef EXAMPLES_FLIGHT_H
#define EXAMPLES_FLIGHT_H

#include <stdbool.h>
#include <stddef.h>
#include <stdint.h>

#include "ollskuvan.h"
#include "perf_ring.h"

/* All that a stopped ring holds. */
struct flight {
    struct ollskuvan_walked walked;
    uint64_t end; /* head plus the bytes walked: the head with which ollskuvan_read_one gives a record */
    bool round;   /* what was written before the oldest record is not there */
    uint8_t *journal; /* the newest record first; to be freed */
};

/* With the table if it has events, else with the attributes. Out of memory ends
 * the program. */
struct flight flight_walk(const struct ring_attributes *attributes, const struct event_table *table, const uint8_t *ring,
    size_t length, uint64_t head);

/* Whether an image with these counts is one of a backward ring: it is saved with the
 * counts that the kernel keeps. Its head begins at 0 and falls, so it is near 2^64,
 * and its tail stays 0. No drain takes such counts (stop 4). */
bool ring_is_backward(uint64_t head, uint64_t tail);

/* The entry of a record; 0 is the oldest. */
const uint8_t *flight_entry(const struct flight *flight, uint64_t number);

/* Whether all that is there was read: 13, the record that is overwritten in part,
 * is the usual end of a ring that has gone round. */
bool flight_is_whole(uint32_t stop);

#endif
