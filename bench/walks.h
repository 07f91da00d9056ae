/*
 * The walks of a backward ring that the bench compares, in the clothes of drains:
 * the newest record starts at the ring's tail, and its head is not looked at. What
 * is told as the new tail is how far the walk came.
 */
#ifndef BENCH_WALKS_H
#define BENCH_WALKS_H

#include "bench.h"

/* careful_walk.c: the signatures of the library's. */
struct ollskuvan_walked careful_walk_back(const uint8_t *ring, size_t ring_len, uint64_t head, uint64_t sample_type,
    uint64_t read_format, uint32_t sample_id_all, uint64_t user_mask, uint64_t interrupt_mask, uint64_t branch_sample_type,
    uint32_t edition, uint64_t budget, uint8_t *scratch, size_t scratch_len, uint8_t *journal, size_t journal_len);
struct ollskuvan_walked careful_walk_back_events(const uint8_t *ring, size_t ring_len, uint64_t head,
    const struct ollskuvan_event *events, size_t event_count, uint32_t edition, uint64_t budget, uint8_t *scratch,
    size_t scratch_len, uint8_t *journal, size_t journal_len);

/* CAREFUL_WALK and OURS_WALK, by the names "careful-walk" and "ours-walk". */
enum { CAREFUL_WALK, OURS_WALK, WALKERS };
extern const struct contender walkers[WALKERS];

#endif
