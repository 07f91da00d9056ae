/*
 * The store of settings: careful C beside ollskuvan_read_store and
 * ollskuvan_write_store.
 */
#ifndef BENCH_STORES_H
#define BENCH_STORES_H

#include <stddef.h>
#include <stdint.h>

#include "ollskuvan.h"

/* careful_store.c: the same answers. */
struct ollskuvan_settings careful_read_store(const uint8_t *store, size_t store_len, struct ollskuvan_event *events,
    size_t events_room);
struct ollskuvan_stored careful_write_store(const struct ollskuvan_event *events, size_t event_count, uint64_t ring_length,
    uint32_t edition, uint32_t budget, uint8_t *buffer, size_t buffer_len);

/* stores.c: the exit status. */
int compare_stores(uint64_t stores, uint64_t seed);
int time_stores(size_t rounds);
/* One call of a store of so many events, for callgrind: careful or ours, read or write. */
int run_store(const char *whose, const char *call, uint64_t events);

#endif
