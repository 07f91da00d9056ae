/*
 * Several events in one ring: the table that ollskuvan_drain_events and
 * ollskuvan_read_one_events take, and its file beside a saved ring.
 *
 * NAME.table stands beside NAME.img: a line an event, the seven words of struct
 * ollskuvan_event as C writes numbers; '#' begins a remark. The attributes in the
 * image, and the branch sample type behind its ring, are then the first event's.
 */
#ifndef EXAMPLES_EVENTS_H
#define EXAMPLES_EVENTS_H

#include <stdbool.h>
#include <stddef.h>

#include "ollskuvan.h"
#include "perf_ring.h"

/* The table of this image, or none (count 0) if no file is there. False: what
 * is there is no table, and why says it. */
bool event_table_load(struct event_table *table, const char *image_path, char why[WHY_ROOM]);

/* Without events: takes away what an earlier recording of that name left there. */
bool event_table_save(const struct event_table *table, const char *image_path, char why[WHY_ROOM]);

/* The event that wrote a record, of whose value the words are; its index, or
 * the table's count. */
size_t event_of(const struct event_table *table, const uint64_t fields[OLLSKUVAN_FIELDS]);

#endif
