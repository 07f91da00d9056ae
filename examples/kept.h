/*
 * What a controller is started with, as settings: the events, the ring's length,
 * the edition and the budget. It keeps them in a store and starts from it, also
 * on another board.
 *
 * An event stands in the store under this program's own number in place of the
 * kernel's identifier (perf_want_table). The event of a program that is recorded
 * belongs to one start and is not kept.
 */
#ifndef EXAMPLES_KEPT_H
#define EXAMPLES_KEPT_H

#include <stdbool.h>
#include <stdint.h>

#include "live.h"
#include "settings.h"

/* The records that one drain of the controller takes at most. */
enum { KEPT_BUDGET_MAX = 4096 };

/* The settings of such a start. */
void kept_settings(const struct live_want *want, uint64_t budget, struct settings *settings);

/* Fills in what is not given: pages, edition and budget that are 0, and the events
 * if none of clock, branch and counters is. False: the settings are none that a
 * controller can start from, and why says what is wrong. */
bool kept_start(const struct settings *settings, struct live_want *want, uint64_t *budget, char why[WHY_ROOM]);

/* Two events that cannot be in one ring: complained of. */
bool kept_events_go(const struct live_want *want);

/* "3 events, a ring of 16384 bytes, edition 4, budget 32" */
enum { KEPT_TEXT = 128 };
const char *kept_text(const struct settings *settings, char text[KEPT_TEXT]);

#endif
