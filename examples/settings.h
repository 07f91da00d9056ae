/*
 * Settings in a file: a store (ollskuvan_read_store, ollskuvan_write_store).
 *
 * What is wrong with a store is said with its number and its place. A store is
 * never written over: it is written to a new file beside it, which takes its place
 * once all of it is on the disk.
 */
#ifndef EXAMPLES_SETTINGS_H
#define EXAMPLES_SETTINGS_H

#include <stdbool.h>
#include <stddef.h>
#include <stdint.h>

#include "ollskuvan.h"
#include "perf_ring.h"

struct settings {
    struct ollskuvan_event events[OLLSKUVAN_EVENTS_MAX];
    size_t count;
    uint64_t ring_length;
    uint32_t edition, budget;
    uint32_t version; /* of the store that it was read from */
    size_t bytes;     /* its length */
};

enum settings_answer {
    SETTINGS_READ,
    SETTINGS_MISSING, /* there is no such file */
    SETTINGS_BAD,     /* it cannot be read, or it is no store that this build reads */
};

/* Of a file, or of standard input: "-". Unless it was read, why says what is wrong. */
enum settings_answer settings_load(const char *path, struct settings *settings, char why[WHY_ROOM]);

/* False: what stood there still does, and why says what is wrong. */
bool settings_save(const char *path, const struct settings *settings, char why[WHY_ROOM]);

/* Whether both hold the same. */
bool settings_equal(const struct settings *one, const struct settings *other);

#endif
