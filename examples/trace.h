/*
 * A trace of a live ring: what the kernel wrote and when it was drained, so that
 * ollskuvan_replay plays it again; and beside it the journal of the drains.
 *
 * NAME.trace has the entries: each record as it came (kind 16), each drain with
 * its budget (kind 17). NAME.trace.table is the table of the ring's events, and
 * NAME.trace.journal has a line of 32 hex digits for each record taken, as
 * ollskuvan replay prints them.
 */
#ifndef EXAMPLES_TRACE_H
#define EXAMPLES_TRACE_H

#include <stdbool.h>
#include <stdint.h>
#include <stdio.h>

#include "ollskuvan.h"
#include "perf_ring.h"

enum { TRACE_PATH_ROOM = 600 };

struct trace {
    char path[TRACE_PATH_ROOM];
    FILE *file, *journal;
    uint64_t start;  /* the tail that it begins at */
    uint64_t seen;   /* the records up to this count are in it */
    uint64_t records, drains;
    bool ended; /* a header in the ring was no record's: nothing follows in the trace */
};

/* Opens the files of a ring with a table, whose events are not started yet.
 * False: why says it, and trace_close may be called. */
bool trace_begin(struct trace *trace, const char *path, const struct perf_ring *ring, char why[WHY_ROOM]);

/* One drain of the ring, before its new tail is given back: the records up to its
 * head that are not in the trace yet, the drain, and its entries. */
void trace_follow(struct trace *trace, const struct perf_ring *ring, uint64_t head, uint64_t budget,
    const struct ollskuvan_drained *done, const uint8_t *journal);

/* Closes the files. False: something could not be written, and why says it. */
bool trace_close(struct trace *trace, char why[WHY_ROOM]);

#endif
