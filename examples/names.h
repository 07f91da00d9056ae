/*
 * Names that threads have outside of any record: from /proc, when a recording
 * begins and when it ends, and from a file that was saved beside the rings.
 */
#ifndef EXAMPLES_NAMES_H
#define EXAMPLES_NAMES_H

#include <stdbool.h>
#include <stddef.h>
#include <stdint.h>

#include "perf_ring.h"
#include "text.h"

/* /proc shows a kernel's worker with what it works on: longer than other names.
 * One that is longer still is left out, not cut. */
enum { NAMED_ROOM = 31 };

struct named {
    uint32_t pid, tid;
    bool at_end; /* seen when the recording ended, not when it began */
    char name[NAMED_ROOM];
};

struct names {
    struct named *list;
    size_t count, room;
};

/* All threads that there are now. */
void names_from_proc(struct names *names, bool at_end);

/* A line a thread: "begin PID TID NAME" or "end PID TID NAME". */
bool names_save(const struct names *names, const char *path, char why[WHY_ROOM]);
bool names_load(struct names *names, const char *path, char why[WHY_ROOM]);

void names_free(struct names *names);

#endif
