/*
 * A recording: a ring for each cpu, and a program if one is given. From its
 * start to its stop SIGINT and SIGTERM end the recording, of backward rings SIGUSR1
 * too; before and after they do what they did.
 */
#ifndef EXAMPLES_LIVE_H
#define EXAMPLES_LIVE_H

#include <stdbool.h>
#include <stddef.h>
#include <stdint.h>

#include "perf_ring.h"
#include "program.h"

struct live_want {
    int cpu; /* -1: all that are online */
    size_t pages;
    bool clock;
    uint64_t branch; /* a branch sample type; 0: no branches */
    uint32_t counters; /* of counter_names */
    bool table; /* each ring with a table of its events, also without counters */
    bool backward; /* flight recorders: they run over their oldest records until they are paused */
    uint64_t late; /* ns: a step of the recorder that comes later than that ends the recording; 0: none does */
    uint32_t edition;
    double seconds; /* how long; 0: until the program ends */
    char **program; /* NULL: none */
};

struct live {
    struct live_want want;
    struct perf_ring *rings;
    size_t count;
    uint64_t began, ended; /* of the monotonic clock: all rings were recording between these */
    uint64_t late; /* ns: how late the last step came */
    struct program program;
};

/* Each of these returns STATUS_DONE, or what the command shall end with: why is
 * said. Whatever they return, live_close comes at the end. */
int live_open(struct live *live, const struct live_want *want);
int live_start(struct live *live);
int live_stop(struct live *live);
void live_close(struct live *live);

enum { STEP_MS = 5 };

enum live_end {
    LIVE_TIME,    /* the time is over */
    LIVE_PROGRAM, /* the program has ended */
    LIVE_SIGNAL,  /* SIGINT or SIGTERM */
    LIVE_ASKED,   /* SIGUSR1, which ends the recording of backward rings alone */
    LIVE_LATE,    /* a step came late */
};

/* Until one of these: look is called at each step, every STEP_MS. Backward rings
 * are paused before anything else is done. */
enum live_end live_record(struct live *live, void (*look)(void *context), void *context);

/* What a stop gives up, in words: "24 bytes"; of stop 4 no number, since head and
 * tail are then no two counts of one ring. */
enum { GAP_TEXT = 48 };
const char *gap_text(uint32_t stop, uint64_t bytes, char text[GAP_TEXT]);

/* Until the program has ended by itself, or SIGINT or SIGTERM comes. */
void live_wait(struct live *live);

#endif
