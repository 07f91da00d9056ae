/*
 * Why a thread ran late: the thread that is watched, its worst wait, and what
 * is known of who was in its way. Nobody is named without a record that shows
 * it, and what the records do not tell is said.
 */
#ifndef EXAMPLES_VERDICT_H
#define EXAMPLES_VERDICT_H

#include <stdio.h>

#include "story.h"

enum verdict_kind {
    VERDICT_NOBODY,    /* nobody was switched out and in again */
    VERDICT_NEVER_OUT, /* not the one that is watched */
    VERDICT_NOT_KNOWN, /* records are missing in each of its waits */
    VERDICT_SLEPT,     /* it was never preempted: the records tell no lateness */
    VERDICT_WAITED,    /* it was preempted: late */
    VERDICT_PAST,      /* it came back later than its period: late */
    VERDICT_ON_TIME,   /* it never did */
};

struct verdict {
    enum verdict_kind kind;
    const struct thread *thread; /* NULL: nobody to watch */
    bool chosen_by_user;
    uint64_t period;             /* ns; 0: not given */
    const struct wait *worst;    /* the wait that is told; NULL: none */
    uint64_t late_from;          /* late is what comes from here to its end */
    uint64_t from;               /* and this part of that it did not run */
    char *headline;              /* "late: waited 41.2 ms: cpu 1 ran 'backup' 812/812" */
    char **details;              /* further sentences */
    size_t detail_count, detail_room;
};

enum judged { JUDGED, NO_SUCH_THREAD, SEVERAL_THREADS };

/* Watches this thread: a tid, a name, or NULL for the one that waited longest.
 * Only JUDGED fills the verdict; SEVERAL_THREADS have this name. */
enum judged judge(const struct story *story, const char *watch, uint64_t period, struct verdict *verdict);
void verdict_end(struct verdict *verdict);

/* It is late: by its period, or because it was preempted. */
bool is_late(const struct verdict *verdict);

/* How far past its period a wait came to its end; 0: not at all. */
uint64_t lateness(const struct wait *wait, uint64_t period);

/* The threads that have this name, a line each with its tid. Returns how many. */
size_t print_threads_called(FILE *out, const struct story *story, const char *name);

/* When a thread moved from one cpu to another is not told. But while a cpu is
 * idle nobody waits for it: the thread had left the first cpu when that was
 * idle, and had not come to the second while that was idle. */
struct move {
    uint64_t left_by;     /* the first moment at which the first cpu was idle; else the wait's end */
    uint64_t not_before;  /* the last at which the second was idle; else the begin */
};

/* Of a wait, or of its part from this time on. */
struct move move_of(const struct story *story, const struct wait *wait, uint64_t from);

/* A switch itself takes some time, in ns: one that was idle that shortly before was idle. */
enum { SWITCH_TAKES = 50000 };

/* ---- who had a cpu ---- */

struct share {
    struct whom who;
    uint64_t ran, last; /* how long, and until when */
};

enum { SHARES_MAX = 3 };

/* The whole time is others + own + idle + unknown. */
struct account {
    struct share top[SHARES_MAX]; /* of the others */
    size_t shown, count;          /* in top; of the others */
    uint64_t whole, others, own, idle, unknown;
};

/* Who had this cpu between two times. */
struct account account_of(const struct story *story, uint32_t cpu, uint32_t own_tid, uint64_t from, uint64_t to);

#endif
