/*
 * What rings tell, in order of time: events, who ran where and how long, and
 * who waited. Records become events through ollskuvan_drain, ollskuvan_read
 * and ollskuvan_copy_name (take.c); runs and waits are found in runs.c.
 *
 * The rings are those of one recording, a ring a cpu. Where records may be
 * missing nothing is told.
 */
#ifndef EXAMPLES_STORY_H
#define EXAMPLES_STORY_H

#include <stdbool.h>
#include <stddef.h>
#include <stdint.h>

#include "names.h"
#include "ollskuvan.h"
#include "perf_ring.h"
#include "text.h"

enum event_kind {
    EVENT_IN,       /* switched in; other: who ran before */
    EVENT_OUT,      /* switched out; other: who runs next; flag: it could have run on */
    EVENT_NAME,     /* text: the new name; flag: by exec */
    EVENT_FORK,     /* other: the parent */
    EVENT_EXIT,
    EVENT_MAPPED,   /* text: the file; flag: data */
    EVENT_LOST,     /* number: how many */
    EVENT_SAMPLE,   /* number: the ip; flag: it has one */
    EVENT_OTHER,    /* by its type alone */
    EVENT_REFUSED,  /* answer */
};

struct event {
    enum event_kind kind;
    unsigned ring;
    uint64_t sequence;  /* in its ring */
    bool timed, on_cpu, flag;
    bool early;         /* before the first time of its ring */
    bool missing;       /* switches may be missing between since and until */
    uint64_t time;      /* its own; else that of the record before it */
    uint64_t since, until; /* since of EVENT_IN: when the one before it was switched out */
    uint32_t cpu, type, answer;
    struct whom who, other;
    uint64_t number;    /* of NAME, FORK, EXIT and MAPPED: the id of the event that wrote it */
    bool numbered;      /* it has that id */
    bool twice;         /* FORK, EXIT: another event told of it too, and that is left out */
    bool stale;         /* its name has stale bytes after its zero */
    const char *text;   /* NULL: none, or too long to be shown */
    uint64_t text_bytes;
    uint8_t build_id[20], build_id_bytes;
};

/* A thread on a cpu. */
struct run {
    uint32_t cpu;
    struct whom who;
    uint64_t from, to;
};

/* A time in which records may be missing. */
struct gap {
    uint64_t from, to;
};

/* From switching out to switching in again: the records tell no more of a wait.
 * When a thread that slept was woken, and when one moved to another cpu, they do
 * not tell. */
struct wait {
    struct whom who, next; /* next: who took its place */
    uint64_t started;      /* when it was switched in before; 0: not known */
    uint64_t from, to;
    uint64_t in_time;      /* of the record that tells that it is in */
    bool preempted;        /* it could have run on; else it gave the cpu up: it slept */
    bool open;             /* it had not come back when the recording ended */
    bool unsure;           /* records may be missing meanwhile: it is not told */
    bool on_cpu;           /* the two cpus are known */
    uint32_t cpu_out;      /* where it lost its place */
    uint32_t cpu_in;       /* where it came back; of an open one as cpu_out */
};

struct thread {
    uint32_t pid, tid;
    const char *name;  /* the last one */
    const char *later; /* what it was called when the recording ended */
    bool seen;         /* a record speaks of it */
    bool named;        /* a record names it */
    bool of_program;   /* it belongs to the program that was recorded */
    uint64_t ran;      /* ns on a cpu */
    /* its waits that are told */
    size_t waits, sleeps;                            /* preempted; gave up */
    uint64_t waited, slept, longest_wait, longest_sleep; /* ns */
    size_t unsure;     /* those that are not told */
};

/* One ring of the story. */
struct source {
    char label[64];
    struct ring_attributes attributes;
    struct event_table table; /* count 0: the attributes serve */
    size_t length;
    uint64_t records, refused, bytes, lost, switches;
    uint64_t stale;       /* records that have stale bytes after their name */
    bool backward;        /* a flight recorder's: its records were written from the newest on */
    bool round;           /* backward: what came before its first record is not there */
    uint32_t stop;        /* of the drain that did not reach the head, else of the last one; backward: of the walk */
    uint64_t stop_tail;
    uint32_t last_stop;   /* of the last story_take */
    bool full;            /* what came after its last record is not known */
    bool whole_cpu;       /* its switches are those of a cpu, not of a thread */
    bool cut;             /* more records than are kept */
    bool any_time;
    uint64_t first_time, last_time;  /* of its kept records that have a time */
    uint64_t began, ended;           /* of a live ring, else 0: it was recording between these */
    bool alone_in_time;              /* no other ring is of the same time */
    bool any_switch_id;
    uint64_t switch_id;              /* of the event that wrote its switches */
    size_t last_kept;                /* its last event: the place plus 1 */
    uint64_t *gaps;                  /* where each gap begins, as runs.c comes to them */
    size_t gap_count, gap_room;
};

struct story {
    struct source *sources;
    size_t source_count;
    struct event *events;
    size_t event_count, event_room, event_most;
    struct run *runs; /* by cpu, then by time */
    size_t run_count, run_room;
    struct wait *waits; /* by in_time */
    size_t wait_count, wait_room;
    struct gap *gaps; /* of all rings together, by time, none touches the next */
    size_t gap_count, gap_room;
    struct thread *threads;
    size_t thread_count, thread_room;
    uint32_t *thread_slots; /* where a tid is found; see story.c */
    size_t thread_slot_count;
    uint64_t first_time, last_time; /* of all that has a time, and of live rings their begin and end */
    bool any_time;
    bool cut;           /* there were more records than event_most: the others are not told */
    uint32_t program;   /* the pid of the program that was recorded; 0: not known */
    bool partial;       /* the rings of some cpus may be missing */
    size_t cpu_count;   /* whose switches are told */
    uint64_t lost;
    struct text *texts;
    uint8_t *scratch;
};

/* All memory of a story comes and goes here; out of memory ends the program. */
void story_begin(struct story *story, size_t event_most);
void story_end(struct story *story);

/* Adds a ring; the number is for story_take. */
unsigned story_add_source(struct story *story, const char *label, const struct ring_attributes *attributes, size_t length);

/* Takes all records from tail to head. Returns the new tail; the source holds
 * why it stopped. */
uint64_t story_take(struct story *story, unsigned source, const uint8_t *ring, uint64_t head, uint64_t tail);

/* Takes all records of a backward ring, the oldest first. */
void story_take_back(struct story *story, unsigned source, const uint8_t *ring, uint64_t head);

/* Whether the ring was read as far as there are records. */
bool source_is_whole(const struct source *source);

/* Names that are known from elsewhere. */
void story_names(struct story *story, const struct names *names);

/* After the last record: sorts, and finds names, runs and waits. */
void story_tell(struct story *story);

/* Whether every ring was read to its head, and all its records are told. */
bool story_is_whole(const struct story *story);

/* NULL: never seen. */
struct thread *story_thread(const struct story *story, uint32_t tid);

/* The runs of one cpu: the first and how many. */
const struct run *story_runs_of(const struct story *story, uint32_t cpu, size_t *count);

/* The first of these runs that ends after the time. */
size_t first_run_after(const struct run *runs, size_t count, uint64_t time);

/* ---- between story.c, take.c and runs.c ---- */

/* A copy of the text that lives as long as the story. */
const char *story_keep(struct story *story, const char *text);

/* The thread, which is new if it was never seen. */
struct thread *story_thread_of(struct story *story, uint32_t pid, uint32_t tid);

void find_gaps(struct story *story);
void find_runs(struct story *story);
void find_waits(struct story *story);

#endif
