/*
 * The controller's own part: what the library leaves to its caller. Opening
 * events, mapping the ring, the two memory barriers, and ring images in files.
 */
#ifndef EXAMPLES_PERF_RING_H
#define EXAMPLES_PERF_RING_H

#include <stdbool.h>
#include <stddef.h>
#include <stdint.h>
#include <sys/types.h>

#include "ollskuvan.h"

/* One attribute set serves a whole ring, or a table of events does. */
struct ring_attributes {
    uint64_t sample_type, read_format, user_mask, interrupt_mask, branch_sample_type;
    uint32_t sample_id_all, edition;
};

/* The events that write into one ring; none: the attributes serve. */
struct event_table {
    struct ollskuvan_event events[OLLSKUVAN_EVENTS_MAX];
    const char *names[OLLSKUVAN_EVENTS_MAX]; /* of live ones */
    size_t count;
};

/* ---- a live ring ---- */

/* What can be sampled beside the switches, each by an event of its own in the
 * same ring. No two of them share a software counter: of two that do, the second
 * one's samples carry the first one's identifier. */
enum { COUNTERS = 4 };
extern const char *const counter_names[COUNTERS];

/* What is wanted of the kernel, for one cpu. */
struct perf_want {
    int cpu;
    size_t pages;  /* a power of two; 4 pages are the longest ring that ringdump takes */
    pid_t program; /* mappings of this process and its children alone; 0: of everyone. Names, forks and ends are everyone's */
    bool clock;    /* samples of the cpu clock, 1,000 a second, beside the switches */
    uint64_t branch; /* not 0: samples of the cpu's cycles with the branches before them, by this branch sample type */
    uint32_t counters; /* a bit for each of counter_names; not cpu-clock if clock is set */
    bool table; /* a table of the ring's events even if no counters are sampled */
    bool backward; /* written backward, over its oldest records: nobody moves its tail */
    uint32_t edition;
};

struct perf_ring {
    struct ring_attributes attributes;
    struct event_table table; /* if counters are sampled, or a table is wanted */
    int cpu;
    const uint8_t *bytes; /* the data area alone */
    size_t length;
    /* from here on perf_ring.c's own */
    int fd, program_fd, counter_fds[COUNTERS];
    void *mapped;
    size_t mapped_length;
};

/* The events that are wanted, as they will be opened, but for the program's own.
 * In place of an identifier each has this program's own number: the kernel hands
 * out others each time that they are opened. */
enum { SWITCHES_NUMBER = 1, COUNTER_NUMBER = 2 /* and on, in the order of counter_names */ };
void perf_want_table(const struct perf_want *want, struct event_table *table);

/* Room for the reason of a failure. */
enum { WHY_ROOM = 256 };

enum perf_answer {
    PERF_OPEN,
    PERF_NOT_ALLOWED, /* the kernel has no perf events, or not for us */
    PERF_FAILED,
};

/* Opens the events, disabled, and maps the ring. The switches of the whole cpu,
 * the program's mappings and the samples go into one ring. If it is not open, nothing
 * is, and why says in words what the kernel refused. */
enum perf_answer perf_ring_open(struct perf_ring *ring, const struct perf_want *want, char why[WHY_ROOM]);
bool perf_ring_start(const struct perf_ring *ring, char why[WHY_ROOM]);
bool perf_ring_stop(const struct perf_ring *ring, char why[WHY_ROOM]);
/* Nothing more is written, from now on: for a backward ring, before it is read. */
bool perf_ring_pause(const struct perf_ring *ring, char why[WHY_ROOM]);
void perf_ring_close(struct perf_ring *ring);

/* The head, and behind it the barrier that the manual page asks for: the bytes
 * up to this head may then be read. */
uint64_t perf_ring_head(const struct perf_ring *ring);
uint64_t perf_ring_tail(const struct perf_ring *ring);
/* All reads are done before the kernel sees the new tail. Not for a backward ring,
 * which is mapped for reading alone. */
void perf_ring_give_back(const struct perf_ring *ring, uint64_t tail);

/* Whether the next switch might have found no room between these two: the kernel
 * tells of what it dropped only with the next record that finds room, so after
 * the last record of a full ring anything may have happened. */
bool ring_is_full(size_t length, uint64_t head, uint64_t tail);

/* The cpus that are online, in order. Returns their number, or 0 if it cannot
 * be told. At most `most` are stored. */
size_t cpus_online(int *cpus, size_t most);

/* ---- a saved ring: what ringdump takes ---- */

/* IMAGE_HEADER bytes, then the ring. A branch sample type that is not 0 stands in
 * IMAGE_BRANCH bytes behind the ring; ringdump, whose branch sample type is 0, does
 * not take such an image (stop 1). Where they are not there it is 0: a ring's length
 * is a power of two from 64 on, so the file's length tells which it is. */

struct ring_image {
    struct ring_attributes attributes;
    uint64_t head, tail;
    uint8_t *bytes; /* to be freed */
    size_t length;
};

enum { IMAGE_HEADER = 50, IMAGE_BRANCH = 8, IMAGE_MOST = IMAGE_HEADER + OLLSKUVAN_RING_MAX + IMAGE_BRANCH };
/* ringdump takes no longer ring. */
enum { RINGDUMP_RING_MAX = 16384 };

/* Of a file, or of standard input: "-". */
bool ring_image_load(const char *path, struct ring_image *image, char why[WHY_ROOM]);
/* Whole or not at all: what stood there is replaced (file.h). */
bool ring_image_save(const char *path, const struct ring_attributes *attributes, uint64_t head, uint64_t tail,
    const uint8_t *bytes, size_t length, char why[WHY_ROOM]);

#endif
