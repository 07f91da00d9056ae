#ifndef BENCH_BENCH_H
#define BENCH_BENCH_H

#include <stdbool.h>
#include <stdint.h>
#include <stdio.h>

#include "drains.h"
#include "made.h"

enum { MIB = 1048576 };

struct contender {
    const char *name;  /* for `bench once` */
    const char *title; /* for the tables */
    drain_function *drain;
    events_function *events; /* NULL: it takes no table */
};

enum { CAREFUL, CAREFUL_ONCE, OURS };
extern const struct contender contenders[];
extern const size_t contender_count;

/* One drain of the whole ring. */
struct ollskuvan_drained run_drain(drain_function *drain, const struct made_ring *ring, uint8_t *scratch, uint8_t *journal);
/* The same with the ring's table. */
struct ollskuvan_drained run_events(events_function *drain, const struct made_ring *ring, uint8_t *scratch, uint8_t *journal);

/* Zeroed memory, or the end of the program. */
void *grab(size_t bytes);

/* compare.c: two rooms for each side, left for careful C and right for ours, as long as they are lent now, with a guard on
 * either end. */
enum { GUARD = 64 };
struct rooms {
    uint8_t *first, *second; /* behind their guards */
};
struct sides {
    struct rooms left, right;
    size_t first_len, second_len;
};
void open_sides(struct sides *sides, size_t first_most, size_t second_most);
void close_sides(struct sides *sides);
void spoil_sides(struct sides *sides); /* the same bytes on both sides, which nobody would write */
bool same_sides(const struct sides *sides);

/* compare.c: the exit status. */
int compare(uint64_t rings, uint64_t seed);
int compare_tables(uint64_t rings, uint64_t seed);
int compare_walks(uint64_t rings, uint64_t seed); /* of backward rings, without a table and with one */

/* timing.c: processor time of this thread; the middle one of the values, which are sorted then. */
uint64_t thread_ns(void);
double median(double *values, size_t count);
/* The middle times of as many calls of each, by turns; `run` tells by its last argument whose call is due. */
struct two_times {
    double careful, ours;
};
struct two_times time_both(void (*run)(void *on, bool ours), void *on, size_t rounds);
int time_workloads(size_t rounds);
int time_sizes(size_t rounds);
int time_values(size_t rounds);
int time_tables(size_t rounds);

/* replay.c */
int compare_replay(uint64_t traces, uint64_t seed);
int run_replays(const char *whose, uint64_t calls);
int time_replay(size_t rounds);

/* salvage.c */
int compare_salvage(uint64_t streams, uint64_t seed);
int list_streams(void);
int run_salvages(const char *whose, const char *stream, uint64_t calls);
int time_salvage(size_t rounds);

/* rings.c: two rings compared */
int compare_rings(uint64_t rings, uint64_t seed);
int run_rings(const char *what, unsigned which); /* alike but for ignored bytes: one call, or both rings read */
int time_rings(size_t rounds);

#endif
