/*
 * What carry.c and played.c agree on: the exports by number, what each is lent, and the stream between the two.
 *
 * carry.c, inside the fuzz target of this machine, writes each call to a stream: what went in, what came back. played.c,
 * for x86-64, makes the same call on the archive and compares. So the archive's own code gets every input, without the
 * independent reader, which costs most under an emulator.
 *
 * A message is its length in bytes and its number (4 bytes each), then:
 *   a call: its numbers and lengths (8 bytes each, in the order of the parameters); the changes of each lent slice
 *     against what last stood at its place; what came back; the changes of each slice that may be written
 *   EXECUTION: its number (8 bytes), the input      ENDED: nothing
 * Changes are runs: place, length (4 bytes each), the bytes, or with FILLED one byte for all; a length of 0 ends them.
 * Most calls of an execution are lent the same table and ring: kept in a place of its own by slot, each is sent once.
 */
#ifndef CARRIED_H
#define CARRIED_H

#include <stdint.h>
#include <string.h>
#include <sys/types.h>

#include "ollskuvan.h"

/* Where slices lie in the player; those from WRITABLE on may be written. */
enum slot { RING, RIGHT, RECORD, TABLE, VALUE, SCRATCH, RIGHT_SCRATCH, JOURNAL, ROOMS, OUT, WORDS, ROWS, SLOTS,
    WRITABLE = SCRATCH };
#ifdef OF_READER
enum { AREA = 1 << 23 }; /* the independent reader lends longer ones */
#else
enum { AREA = 1 << 18 };
#endif
enum { SIDES = 2, GUARD = 64, NUMBERS = 20, LONGEST_INPUT = 1 << 17, PLAYERS_MAX = 8 };
#define FILLED UINT32_C(0x80000000)

/* What each export is lent, in the order of its parameters: R(element, slot, name) is a slice that is read, W one that is
 * written, N(name) a number of 64 bits, U one of 32. */
#define ATTRIBUTES(N, U) N(sample_type) N(read_format) U(sample_id_all) N(user_mask) N(interrupt_mask) \
    N(branch_sample_type) U(edition)
#define A_RING(R, N) R(uint8_t, RING, ring) N(head) N(tail)
#define A_TABLE(R, U) R(struct ollskuvan_event, TABLE, events) U(edition)
#define A_RECORD(R) R(uint8_t, RECORD, record)
#define JOURNALED(W, N) N(budget) W(uint8_t, SCRATCH, scratch) W(uint8_t, JOURNAL, journal)
#define FIELDS_OUT(W) W(uint64_t, WORDS, fields)

#define LENT_drain(R, W, N, U) A_RING(R, N) ATTRIBUTES(N, U) JOURNALED(W, N)
#define LENT_drain_events(R, W, N, U) A_RING(R, N) A_TABLE(R, U) JOURNALED(W, N)
#define LENT_find_event(R, W, N, U) R(struct ollskuvan_event, TABLE, events) N(identifier)
#define LENT_check(R, W, N, U) A_RECORD(R) ATTRIBUTES(N, U)
#define LENT_check_events(R, W, N, U) A_RECORD(R) A_TABLE(R, U)
#define LENT_misc_meaning(R, W, N, U) N(type) N(misc)
#define LENT_copy_name(R, W, N, U) A_RECORD(R) N(place) N(count) W(uint8_t, OUT, buffer)
#define LENT_read(R, W, N, U) A_RECORD(R) ATTRIBUTES(N, U) FIELDS_OUT(W)
#define LENT_read_events(R, W, N, U) A_RECORD(R) A_TABLE(R, U) FIELDS_OUT(W)
#define LENT_read_one(R, W, N, U) A_RING(R, N) ATTRIBUTES(N, U) W(uint8_t, SCRATCH, scratch) FIELDS_OUT(W)
#define LENT_read_one_events(R, W, N, U) A_RING(R, N) A_TABLE(R, U) W(uint8_t, SCRATCH, scratch) FIELDS_OUT(W)
#define LENT_write(R, W, N, U) R(uint64_t, VALUE, fields) R(uint8_t, RECORD, source) ATTRIBUTES(N, U) W(uint8_t, OUT, buffer)
#define LENT_publish(R, W, N, U) N(ring_length) N(head) N(first) N(second)
#define LENT_read_store(R, W, N, U) R(uint8_t, RECORD, store) W(struct ollskuvan_event, ROWS, events)
#define LENT_write_store(R, W, N, U) R(struct ollskuvan_event, TABLE, events) N(ring_length) U(edition) U(budget) \
    W(uint8_t, OUT, buffer)
#define LENT_replay(R, W, N, U) R(uint8_t, RECORD, trace) N(start) A_TABLE(R, U) W(uint8_t, ROOMS, rooms) \
    W(uint8_t, JOURNAL, journal)
#define LENT_walk_back(R, W, N, U) R(uint8_t, RING, ring) N(head) ATTRIBUTES(N, U) JOURNALED(W, N)
#define LENT_walk_back_events(R, W, N, U) R(uint8_t, RING, ring) N(head) A_TABLE(R, U) JOURNALED(W, N)
#define LENT_salvage(R, W, N, U) R(uint8_t, RECORD, stream) A_TABLE(R, U) W(uint8_t, OUT, out) W(uint8_t, JOURNAL, changes)
#define LENT_compare(R, W, N, U) R(uint8_t, RING, left) N(left_head) N(left_tail) W(uint8_t, SCRATCH, left_scratch) \
    R(uint8_t, RIGHT, right) N(right_head) N(right_tail) W(uint8_t, RIGHT_SCRATCH, right_scratch) A_TABLE(R, U)

/* The exports: name, what comes back (a size_t in 64 bits), and how many bytes of that are told; what is behind them is
 * padding. */
#define EXPORTS(X) \
    X(drain, struct ollskuvan_drained, 28) \
    X(drain_events, struct ollskuvan_drained, 28) \
    X(find_event, uint64_t, 8) \
    X(check, uint32_t, 4) \
    X(check_events, struct ollskuvan_judged, 8) \
    X(misc_meaning, uint32_t, 4) \
    X(copy_name, uint32_t, 4) \
    X(read, uint32_t, 4) \
    X(read_events, struct ollskuvan_judged, 8) \
    X(read_one, struct ollskuvan_one, 40) \
    X(read_one_events, struct ollskuvan_one, 40) \
    X(write, uint32_t, 4) \
    X(publish, struct ollskuvan_published, 12) \
    X(read_store, struct ollskuvan_settings, 28) \
    X(write_store, struct ollskuvan_stored, 12) \
    X(replay, struct ollskuvan_replayed, 76) \
    X(walk_back, struct ollskuvan_walked, 20) \
    X(walk_back_events, struct ollskuvan_walked, 20) \
    X(salvage, struct ollskuvan_salvaged, 28) \
    X(compare, struct ollskuvan_compared, 20)

#define NUMBERED(call, type, told) CALL_##call,
enum { EXPORTS(NUMBERED) PROGRAM, CALLS, EXECUTION = CALLS, ENDED };

/* The program ringdump: each time it reads (from a file, so many bytes at most; how many came, and they) or writes (onto a
 * file, so many bytes, and they; how many went), and its status in the end, 8 bytes a number. */
enum { FROM = 1, ONTO, BACK };
int ringdump_main(void);
ssize_t ringdump_read(int, void *, size_t);
ssize_t ringdump_write(int, const void *, size_t);

#define TOLD(call, type, told) _Static_assert(told <= sizeof(type) && told + 8 > sizeof(type), "no member is left out");
EXPORTS(TOLD)

/* A parameter list without what stands before its first comma, so that each of its entries may bring a comma along. */
#define BEHIND(first, ...) __VA_ARGS__
#define LIST(...) BEHIND(__VA_ARGS__)
#define GIVEN_SLICE(type, slot, name) , name, name##_len
#define GIVEN_NUMBER(name) , name
#define ARGUMENTS(call) LIST(0 LENT_##call(GIVEN_SLICE, GIVEN_SLICE, GIVEN_NUMBER, GIVEN_NUMBER))
#define NO_SLICE(type, slot, name)
#define NO_NUMBER(name)

/* Executions in blocks of 16: one block after the other goes to the players in turn, and slices lie against the page after
 * their area in one, against that before it in the next. Inputs that follow each other are much alike: little is sent. */
static inline uint64_t block_of(uint64_t execution) { return execution >> 4; }
static inline int side_of(uint64_t execution) { return block_of(execution) & 1; }
static inline uint8_t *place_of(uint8_t *area, int side, size_t count) { return side ? area : area + AREA - count; }

/* Both sides of the stream do this where a length is not the one before: what stands at a place stays the same in both. */
static inline void put_guard(uint8_t *place, int side, size_t count)
{
    memset(side ? place + count : place - GUARD, 0xa5, GUARD);
}

#endif
