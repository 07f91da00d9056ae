/*
 * Linked into the fuzz target with --wrap: each call of an export, with what came back, goes to the stream CARRY_TO,
 * for played.c (see carried.h). Nothing is waited for. Without CARRY_TO the calls go straight through.
 *
 * With OF_READER it is linked into the independent reader's program (tests/boards): an execution is a call.
 */
#define _GNU_SOURCE
#include <errno.h>
#include <fcntl.h>
#include <signal.h>
#include <stdio.h>
#include <stdlib.h>
#include <unistd.h>

#include "carried.h"

#ifndef OF_READER
int __real_LLVMFuzzerTestOneInput(const uint8_t *, size_t);
int __wrap_LLVMFuzzerTestOneInput(const uint8_t *, size_t);
int __real_ringdump_main(void);
int __wrap_ringdump_main(void);
ssize_t __real_ringdump_read(int, void *, size_t);
ssize_t __wrap_ringdump_read(int, void *, size_t);
ssize_t __real_ringdump_write(int, const void *, size_t);
ssize_t __wrap_ringdump_write(int, const void *, size_t);
#endif

enum { BLOCK = 1 << 20, ROOM = AREA > 1 << 18 ? 2 * AREA : 8 << 20 }; /* a message fits what is behind a block */

/* A player's stream, and what stands in that player at each slot's place: its bytes, and the length of the slice there. */
struct stream {
    int file;
    size_t filled, begun;
    uint8_t outgoing[BLOCK + ROOM];
    uint8_t held[SLOTS][SIDES][AREA];
    size_t lengths[SLOTS][SIDES];
};
static struct stream streams[PLAYERS_MAX], *to = streams;
static uint64_t executions, players; /* no players: nothing is carried */

/* _exit: libFuzzer would keep the input of now, which is not the one that the player is at. */
static void stop(const char *words)
{
    fprintf(stderr, "carry: %s\n", words);
    _exit(1);
}

static void open_stream(struct stream *stream, const char *start, int number)
{
    char path[4096];

    snprintf(path, sizeof path, "%s.%d", start, number);
    stream->file = open(path, O_WRONLY | O_CREAT | O_TRUNC, 0666);
    if (stream->file < 0)
        stop("a stream of CARRY_TO cannot be opened");
    fcntl(stream->file, F_SETPIPE_SZ, BLOCK); /* fails for a file, which needs none */
    memset(stream->lengths, 0xff, sizeof stream->lengths);
}

__attribute__((constructor)) static void open_streams(void)
{
    const char *start = getenv("CARRY_TO"), *count = getenv("PLAYERS");
    int number, wanted = count ? atoi(count) : 1;

    if (!start)
        return;
    if (wanted < 1 || wanted > PLAYERS_MAX)
        stop("PLAYERS is no number of players");
    signal(SIGPIPE, SIG_IGN); /* flush tells of a player that ended */
    for (number = 0; number < wanted; number++)
        open_stream(&streams[number], start, number);
    players = (uint64_t)wanted;
}

static void flush(void)
{
    size_t done = 0;

    while (done < to->filled) {
        ssize_t now = write(to->file, to->outgoing + done, to->filled - done);

        if (now < 0 && errno != EINTR)
            stop("the player takes no more");
        done += now < 0 ? 0 : (size_t)now;
    }
    to->filled = 0;
}

static void put(const void *bytes, size_t count)
{
    memcpy(to->outgoing + to->filled, bytes, count);
    to->filled += count;
}

static void put_number(uint64_t number) { put(&number, sizeof number); }

static void begin(uint32_t number)
{
    to->begun = to->filled;
    to->filled += 4;
    put(&number, 4);
}

static void finish(void)
{
    uint32_t bytes = (uint32_t)(to->filled - to->begun);

    memcpy(to->outgoing + to->begun, &bytes, 4);
    if (to->filled >= BLOCK)
        flush();
}

/* The next execution, by its input, and whose stream it goes to. */
static void begin_execution(const void *input, size_t count)
{
    executions++;
    to = &streams[block_of(executions) % players];
    begin(EXECUTION);
    put_number(executions);
    put(input, count);
    finish();
}

#ifdef OF_READER
static void each_call(void) { begin_execution("", 0); }
#else
static void each_call(void) {}
#endif

/* Own loops, in words: the program's memcmp is libFuzzer's, which looks at what is compared. */
static int same_block(const uint8_t *a, const uint8_t *b)
{
    uint64_t x[8], y[8], differing = 0;
    int i;

    memcpy(x, a, 64);
    memcpy(y, b, 64);
    for (i = 0; i < 8; i++)
        differing |= x[i] ^ y[i];
    return differing == 0;
}

static int same(const uint8_t *a, const uint8_t *b, size_t count)
{
    if (count >= 64)
        return same_block(a, b);
    while (count && *a == *b)
        a++, b++, count--;
    return count == 0;
}

static int is_one_byte(const uint8_t *bytes, size_t count)
{
    size_t i;

    for (i = 1; i < count && bytes[i] == bytes[0]; i++)
        ;
    return i == count;
}

static void put_run(size_t place, const uint8_t *bytes, size_t count)
{
    int one = count >= 64 && is_one_byte(bytes, count);
    uint32_t head[2] = { (uint32_t)place, (uint32_t)count | (one ? FILLED : 0) };

    put(head, sizeof head);
    put(bytes, one ? 1 : count);
}

/* The blocks in which the slice is not what is held, in runs; it is held from now on. */
static void put_changes(const uint8_t *slice, uint8_t *is_held, size_t count)
{
    size_t at = 0, first;

    for (;;) {
        while (at < count && same(slice + at, is_held + at, count - at))
            at += 64;
        if (at >= count)
            break;
        first = at;
        while (at < count && !same(slice + at, is_held + at, count - at))
            at += 64;
        at = at < count ? at : count;
        put_run(first, slice + first, at - first);
        memcpy(is_held + first, slice + first, at - first);
    }
    put_run(0, slice, 0);
}

static void put_lent(enum slot slot, const void *slice, size_t count)
{
    int side = side_of(executions);
    uint8_t *place = place_of(to->held[slot][side], side, count);

    if (count > AREA - GUARD)
        stop("a slice is longer than the player's places");
    if (to->lengths[slot][side] != count)
        put_guard(place, side, count);
    to->lengths[slot][side] = count;
    put_changes(slice, place, count);
}

static void put_back(enum slot slot, const void *slice, size_t count)
{
    int side = side_of(executions);

    put_changes(slice, place_of(to->held[slot][side], side, count), count);
}

#define PARAMETER_R(type, slot, name) , const type *name, size_t name##_len
#define PARAMETER_W(type, slot, name) , type *name, size_t name##_len
#define PARAMETER_N(name) , uint64_t name
#define PARAMETER_U(name) , uint32_t name
#define PARAMETERS(call) LIST(0 LENT_##call(PARAMETER_R, PARAMETER_W, PARAMETER_N, PARAMETER_U))
#define PUT_LENGTH(type, slot, name) put_number(name##_len);
#define PUT_NUMBER(name) put_number(name);
#define PUT_LENT(type, slot, name) put_lent(slot, name, sizeof(type) * name##_len);
#define PUT_BACK(type, slot, name) put_back(slot, name, sizeof(type) * name##_len);

#define WRAPPED(call, type, told) \
    type __real_ollskuvan_##call(PARAMETERS(call)); \
    type __wrap_ollskuvan_##call(PARAMETERS(call)); \
    type __wrap_ollskuvan_##call(PARAMETERS(call)) \
    { \
        type made; \
        if (!players) \
            return __real_ollskuvan_##call(ARGUMENTS(call)); \
        each_call(); \
        begin(CALL_##call); \
        LENT_##call(PUT_LENGTH, PUT_LENGTH, PUT_NUMBER, PUT_NUMBER) \
        LENT_##call(PUT_LENT, PUT_LENT, NO_NUMBER, NO_NUMBER) \
        made = __real_ollskuvan_##call(ARGUMENTS(call)); \
        put(&made, told); \
        LENT_##call(NO_SLICE, PUT_BACK, NO_NUMBER, NO_NUMBER) \
        finish(); \
        return made; \
    }
EXPORTS(WRAPPED)

#ifndef OF_READER
static void put_numbers(uint64_t first, uint64_t second, uint64_t third)
{
    put_number(first);
    put_number(second);
    put_number(third);
}

int __wrap_ringdump_main(void)
{
    int status;

    if (!players)
        return __real_ringdump_main();
    begin(PROGRAM);
    status = __real_ringdump_main();
    put_number(BACK);
    put_number((uint64_t)status);
    finish();
    return status;
}

ssize_t __wrap_ringdump_read(int file, void *bytes, size_t count)
{
    ssize_t came = __real_ringdump_read(file, bytes, count);

    if (players) {
        put_numbers(FROM, (uint64_t)file, count);
        put_number((uint64_t)came);
        put(bytes, (size_t)came);
    }
    return came;
}

ssize_t __wrap_ringdump_write(int file, const void *bytes, size_t count)
{
    ssize_t went = __real_ringdump_write(file, bytes, count);

    if (players) {
        put_numbers(ONTO, (uint64_t)file, count);
        put(bytes, count);
        put_number((uint64_t)went);
    }
    return went;
}

int __wrap_LLVMFuzzerTestOneInput(const uint8_t *data, size_t size)
{
    if (players)
        begin_execution(data, size);
    return __real_LLVMFuzzerTestOneInput(data, size);
}
#endif

/* Reached by exit alone: a target that found a difference leaves the streams without their end. */
__attribute__((destructor)) static void end_streams(void)
{
    for (to = streams; to < streams + players; to++) {
        begin(ENDED);
        finish();
        flush();
        close(to->file);
    }
}
