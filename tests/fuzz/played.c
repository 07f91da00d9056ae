/*
 * The player: makes each call that carry.c wrote (see carried.h) once more, on libollskuvan.a for x86-64, and compares
 * what comes back and every lent slice. It reads the stream from its standard input. Built and run by tests/fuzz/run.sh;
 * with OF_READER, for other targets and without ringdump, by tests/boards/run.sh.
 *
 * A slice lies against a page that cannot be touched, with guard bytes on its other side. One that is only read is lent
 * by pages that cannot be written, which the player fills by other pages of the same memory: a write ends in a signal.
 *
 * PLAYED_KEEPS is the file that gets the input of an execution with a difference.
 * PLANT=number plants a fault, to see that it is found: in function number % 100 the answer is changed (number / 100 is 0),
 * the last byte of its n-th slice that may be written (n), or the guard byte beside it (10 + n); or a slice that is only read
 * is written (20), or the byte behind a slice is read, on the page that cannot be touched (21).
 */
#define _GNU_SOURCE
#include <inttypes.h>
#include <signal.h>
#include <stdio.h>
#include <stdlib.h>
#include <sys/mman.h>
#include <unistd.h>

#include "carried.h"

enum { HEX_MAX = 4096, BUFFER = 32 << 20, NONE = 9999 };
#define NAMED(call, type, told) #call,
static const char *const call_names[] = { EXPORTS(NAMED) "ringdump", "none" };
static const char *const slot_names[SLOTS] = { "ring", "right ring", "record", "table", "value", "scratch", "right scratch",
    "journal", "rooms", "out", "words", "rows" };

/* A slot's places: what is lent, what is written to fill it, and for a writable slot what is due there. */
static struct {
    uint8_t *lent, *filled, *due;
    size_t length;
} places[SLOTS][SIDES];

static uint8_t incoming[BUFFER];
static size_t incoming_start, incoming_end;
static const uint8_t *at; /* what is read next of the message that is played */

/* The call that is played; `writable` counts those slices of it, from 1 on. */
static struct {
    unsigned call, numbers, slices, writable;
    const char *names;
    uint64_t number[NUMBERS];
    struct { enum slot slot; const uint8_t *place; size_t count; } slice[8];
} now = { .call = CALLS, .names = "" };
static uint64_t execution, executions, calls[CALLS]; /* the number of the one that is played; how many were */
static unsigned plant = NONE;
static uint8_t input[LONGEST_INPUT];
static size_t input_len;

/* ---- Differences. ---- */

static void print_hex(const char *name, const uint8_t *bytes, size_t count)
{
    size_t i;

    fprintf(stderr, "  %s, %zu bytes: ", name, count);
    for (i = 0; i < count && i < HEX_MAX; i++)
        fprintf(stderr, "%02x", bytes[i]);
    fprintf(stderr, "%s\n", i < count ? "..." : "");
}

static void keep_input(void)
{
    const char *path = getenv("PLAYED_KEEPS");
    FILE *file = path ? fopen(path, "wb") : NULL;

    if (!file)
        return;
    if (fwrite(input, 1, input_len, file) == input_len)
        fprintf(stderr, "  the input is kept in %s\n", path);
    fclose(file);
}

/* What went in is printed here; the caller has printed what came back. */
static void differs(const char *words)
{
    unsigned i;

    fprintf(stderr, "DIFFERENCE: %s, call %" PRIu64 " of it, execution %" PRIu64 ": %s\n ", call_names[now.call],
        now.call < CALLS ? calls[now.call] : 0, execution, words);
    fprintf(stderr, "%s:", now.names);
    for (i = 0; i < now.numbers; i++)
        fprintf(stderr, " %#" PRIx64, now.number[i]);
    fprintf(stderr, "\n");
    for (i = 0; i < now.slices; i++)
        print_hex(slot_names[now.slice[i].slot], now.slice[i].place, now.slice[i].count);
    keep_input();
    fflush(NULL);
    _exit(1);
}

/* The emulator calls a handler with a stack that is not aligned as x86-64's calling convention has it. */
#ifdef __x86_64__
__attribute__((force_align_arg_pointer))
#endif
static void touched(int number)
{
    (void)number;
    differs("a byte was touched that is not lent, or not lent for writing");
}

/* ---- The stream. ---- */

static void stop(const char *words)
{
    fprintf(stderr, "played: %s, after %" PRIu64 " executions\n", words, executions);
    exit(1);
}

static void have(size_t count)
{
    if (incoming_end - incoming_start >= count)
        return;
    memmove(incoming, incoming + incoming_start, incoming_end - incoming_start);
    incoming_end -= incoming_start;
    incoming_start = 0;
    if (count > BUFFER)
        stop("a message is too long");
    while (incoming_end < count) {
        ssize_t came = read(0, incoming + incoming_end, BUFFER - incoming_end);

        if (came <= 0)
            stop("the stream ended early");
        incoming_end += (size_t)came;
    }
}

static void take(void *bytes, size_t count)
{
    memcpy(bytes, at, count);
    at += count;
}

static uint64_t take_number(void)
{
    uint64_t number;

    take(&number, 8);
    now.number[now.numbers++] = number;
    return number;
}

static void put_run(uint8_t *place, uint32_t length)
{
    if (length & FILLED)
        memset(place, *at, length & ~FILLED);
    else
        memcpy(place, at, length);
}

/* The runs of changes to one place, or to two that stay alike. */
static void take_changes(uint8_t *place, uint8_t *other)
{
    uint32_t head[2];

    for (take(head, 8); head[1]; take(head, 8)) {
        put_run(place + head[0], head[1]);
        if (other)
            put_run(other + head[0], head[1]);
        at += head[1] & FILLED ? 1 : head[1];
    }
}

/* ---- Slices. ---- */

static void plant_touch(enum slot slot, uint8_t *slice, size_t count, int side)
{
    if (plant == 2000 + now.call && slot < WRITABLE && count)
        slice[0] = 1;
    if (plant == 2100 + now.call)
        (void)*(volatile uint8_t *)(side ? slice - 1 : slice + count);
}

static uint8_t *taken_slice(enum slot slot, size_t count)
{
    int side = side_of(execution);
    uint8_t *lent = place_of(places[slot][side].lent, side, count);
    uint8_t *filled = place_of(places[slot][side].filled, side, count);
    uint8_t *due = slot < WRITABLE ? NULL : place_of(places[slot][side].due, side, count);

    if (places[slot][side].length != count) {
        put_guard(filled, side, count);
        if (due)
            put_guard(due, side, count);
        places[slot][side].length = count;
    }
    take_changes(filled, due);
    now.slice[now.slices].slot = slot;
    now.slice[now.slices].place = lent;
    now.slice[now.slices++].count = count;
    if (plant != NONE)
        plant_touch(slot, lent, count, side);
    return lent;
}

static void plant_in_slice(uint8_t *slice, size_t count, int side)
{
    unsigned where = plant / 100;

    if (plant % 100 != now.call || where % 10 != now.writable || (where < 10 && count == 0))
        return;
    if (where < 10)
        slice[count - 1] ^= 1;
    else
        slice[side ? (ptrdiff_t)count : -1] ^= 1;
}

static uint64_t difference(const uint8_t *a, const uint8_t *b)
{
    uint64_t x, y;

    memcpy(&x, a, 8);
    memcpy(&y, b, 8);
    return x ^ y;
}

/* In words of 8 bytes: an emulator is slow at the wide ones of the C library's memcmp. */
static int same_bytes(const uint8_t *a, const uint8_t *b, size_t count)
{
    for (; count >= 32; a += 32, b += 32, count -= 32)
        if (difference(a, b) | difference(a + 8, b + 8) | difference(a + 16, b + 16) | difference(a + 24, b + 24))
            return 0;
    return memcmp(a, b, count) == 0;
}

/* The slice and its guard bytes are what they are due to be. */
static void check_slice(enum slot slot, size_t count)
{
    int side = side_of(execution);
    uint8_t *lent = place_of(places[slot][side].lent, side, count);
    uint8_t *due = place_of(places[slot][side].due, side, count);
    size_t before = side ? 0 : GUARD;

    now.writable++;
    if (plant != NONE)
        plant_in_slice(lent, count, side);
    take_changes(due, NULL);
    if (!same_bytes(lent - before, due - before, count + GUARD)) {
        print_hex("the archive's, with the guard bytes", lent - before, count + GUARD);
        print_hex("this machine's", due - before, count + GUARD);
        differs(slot_names[slot]);
    }
}

static void check_made(uint8_t *made, size_t count)
{
    if (plant == now.call)
        made[count - 1] ^= 1;
    if (memcmp(made, at, count)) {
        print_hex("the archive's answer", made, count);
        print_hex("this machine's", at, count);
        differs("the answer");
    }
    at += count;
}

/* ---- The calls. ---- */

#define NAME_OF_SLICE(type, slot, name) " " #name "_len"
#define NAME_OF_NUMBER(name) " " #name
#define TAKE_LENGTH(type, slot, name) size_t name##_len = take_number();
#define TAKE_N(name) uint64_t name = take_number();
#define TAKE_U(name) uint32_t name = (uint32_t)take_number();
#define TAKE_SLICE(type, slot, name) type *name = (type *)(void *)taken_slice(slot, sizeof(type) * name##_len);
#define CHECK_SLICE(type, slot, name) check_slice(slot, sizeof(type) * name##_len);

#define PLAYED(call, type, told) \
    static void play_##call(void) \
    { \
        type made; \
        now.names = LENT_##call(NAME_OF_SLICE, NAME_OF_SLICE, NAME_OF_NUMBER, NAME_OF_NUMBER); \
        LENT_##call(TAKE_LENGTH, TAKE_LENGTH, TAKE_N, TAKE_U) \
        LENT_##call(TAKE_SLICE, TAKE_SLICE, NO_NUMBER, NO_NUMBER) \
        made = ollskuvan_##call(ARGUMENTS(call)); \
        check_made((uint8_t *)&made, told); \
        LENT_##call(NO_SLICE, CHECK_SLICE, NO_NUMBER, NO_NUMBER) \
    }
EXPORTS(PLAYED)

#ifndef OF_READER
/* ---- The program ringdump: it asks for the same bytes, is given the same, and prints the same. ---- */

static void is_next(const char *words, const void *due, size_t count)
{
    if (memcmp(at, due, count)) {
        print_hex("the archive's side", due, count);
        print_hex("this machine's", at, count);
        differs(words);
    }
    at += count;
}

ssize_t ringdump_read(int file, void *bytes, size_t count)
{
    uint64_t asked[3] = { FROM, (uint64_t)file, count }, came;

    is_next("what ringdump asks for", asked, sizeof asked);
    take(&came, 8);
    take(bytes, came);
    return (ssize_t)came;
}

ssize_t ringdump_write(int file, const void *bytes, size_t count)
{
    uint64_t given[3] = { ONTO, (uint64_t)file, count }, went;

    if (plant == now.call)
        given[2]++;
    is_next("how much ringdump prints", given, sizeof given);
    is_next("what ringdump prints", bytes, count);
    take(&went, 8);
    return (ssize_t)went;
}

static void play_program(void)
{
    uint64_t end[2] = { BACK, 0 };

    end[1] = (uint64_t)ringdump_main();
    is_next("how ringdump ends", end, sizeof end);
}
#else
static void play_program(void) { stop("ringdump is not played here"); }
#endif

/* ---- The stream, played. ---- */

#define ENTRY(call, type, told) play_##call,
static void (*const plays[CALLS])(void) = { EXPORTS(ENTRY) play_program };

static void play(uint32_t number, const uint8_t *end)
{
    now.call = number;
    now.names = "";
    now.numbers = now.slices = now.writable = 0;
    calls[number]++;
    plays[number]();
    if (at != end)
        stop("a message is not as long as it says");
}

static void begin_execution(size_t count)
{
    executions++;
    take(&execution, 8);
    count -= 8;
    input_len = count < LONGEST_INPUT ? count : LONGEST_INPUT;
    memcpy(input, at, input_len);
}

static void play_stream(void)
{
    uint32_t head[2];

    for (;;) {
        have(8);
        memcpy(head, incoming + incoming_start, 8);
        have(head[0]);
        at = incoming + incoming_start + 8;
        incoming_start += head[0];
        if (head[1] == ENDED)
            return;
        if (head[1] == EXECUTION)
            begin_execution(head[0] - 8);
        else if (head[1] < CALLS)
            play(head[1], incoming + incoming_start);
        else
            stop("a message has no number");
    }
}

/* ---- The places. ---- */

static uint8_t *map(void *where, size_t count, int allowed, int flags, int file)
{
    void *place = mmap(where, count, allowed, flags, file, 0);

    if (place == MAP_FAILED) {
        perror("mmap");
        exit(1);
    }
    return place;
}

static void make_place(enum slot slot, int side)
{
    enum { PAGE = 4096, BOTH = PROT_READ | PROT_WRITE };
    int memory = memfd_create("place", 0);
    uint8_t *lent = map(NULL, AREA + 2 * PAGE, PROT_NONE, MAP_PRIVATE | MAP_ANONYMOUS, -1) + PAGE;

    if (memory < 0 || ftruncate(memory, AREA) != 0)
        stop("no memory for the slices");
    map(lent, AREA, slot < WRITABLE ? PROT_READ : BOTH, MAP_SHARED | MAP_FIXED, memory);
    places[slot][side].lent = lent;
    places[slot][side].filled = slot < WRITABLE ? map(NULL, AREA, BOTH, MAP_SHARED, memory) : lent;
    places[slot][side].due = slot < WRITABLE ? NULL : map(NULL, AREA, BOTH, MAP_PRIVATE | MAP_ANONYMOUS, -1);
    places[slot][side].length = SIZE_MAX;
    close(memory);
}

static void print_calls(void)
{
    uint64_t all = 0;
    int call;

    for (call = 0; call < CALLS; call++) {
        printf("carried: %s %" PRIu64 "\n", call_names[call], calls[call]);
        all += calls[call];
    }
    printf("carried: %" PRIu64 " executions, %" PRIu64 " calls, no difference\n", executions, all);
}

int main(void)
{
    struct sigaction action = { .sa_handler = touched };
    int slot;

    sigaction(SIGSEGV, &action, NULL);
    sigaction(SIGBUS, &action, NULL);
    sigaction(SIGILL, &action, NULL);
    if (getenv("PLANT"))
        plant = (unsigned)atoi(getenv("PLANT"));
    for (slot = 0; slot < SLOTS; slot++) {
        make_place((enum slot)slot, 0);
        make_place((enum slot)slot, 1);
    }
    play_stream();
    print_calls();
    return 0;
}
