/*
 * How much stack the calls use, on a stack of their own that was painted before:
 * every record of the given images is drained, checked, read (by its bytes and by
 * its tail), written back and its name copied; drained, checked, read and looked up
 * with the image's table of events, or with a full one where it has none; offered and
 * drained with it in a replay. A store of a full table is written and read, the
 * identifiers rising and not; and walked as those of a backward ring; the ring's bytes
 * as they lie are salvaged with it, and the ring is compared with itself and with
 * copies of it that differ in a byte. Prints the greatest use of each call; more than
 * ollskuvan.h says is a failure.
 */
#define _XOPEN_SOURCE 700
#include <inttypes.h>
#include <stdio.h>
#include <stdlib.h>
#include <string.h>
#include <ucontext.h>

#include "bytes.h"
#include "flight.h"
#include "image.h"

enum { STACK = 1 << 18, MOST = 2560, MOST_OF_STORE = 16640, MOST_WITH_TABLE = 11264, MOST_OF_DRAIN = 90112 };
enum { NOTHING, DRAIN, CHECK, COPY_NAME, READ, READ_ONE, WRITE, DRAIN_EVENTS, FIND_EVENT, READ_ONE_EVENTS,
    WRITE_STORE, READ_STORE, REPLAY, WALK_BACK,
    WALK_BACK_EVENTS, SALVAGE, COMPARE, CHECK_EVENTS, READ_EVENTS, CALLS };

static const char *const names[CALLS] = { "nothing", "drain", "check", "copy_name", "read", "read_one", "write",
    "drain_events", "find_event", "read_one_events", "write_store", "read_store", "replay", "walk_back", "walk_back_events", "salvage", "compare",
    "check_events", "read_events" };
static uint8_t stack[STACK] __attribute__((aligned(64)));
static size_t used[CALLS];
static ucontext_t here, there;

/* What the call is given. */
static const struct image *image;
static int call;
static uint8_t record[OLLSKUVAN_RECORD_MAX], written[OLLSKUVAN_RECORD_MAX], scratch[OLLSKUVAN_RECORD_MAX];
static uint8_t journal[OLLSKUVAN_RING_MAX], kept[OLLSKUVAN_RING_MAX], other[OLLSKUVAN_RING_MAX];
static uint8_t trace[OLLSKUVAN_RECORD_MAX + 32], rooms[2 * 131072];
static size_t size, trace_length;
static uint64_t tail, newest; /* newest: where the walk begins */
static uint64_t fields[OLLSKUVAN_FIELDS];
static volatile uint32_t answer;

static struct ollskuvan_event events[OLLSKUVAN_EVENTS_MAX], rows[OLLSKUVAN_EVENTS_MAX];
static size_t event_count;
static uint8_t store[OLLSKUVAN_STORE_BYTES(OLLSKUVAN_EVENTS_MAX)];

#define ATTRIBUTES \
    image->sample_type, image->read_format, image->sample_id_all, image->user_mask, image->interrupt_mask, \
        image->branch_sample_type, image->edition

static void do_nothing(void)
{
}
static void (*volatile nothing)(void) = do_nothing;

/* The frame of this function is in every measurement, and taken off by NOTHING's. */
static void make_the_call(void)
{
    switch (call) {
    case DRAIN:
        answer = ollskuvan_drain(image->ring, image->length, image->head, image->tail, ATTRIBUTES, UINT64_MAX, scratch,
            sizeof scratch, journal, sizeof journal).stop;
        break;
    case CHECK:
        answer = ollskuvan_check(record, size, ATTRIBUTES);
        break;
    case COPY_NAME:
        answer = ollskuvan_copy_name(record, size, 8, size - 8, written, sizeof written);
        break;
    case READ:
        answer = ollskuvan_read(record, size, ATTRIBUTES, fields, OLLSKUVAN_FIELDS);
        break;
    case READ_ONE:
        answer = ollskuvan_read_one(image->ring, image->length, image->head, tail, ATTRIBUTES, scratch, sizeof scratch,
            fields, OLLSKUVAN_FIELDS).answer;
        break;
    case WRITE:
        answer = ollskuvan_write(fields, OLLSKUVAN_FIELDS, record, size, ATTRIBUTES, written, sizeof written);
        break;
    case DRAIN_EVENTS:
        answer = ollskuvan_drain_events(image->ring, image->length, image->head, image->tail, events, event_count,
            image->edition, UINT64_MAX, scratch, sizeof scratch, written, sizeof written).stop;
        break;
    case FIND_EVENT:
        answer = (uint32_t)ollskuvan_find_event(events, event_count, 0);
        break;
    case READ_ONE_EVENTS:
        answer = ollskuvan_read_one_events(image->ring, image->length, image->head, tail, events, event_count,
            image->edition, scratch, sizeof scratch, fields, OLLSKUVAN_FIELDS).answer;
        break;
    case WRITE_STORE:
        answer = ollskuvan_write_store(events, event_count, 4096, OLLSKUVAN_EDITION_4, 32, store, sizeof store).answer;
        break;
    case READ_STORE:
        answer = ollskuvan_read_store(store, OLLSKUVAN_STORE_BYTES(event_count), rows, OLLSKUVAN_EVENTS_MAX).answer;
        break;
    case REPLAY:
        answer = ollskuvan_replay(trace, trace_length, 131064, events, event_count, image->edition, rooms, sizeof rooms, written,
            sizeof written).answer;
        break;
    case WALK_BACK:
        answer = ollskuvan_walk_back(image->ring, image->length, newest, ATTRIBUTES, UINT64_MAX, scratch, sizeof scratch, written,
            sizeof written).stop;
        break;
    case WALK_BACK_EVENTS:
        answer = ollskuvan_walk_back_events(image->ring, image->length, newest, events, event_count, image->edition, UINT64_MAX,
            scratch, sizeof scratch, written, sizeof written).stop;
        break;
    case SALVAGE:
        answer = ollskuvan_salvage(image->ring, image->length, events, event_count, image->edition, kept, sizeof kept,
            journal, sizeof journal).answer;
        break;
    case COMPARE:
        answer = ollskuvan_compare(image->ring, image->length, image->head, image->tail, scratch, sizeof scratch, other,
            image->length, image->head, image->tail, written, sizeof written, events, event_count, image->edition).what;
        break;
    case CHECK_EVENTS:
        answer = ollskuvan_check_events(record, size, events, event_count, image->edition).answer;
        break;
    case READ_EVENTS:
        answer = ollskuvan_read_events(record, size, events, event_count, image->edition, fields, OLLSKUVAN_FIELDS).answer;
        break;
    default:
        nothing();
    }
}

/* The image's table; else as many events as there may be, with its attributes, and one of them its records'. */
static void choose_events(void)
{
    event_count = image->table.count;
    memcpy(events, image->table.events, sizeof events);
    for (size_t i = 0; image->table.count == 0 && i < OLLSKUVAN_EVENTS_MAX; i++) {
        events[i] = (struct ollskuvan_event){ i + 1000, image->sample_type | OLLSKUVAN_BIT_IDENTIFIER, image->read_format,
            image->user_mask, image->interrupt_mask, image->branch_sample_type, 1 };
        event_count = i + 1;
    }
    const uint8_t *shown;
    struct ollskuvan_one one = image_read_one(image, image->tail, fields, &shown);
    if (image->table.count == 0 && one.size >= 16)
        events[event_count - 1].identifier = little(little(shown, 4) == 9 ? shown + 8 : shown + one.size - 8, 8);
}

/* The stack that the call used, as one paint shows it. */
static size_t use_of(int paint)
{
    size_t untouched = 0;
    memset(stack, paint, sizeof stack);
    getcontext(&there);
    there.uc_stack.ss_sp = stack;
    there.uc_stack.ss_size = sizeof stack;
    there.uc_link = &here;
    makecontext(&there, make_the_call, 0);
    swapcontext(&here, &there);
    while (untouched < STACK && stack[untouched] == paint)
        untouched++;
    return STACK - untouched;
}

/* With two paints: the lowest byte that a call leaves, of its return address, may be as one of them. */
static void measure(int which)
{
    call = which;
    size_t one = use_of(0xa5), other = use_of(0x5a), more = one > other ? one : other;
    if (more > used[which])
        used[which] = more;
}

/* The last event first, and back. */
static void turn_round(void)
{
    struct ollskuvan_event first = events[0];
    events[0] = events[event_count - 1];
    events[event_count - 1] = first;
}

/* A store of as many events as there may be, whose identifiers rise or do not; 0: it was written and read. */
static int measure_store(void)
{
    measure(WRITE_STORE);
    uint32_t written = answer;
    measure(READ_STORE);
    if (written == OLLSKUVAN_OK && answer == OLLSKUVAN_OK)
        return 0;
    printf("stack: a store is answered with %u, then %u\n", written, answer);
    return 1;
}

static int measure_stores(void)
{
    event_count = OLLSKUVAN_EVENTS_MAX;
    for (size_t i = 0; i < event_count; i++)
        events[i] = (struct ollskuvan_event){ .identifier = i, .sample_type = OLLSKUVAN_BIT_IDENTIFIER, .sample_id_all = 1 };
    int wrong = measure_store();
    turn_round();
    return measure_store() | wrong;
}

/* The record offered, across the ring's end, and drained. */
static void make_trace(void)
{
    put_little(trace, 4, 6 + size);
    put_little(trace + 4, 2, OLLSKUVAN_KIND_OFFER);
    memcpy(trace + 6, record, size);
    put_little(trace + 6 + size, 4, 10);
    put_little(trace + 10 + size, 2, OLLSKUVAN_KIND_DRAIN);
    put_little(trace + 12 + size, 4, 1);
    trace_length = 16 + size;
}

/* The ring beside itself, and beside copies in which one byte is another. */
static void compare_changed(void)
{
    memcpy(other, image->ring, image->length);
    measure(COMPARE);
    for (size_t i = 0; i < 40; i++) {
        uint8_t *at = other + (image->tail + i * 37) % image->length;
        *at ^= 1;
        measure(COMPARE);
        *at ^= 1;
    }
}

static void measure_image(const struct image *of)
{
    image = of;
    choose_events();
    measure(NOTHING);
    newest = ring_is_backward(image->head, image->tail) ? image->head : image->tail;
    measure(WALK_BACK_EVENTS);
    measure(WALK_BACK);
    measure(DRAIN_EVENTS);
    measure(FIND_EVENT);
    turn_round();
    measure(DRAIN_EVENTS);
    turn_round();
    measure(SALVAGE);
    compare_changed();
    memset(journal, 0, sizeof journal);
    measure(DRAIN);
    uint64_t taken = 0;
    while (little(journal + taken * 16, 4) == 16 && taken < sizeof journal / 16) {
        const uint8_t *shown;
        tail = little(journal + taken * 16 + OLLSKUVAN_JOURNAL_TAIL, 8);
        size = (size_t)image_read_one(image, tail, fields, &shown).size;
        memcpy(record, shown, size);
        make_trace();
        measure(REPLAY);
        measure(READ_ONE_EVENTS);
        measure(CHECK_EVENTS);
        measure(READ_EVENTS);
        measure(READ_ONE);
        measure(CHECK);
        measure(COPY_NAME);
        measure(READ);
        if (answer == OLLSKUVAN_OK)
            measure(WRITE);
        taken++;
    }
    memset(journal, 0, sizeof journal);
}

/* What ollskuvan.h says of a call. */
static size_t most_of(int which)
{
    switch (which) {
    case READ_STORE:
        return MOST_OF_STORE;
    case DRAIN_EVENTS:
    case WALK_BACK_EVENTS:
        return MOST_OF_DRAIN;
    case READ_ONE_EVENTS:
    case WRITE_STORE:
    case REPLAY:
    case SALVAGE:
    case COMPARE:
    case CHECK_EVENTS:
    case READ_EVENTS:
        return MOST_WITH_TABLE;
    default:
        return MOST;
    }
}

int main(int argc, char **argv)
{
    int status = measure_stores();
    for (int i = 1; i < argc; i++) {
        struct image one;
        if (!image_read(&one, argv[i]))
            return 1;
        measure_image(&one);
        image_free(&one);
    }
    printf("stack:");
    for (int i = DRAIN; i < CALLS; i++) {
        size_t bytes = used[i] - used[NOTHING] + sizeof(void *); /* NOTHING's return address is the call's */
        printf(" %s %zu", names[i], bytes);
        if (used[i] < used[NOTHING] || bytes > most_of(i))
            status = 1;
    }
    printf("%s\n", status == 0 ? "" : ": WRONG");
    return status;
}
