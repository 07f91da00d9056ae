/*
 * Salvage: careful C and ollskuvan_salvage on the same streams, sound and damaged, and what it costs; the worst case
 * among them: a stream of headers that each claim 65,528 bytes, all of them tried.
 */
#define _GNU_SOURCE
#include "bench.h"

#include <stdlib.h>
#include <string.h>

enum { LIST_MAX = OLLSKUVAN_CHANGE_ENTRY * (MIB / 24 + 1) };

struct stream {
    uint8_t *bytes; /* room for MADE_RING_MAX */
    size_t length;
    struct ollskuvan_event *events;
    size_t event_count;
    uint32_t edition;
};

/* The output is the first of the rooms, the list of changes the second. */
static struct ollskuvan_salvaged run_salvage(salvage_function *salvage, const struct stream *s, const struct sides *sides,
    const struct rooms *rooms)
{
    return salvage(s->bytes, s->length, s->events, s->event_count, s->edition, rooms->first, sides->first_len, rooms->second,
        sides->second_len);
}

/* ---- streams ---- */

/* The records of a ring in a row; of a ring that no drain takes, its bytes as they lie. */
static void straighten(const struct made_ring *ring, struct stream *s)
{
    uint64_t distance = ring->head - ring->tail;
    s->length = distance <= ring->length ? (size_t)distance : ring->length;
    s->length = s->length < MIB ? s->length : MIB;
    for (size_t i = 0; i < s->length; i++)
        s->bytes[i] = ring->bytes[(ring->tail + i) % ring->length];
    s->events = ring->events;
    s->event_count = ring->event_count;
    s->edition = ring->edition;
}

/* Bytes that are gone, written over or too many: a hole in the file, most often of a multiple of 8. */
static void tear(struct made_random *r, struct stream *s)
{
    size_t at = (size_t)made_below(r, s->length), step = made_below(r, 4) != 0 ? 8 : 1;
    size_t bytes = step * (size_t)(1 + made_below(r, 8));
    at -= at % step;
    if (bytes > s->length - at)
        bytes = s->length - at;
    switch (made_below(r, 3)) {
    case 0:
        memset(s->bytes + at, (int)made_below(r, 256), bytes);
        break;
    case 1:
        memmove(s->bytes + at, s->bytes + at + bytes, s->length - at - bytes);
        s->length -= bytes;
        break;
    default: /* a header that takes in what follows */
        memcpy(s->bytes + at, &(uint64_t){ made_below(r, 23) | (made_below(r, 2) != 0 ? 65528 : 8 * made_below(r, 99)) << 48 },
            s->length - at < 8 ? s->length - at : 8);
        break;
    }
}

/* The streams that are measured, of 1 MiB or nearly so. */
enum { SOUND, TORN, STRANGERS, HEADERS, STREAMS };
static const char *const stream_names[STREAMS] = { "sound", "torn", "headers of nobody", "headers" };

/* Each word is a header that claims 65,528 bytes, and each is looked at in both passes. Of nobody: its identifier, which
 * is such a header too, is in no table, and that is found out at once. Else it is the last event's of a table of 32, a
 * SAMPLE of all the words and registers that there are: it is refused at its last field, the aux size. */
static void fill_headers(struct stream *s, bool known)
{
    const uint64_t header = 9 | UINT64_C(65528) << 48;
    s->length = MIB;
    for (size_t at = 0; at < s->length; at += 8)
        memcpy(s->bytes + at, &header, 8);
    s->edition = 4;
    s->event_count = 32;
    for (size_t i = 0; i < s->event_count; i++)
        s->events[i] = (struct ollskuvan_event){ .identifier = i + 1, .sample_type = UINT64_C(0x1ffd3cf) & ~UINT64_C(0x1002000),
            .user_mask = UINT64_MAX, .interrupt_mask = UINT64_MAX, .sample_id_all = 1 };
    if (known)
        s->events[s->event_count - 1].identifier = header;
}

static void fill_stream(unsigned which, struct stream *s, struct made_ring *ring)
{
    struct made_random r = { 5 };
    made_table_fill(&made_mixes[1], MIB, ring);
    straighten(ring, s);
    for (unsigned i = 0; which == TORN && i < 1000; i++)
        memset(s->bytes + 8 * made_below(&r, s->length / 8), 0, 8);
    if (which >= STRANGERS)
        fill_headers(s, which == HEADERS);
}

/* ---- the comparison ---- */

struct desk {
    struct stream stream;
    struct made_ring ring;
    struct sides sides;
    uint8_t *before;
};

static struct ollskuvan_salvaged by_careful(struct desk *d)
{
    return run_salvage(careful_salvage, &d->stream, &d->sides, &d->sides.left);
}

static struct ollskuvan_salvaged by_ours(struct desk *d)
{
    return run_salvage(ollskuvan_salvage, &d->stream, &d->sides, &d->sides.right);
}

static void open_desk(struct desk *d)
{
    *d = (struct desk){ .ring = { .bytes = grab(MADE_RING_MAX), .events = grab(MADE_EVENTS_MAX * sizeof *d->ring.events) },
        .before = grab(MIB) };
    d->stream.bytes = grab(MADE_RING_MAX);
    d->stream.events = d->ring.events;
    open_sides(&d->sides, MIB, LIST_MAX);
}

static void close_desk(struct desk *d)
{
    free(d->ring.bytes);
    free(d->ring.events);
    free(d->stream.bytes);
    close_sides(&d->sides);
    free(d->before);
}

static bool same(struct desk *d, uint64_t number, struct ollskuvan_salvaged *told)
{
    spoil_sides(&d->sides);
    memcpy(d->before, d->stream.bytes, d->stream.length);
    struct ollskuvan_salvaged l = by_careful(d), r = by_ours(d);
    *told = r;
    if (l.kept == r.kept && l.dropped == r.dropped && l.changes == r.changes && l.answer == r.answer &&
        same_sides(&d->sides) && memcmp(d->before, d->stream.bytes, d->stream.length) == 0)
        return true;
    printf("DIFFERENCE in salvage, case %llu: stream %zu, edition %u, events %zu, rooms %zu and %zu\n", (unsigned long long)number,
        d->stream.length, d->stream.edition, d->stream.event_count, d->sides.first_len, d->sides.second_len);
    printf("  careful: kept %llu dropped %llu changes %llu answer %u\n", (unsigned long long)l.kept, (unsigned long long)l.dropped,
        (unsigned long long)l.changes, l.answer);
    printf("  ours:    kept %llu dropped %llu changes %llu answer %u\n", (unsigned long long)r.kept, (unsigned long long)r.dropped,
        (unsigned long long)r.changes, r.answer);
    return false;
}

/* Mostly enough, at times a byte too short. */
static size_t some_room(struct made_random *r, uint64_t due)
{
    switch (made_below(r, 6)) {
    case 0:
        return due != 0 ? (size_t)due - 1 : 0;
    case 1:
        return (size_t)made_below(r, due + 1);
    default:
        return (size_t)due + (size_t)made_below(r, 3);
    }
}

static void some_stream(struct made_random *r, struct desk *d)
{
    do
        made_table_case(r, &d->ring);
    while (d->ring.length == 0);
    straighten(&d->ring, &d->stream);
    for (uint64_t i = made_below(r, 6); i > 0 && d->stream.length > 0; i--)
        tear(r, &d->stream);
}

int compare_salvage(uint64_t streams, uint64_t seed)
{
    struct made_random r = { seed };
    struct desk d;
    struct ollskuvan_salvaged told;
    uint64_t answers[55] = { 0 }, holes = 0, kept = 0, whole = 0;
    unsigned differences = 0;
    open_desk(&d);
    for (unsigned which = 0; which < STREAMS; which++) {
        fill_stream(which, &d.stream, &d.ring);
        differences += !same(&d, which, &told);
    }
    for (uint64_t i = 0; i < streams && differences < 5; i++) {
        some_stream(&r, &d);
        d.sides.first_len = MIB;
        d.sides.second_len = LIST_MAX;
        struct ollskuvan_salvaged due = by_careful(&d);
        d.sides.first_len = some_room(&r, due.kept);
        d.sides.second_len = some_room(&r, due.changes);
        differences += !same(&d, i, &told);
        answers[told.answer < 55 ? told.answer : 0]++;
        holes += told.changes / OLLSKUVAN_CHANGE_ENTRY;
        kept += told.kept;
        whole += told.answer == 0 && told.changes == 0 && told.kept != 0;
    }
    printf("compared careful C and ollskuvan_salvage: %llu streams, %llu bytes kept, %llu holes, seed %llu: %s\n",
        (unsigned long long)streams, (unsigned long long)kept, (unsigned long long)holes, (unsigned long long)seed,
        differences == 0 ? "no difference" : "DIFFERENT");
    printf("answers met: 0 (%llu) 2 (%llu) 11 (%llu) 54 (%llu); streams without a hole: %llu\n", (unsigned long long)answers[0],
        (unsigned long long)answers[2], (unsigned long long)answers[11], (unsigned long long)answers[54], (unsigned long long)whole);
    bool enough = streams < 2000 || (answers[0] && answers[2] && answers[11] && answers[54] && holes && whole);
    close_desk(&d);
    return differences == 0 && enough ? 0 : 1;
}

/* ---- cost ---- */

int list_streams(void)
{
    for (unsigned which = 0; which < STREAMS; which++)
        printf("stream %s\n", stream_names[which]);
    return 0;
}

/* So many calls on one stream, for callgrind. */
int run_salvages(const char *whose, const char *stream, uint64_t calls)
{
    struct ollskuvan_salvaged (*salvage)(struct desk *) = strcmp(whose, "careful") == 0 ? by_careful : by_ours;
    struct desk d;
    int status = 2;
    open_desk(&d);
    for (unsigned which = 0; which < STREAMS; which++)
        if (strcmp(stream, stream_names[which]) == 0) {
            struct ollskuvan_salvaged told = { 0 };
            fill_stream(which, &d.stream, &d.ring);
            for (uint64_t i = 0; i < calls; i++)
                told = salvage(&d);
            printf("words %zu kept %llu dropped %llu holes %llu answer %u\n", d.stream.length / 8, (unsigned long long)told.kept,
                (unsigned long long)told.dropped, (unsigned long long)told.changes / OLLSKUVAN_CHANGE_ENTRY, told.answer);
            status = 0;
        }
    close_desk(&d);
    return status;
}

static void salvage_once(void *on, bool ours)
{
    if (ours)
        by_ours(on);
    else
        by_careful(on);
}

int time_salvage(size_t rounds)
{
    struct desk d;
    open_desk(&d);
    printf("\nsalvage of streams of 1 MiB, %zu rounds: ns for 8 bytes\n  %-20s %10s %10s %8s\n", rounds, "", "careful", "ours", "ratio");
    for (unsigned which = 0; which < STREAMS; which++) {
        fill_stream(which, &d.stream, &d.ring);
        const struct two_times ns = time_both(salvage_once, &d, rounds);
        double words = (double)d.stream.length / 8, c = ns.careful / words, o = ns.ours / words;
        printf("  %-20s %10.2f %10.2f %8.3f\n", stream_names[which], c, o, o / c);
    }
    close_desk(&d);
    return 0;
}
