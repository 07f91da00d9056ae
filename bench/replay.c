/*
 * Replay: careful C and ollskuvan_replay on the same traces, sound and faulty, and what it costs to play one.
 */
#define _GNU_SOURCE
#include "bench.h"

#include <stdlib.h>
#include <string.h>

enum { TRACE_MAX = 4 * MIB, JOURNAL_MAX = 16 * (MIB / 8), ROOMS_MAX = 4 * MIB };

struct trace {
    uint8_t *bytes; /* room for TRACE_MAX */
    size_t length;
    uint64_t records, start;
    struct ollskuvan_event *events;
    size_t event_count;
    uint32_t edition;
    size_t rooms_len, journal_len;
};

/* The ring and the scratch are the first of the rooms, the journal is the second. */
static struct ollskuvan_replayed run_replay(replay_function *replay, const struct trace *t, const struct rooms *rooms)
{
    return replay(t->bytes, t->length, t->start, t->events, t->event_count, t->edition, rooms->first, t->rooms_len,
        rooms->second, t->journal_len);
}

/* ---- traces ---- */

static void put_entry(struct trace *t, unsigned kind, const void *body, size_t bytes)
{
    uint8_t *at = t->bytes + t->length;
    memcpy(at, &(uint32_t){ (uint32_t)(6 + bytes) }, 4);
    memcpy(at + 4, &(uint16_t){ (uint16_t)kind }, 2);
    memcpy(at + 6, body, bytes);
    t->length += 6 + bytes;
}

static void put_drain(struct trace *t, uint32_t budget)
{
    put_entry(t, OLLSKUVAN_KIND_DRAIN, &budget, 4);
}

/* The records of a ring one after the other, a drain of `budget` behind every `every` of them. */
static void make_trace(struct trace *t, const struct made_ring *ring, unsigned every, uint32_t budget)
{
    uint8_t record[MADE_RECORD_MAX];
    t->length = 0;
    t->records = 0;
    for (uint64_t at = ring->tail; at != ring->head;) {
        const uint64_t place = at % ring->length;
        size_t size = ring->bytes[(place + 6) % ring->length] | (size_t)ring->bytes[(place + 7) % ring->length] << 8;
        if (size < 8 || size % 8 != 0 || size > ring->head - at || t->length + size + 64 > TRACE_MAX)
            break;
        for (size_t i = 0; i < size; i++)
            record[i] = ring->bytes[(place + i) % ring->length];
        put_entry(t, OLLSKUVAN_KIND_OFFER, record, size);
        at += size;
        if (++t->records % every == 0)
            put_drain(t, budget);
    }
    put_drain(t, UINT32_MAX);
    t->start = ring->tail;
    t->events = ring->events;
    t->event_count = ring->event_count;
    t->edition = ring->edition;
}

/* The trace that is measured: a live board's records of eleven events, 1 MiB of them, in a ring of 64 KiB that is drained in
 * small budgets. */
enum { EVERY = 32, RING = 65536 };
static void fill_trace(struct trace *t, struct made_ring *ring)
{
    made_table_fill(&made_mixes[1], MIB, ring);
    make_trace(t, ring, EVERY, EVERY);
    t->start = 0;
    t->rooms_len = 2 * RING;
    t->journal_len = JOURNAL_MAX;
}

/* A trace of a made ring with its table, over a ring of any length, at times with an entry that is at fault. */
static void some_trace(struct made_random *r, struct trace *t, struct made_ring *ring)
{
    static const size_t rooms[] = { 128, 128, 256, 512, 2048, 8192, 131072, 2 * MIB, 0, 100, 127, 129, 192, 4 * MIB };
    do
        made_table_case(r, ring);
    while (ring->length < 64 || ring->length > MIB || ring->head - ring->tail > ring->length);
    make_trace(t, ring, 1 + (unsigned)made_below(r, 8), (uint32_t)made_below(r, 12));
    t->rooms_len = rooms[made_below(r, made_below(r, 8) != 0 ? 7 : 14)];
    t->journal_len = made_below(r, 4) != 0 ? 16 * (size_t)t->records : (size_t)made_below(r, 200);
    if (made_below(r, 30) == 0)
        t->start += made_below(r, 8);
    switch (made_below(r, 8)) {
    case 0: /* cut */
        t->length = (size_t)made_below(r, t->length + 1);
        break;
    case 1: /* a byte is another */
        t->bytes[made_below(r, t->length)] ^= (uint8_t)(1 + made_below(r, 255));
        break;
    case 2: { /* one of another kind at its end */
        static const uint8_t zeros[64];
        static const size_t bodies[] = { 0, 2, 4, 5, 8, 13, 49, 50 };
        put_entry(t, (unsigned)made_below(r, 20), zeros, bodies[made_below(r, 8)]);
        break;
    }
    default:
        break;
    }
}

/* ---- the comparison ---- */

struct desk {
    struct trace trace;
    struct made_ring ring;
    struct sides sides;
};

static void open_desk(struct desk *d)
{
    *d = (struct desk){ .ring = { .bytes = grab(MADE_RING_MAX), .events = grab(MADE_EVENTS_MAX * sizeof *d->ring.events) } };
    d->trace.bytes = grab(TRACE_MAX + MADE_RECORD_MAX);
    open_sides(&d->sides, ROOMS_MAX, JOURNAL_MAX);
}

static void close_desk(struct desk *d)
{
    free(d->ring.bytes);
    free(d->ring.events);
    free(d->trace.bytes);
    close_sides(&d->sides);
}

static void show(const char *who, const struct ollskuvan_replayed *r)
{
    printf("  %s: entries %llu offered %llu drained %llu dropped %llu held %llu taken %llu drops %llu head %llu tail %llu answer %u\n",
        who, (unsigned long long)r->entries, (unsigned long long)r->offered_bytes, (unsigned long long)r->drained_bytes,
        (unsigned long long)r->dropped_bytes, (unsigned long long)r->held_bytes, (unsigned long long)r->taken,
        (unsigned long long)r->dropped, (unsigned long long)r->head, (unsigned long long)r->tail, r->answer);
}

static bool same(struct desk *d, uint64_t number, struct ollskuvan_replayed *told)
{
    d->sides.first_len = d->trace.rooms_len;
    d->sides.second_len = d->trace.journal_len;
    spoil_sides(&d->sides);
    struct ollskuvan_replayed l = run_replay(careful_replay, &d->trace, &d->sides.left);
    struct ollskuvan_replayed r = run_replay(ollskuvan_replay, &d->trace, &d->sides.right);
    *told = r;
    if (l.entries == r.entries && l.offered_bytes == r.offered_bytes && l.drained_bytes == r.drained_bytes &&
        l.dropped_bytes == r.dropped_bytes && l.held_bytes == r.held_bytes && l.taken == r.taken && l.dropped == r.dropped &&
        l.head == r.head && l.tail == r.tail && l.answer == r.answer && same_sides(&d->sides))
        return true;
    printf("DIFFERENCE in replay, case %llu: trace %zu, edition %u, events %zu, rooms %zu, journal %zu, start %llu\n",
        (unsigned long long)number, d->trace.length, d->trace.edition, d->trace.event_count, d->trace.rooms_len,
        d->trace.journal_len, (unsigned long long)d->trace.start);
    show("careful", &l);
    show("ours", &r);
    return false;
}

int compare_replay(uint64_t traces, uint64_t seed)
{
    static const uint8_t due[] = { 0, 1, 2, 5, 11, 51, 52, 53 };
    struct made_random r = { seed };
    struct desk d;
    struct ollskuvan_replayed told;
    uint64_t answers[54] = { 0 }, taken = 0, dropped = 0, held = 0;
    unsigned differences = 0;
    open_desk(&d);
    fill_trace(&d.trace, &d.ring);
    differences += !same(&d, 0, &told);
    for (uint64_t i = 0; i < traces && differences < 5; i++) {
        some_trace(&r, &d.trace, &d.ring);
        differences += !same(&d, i, &told);
        answers[told.answer < 54 ? told.answer : 0]++;
        taken += told.taken;
        dropped += told.dropped;
        held += told.held_bytes;
    }
    printf("compared careful C and ollskuvan_replay: %llu traces, %llu records taken, %llu dropped, seed %llu: %s\n",
        (unsigned long long)traces, (unsigned long long)taken, (unsigned long long)dropped, (unsigned long long)seed,
        differences == 0 ? "no difference" : "DIFFERENT");
    printf("answers met:");
    bool enough = taken != 0 && dropped != 0 && held != 0;
    for (unsigned i = 0; i < sizeof due; i++) {
        printf(" %u (%llu)", due[i], (unsigned long long)answers[due[i]]);
        enough = enough && answers[due[i]] != 0;
    }
    printf("\n");
    close_desk(&d);
    return differences == 0 && (enough || traces < 2000) ? 0 : 1;
}

/* ---- cost ---- */

/* So many plays of the trace, for callgrind. */
int run_replays(const char *whose, uint64_t calls)
{
    replay_function *replay = strcmp(whose, "careful") == 0 ? careful_replay : ollskuvan_replay;
    struct desk d;
    struct ollskuvan_replayed told = { 0 };
    open_desk(&d);
    fill_trace(&d.trace, &d.ring);
    for (uint64_t i = 0; i < calls; i++)
        told = run_replay(replay, &d.trace, &d.sides.left);
    printf("records %llu entries %llu bytes %zu dropped %llu answer %u\n", (unsigned long long)told.taken,
        (unsigned long long)told.entries, d.trace.length, (unsigned long long)told.dropped, told.answer);
    close_desk(&d);
    return 0;
}

static void play(void *on, bool ours)
{
    struct desk *d = on;
    if (ours)
        run_replay(ollskuvan_replay, &d->trace, &d->sides.right);
    else
        run_replay(careful_replay, &d->trace, &d->sides.left);
}

int time_replay(size_t rounds)
{
    struct desk d;
    open_desk(&d);
    fill_trace(&d.trace, &d.ring);
    const struct ollskuvan_replayed told = run_replay(ollskuvan_replay, &d.trace, &d.sides.right);
    const struct two_times ns = time_both(play, &d, rounds);
    double records = (double)told.taken, c = ns.careful / records, o = ns.ours / records;
    printf("\nreplay of a trace of %llu records and %llu drains over a ring of %d bytes, %zu rounds: ns a record\n",
        (unsigned long long)told.taken, (unsigned long long)(told.entries - d.trace.records), RING, rounds);
    printf("  careful %.2f, ours %.2f, ratio %.3f\n", c, o, o / c);
    close_desk(&d);
    return 0;
}
