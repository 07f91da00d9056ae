/*
 * The comparison: careful C and ollskuvan_drain on the same rings, sound and
 * damaged. All that a drain gives back is compared: its four numbers, the whole
 * journal, the whole scratch, and that the ring and the bytes around the lent
 * buffers stay as they are.
 */
#include <stdlib.h>
#include <string.h>

#include "bench.h"
#include "walks.h"

#if defined(__SANITIZE_ADDRESS__)
#include <sanitizer/asan_interface.h>
#else
#define ASAN_POISON_MEMORY_REGION(at, bytes) ((void)(at), (void)(bytes))
#define ASAN_UNPOISON_MEMORY_REGION(at, bytes) ((void)(at), (void)(bytes))
#endif

enum { ANSWERS = 34, STOPS = 14, KINDS = 23 };

struct tally {
    uint64_t rings, records;
    uint64_t stops[STOPS];
    uint64_t answers[KINDS][ANSWERS]; /* row 22: types the editions do not know */
};

static void count_records(struct tally *tally, const uint8_t *journal, uint64_t taken)
{
    for (uint64_t i = 0; i < taken; i++) {
        uint16_t kind, answer;
        memcpy(&kind, journal + 16 * i + OLLSKUVAN_JOURNAL_KIND, 2);
        memcpy(&answer, journal + 16 * i + OLLSKUVAN_JOURNAL_ANSWER, 2);
        if (answer < ANSWERS)
            tally->answers[kind == 0 || kind > 21 ? 22 : kind][answer]++;
        tally->records++;
    }
}

/* ---- the rooms of both sides ---- */

static struct rooms open_rooms(size_t first_most, size_t second_most)
{
    return (struct rooms){ (uint8_t *)grab(first_most + 2 * GUARD) + GUARD, (uint8_t *)grab(second_most + 2 * GUARD) + GUARD };
}

void open_sides(struct sides *sides, size_t first_most, size_t second_most)
{
    *sides = (struct sides){ open_rooms(first_most, second_most), open_rooms(first_most, second_most), first_most, second_most };
}

static void close_rooms(struct rooms *rooms)
{
    free(rooms->first - GUARD);
    free(rooms->second - GUARD);
}

void close_sides(struct sides *sides)
{
    close_rooms(&sides->left);
    close_rooms(&sides->right);
}

static void spoil_rooms(struct rooms *rooms, size_t first_len, size_t second_len)
{
    memset(rooms->first - GUARD, 0xa5, first_len + 2 * GUARD);
    memset(rooms->second - GUARD, 0x5a, second_len + 2 * GUARD);
}

void spoil_sides(struct sides *sides)
{
    spoil_rooms(&sides->left, sides->first_len, sides->second_len);
    spoil_rooms(&sides->right, sides->first_len, sides->second_len);
}

bool same_sides(const struct sides *sides)
{
    return memcmp(sides->left.first - GUARD, sides->right.first - GUARD, sides->first_len + 2 * GUARD) == 0 &&
           memcmp(sides->left.second - GUARD, sides->right.second - GUARD, sides->second_len + 2 * GUARD) == 0;
}

/* ---- drains ---- */

/* Buffers of one side: exactly as long as lent, with a guard on either end. */
struct side {
    uint8_t *scratch, *journal;
    struct ollskuvan_drained done;
};

struct desk {
    struct side left, right;
    uint8_t *ring_before;
};

static void fill_pattern(uint8_t *bytes, size_t length, uint64_t seed)
{
    struct made_random r = { seed };
    size_t i = 0;
    for (; i + 8 <= length; i += 8) {
        uint64_t x = made_next(&r);
        memcpy(bytes + i, &x, 8);
    }
    for (; i < length; i++)
        bytes[i] = (uint8_t)made_next(&r);
}

static void show_difference(const char *what, const uint8_t *left, const uint8_t *right, size_t length)
{
    for (size_t i = 0; i < length; i++)
        if (left[i] != right[i]) {
            printf("  %s differs first at byte %zu: %02x and %02x\n", what, i, left[i], right[i]);
            return;
        }
}

static void show_attributes(const struct made_ring *ring)
{
    const struct made_attributes *a = &ring->attributes;
    if (ring->events == NULL)
        printf("  sample type %#llx, read format %#llx, sample_id_all %u, masks %#llx %#llx, branch %#llx\n",
            (unsigned long long)a->sample_type, (unsigned long long)a->read_format, a->sample_id_all,
            (unsigned long long)a->user_mask, (unsigned long long)a->interrupt_mask,
            (unsigned long long)a->branch_sample_type);
    for (size_t i = 0; ring->events != NULL && i < ring->event_count; i++) {
        const struct ollskuvan_event *v = &ring->events[i];
        printf("  event %#llx: sample type %#llx, read format %#llx, sample_id_all %#llx, masks %#llx %#llx, branch %#llx\n",
            (unsigned long long)v->identifier, (unsigned long long)v->sample_type, (unsigned long long)v->read_format,
            (unsigned long long)v->sample_id_all, (unsigned long long)v->user_mask, (unsigned long long)v->interrupt_mask,
            (unsigned long long)v->branch_sample_type);
    }
}

static void show_case(const struct made_ring *ring, uint64_t number, uint64_t seed)
{
    printf("  case %llu of seed %llu: ring %zu, head %llu, tail %llu, edition %u, budget %llu, scratch %zu, journal %zu\n",
        (unsigned long long)number, (unsigned long long)seed, ring->length, (unsigned long long)ring->head,
        (unsigned long long)ring->tail, ring->edition, (unsigned long long)ring->budget, ring->scratch_length,
        ring->journal_length);
    show_attributes(ring);
}

/* With the ring's table, where it has one. */
static struct ollskuvan_drained run(const struct contender *who, const struct made_ring *ring, struct side *side)
{
    return ring->events != NULL ? run_events(who->events, ring, side->scratch + GUARD, side->journal + GUARD)
                                : run_drain(who->drain, ring, side->scratch + GUARD, side->journal + GUARD);
}

static bool same_results(const struct contender *one, const struct contender *two, const struct made_ring *ring,
    struct desk *desk, uint64_t number, uint64_t seed)
{
    size_t scratch = ring->scratch_length + 2 * GUARD, journal = ring->journal_length + 2 * GUARD;
    fill_pattern(desk->left.scratch, scratch, number);
    fill_pattern(desk->left.journal, journal, ~number);
    memcpy(desk->right.scratch, desk->left.scratch, scratch);
    memcpy(desk->right.journal, desk->left.journal, journal);
    memcpy(desk->ring_before, ring->bytes, ring->length);
    /* under the address sanitizer a byte read past the ring's end is an error */
    ASAN_POISON_MEMORY_REGION(ring->bytes + ring->length, MADE_RING_MAX - ring->length);
    desk->left.done = run(one, ring, &desk->left);
    bool ring_same = memcmp(desk->ring_before, ring->bytes, ring->length) == 0;
    desk->right.done = run(two, ring, &desk->right);
    ASAN_UNPOISON_MEMORY_REGION(ring->bytes + ring->length, MADE_RING_MAX - ring->length);
    ring_same = ring_same && memcmp(desk->ring_before, ring->bytes, ring->length) == 0;
    const struct ollskuvan_drained *l = &desk->left.done, *r = &desk->right.done;
    bool same = l->taken == r->taken && l->bytes == r->bytes && l->tail == r->tail && l->stop == r->stop;
    bool scratch_same = memcmp(desk->left.scratch, desk->right.scratch, scratch) == 0;
    bool journal_same = memcmp(desk->left.journal, desk->right.journal, journal) == 0;
    if (same && scratch_same && journal_same && ring_same)
        return true;
    printf("DIFFERENCE between %s and %s\n", one->name, two->name);
    show_case(ring, number, seed);
    printf("  %s: taken %llu bytes %llu tail %llu stop %u\n", one->name, (unsigned long long)l->taken,
        (unsigned long long)l->bytes, (unsigned long long)l->tail, l->stop);
    printf("  %s: taken %llu bytes %llu tail %llu stop %u\n", two->name, (unsigned long long)r->taken,
        (unsigned long long)r->bytes, (unsigned long long)r->tail, r->stop);
    show_difference("scratch (its guard included)", desk->left.scratch, desk->right.scratch, scratch);
    show_difference("journal (its guard included)", desk->left.journal, desk->right.journal, journal);
    if (!ring_same)
        printf("  the ring was written\n");
    return false;
}

/* What is compared: two drains, or two walks of backward rings; with a table or without one. */
struct match {
    const struct contender *careful, *ours;
    bool walks, tables;
};

/* A drain stops with 0 to 9; a walk with 13 too, but not with 4 and 7; 11 is for a table. */
static bool is_stop(const struct match *match, uint32_t stop)
{
    if (stop == 11)
        return match->tables;
    return match->walks ? (stop < 10 && stop != 4 && stop != 7) || stop == 13 : stop < 10;
}

static bool count_stop(struct tally *tally, uint32_t stop, const struct match *match)
{
    if (stop < STOPS && is_stop(match, stop)) {
        tally->stops[stop]++;
        return true;
    }
    printf("stop %u, which no %s may give\n", stop, match->walks ? "walk" : "drain");
    return false;
}

/* What the comparison says is worth only as much as it has met. */
static bool enough_met(const struct tally *t, const struct match *match)
{
    const bool tables = match->tables;
    static const uint8_t of_type[KINDS][8] = {
        [1] = { 20, 21, 30, 33 }, [2] = { 21, 30, 31 }, [3] = { 21, 30, 33 }, [4] = { 21, 30, 31 },
        [5] = { 21, 30, 31 }, [6] = { 21, 30, 31 }, [7] = { 21, 30, 31 }, [8] = { 21, 22, 30, 31 },
        [9] = { 21, 22, 24, 25, 30, 31, 32 }, [10] = { 20, 21, 23, 30, 32, 33 }, [11] = { 20, 21, 30, 31 },
        [12] = { 20, 21, 30, 31 }, [13] = { 20, 21, 30, 31 }, [14] = { 20, 21, 30, 31 }, [15] = { 20, 21, 30, 31 },
        [16] = { 20, 21, 30, 31 }, [17] = { 20, 21, 30, 33 }, [18] = { 20, 21, 30, 31 }, [19] = { 20, 21, 30, 33 },
        [20] = { 20, 21, 30, 31 }, [21] = { 20, 21, 30, 31 }, [22] = { 20 },
    };
    bool enough = true;
    for (unsigned stop = 0; stop < STOPS; stop++)
        if (is_stop(match, stop) && t->stops[stop] == 0) {
            printf("stop %u was never met\n", stop);
            enough = false;
        }
    for (unsigned kind = 1; kind < KINDS - 1 && tables; kind++)
        if (t->answers[kind][26] == 0 || t->answers[kind][27] == 0) {
            printf("type %u was never refused with 26, or with 27\n", kind);
            enough = false;
        }
    for (unsigned kind = 1; kind < KINDS; kind++) {
        bool accepted = kind == 22 || t->answers[kind][0] != 0;
        for (unsigned i = 0; i < 8 && of_type[kind][i] != 0; i++) {
            bool edition_1 = kind <= 9 && of_type[kind][i] == 20; /* edition 1 knows these */
            if (!edition_1 && t->answers[kind][of_type[kind][i]] == 0) {
                printf("type %u was never refused with %u\n", kind, of_type[kind][i]);
                enough = false;
            }
        }
        if (!accepted) {
            printf("type %u was never accepted\n", kind);
            enough = false;
        }
    }
    return enough;
}

/* The very rings that are timed. */
static unsigned compare_timed(const struct match *match, struct made_ring *ring, struct desk *desk)
{
    const struct contender *careful = match->careful, *once = &contenders[CAREFUL_ONCE], *ours = match->ours;
    unsigned differences = 0;
    for (unsigned which = 0; ring->events == NULL && which < MADE_WORKLOADS; which++) {
        made_fill(which, MIB, ring);
        differences += !same_results(careful, ours, ring, desk, which, 0);
        if (!match->walks)
            differences += !same_results(careful, once, ring, desk, which, 0);
    }
    for (unsigned which = 0; ring->events != NULL && which < MADE_MIXES; which++) {
        made_table_fill(&made_mixes[which], MIB, ring);
        differences += !same_results(careful, ours, ring, desk, which, 0);
    }
    return differences;
}

static unsigned compare_made(const struct match *match, struct made_ring *ring, struct desk *desk, struct tally *tally, uint64_t rings,
    uint64_t seed)
{
    enum { LIMIT = 5 };
    const struct contender *careful = match->careful, *once = &contenders[CAREFUL_ONCE], *ours = match->ours;
    struct made_random r = { seed };
    unsigned differences = 0;
    for (uint64_t i = 0; i < rings && differences < LIMIT; i++) {
        if (ring->events != NULL)
            made_table_case(&r, ring);
        else
            made_case(&r, ring);
        if (match->walks)
            made_backward(&r, ring);
        differences += !same_results(careful, ours, ring, desk, i, seed);
        count_records(tally, desk->left.journal + GUARD, desk->left.done.taken);
        differences += !count_stop(tally, desk->left.done.stop, match);
        tally->rings++;
        if (ring->events == NULL && !match->walks && i % 4 == 0) /* the other form of careful C is a measure only */
            differences += !same_results(careful, once, ring, desk, i, seed);
    }
    return differences;
}

static int compare_all(const struct match *match, uint64_t rings, uint64_t seed, struct ollskuvan_event *events)
{
    struct tally *tally = grab(sizeof *tally);
    struct made_ring ring = { .bytes = grab(MADE_RING_MAX), .events = events };
    size_t journal_max = 16 * (MADE_RING_MAX / 8 + 1) + 2 * GUARD, scratch_max = MADE_RING_MAX + 2 * GUARD;
    struct desk desk = {
        .left = { .scratch = grab(scratch_max), .journal = grab(journal_max) },
        .right = { .scratch = grab(scratch_max), .journal = grab(journal_max) },
        .ring_before = grab(MADE_RING_MAX),
    };
    unsigned differences = compare_timed(match, &ring, &desk);
    differences += compare_made(match, &ring, &desk, tally, rings, seed);
    printf("compared careful C and ollskuvan_%s%s: %llu rings, %llu records, seed %llu: %s\n",
        match->walks ? "walk_back" : "drain", events != NULL ? "_events" : "", (unsigned long long)tally->rings,
        (unsigned long long)tally->records, (unsigned long long)seed, differences == 0 ? "no difference" : "DIFFERENT");
    printf("stops met:");
    for (unsigned stop = 0; stop < STOPS; stop++)
        if (tally->stops[stop] != 0)
            printf(" %u (%llu)", stop, (unsigned long long)tally->stops[stop]);
    printf("\n");
    bool enough = rings < 10000 || enough_met(tally, match); /* a handful of rings cannot meet everything */
    free(tally);
    free(ring.bytes);
    free(desk.left.scratch);
    free(desk.left.journal);
    free(desk.right.scratch);
    free(desk.right.journal);
    free(desk.ring_before);
    return differences == 0 && enough ? 0 : 1;
}

int compare(uint64_t rings, uint64_t seed)
{
    const struct match match = { &contenders[CAREFUL], &contenders[OURS], false, false };
    return compare_all(&match, rings, seed, NULL);
}

int compare_tables(uint64_t rings, uint64_t seed)
{
    const struct match match = { &contenders[CAREFUL], &contenders[OURS], false, true };
    struct ollskuvan_event *events = grab(MADE_EVENTS_MAX * sizeof *events);
    int status = compare_all(&match, rings, seed, events);
    free(events);
    return status;
}

int compare_walks(uint64_t rings, uint64_t seed)
{
    struct match match = { &walkers[CAREFUL_WALK], &walkers[OURS_WALK], true, false };
    struct ollskuvan_event *events = grab(MADE_EVENTS_MAX * sizeof *events);
    int status = compare_all(&match, rings, seed, NULL);
    match.tables = true;
    status = status != 0 ? status : compare_all(&match, rings, seed, events);
    free(events);
    return status;
}
