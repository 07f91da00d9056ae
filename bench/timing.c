/*
 * What a record costs. Everyone runs in turn on the same ring, round after
 * round; a ratio is taken within a round and the median over the rounds is
 * shown, with the quarter and three-quarter points beside it.
 */
#define _GNU_SOURCE
#include "bench.h"

#include <sched.h>
#include <stdlib.h>
#include <string.h>
#include <time.h>

enum { WARM_UP = 3 };

/* Processor time of this thread in nanoseconds: other programs do not count. */
uint64_t thread_ns(void)
{
    struct timespec t;
    clock_gettime(CLOCK_THREAD_CPUTIME_ID, &t);
    return (uint64_t)t.tv_sec * 1000000000u + (uint64_t)t.tv_nsec;
}

static int by_size(const void *left, const void *right)
{
    double l = *(const double *)left, r = *(const double *)right;
    return l < r ? -1 : l > r;
}

double median(double *values, size_t count)
{
    qsort(values, count, sizeof *values, by_size);
    return count % 2 != 0 ? values[count / 2] : (values[count / 2 - 1] + values[count / 2]) / 2;
}

struct two_times time_both(void (*run)(void *on, bool ours), void *on, size_t rounds)
{
    double *careful = grab(rounds * sizeof *careful), *ours = grab(rounds * sizeof *ours);
    for (size_t i = 0; i < rounds; i++) {
        uint64_t begin = thread_ns();
        run(on, false);
        uint64_t middle = thread_ns();
        run(on, true);
        careful[i] = (double)(middle - begin);
        ours[i] = (double)(thread_ns() - middle);
    }
    const struct two_times ns = { median(careful, rounds), median(ours, rounds) };
    free(careful);
    free(ours);
    return ns;
}

static void stay_on_one_cpu(void)
{
    cpu_set_t set;
    int cpu = sched_getcpu();
    if (cpu < 0)
        return;
    CPU_ZERO(&set);
    CPU_SET((size_t)cpu, &set);
    if (sched_setaffinity(0, sizeof set, &set) != 0)
        fprintf(stderr, "bench: cannot stay on one cpu; times may vary more\n");
}

struct buffers {
    uint8_t *scratch, *journal;
};

static struct buffers lend(const struct made_ring *ring)
{
    return (struct buffers){ grab(ring->scratch_length), grab(ring->journal_length) };
}

static void give_back(struct buffers *b)
{
    free(b->scratch);
    free(b->journal);
}

static uint64_t records_in(const struct made_ring *ring)
{
    struct buffers b = lend(ring);
    struct ollskuvan_drained done = run_drain(careful_drain, ring, b.scratch, b.journal);
    give_back(&b);
    return done.taken;
}

/* A new order for each round, so that nobody always runs behind the same one. */
static void shuffle(struct made_random *r, size_t *order, size_t count)
{
    for (size_t i = 0; i < count; i++)
        order[i] = i;
    for (size_t i = count; i > 1; i--) {
        size_t j = (size_t)made_below(r, i), kept = order[i - 1];
        order[i - 1] = order[j];
        order[j] = kept;
    }
}

/* Nanoseconds of one call: times[k * rounds + round] for contender k. Each runs
 * once untimed before it is timed: caches and branches are then its own. */
static void race(const struct made_ring *ring, size_t calls, size_t rounds, double *times)
{
    struct buffers b = lend(ring);
    struct made_random r = { 7 };
    size_t *order = grab(contender_count * sizeof *order);
    for (size_t round = 0; round < rounds + WARM_UP; round++) {
        shuffle(&r, order, contender_count);
        for (size_t turn = 0; turn < contender_count; turn++) {
            size_t k = order[turn];
            run_drain(contenders[k].drain, ring, b.scratch, b.journal);
            uint64_t begin = thread_ns();
            for (size_t call = 0; call < calls; call++)
                run_drain(contenders[k].drain, ring, b.scratch, b.journal);
            uint64_t end = thread_ns();
            if (round >= WARM_UP)
                times[k * rounds + round - WARM_UP] = (double)(end - begin) / (double)calls;
        }
    }
    free(order);
    give_back(&b);
}

static void time_workload(enum made_workload which, size_t rounds)
{
    struct made_ring ring = { .bytes = grab(MADE_RING_MAX) };
    made_fill(which, MIB, &ring);
    double records = (double)records_in(&ring);
    double *times = grab(contender_count * rounds * sizeof *times), *ratios = grab(rounds * sizeof *ratios);
    race(&ring, 1, rounds, times);
    printf("\n%s: %.0f records in 1 MiB, %zu rounds\n", made_workload_names[which], records, rounds);
    printf("  %-40s %11s %8s %18s\n", "", "ns a record", "ratio", "(middle half)");
    for (size_t k = 0; k < contender_count; k++) {
        for (size_t i = 0; i < rounds; i++)
            ratios[i] = times[k * rounds + i] / times[CAREFUL * rounds + i];
        double ratio = median(ratios, rounds), low = ratios[rounds / 4], high = ratios[rounds - 1 - rounds / 4];
        for (size_t i = 0; i < rounds; i++) /* a copy: the next ratios need the rounds in order */
            ratios[i] = times[k * rounds + i];
        double ns = median(ratios, rounds) / records;
        printf("  %-40s %11.2f %8.3f %8.3f to %6.3f\n", contenders[k].title, ns, ratio, low, high);
    }
    free(times);
    free(ratios);
    free(ring.bytes);
}

int time_workloads(size_t rounds)
{
    stay_on_one_cpu();
    for (unsigned which = 0; which < MADE_WORKLOADS; which++)
        time_workload(which, rounds);
    return 0;
}

/* ---- rings of several events ---- */

static double time_events(events_function *drain, const struct made_ring *ring, struct buffers *b)
{
    run_events(drain, ring, b->scratch, b->journal); /* caches and branches are then its own */
    uint64_t begin = thread_ns();
    run_events(drain, ring, b->scratch, b->journal);
    return (double)(thread_ns() - begin);
}

static void time_mix(const struct made_mix *mix, size_t rounds)
{
    struct made_ring ring = { .bytes = grab(MADE_RING_MAX), .events = grab(MADE_EVENTS_MAX * sizeof *ring.events) };
    made_table_fill(mix, MIB, &ring);
    struct buffers b = lend(&ring);
    double records = (double)run_events(careful_drain_events, &ring, b.scratch, b.journal).taken;
    double *theirs = grab(rounds * sizeof *theirs), *mine = grab(rounds * sizeof *mine), *ratios = grab(rounds * sizeof *ratios);
    for (size_t round = 0; round < rounds; round++) {
        bool turn = round % 2 == 0; /* nobody is always first */
        if (turn)
            theirs[round] = time_events(careful_drain_events, &ring, &b);
        mine[round] = time_events(ollskuvan_drain_events, &ring, &b);
        if (!turn)
            theirs[round] = time_events(careful_drain_events, &ring, &b);
        ratios[round] = mine[round] / theirs[round];
    }
    double ratio = median(ratios, rounds);
    printf("  %-18s %8.0f records %11.2f %11.2f %8.3f %8.3f to %6.3f\n", mix->name, records, median(theirs, rounds) / records,
        median(mine, rounds) / records, ratio, ratios[rounds / 4], ratios[rounds - 1 - rounds / 4]);
    free(theirs);
    free(mine);
    free(ratios);
    give_back(&b);
    free(ring.events);
    free(ring.bytes);
}

/* What a drain costs before its records: ns of a call on an empty ring, and of one that takes one record. */
static double time_calls(events_function *drain, const struct made_ring *ring, struct buffers *b)
{
    enum { CALLS = 20 };
    run_events(drain, ring, b->scratch, b->journal);
    uint64_t begin = thread_ns();
    for (int i = 0; i < CALLS; i++)
        run_events(drain, ring, b->scratch, b->journal);
    return (double)(thread_ns() - begin) / CALLS;
}

static void time_fixed(const struct made_mix *mix, size_t rounds)
{
    struct made_ring ring = { .bytes = grab(MADE_RING_MAX), .events = grab(MADE_EVENTS_MAX * sizeof *ring.events) };
    made_table_fill(mix, MIB, &ring);
    struct buffers b = lend(&ring);
    double *theirs = grab(rounds * sizeof *theirs), *mine = grab(rounds * sizeof *mine);
    const uint64_t tail = ring.tail;
    printf("  %-18s", mix->name);
    for (int one = 0; one < 2; one++) {
        ring.tail = one ? tail : ring.head;
        ring.budget = 1;
        for (size_t round = 0; round < rounds; round++) {
            theirs[round] = time_calls(careful_drain_events, &ring, &b);
            mine[round] = time_calls(ollskuvan_drain_events, &ring, &b);
        }
        printf(" %14.0f %14.0f", median(theirs, rounds), median(mine, rounds));
    }
    printf("\n");
    free(theirs);
    free(mine);
    give_back(&b);
    free(ring.events);
    free(ring.bytes);
}

int time_tables(size_t rounds)
{
    stay_on_one_cpu();
    printf("\nrings of several events in 1 MiB with their table, %zu rounds\n", rounds);
    printf("  %-18s %16s %11s %11s %8s %18s\n", "", "", "careful: ns", "ours: ns", "ratio", "(middle half)");
    for (unsigned which = 0; which < MADE_MIXES; which++)
        time_mix(&made_mixes[which], rounds);
    printf("\nthe same tables, ns a call: a drain of an empty ring, and of one record\n");
    printf("  %-18s %14s %14s %14s %14s\n", "", "careful: empty", "ours: empty", "careful: one", "ours: one");
    for (unsigned which = 0; which < MADE_MIXES; which++)
        time_fixed(&made_mixes[which], rounds);
    return 0;
}

/* ---- rings of every length ---- */

/* LOST_SAMPLES without a trailer, 16 bytes: four of them fill the smallest ring. */
static void fill_small(size_t length, struct made_ring *ring)
{
    static const struct made_attributes none = { 0 };
    struct made_random r = { 3 };
    ring->attributes = none;
    ring->edition = 3;
    ring->length = length;
    ring->tail = 0;
    ring->head = length;
    ring->budget = UINT64_MAX;
    ring->scratch_length = length;
    ring->journal_length = 16 * (length / 8 + 1);
    for (size_t at = 0; at < length; at += 16) {
        uint8_t record[MADE_RECORD_MAX + 64];
        struct made_aims aims;
        memcpy(ring->bytes + at, record, made_record(&r, &none, OLLSKUVAN_TYPE_LOST_SAMPLES, 64, record, &aims));
    }
}

int time_sizes(size_t rounds)
{
    static const size_t shown[] = { CAREFUL, CAREFUL_ONCE, OURS };
    enum { SHOWN = sizeof shown / sizeof shown[0] };
    struct made_ring ring = { .bytes = grab(MADE_RING_MAX) };
    double *times = grab(contender_count * rounds * sizeof *times);
    stay_on_one_cpu();
    printf("\nfull rings of LOST_SAMPLES, 16 bytes each, %zu rounds: ns of a whole drain (a call, with what it computes\n"
           "once), of a record with its share of that, and of a further record (the rise since the smallest ring)\n", rounds);
    printf("%9s %8s", "ring", "records");
    for (size_t i = 0; i < SHOWN; i++)
        printf(" | %12s: call, record, further", contenders[shown[i]].name);
    printf("\n");
    double least[SHOWN] = { 0 }, least_records = 0;
    for (size_t length = OLLSKUVAN_RING_MIN; length <= OLLSKUVAN_RING_MAX; length *= 2) {
        fill_small(length, &ring);
        double records = (double)records_in(&ring);
        race(&ring, length < 65536 ? 65536 / length : 1, rounds, times);
        printf("%9zu %8.0f", length, records);
        for (size_t i = 0; i < SHOWN; i++) {
            double call = median(times + shown[i] * rounds, rounds);
            printf(" | %16.0f %9.2f", call, call / records);
            if (least_records > 0)
                printf(" %9.2f", (call - least[i]) / (records - least_records));
            else
                printf(" %9s", "-");
            if (length == OLLSKUVAN_RING_MIN)
                least[i] = call;
        }
        if (length == OLLSKUVAN_RING_MIN)
            least_records = records;
        printf("\n");
    }
    free(times);
    free(ring.bytes);
    return 0;
}

/* ---- values ---- */

struct whole {
    uint8_t *bytes; /* the records end to end, none of them across an end */
    size_t length;
    struct made_attributes attributes;
};

/* The records of a ring in a row. */
static void straighten(const struct made_ring *ring, struct whole *whole)
{
    whole->length = (size_t)(ring->head - ring->tail);
    whole->bytes = grab(whole->length);
    for (size_t i = 0; i < whole->length; i++)
        whole->bytes[i] = ring->bytes[(ring->tail + i) % ring->length];
    whole->attributes = ring->attributes;
}

static size_t size_of(const uint8_t *record)
{
    return (size_t)record[6] | (size_t)record[7] << 8;
}

static uint64_t check_all(const struct whole *w)
{
    const struct made_attributes *a = &w->attributes;
    uint64_t refused = 0;
    for (size_t at = 0; at < w->length; at += size_of(w->bytes + at))
        refused += ollskuvan_check(w->bytes + at, size_of(w->bytes + at), a->sample_type, a->read_format,
                       a->sample_id_all, a->user_mask, a->interrupt_mask, a->branch_sample_type, 3) != 0;
    return refused;
}

static uint64_t read_all(const struct whole *w, uint64_t *fields, bool keep)
{
    const struct made_attributes *a = &w->attributes;
    uint64_t refused = 0;
    for (size_t at = 0; at < w->length; at += size_of(w->bytes + at)) {
        refused += ollskuvan_read(w->bytes + at, size_of(w->bytes + at), a->sample_type, a->read_format,
                       a->sample_id_all, a->user_mask, a->interrupt_mask, a->branch_sample_type, 3, fields, OLLSKUVAN_FIELDS) != 0;
        if (keep)
            fields += OLLSKUVAN_FIELDS;
    }
    return refused;
}

static uint64_t write_all(const struct whole *w, const uint64_t *fields, uint8_t *buffer)
{
    const struct made_attributes *a = &w->attributes;
    uint64_t refused = 0;
    for (size_t at = 0; at < w->length; at += size_of(w->bytes + at), fields += OLLSKUVAN_FIELDS)
        refused += ollskuvan_write(fields, OLLSKUVAN_FIELDS, w->bytes + at, size_of(w->bytes + at), a->sample_type,
                       a->read_format, a->sample_id_all, a->user_mask, a->interrupt_mask, a->branch_sample_type, 3, buffer, MADE_RECORD_MAX) != 0;
    return refused;
}

#ifdef WITH_OTHER
static uint64_t other_all(const struct whole *w, uint8_t *journal, size_t journal_length)
{
    /* as one long ring: other_read asks for no allowed length */
    const struct made_attributes *a = &w->attributes;
    return other_read(w->bytes, w->length, w->length, 0, a->sample_type, a->read_format, a->sample_id_all, a->user_mask,
        a->interrupt_mask, a->branch_sample_type, 3, UINT64_MAX, NULL, 0, journal, journal_length).stop;
}
#endif

enum { CHECK, READ, WRITE, OTHER, WAYS };

static void time_value(enum made_workload which, size_t rounds)
{
    static const char *const titles[WAYS] = {
        "ollskuvan_check", "ollskuvan_read", "ollskuvan_write", "linux-perf-event-reader, parse and common data",
    };
    struct made_ring ring = { .bytes = grab(MADE_RING_MAX) };
    struct whole whole;
    made_fill(which, MIB, &ring);
    straighten(&ring, &whole);
    size_t records = (size_t)records_in(&ring), journal_length = 16 * (records + 1);
    uint64_t *fields = grab(records * OLLSKUVAN_FIELDS * sizeof *fields);
    uint8_t *buffer = grab(MADE_RECORD_MAX), *journal = grab(journal_length);
    double *times = grab(WAYS * rounds * sizeof *times);
    uint64_t refused = read_all(&whole, fields, true);
    bool with_other = false;
    for (size_t round = 0; round < rounds; round++)
        for (unsigned way = 0; way < WAYS; way++) {
            uint64_t one[OLLSKUVAN_FIELDS];
            uint64_t begin = thread_ns();
            switch (way) {
            case CHECK:
                refused += check_all(&whole);
                break;
            case READ:
                refused += read_all(&whole, one, false);
                break;
            case WRITE:
                refused += write_all(&whole, fields, buffer);
                break;
            default:
#ifdef WITH_OTHER
                refused += other_all(&whole, journal, journal_length);
                with_other = true;
#endif
                break;
            }
            times[way * rounds + round] = (double)(thread_ns() - begin);
        }
    printf("\n%s: %zu records, %zu rounds\n", made_workload_names[which], records, rounds);
    for (unsigned way = 0; way < (with_other ? WAYS : OTHER); way++)
        printf("  %-48s %9.1f ns a record\n", titles[way], median(times + way * rounds, rounds) / (double)records);
    if (refused != 0)
        printf("  %llu answers were refusals: the times are not those of sound records\n", (unsigned long long)refused);
    free(times);
    free(journal);
    free(buffer);
    free(fields);
    free(whole.bytes);
    free(ring.bytes);
}

int time_values(size_t rounds)
{
    stay_on_one_cpu();
    for (unsigned which = 0; which < MADE_WORKLOADS; which++)
        time_value(which, rounds);
    return 0;
}
