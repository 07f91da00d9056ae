/*
 * Stores of settings: that careful C and ours agree on made and damaged ones, and
 * what a call costs.
 */
#define _GNU_SOURCE
#include "stores.h"

#include <stdlib.h>
#include <string.h>
#include <time.h>

#include "bench.h"

enum { ROWS = OLLSKUVAN_EVENTS_MAX + 6, ROOM = OLLSKUVAN_STORE_BYTES(ROWS) + 64, ANSWERS = 53, BEHIND = 32 };

struct made_store {
    struct ollskuvan_event events[ROWS];
    size_t count;
    uint64_t ring_length;
    uint32_t edition, budget;
    uint8_t bytes[ROOM];
    size_t length, row; /* row: bytes of an event, by the version */
};

static void made_settings(struct made_random *r, struct made_store *s)
{
    bool odd = made_below(r, 4) == 0;
    memset(s, 0, sizeof *s);
    s->row = made_below(r, 2) ? 56 : 55;
    s->count = made_below(r, 8) == 0 ? made_below(r, 40) : 1 + made_below(r, 4);
    if (made_below(r, 40) == 0) /* about each limit, and what lies between */
        s->count = made_below(r, 2) ? made_below(r, ROWS + 1) : ROWS - made_below(r, 9);
    for (size_t i = 0; i < s->count; i++) {
        uint64_t words[7];
        for (size_t k = 0; k < 7; k++)
            words[k] = made_next(r) >> made_below(r, 64);
        words[0] = odd ? made_below(r, 60) : 100 + i;
        words[1] |= odd && made_below(r, 20) == 0 ? 0 : OLLSKUVAN_BIT_IDENTIFIER;
        words[6] = odd && made_below(r, 20) == 0 ? 0 : 1;
        memcpy(&s->events[i], words, sizeof words);
    }
    s->ring_length = made_below(r, 12) == 0 ? made_next(r) >> made_below(r, 64) : UINT64_C(64) << made_below(r, 15);
    s->edition = made_below(r, 12) == 0 ? (uint32_t)made_below(r, 300) : 1 + (uint32_t)made_below(r, 4);
    s->budget = (uint32_t)made_next(r);
}

/* The bytes of such a store, whatever is allowed: laid entry by entry. */
static void lay(struct made_store *s)
{
    uint8_t *at = s->bytes;
    memcpy(at, "\10\0\0\0\1\0", 6);
    at[6] = (uint8_t)(s->row - 54);
    at[7] = 0;
    at += 8;
    for (size_t i = 0; i < s->count; i++, at += s->row) {
        const uint64_t index = i;
        memcpy(at, "\67\0\0\0\2\0", 6);
        at[0] = (uint8_t)s->row;
        memcpy(at + 6, &index, s->row - 54);
        memcpy(at + s->row - 48, &s->events[i], 48);
    }
    memcpy(at, "\23\0\0\0\3\0", 6);
    memcpy(at + 6, &s->ring_length, 8);
    at[14] = (uint8_t)s->edition;
    memcpy(at + 15, &s->budget, 4);
    s->length = (size_t)(at + 19 - s->bytes);
}

static void damage(struct made_random *r, struct made_store *s)
{
    size_t at = made_below(r, s->length), row = 8 + s->row * made_below(r, s->count + 1);
    switch (made_below(r, 7)) {
    case 0:
        s->bytes[at] = (uint8_t)made_next(r);
        break;
    case 1:
        s->length = at;
        break;
    case 2: /* another length or kind */
        s->bytes[row + (made_below(r, 2) ? 0 : 4)] = (uint8_t)made_below(r, 60);
        break;
    case 3: /* the index */
        s->bytes[row + 6 + made_below(r, 2)] = (uint8_t)made_below(r, 40);
        break;
    case 4: /* something behind it */
        memcpy(s->bytes + s->length, s->bytes + (made_below(r, 2) ? 0 : s->length - 19), 19);
        s->length += 1 + made_below(r, 19);
        break;
    case 5: /* the first entry twice, or another version */
        s->bytes[made_below(r, 2) ? 6 : 7] = (uint8_t)made_below(r, 4);
        break;
    default: /* an event left out */
        memmove(s->bytes + 8, s->bytes + 8 + s->row, s->length > 8 + s->row ? s->length - 8 - s->row : 0);
        s->length -= s->length > 8 + s->row ? s->row : 0;
        break;
    }
    if (s->length == 0)
        s->length = 1;
}

struct reading {
    struct ollskuvan_settings told;
    struct ollskuvan_event rows[ROWS + 2];
};

static bool same_reading(const struct reading *a, const struct reading *b)
{
    return a->told.events == b->told.events && a->told.ring_length == b->told.ring_length && a->told.edition == b->told.edition &&
        a->told.budget == b->told.budget && a->told.answer == b->told.answer && memcmp(a->rows, b->rows, sizeof a->rows) == 0;
}

/* Both read the same bytes into the same rows. */
static bool compare_read(const struct made_store *s, size_t rows, uint64_t *answers)
{
    static struct reading left, right;
    memset(left.rows, 0x5a, sizeof left.rows);
    memset(right.rows, 0x5a, sizeof right.rows);
    left.told = careful_read_store(s->bytes, s->length, left.rows, rows);
    right.told = ollskuvan_read_store(s->bytes, s->length, right.rows, rows);
    answers[right.told.answer % ANSWERS]++;
    if (same_reading(&left, &right))
        return true;
    printf("bench: a store of %zu bytes into %zu rows: careful C answers %u, ours %u\n", s->length, rows, left.told.answer, right.told.answer);
    return false;
}

static bool compare_write(const struct made_store *s, size_t room, uint64_t *answers)
{
    static uint8_t left[ROOM + BEHIND], right[ROOM + BEHIND];
    memset(left, 0x5a, sizeof left);
    memset(right, 0x5a, sizeof right);
    struct ollskuvan_stored a = careful_write_store(s->events, s->count, s->ring_length, s->edition, s->budget, left, room);
    struct ollskuvan_stored b = ollskuvan_write_store(s->events, s->count, s->ring_length, s->edition, s->budget, right, room);
    answers[b.answer % ANSWERS]++;
    if (a.bytes == b.bytes && a.answer == b.answer && memcmp(left, right, sizeof left) == 0)
        return true;
    printf("bench: %zu events into %zu bytes: careful C answers %u, ours %u\n", s->count, room, a.answer, b.answer);
    return false;
}

static bool all_came(const char *call, const uint64_t *answers, const uint32_t *due, size_t count)
{
    bool all = true;
    printf("%s:", call);
    for (size_t i = 0; i < count; i++) {
        printf("  %u: %llu", due[i], (unsigned long long)answers[due[i]]);
        all = all && answers[due[i]] != 0;
    }
    printf("\n");
    return all;
}

int compare_stores(uint64_t stores, uint64_t seed)
{
    static const uint32_t read_due[] = { 0, 11, 40, 50, 51, 52 }, write_due[] = { 0, 1, 2, 11, 40 };
    static uint64_t reads[ANSWERS], writes[ANSWERS];
    static struct made_store s;
    struct made_random r = { seed };
    for (uint64_t n = 0; n < stores; n++) {
        made_settings(&r, &s);
        size_t exact = OLLSKUVAN_STORE_BYTES(s.count), rows = made_below(&r, 4) == 0 ? made_below(&r, 4) : ROWS;
        if (!compare_write(&s, made_below(&r, 3) == 0 ? made_below(&r, exact) : exact, writes))
            return 1;
        lay(&s);
        for (uint64_t k = made_below(&r, 3); k > 0; k--)
            damage(&r, &s);
        if (!compare_read(&s, rows, reads))
            return 1;
    }
    bool all = all_came("stores read", reads, read_due, sizeof read_due / sizeof read_due[0]);
    all = all_came("stores written", writes, write_due, sizeof write_due / sizeof write_due[0]) && all;
    if (!all && stores >= 1000) {
        printf("bench: an answer was never met\n");
        return 1;
    }
    printf("bench: %llu stores read and written, no difference (seed %llu)\n", (unsigned long long)stores, (unsigned long long)seed);
    return 0;
}

/* ---- what a call costs ---- */

static const size_t sizes[] = { 1, 11, 32, 256, OLLSKUVAN_EVENTS_MAX };
enum { SIZES = sizeof sizes / sizeof sizes[0], CALLS = 100 };

static void fill(struct made_store *s, size_t count)
{
    memset(s, 0, sizeof *s);
    s->row = 56;
    s->count = count;
    for (size_t i = 0; i < count; i++)
        s->events[i] = (struct ollskuvan_event){ 1000 + i, OLLSKUVAN_BIT_IDENTIFIER | 0x86, 0, 0, 0, 0, 1 };
    s->ring_length = 65536;
    s->edition = OLLSKUVAN_EDITION_4;
    s->budget = 32;
    lay(s);
}

/* Never inlined: what is counted is between this function and its return to it. */
__attribute__((noinline)) static uint32_t one_call(const struct made_store *s, bool ours, bool reads)
{
    static struct ollskuvan_event rows[ROWS];
    static uint8_t buffer[ROOM];
    if (reads)
        return ours ? ollskuvan_read_store(s->bytes, s->length, rows, ROWS).answer
                    : careful_read_store(s->bytes, s->length, rows, ROWS).answer;
    return ours ? ollskuvan_write_store(s->events, s->count, s->ring_length, s->edition, s->budget, buffer, sizeof buffer).answer
                : careful_write_store(s->events, s->count, s->ring_length, s->edition, s->budget, buffer, sizeof buffer).answer;
}

static int by_size(const void *a, const void *b)
{
    double x = *(const double *)a, y = *(const double *)b;
    return (x > y) - (x < y);
}

static double nanoseconds(const struct made_store *s, bool ours, bool reads)
{
    struct timespec from, to;
    uint32_t refused = one_call(s, ours, reads);
    clock_gettime(CLOCK_THREAD_CPUTIME_ID, &from);
    for (int i = 0; i < CALLS; i++)
        refused |= one_call(s, ours, reads);
    clock_gettime(CLOCK_THREAD_CPUTIME_ID, &to);
    if (refused != 0)
        printf("bench: a sound store was refused\n");
    return ((double)(to.tv_sec - from.tv_sec) * 1e9 + (double)(to.tv_nsec - from.tv_nsec)) / CALLS;
}

int time_stores(size_t rounds)
{
    static struct made_store s;
    double *times = grab(rounds * sizeof *times), *ratios = grab(rounds * sizeof *ratios);
    printf("\nstores of settings, %zu rounds: ns a call, and the ratio to careful C\n", rounds);
    for (int reads = 1; reads >= 0; reads--)
        for (size_t i = 0; i < SIZES; i++) {
            fill(&s, sizes[i]);
            for (size_t k = 0; k < rounds; k++) {
                double careful = nanoseconds(&s, false, reads);
                times[k] = nanoseconds(&s, true, reads);
                ratios[k] = times[k] / careful;
            }
            qsort(times, rounds, sizeof *times, by_size);
            qsort(ratios, rounds, sizeof *ratios, by_size);
            printf("  %-5s %4zu events %10.1f %8.2f\n", reads ? "read" : "write", sizes[i], times[rounds / 2], ratios[rounds / 2]);
        }
    free(times);
    free(ratios);
    return 0;
}

int run_store(const char *whose, const char *call, uint64_t events)
{
    static struct made_store s;
    fill(&s, (size_t)events);
    printf("answer %u\n", one_call(&s, strcmp(whose, "ours") == 0, strcmp(call, "read") == 0));
    return 0;
}
