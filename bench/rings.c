/*
 * Two rings compared: what ollskuvan_compare tells of rings that are alike, at the same counts and at others, and of a copy
 * with one byte changed, beside a walk in careful C over the frames and bytes of both; of full rings that are alike but for
 * ignored bytes in each record; and what it costs, beside reading both rings.
 */
#define _GNU_SOURCE
#include "bench.h"

#include <stdlib.h>
#include <string.h>

struct desk {
    struct made_ring ring;
    uint8_t *copy, *left_scratch, *right_scratch, *journal;
    size_t journal_len;
    uint64_t shift; /* of the copy's counts */
};

static void open_desk(struct desk *d)
{
    *d = (struct desk){ .ring = { .bytes = grab(MADE_RING_MAX), .events = grab(MADE_EVENTS_MAX * sizeof *d->ring.events) },
        .copy = grab(MADE_RING_MAX), .left_scratch = grab(MADE_RECORD_MAX), .right_scratch = grab(MADE_RECORD_MAX),
        .journal = grab(2 * MADE_RING_MAX), .journal_len = 2 * MADE_RING_MAX };
}

static void close_desk(struct desk *d)
{
    free(d->ring.bytes);
    free(d->ring.events);
    free(d->copy);
    free(d->left_scratch);
    free(d->right_scratch);
    free(d->journal);
}

/* The same records at other counts. */
static void copy_ring(struct desk *d, uint64_t shift)
{
    const struct made_ring *r = &d->ring;
    d->shift = shift;
    for (size_t i = 0; i < r->length; i++)
        d->copy[(r->tail + shift + i) % r->length] = r->bytes[(r->tail + i) % r->length];
}

static struct ollskuvan_compared run_compare(const struct desk *d)
{
    const struct made_ring *r = &d->ring;
    return ollskuvan_compare(r->bytes, r->length, r->head, r->tail, d->left_scratch, MADE_RECORD_MAX, d->copy, r->length,
        r->head + d->shift, r->tail + d->shift, d->right_scratch, MADE_RECORD_MAX, r->events, r->event_count, r->edition);
}

static struct ollskuvan_drained read_ring(const struct desk *d, const uint8_t *bytes, uint64_t shift)
{
    const struct made_ring *r = &d->ring;
    return ollskuvan_drain_events(bytes, r->length, r->head + shift, r->tail + shift, r->events, r->event_count, r->edition,
        UINT64_MAX, d->left_scratch, MADE_RECORD_MAX, d->journal, d->journal_len);
}

/* Careful C over so many records that a drain took of the left ring: how many are the same byte for byte, up to the first
 * that is not. */
static uint64_t careful_same(const struct desk *d, uint64_t records)
{
    const struct made_ring *r = &d->ring;
    const size_t mask = r->length - 1;
    uint64_t way = 0;
    for (uint64_t n = 0; n < records; n++) {
        const uint8_t *header = r->bytes + ((r->tail + way) & mask);
        const uint64_t size = header[6] | (uint64_t)header[7] << 8;
        for (uint64_t i = 0; i < size; i++)
            if (r->bytes[(r->tail + way + i) & mask] != d->copy[(r->tail + d->shift + way + i) & mask])
                return n;
        way += size;
    }
    return records;
}

/* What must be told whatever the fields are: nothing before the first record that differs in a byte, and of copies
 * without a change what the drain told. */
static bool as_due(const struct desk *d, const struct ollskuvan_drained *read, bool changed, const struct ollskuvan_compared *told)
{
    const uint64_t same = careful_same(d, read->taken);
    const bool ended = told->records == read->taken &&
        (read->stop == 0 ? told->what == OLLSKUVAN_COMPARED_ALIKE
                         : told->what == OLLSKUVAN_COMPARED_LEFT_STOPPED && told->stop == read->stop);
    if (!changed || same == read->taken)
        return ended;
    return told->records >= same && (ended || told->records < read->taken);
}

/* ---- alike but for ignored bytes ---- */

static uint8_t *at_count(const struct desk *d, uint8_t *bytes, uint64_t count)
{
    return bytes + (count & (d->ring.length - 1));
}

/* The bytes of a record's cpu item, which has four of them and four that are ignored: in a SAMPLE after the items that are
 * selected before it, else the trailer's last but the identifier. */
static uint64_t cpu_place(const struct ollskuvan_event *event, uint32_t type, uint64_t size)
{
    const uint64_t before = UINT64_C(0x1024f); /* identifier, ip, tid, time, addr, id, stream id */
    return type == 9 ? 8 + 8 * (uint64_t)__builtin_popcountll(event->sample_type & before) : size - 16;
}

/* Other bytes after the zero of a name, in both, so that the flag is the same; of a name that has two bytes there or more. */
static void stale_name(const struct desk *d, uint64_t count, uint32_t type, uint64_t size)
{
    const uint64_t last = size - 32 - 1; /* the trailer of these events has 32 bytes */
    if ((type != 3 && type != 10) || *at_count(d, d->ring.bytes, count + last - 1) != 0)
        return;
    *at_count(d, d->ring.bytes, count + last) = 1;
    *at_count(d, d->copy, count + d->shift + last) = 2;
}

/* Two full rings of one event. Returns the records. Each pair differs in the ignored half of its cpu item, names in the bytes
 * after their zero too. */
static uint64_t fill_ignored(struct desk *d, enum made_workload which)
{
    made_fill(which, MIB, &d->ring);
    const struct made_attributes *a = &d->ring.attributes;
    d->ring.event_count = 1;
    d->ring.events[0] = (struct ollskuvan_event){ .identifier = 17, .sample_type = a->sample_type, .read_format = a->read_format,
        .sample_id_all = a->sample_id_all, .user_mask = a->user_mask, .interrupt_mask = a->interrupt_mask,
        .branch_sample_type = a->branch_sample_type };
    copy_ring(d, 8 * 77);
    uint64_t records = 0;
    for (uint64_t count = d->ring.tail; count != d->ring.head; records++) {
        const uint8_t *header = at_count(d, d->ring.bytes, count);
        const uint64_t size = header[6] | (uint64_t)header[7] << 8;
        const uint64_t ignored = cpu_place(d->ring.events, header[0], size) + 4;
        for (unsigned i = 0; i < 4; i++)
            *at_count(d, d->copy, count + d->shift + ignored + i) ^= 0x5a;
        stale_name(d, count, header[0], size);
        count += size;
    }
    return records;
}

/* What is told of them, and of them with one bit more changed, in the cpu of the last record: its field, by number. */
static bool ignored_as_due(struct desk *d, enum made_workload which)
{
    const uint64_t records = fill_ignored(d, which);
    struct ollskuvan_compared told = run_compare(d);
    if (told.what != OLLSKUVAN_COMPARED_ALIKE || told.records != records || told.stop != 0 || records < 500)
        return false;
    uint64_t last = d->ring.tail, size = 0;
    for (uint64_t count = last; count != d->ring.head; count += size) {
        const uint8_t *header = at_count(d, d->ring.bytes, count);
        size = header[6] | (uint64_t)header[7] << 8;
        last = count;
    }
    const uint8_t *header = at_count(d, d->ring.bytes, last);
    *at_count(d, d->copy, last + d->shift + cpu_place(d->ring.events, header[0], size)) ^= 1;
    told = run_compare(d);
    return told.what == OLLSKUVAN_COMPARED_FIELD && told.records == records - 1 && told.field > 4;
}

static int compare_ignored(void)
{
    struct desk d;
    int differences = 0;
    open_desk(&d);
    for (unsigned which = 0; which < MADE_WORKLOADS; which++)
        if (!ignored_as_due(&d, which)) {
            differences++;
            printf("DIFFERENCE in compare: rings of %s, alike but for ignored bytes, are told otherwise\n", made_workload_names[which]);
        }
    printf("compared rings that are alike but for ignored bytes in each record: %s\n", differences == 0 ? "told as due" : "DIFFERENT");
    close_desk(&d);
    return differences == 0 ? 0 : 1;
}

/* ollskuvan_read of each record of one of both. */
static void read_records(const struct desk *d, uint8_t *bytes, uint64_t shift)
{
    const struct made_ring *r = &d->ring;
    const struct made_attributes *a = &r->attributes;
    uint64_t fields[OLLSKUVAN_FIELDS], size;
    for (uint64_t count = r->tail + shift; count != r->head + shift; count += size) {
        const uint8_t *record = at_count(d, bytes, count);
        const uint64_t room = r->length - (count & (r->length - 1));
        size = record[6] | (uint64_t)record[7] << 8;
        if (size > room) {
            memcpy(d->left_scratch, record, room);
            memcpy(d->left_scratch + room, bytes, size - room);
            record = d->left_scratch;
        }
        ollskuvan_read(record, size, a->sample_type, a->read_format, a->sample_id_all, a->user_mask, a->interrupt_mask,
            a->branch_sample_type, r->edition, fields, OLLSKUVAN_FIELDS);
    }
}

/* For callgrind: WHAT is compare, read (each record of both) or drain (both). */
int run_rings(const char *what, unsigned which)
{
    struct desk d;
    open_desk(&d);
    printf("records %llu\n", (unsigned long long)fill_ignored(&d, (enum made_workload)which));
    if (strcmp(what, "compare") == 0) {
        run_compare(&d);
    } else if (strcmp(what, "read") == 0) {
        read_records(&d, d.ring.bytes, 0);
        read_records(&d, d.copy, d.shift);
    } else {
        read_ring(&d, d.ring.bytes, 0);
        read_ring(&d, d.copy, d.shift);
    }
    close_desk(&d);
    return 0;
}

/* Times of the same. */
static void time_ignored(size_t rounds)
{
    struct desk d;
    double *ours = grab(rounds * sizeof *ours), *reading = grab(rounds * sizeof *reading), *drains = grab(rounds * sizeof *drains);
    open_desk(&d);
    printf("\ntwo rings of 1 MiB that are alike but for ignored bytes in each record, %zu rounds: ns a record\n", rounds);
    for (unsigned which = 0; which < MADE_WORKLOADS; which++) {
        const double n = (double)fill_ignored(&d, which);
        for (size_t i = 0; i < rounds; i++) {
            const uint64_t begin = thread_ns();
            run_compare(&d);
            const uint64_t compared = thread_ns();
            read_records(&d, d.ring.bytes, 0);
            read_records(&d, d.copy, d.shift);
            const uint64_t read = thread_ns();
            read_ring(&d, d.ring.bytes, 0);
            read_ring(&d, d.copy, d.shift);
            drains[i] = (double)(thread_ns() - read);
            ours[i] = (double)(compared - begin);
            reading[i] = (double)(read - compared);
        }
        const double o = median(ours, rounds) / n, b = median(reading, rounds) / n, c = median(drains, rounds) / n;
        printf("  %-14s ollskuvan_compare %.1f, ollskuvan_read of both %.1f, draining both %.1f; compare to read %.2f\n",
            made_workload_names[which], o, b, c, o / b);
    }
    close_desk(&d);
    free(ours);
    free(reading);
    free(drains);
}

/* ---- rings and their copies ---- */

int compare_rings(uint64_t rings, uint64_t seed)
{
    struct made_random r = { seed };
    struct desk d;
    uint64_t told[6] = { 0 }, differences = 0;
    open_desk(&d);
    for (uint64_t i = 0; i < rings && differences < 5; i++) {
        do
            made_table_case(&r, &d.ring);
        while (d.ring.length == 0 || d.ring.length > MIB || (d.ring.length & (d.ring.length - 1)) != 0 || d.ring.length < 64);
        copy_ring(&d, 8 * made_below(&r, 100));
        const struct ollskuvan_drained read = read_ring(&d, d.ring.bytes, 0);
        for (int changed = 0; changed < 2; changed++) {
            if (changed != 0 && read.bytes != 0)
                d.copy[(d.ring.tail + d.shift + made_below(&r, read.bytes)) % d.ring.length] ^= (uint8_t)(1 << made_below(&r, 8));
            const struct ollskuvan_compared c = run_compare(&d);
            told[c.what < 6 ? c.what : 0]++;
            if (!as_due(&d, &read, changed != 0, &c)) {
                differences++;
                printf("DIFFERENCE in compare, ring %llu: %llu records, what %u, field %u, stop %u; the drain took %llu, stop %u\n",
                    (unsigned long long)i, (unsigned long long)c.records, c.what, c.field, c.stop, (unsigned long long)read.taken,
                    read.stop);
            }
        }
    }
    printf("compared rings with their copies: %llu rings, seed %llu: alike %llu, a field %llu, stopped %llu: %s\n",
        (unsigned long long)rings, (unsigned long long)seed, (unsigned long long)told[0], (unsigned long long)told[1],
        (unsigned long long)(told[4] + told[5]), differences == 0 ? "no difference" : "DIFFERENT");
    close_desk(&d);
    return differences == 0 && (rings < 500 || (told[0] && told[1] && told[4])) ? compare_ignored() : 1;
}

/* Two rings of 1 MiB that are alike, at other counts: the comparison, reading both, and the bytes alone. */
int time_rings(size_t rounds)
{
    struct desk d;
    double *ours = grab(rounds * sizeof *ours), *reading = grab(rounds * sizeof *reading), *bytes = grab(rounds * sizeof *bytes);
    open_desk(&d);
    made_table_fill(&made_mixes[1], MIB, &d.ring);
    copy_ring(&d, 8 * 77);
    const uint64_t records = read_ring(&d, d.ring.bytes, 0).taken;
    for (size_t i = 0; i < rounds; i++) {
        const uint64_t begin = thread_ns();
        run_compare(&d);
        const uint64_t compared = thread_ns();
        read_ring(&d, d.ring.bytes, 0);
        read_ring(&d, d.copy, d.shift);
        const uint64_t read = thread_ns();
        if (careful_same(&d, records) != records)
            return 1;
        ours[i] = (double)(compared - begin);
        reading[i] = (double)(read - compared);
        bytes[i] = (double)(thread_ns() - read);
    }
    const double n = (double)records, o = median(ours, rounds) / n, b = median(reading, rounds) / n, c = median(bytes, rounds) / n;
    printf("\ntwo rings of 1 MiB that are alike, %zu rounds: ns a record\n", rounds);
    printf("  ollskuvan_compare %.1f, reading both %.1f, their bytes in careful C %.1f; compare to reading %.3f\n", o, b, c, o / b);
    close_desk(&d);
    free(ours);
    free(reading);
    free(bytes);
    time_ignored(rounds);
    return 0;
}
