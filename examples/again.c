#include "again.h"

#include <stdlib.h>
#include <string.h>

#include "memory.h"
#include "messages.h"

/* A record has 8 bytes at least. */
static size_t entries_room(const struct perf_ring *ring)
{
    return ring->length / 8 * OLLSKUVAN_JOURNAL_ENTRY;
}

static void begin(struct again *a, const struct perf_ring *ring, uint64_t tail)
{
    if (a->bytes == NULL) {
        a->bytes = must(calloc(1, ring->length));
        a->entries = must(calloc(1, entries_room(ring)));
    }
    a->first = a->head = a->tail = tail;
    a->taken = 0;
}

/* The bytes between two counts, at their places. */
static void keep(struct again *a, const struct perf_ring *ring, uint64_t from, uint64_t to)
{
    for (uint64_t count = from; count != to; count++)
        a->bytes[count % ring->length] = ring->bytes[count % ring->length];
    a->head = to;
}

void again_compare(struct again *a, struct again_sums *sums, const struct perf_ring *ring)
{
    const struct ring_attributes *r = &ring->attributes;
    size_t room = (size_t)a->taken * OLLSKUVAN_JOURNAL_ENTRY;
    if (a->bytes == NULL || a->taken == 0)
        return;
    uint8_t *scratch = must(malloc(OLLSKUVAN_RECORD_MAX)), *journal = must(malloc(room));
    struct ollskuvan_drained one = ring->table.count != 0
        ? ollskuvan_drain_events(a->bytes, ring->length, a->head, a->first, ring->table.events, ring->table.count, r->edition,
              a->taken, scratch, OLLSKUVAN_RECORD_MAX, journal, room)
        : ollskuvan_drain(a->bytes, ring->length, a->head, a->first, r->sample_type, r->read_format, r->sample_id_all,
              r->user_mask, r->interrupt_mask, r->branch_sample_type, r->edition, a->taken, scratch, OLLSKUVAN_RECORD_MAX,
              journal, room);
    sums->drains++;
    sums->records += a->taken;
    if (one.taken != a->taken || one.tail != a->tail || memcmp(journal, a->entries, room) != 0) {
        sums->differences++;
        complain("cpu %d: %llu records from tail %llu on are not what one drain gives (%llu records, stop %u)", ring->cpu,
            (unsigned long long)a->taken, (unsigned long long)a->first, (unsigned long long)one.taken, one.stop);
    }
    free(scratch);
    free(journal);
    begin(a, ring, a->tail);
}

void again_follow(struct again *a, struct again_sums *sums, const struct perf_ring *ring, uint64_t head, uint64_t tail,
    const struct ollskuvan_drained *done, const uint8_t *journal)
{
    if (a->bytes == NULL || tail != a->tail || head - a->first > ring->length) {
        again_compare(a, sums, ring); /* what is past this head would lie on bytes that are kept */
        begin(a, ring, tail);
    }
    if (head - a->first > ring->length)
        return; /* stop 4: nothing was taken */
    keep(a, ring, a->head - a->first < tail - a->first ? tail : a->head, head);
    memcpy(a->entries + (size_t)a->taken * OLLSKUVAN_JOURNAL_ENTRY, journal, (size_t)done->taken * OLLSKUVAN_JOURNAL_ENTRY);
    a->taken += done->taken;
    a->tail = done->tail;
}

void again_free(struct again *a)
{
    free(a->bytes);
    free(a->entries);
    *a = (struct again){ .bytes = NULL };
}
