#include "readers.h"

#include "bytes.h"

void readers_begin(struct readers *r, const struct perf_ring *ring)
{
    r->logger.tail = r->report.tail = perf_ring_tail(ring);
}

/* What a LOST record says. Its bytes are ours until the kernel has its new tail. */
static uint64_t lost_by(struct reader *reader, const struct perf_ring *ring, uint64_t head, uint64_t tail)
{
    const struct ring_attributes *a = &ring->attributes;
    uint64_t fields[OLLSKUVAN_FIELDS] = { 0 };
    if (ring->table.count != 0)
        ollskuvan_read_one_events(ring->bytes, ring->length, head, tail, ring->table.events, ring->table.count, a->edition,
            reader->scratch, sizeof reader->scratch, fields, OLLSKUVAN_FIELDS);
    else
        ollskuvan_read_one(ring->bytes, ring->length, head, tail, a->sample_type, a->read_format, a->sample_id_all,
            a->user_mask, a->interrupt_mask, a->branch_sample_type, a->edition, reader->scratch, sizeof reader->scratch, fields,
            OLLSKUVAN_FIELDS);
    return fields[OLLSKUVAN_LOST_LOST];
}

static void look_at(struct reader *reader, const struct perf_ring *ring, uint64_t head, const uint8_t *entry)
{
    uint32_t kind = (uint32_t)little(entry + OLLSKUVAN_JOURNAL_KIND, 2);
    for (unsigned i = 0; i < OLLSKUVAN_JOURNAL_ENTRY; i++)
        reader->sum = (reader->sum ^ entry[i]) * 1099511628211u;
    reader->refused += little(entry + OLLSKUVAN_JOURNAL_ANSWER, 2) != OLLSKUVAN_OK;
    reader->names += kind == OLLSKUVAN_TYPE_COMM;
    if (kind == OLLSKUVAN_TYPE_LOST) {
        reader->losts++;
        reader->lost += lost_by(reader, ring, head, little(entry + OLLSKUVAN_JOURNAL_TAIL, 8));
    }
}

/* With the ring's one table of events, or its one attribute set: both readers by the same. */
static struct ollskuvan_drained drain(struct reader *reader, const struct perf_ring *ring, uint64_t head, uint64_t budget)
{
    const struct ring_attributes *a = &ring->attributes;
    if (ring->table.count != 0)
        return ollskuvan_drain_events(ring->bytes, ring->length, head, reader->tail, ring->table.events, ring->table.count,
            a->edition, budget, reader->scratch, sizeof reader->scratch, reader->journal, sizeof reader->journal);
    return ollskuvan_drain(ring->bytes, ring->length, head, reader->tail, a->sample_type, a->read_format, a->sample_id_all,
        a->user_mask, a->interrupt_mask, a->branch_sample_type, a->edition, budget, reader->scratch, sizeof reader->scratch,
        reader->journal, sizeof reader->journal);
}

/* One drain, from the reader's own tail. True if its budget was used up. */
static bool drain_one(struct reader *reader, const struct perf_ring *ring, uint64_t head, uint64_t budget)
{
    struct ollskuvan_drained done = drain(reader, ring, head, budget);
    for (uint64_t i = 0; i < done.taken; i++)
        look_at(reader, ring, head, reader->journal + i * OLLSKUVAN_JOURNAL_ENTRY);
    reader->tail = done.tail;
    reader->taken += done.taken;
    reader->drains++;
    reader->stop = done.stop;
    return done.stop == OLLSKUVAN_STOP_BUDGET;
}

/* The kernel gets the tail that is further from head: no byte that one of them still wants is given back. */
static bool give_back(struct readers *r, const struct perf_ring *ring, uint64_t head)
{
    struct ollskuvan_published p = ollskuvan_publish(ring->length, head, r->logger.tail, r->report.tail);
    r->refused = p.answer;
    if (p.answer != OLLSKUVAN_OK)
        return false;
    uint64_t behind = r->logger.tail - p.tail; /* 0 where the logger is the further one, or both are even */
    r->held += behind != 0;
    r->furthest = behind > r->furthest ? behind : r->furthest;
    perf_ring_give_back(ring, p.tail);
    return true;
}

static bool fine(const struct reader *reader)
{
    return reader->stop == OLLSKUVAN_STOP_NOTHING || reader->stop == OLLSKUVAN_STOP_BUDGET;
}

bool readers_turn(struct readers *r, const struct perf_ring *ring, unsigned turns, uint64_t budget, uint64_t slow)
{
    uint64_t head = perf_ring_head(ring);
    bool more = true;
    for (unsigned turn = 0; turn < turns && more; turn++)
        more = drain_one(&r->logger, ring, head, budget);
    r->turns++;
    r->delayed += !more && r->logger.tail != head;
    drain_one(&r->report, ring, head, slow);
    return give_back(r, ring, head) && fine(&r->logger) && fine(&r->report);
}

bool readers_even(const struct readers *r, const struct perf_ring *ring)
{
    uint64_t head = perf_ring_head(ring);
    return r->logger.tail == head && r->report.tail == head;
}
