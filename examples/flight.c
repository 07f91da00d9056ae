#include "flight.h"

#include <stdlib.h>

#include "memory.h"

/* No record is shorter than 8 bytes, and none crosses the ring's end with more than the scratch has: 8, 9 and 3 cannot be. */
struct flight flight_walk(const struct ring_attributes *a, const struct event_table *table, const uint8_t *ring, size_t length,
    uint64_t head)
{
    size_t room = length / 8 * OLLSKUVAN_JOURNAL_ENTRY;
    uint8_t *scratch = must(malloc(OLLSKUVAN_RECORD_MAX));
    struct flight f = { .journal = must(malloc(room + 1)) };
    if (table->count != 0)
        f.walked = ollskuvan_walk_back_events(ring, length, head, table->events, table->count, a->edition, UINT64_MAX, scratch,
            OLLSKUVAN_RECORD_MAX, f.journal, room);
    else
        f.walked = ollskuvan_walk_back(ring, length, head, a->sample_type, a->read_format, a->sample_id_all, a->user_mask,
            a->interrupt_mask, a->branch_sample_type, a->edition, UINT64_MAX, scratch, OLLSKUVAN_RECORD_MAX, f.journal, room);
    free(scratch);
    f.end = head + f.walked.bytes;
    f.round = f.walked.stop != OLLSKUVAN_STOP_NOTHING || f.walked.bytes == length;
    return f;
}

bool ring_is_backward(uint64_t head, uint64_t tail)
{
    return tail == 0 && head >> 63 == 1 && head % 8 == 0;
}

const uint8_t *flight_entry(const struct flight *flight, uint64_t number)
{
    return flight->journal + (flight->walked.taken - 1 - number) * OLLSKUVAN_JOURNAL_ENTRY;
}

bool flight_is_whole(uint32_t stop)
{
    return stop == OLLSKUVAN_STOP_NOTHING || stop == OLLSKUVAN_STOP_OVERWRITTEN;
}
