#include "walks.h"

static struct ollskuvan_drained as_drained(struct ollskuvan_walked w, uint64_t head)
{
    return (struct ollskuvan_drained){ .taken = w.taken, .bytes = w.bytes, .tail = head + w.bytes, .stop = w.stop };
}

#define AS_DRAIN(name, walk)                                                                                              \
    static struct ollskuvan_drained name(const uint8_t *ring, size_t ring_len, uint64_t head, uint64_t tail,              \
        uint64_t sample_type, uint64_t read_format, uint32_t sample_id_all, uint64_t user_mask, uint64_t interrupt_mask,  \
        uint64_t branch_sample_type, uint32_t edition, uint64_t budget, uint8_t *scratch, size_t scratch_len,             \
        uint8_t *journal, size_t journal_len)                                                                             \
    {                                                                                                                     \
        (void)head;                                                                                                       \
        return as_drained(walk(ring, ring_len, tail, sample_type, read_format, sample_id_all, user_mask, interrupt_mask,  \
            branch_sample_type, edition, budget, scratch, scratch_len, journal, journal_len), tail);                      \
    }
#define AS_EVENTS(name, walk)                                                                                             \
    static struct ollskuvan_drained name(const uint8_t *ring, size_t ring_len, uint64_t head, uint64_t tail,              \
        const struct ollskuvan_event *events, size_t event_count, uint32_t edition, uint64_t budget, uint8_t *scratch,    \
        size_t scratch_len, uint8_t *journal, size_t journal_len)                                                         \
    {                                                                                                                     \
        (void)head;                                                                                                       \
        return as_drained(walk(ring, ring_len, tail, events, event_count, edition, budget, scratch, scratch_len, journal, \
            journal_len), tail);                                                                                          \
    }

AS_DRAIN(careful_walk, careful_walk_back)
AS_DRAIN(ours_walk, ollskuvan_walk_back)
AS_EVENTS(careful_walk_events, careful_walk_back_events)
AS_EVENTS(ours_walk_events, ollskuvan_walk_back_events)

const struct contender walkers[WALKERS] = {
    [CAREFUL_WALK] = { "careful-walk", "careful C, walking backward", careful_walk, careful_walk_events },
    [OURS_WALK] = { "ours-walk", "ollskuvan_walk_back", ours_walk, ours_walk_events },
};
