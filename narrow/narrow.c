/*
 * The library on a machine whose pointers have 32 bits, 32-bit ARM: a thin layer before the proved code.
 *
 * The proved code takes every length as a number of 64 bits, on every machine. Here each `size_t` of the header is widened to that, which loses
 * nothing. What is told in one register of 64 bits, or in two, C has in memory there: two words of 32 bits become the struct they are, and
 * tools/boards/retarget.awk has two words of 64 bits put into memory. Nothing else is done here.
 *
 * ollskuvan_wide_X is X of the proved module; tools/library.sh makes these names local.
 */
#include "ollskuvan.h"

/* The parameters, once for both: LENGTH is size_t or uint64_t. */
#define ATTRIBUTES uint64_t sample_type, uint64_t read_format, uint32_t sample_id_all, uint64_t user_mask, \
    uint64_t interrupt_mask, uint64_t branch_sample_type, uint32_t edition
#define THE_ATTRIBUTES sample_type, read_format, sample_id_all, user_mask, interrupt_mask, branch_sample_type, edition
#define A_RING(LENGTH) const uint8_t *ring, LENGTH ring_len, uint64_t head
#define THE_RING ring, ring_len, head
#define A_RECORD(LENGTH) const uint8_t *record, LENGTH record_len
#define THE_RECORD record, record_len
#define A_TABLE(LENGTH) const struct ollskuvan_event *events, LENGTH event_count, uint32_t edition
#define THE_TABLE events, event_count, edition
#define JOURNALED(LENGTH) uint64_t budget, uint8_t *scratch, LENGTH scratch_len, uint8_t *journal, LENGTH journal_len
#define THE_JOURNALED budget, scratch, scratch_len, journal, journal_len
#define READ_OUT(LENGTH) uint8_t *scratch, LENGTH scratch_len, uint64_t *fields, LENGTH fields_len
#define THE_READ_OUT scratch, scratch_len, fields, fields_len
#define A_BUFFER(LENGTH) uint8_t *buffer, LENGTH buffer_len
#define THE_BUFFER buffer, buffer_len
#define A_SIDE(LENGTH, side) const uint8_t *side, LENGTH side##_len, uint64_t side##_head, uint64_t side##_tail, \
    uint8_t *side##_scratch, LENGTH side##_scratch_len
#define THE_SIDE(side) side, side##_len, side##_head, side##_tail, side##_scratch, side##_scratch_len

#define DRAIN(LENGTH) A_RING(LENGTH), uint64_t tail, ATTRIBUTES, JOURNALED(LENGTH)
#define DRAIN_EVENTS(LENGTH) A_RING(LENGTH), uint64_t tail, A_TABLE(LENGTH), JOURNALED(LENGTH)
#define FIND_EVENT(LENGTH) const struct ollskuvan_event *events, LENGTH event_count, uint64_t identifier
#define CHECK(LENGTH) A_RECORD(LENGTH), ATTRIBUTES
#define CHECK_EVENTS(LENGTH) A_RECORD(LENGTH), A_TABLE(LENGTH)
#define COPY_NAME(LENGTH) A_RECORD(LENGTH), uint64_t place, uint64_t count, A_BUFFER(LENGTH)
#define READ(LENGTH) A_RECORD(LENGTH), ATTRIBUTES, uint64_t *fields, LENGTH fields_len
#define READ_EVENTS(LENGTH) A_RECORD(LENGTH), A_TABLE(LENGTH), uint64_t *fields, LENGTH fields_len
#define READ_ONE(LENGTH) A_RING(LENGTH), uint64_t tail, ATTRIBUTES, READ_OUT(LENGTH)
#define READ_ONE_EVENTS(LENGTH) A_RING(LENGTH), uint64_t tail, A_TABLE(LENGTH), READ_OUT(LENGTH)
#define WRITE(LENGTH) const uint64_t *fields, LENGTH fields_len, const uint8_t *source, LENGTH source_len, ATTRIBUTES, \
    A_BUFFER(LENGTH)
#define READ_STORE(LENGTH) const uint8_t *store, LENGTH store_len, struct ollskuvan_event *events, LENGTH events_room
#define WRITE_STORE(LENGTH) const struct ollskuvan_event *events, LENGTH event_count, uint64_t ring_length, \
    uint32_t edition, uint32_t budget, A_BUFFER(LENGTH)
#define REPLAY(LENGTH) const uint8_t *trace, LENGTH trace_len, uint64_t start, A_TABLE(LENGTH), uint8_t *rooms, \
    LENGTH rooms_len, uint8_t *journal, LENGTH journal_len
#define WALK_BACK(LENGTH) A_RING(LENGTH), ATTRIBUTES, JOURNALED(LENGTH)
#define WALK_BACK_EVENTS(LENGTH) A_RING(LENGTH), A_TABLE(LENGTH), JOURNALED(LENGTH)
#define SALVAGE(LENGTH) const uint8_t *stream, LENGTH stream_len, A_TABLE(LENGTH), uint8_t *out, LENGTH out_len, \
    uint8_t *changes, LENGTH changes_len
#define COMPARE(LENGTH) A_SIDE(LENGTH, left), A_SIDE(LENGTH, right), A_TABLE(LENGTH)

/* The proved function declared, then the header's, which calls it. */
#define SAME(type, name, PARAMETERS, ...) \
    type ollskuvan_wide_##name(PARAMETERS(uint64_t)); \
    type ollskuvan_##name(PARAMETERS(size_t)) { return ollskuvan_wide_##name(__VA_ARGS__); }

SAME(struct ollskuvan_drained, drain, DRAIN, THE_RING, tail, THE_ATTRIBUTES, THE_JOURNALED)
SAME(struct ollskuvan_drained, drain_events, DRAIN_EVENTS, THE_RING, tail, THE_TABLE, THE_JOURNALED)
SAME(uint32_t, check, CHECK, THE_RECORD, THE_ATTRIBUTES)
SAME(uint32_t, copy_name, COPY_NAME, THE_RECORD, place, count, THE_BUFFER)
SAME(uint32_t, read, READ, THE_RECORD, THE_ATTRIBUTES, fields, fields_len)
SAME(struct ollskuvan_one, read_one, READ_ONE, THE_RING, tail, THE_ATTRIBUTES, THE_READ_OUT)
SAME(struct ollskuvan_one, read_one_events, READ_ONE_EVENTS, THE_RING, tail, THE_TABLE, THE_READ_OUT)
SAME(uint32_t, write, WRITE, fields, fields_len, source, source_len, THE_ATTRIBUTES, THE_BUFFER)
SAME(struct ollskuvan_settings, read_store, READ_STORE, store, store_len, events, events_room)
SAME(struct ollskuvan_stored, write_store, WRITE_STORE, events, event_count, ring_length, edition, budget, THE_BUFFER)
SAME(struct ollskuvan_replayed, replay, REPLAY, trace, trace_len, start, THE_TABLE, rooms, rooms_len, journal, journal_len)
SAME(struct ollskuvan_walked, walk_back, WALK_BACK, THE_RING, THE_ATTRIBUTES, THE_JOURNALED)
SAME(struct ollskuvan_walked, walk_back_events, WALK_BACK_EVENTS, THE_RING, THE_TABLE, THE_JOURNALED)
SAME(struct ollskuvan_salvaged, salvage, SALVAGE, stream, stream_len, THE_TABLE, out, out_len, changes, changes_len)
SAME(struct ollskuvan_compared, compare, COMPARE, THE_SIDE(left), THE_SIDE(right), THE_TABLE)

/* Without a length. */
uint32_t ollskuvan_wide_misc_meaning(uint64_t type, uint64_t misc);
uint32_t ollskuvan_misc_meaning(uint64_t type, uint64_t misc) { return ollskuvan_wide_misc_meaning(type, misc); }
struct ollskuvan_published ollskuvan_wide_publish(uint64_t ring_length, uint64_t head, uint64_t first, uint64_t second);
struct ollskuvan_published ollskuvan_publish(uint64_t ring_length, uint64_t head, uint64_t first, uint64_t second)
{
    return ollskuvan_wide_publish(ring_length, head, first, second);
}

/* A place in the table, or event_count. */
uint64_t ollskuvan_wide_find_event(FIND_EVENT(uint64_t));
size_t ollskuvan_find_event(FIND_EVENT(size_t))
{
    return (size_t)ollskuvan_wide_find_event(events, event_count, identifier);
}

/* Two words of 32 bits, the first one low. */
static struct ollskuvan_judged judged(uint64_t told)
{
    struct ollskuvan_judged both = {(uint32_t)told, (uint32_t)(told >> 32)};
    return both;
}

uint64_t ollskuvan_wide_check_events(CHECK_EVENTS(uint64_t));
struct ollskuvan_judged ollskuvan_check_events(CHECK_EVENTS(size_t))
{
    return judged(ollskuvan_wide_check_events(THE_RECORD, THE_TABLE));
}

uint64_t ollskuvan_wide_read_events(READ_EVENTS(uint64_t));
struct ollskuvan_judged ollskuvan_read_events(READ_EVENTS(size_t))
{
    return judged(ollskuvan_wide_read_events(THE_RECORD, THE_TABLE, fields, fields_len));
}
