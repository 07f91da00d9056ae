/*
 * The fuzz target tried on itself: the exports, answered by the independent reader with one planted
 * fault each (-DFAULT=n). tests/fuzz/run.sh faults links them in the library's place; the target must
 * find every one.
 */
#include <stdint.h>
#include <stdlib.h>
#include <string.h>

#include "ollskuvan.h"
#include "reader.h"

static int fault(int number) { return FAULT == number; }

/* What a fault reads is not used. */
static volatile uint8_t seen;

struct ollskuvan_drained ollskuvan_drain(const uint8_t *ring, size_t ring_len, uint64_t head, uint64_t tail,
    uint64_t sample_type, uint64_t read_format, uint32_t sample_id_all, uint64_t user_mask, uint64_t interrupt_mask,
    uint64_t branch_sample_type, uint32_t edition, uint64_t budget, uint8_t *scratch, size_t scratch_len,
    uint8_t *journal, size_t journal_len)
{
    struct ollskuvan_drained d;
    uint64_t i;

    if (fault(1) && head < tail) /* head and tail compared without the wrap */
        head = tail;
    if (fault(2) && ring_len) /* one byte past the ring is read */
        seen = ring[ring_len];
    if (fault(3) && ring_len) /* one byte before the ring is read */
        seen = *(ring - 1);
    if (fault(4) && edition > 255) /* the edition narrowed to a byte */
        edition &= 255;
    d = reader_drain(ring, ring_len, head, tail, sample_type, read_format, sample_id_all, user_mask, interrupt_mask,
        branch_sample_type, edition, budget, scratch, scratch_len, journal, journal_len);
    if (fault(5)) { /* the drain ends at a body refusal */
        for (i = 0; i < d.taken; i++)
            if (journal[16 * i + OLLSKUVAN_JOURNAL_ANSWER] >= 30) {
                d.taken = i;
                d.stop = journal[16 * i + OLLSKUVAN_JOURNAL_ANSWER];
            }
    }
    if (fault(6) && journal_len > 16 * d.taken) /* a byte after the last entry */
        journal[16 * d.taken] ^= 1;
    if (fault(7) && d.stop == OLLSKUVAN_STOP_SCRATCH && scratch_len) /* the scratch touched by a stop */
        scratch[0] ^= 1;
    if (fault(8)) /* one byte past the journal is written */
        journal[journal_len] = 0;
    if (fault(9) && d.taken == 3) /* a type above 65,535 cut to two bytes */
        for (i = 0; i < d.taken; i++)
            if (journal[16 * i + 4] == 255 && journal[16 * i + 5] == 255)
                journal[16 * i + 4] = 0;
    for (i = 0; fault(38) && i < d.taken; i++) { /* the drain says 44 of a record that lies whole in the ring */
        size_t at = (size_t)(tail % ring_len), size = ring[at + 6] | (size_t)ring[at + 7] << 8;
        if (at + size <= ring_len && reader_check(ring + at, size, sample_type, read_format, sample_id_all, user_mask,
                interrupt_mask, branch_sample_type, edition) == OLLSKUVAN_DIRTY_NAME)
            journal[16 * i + OLLSKUVAN_JOURNAL_ANSWER] = OLLSKUVAN_DIRTY_NAME;
        tail += size;
    }
    return d;
}

uint32_t ollskuvan_check(const uint8_t *record, size_t record_len, uint64_t sample_type, uint64_t read_format,
    uint32_t sample_id_all, uint64_t user_mask, uint64_t interrupt_mask, uint64_t branch_sample_type,
    uint32_t edition)
{
    uint32_t answer;

    if (fault(10)) /* interrupt registers counted with the user mask */
        interrupt_mask = user_mask;
    if (fault(11)) /* sample_id_all narrowed to a byte */
        sample_id_all &= 255;
    if (fault(12) && record_len) /* one byte past the record is read */
        seen = record[record_len];
    answer = reader_check(record, record_len, sample_type, read_format, sample_id_all, user_mask, interrupt_mask,
        branch_sample_type, edition);
    if (fault(13) && answer == OLLSKUVAN_REFUSED_INNER) /* an inner rule is not tested */
        answer = OLLSKUVAN_OK;
    if (fault(14) && answer == OLLSKUVAN_REFUSED_WEIGHTS) /* both weights are accepted */
        answer = OLLSKUVAN_OK;
    if (fault(34) && (sample_type & OLLSKUVAN_BIT_BRANCHES) && record_len >= 8) /* the hardware index is not known */
        answer = reader_check(record, record_len, sample_type, read_format, sample_id_all, user_mask, interrupt_mask,
            branch_sample_type & ~OLLSKUVAN_BRANCH_HW_INDEX, edition);
    if (fault(53) && edition == OLLSKUVAN_EDITION_4 && record_len >= 8) /* the lost counts are not known */
        answer = reader_check(record, record_len, sample_type, read_format & ~OLLSKUVAN_READ_FORMAT_LOST, sample_id_all,
            user_mask, interrupt_mask, branch_sample_type, edition);
    if (fault(54) && answer == OLLSKUVAN_REFUSED_TYPE && record[0] == 21 && record[1] == 0) /* type 21 in edition 3 */
        answer = OLLSKUVAN_OK;
    if (fault(35) && answer == OLLSKUVAN_REFUSED_BRANCH_TYPE && branch_sample_type >> 19 == 0) /* read in edition 2 */
        answer = OLLSKUVAN_OK;
    if (fault(37) && answer == OLLSKUVAN_DIRTY_NAME && record[record_len - 1] == 0) /* the last byte alone is looked at */
        answer = OLLSKUVAN_OK;
    if (fault(39) && answer == OLLSKUVAN_OK && flag_word(record[0]) && record[record_len - 1] != 0) /* room to the record's end */
        answer = OLLSKUVAN_DIRTY_NAME;
    return answer;
}

uint32_t ollskuvan_misc_meaning(uint64_t type, uint64_t misc)
{
    if (fault(25) && type == OLLSKUVAN_TYPE_AUX) /* a data mapping for AUX */
        type = OLLSKUVAN_TYPE_MMAP;
    if (fault(26)) /* the type narrowed to 32 bits */
        type &= UINT32_MAX;
    if (fault(27)) /* a bit of misc above 15 that means something */
        misc |= misc >> 16;
    return reader_misc_meaning(type, misc);
}

struct ollskuvan_published ollskuvan_publish(uint64_t ring_length, uint64_t head, uint64_t first, uint64_t second)
{
    struct ollskuvan_published p = reader_publish(ring_length, head, first, second);

    if (fault(81) && p.answer == OLLSKUVAN_OK) /* the nearer of the two tails */
        p.tail = p.tail == first ? second : first;
    if (fault(82) && p.answer == OLLSKUVAN_OK) /* the tails compared without the wrap */
        p.tail = first < second ? first : second;
    if (fault(83) && p.answer == OLLSKUVAN_STOP_ALIGNMENT && head - second > ring_length) /* the second reader's distance first */
        p.answer = OLLSKUVAN_STOP_DISTANCE;
    if (fault(84) && p.answer != OLLSKUVAN_OK) /* a tail told with a refusal */
        p.tail = head;
    return p;
}

uint32_t ollskuvan_copy_name(const uint8_t *record, size_t record_len, uint64_t place, uint64_t count,
    uint8_t *buffer, size_t buffer_len)
{
    uint32_t answer = reader_copy_name(record, record_len, place, count, buffer, buffer_len);

    if (fault(15) && answer == OLLSKUVAN_REFUSED_NAME_ROOM && buffer_len) { /* a name cut short to fit */
        memcpy(buffer, record + place, buffer_len - 1);
        buffer[buffer_len - 1] = 0;
    }
    if (fault(16) && answer == OLLSKUVAN_REFUSED_PLACE && place + count <= record_len) /* place plus count wraps */
        answer = OLLSKUVAN_OK;
    return answer;
}

uint32_t ollskuvan_read(const uint8_t *record, size_t record_len, uint64_t sample_type, uint64_t read_format,
    uint32_t sample_id_all, uint64_t user_mask, uint64_t interrupt_mask, uint64_t branch_sample_type,
    uint32_t edition, uint64_t *fields, size_t fields_len)
{
    uint32_t answer = reader_read(record, record_len, sample_type, read_format, sample_id_all, user_mask,
        interrupt_mask, branch_sample_type, edition, fields, fields_len);

    if (fault(17) && answer != OLLSKUVAN_OK && fields_len) /* a word changed although the record is refused */
        fields[0] = 0;
    if (fault(18) && answer == OLLSKUVAN_OK) /* misc is not kept whole */
        fields[OLLSKUVAN_MISC] &= 0x6007;
    if (fault(19) && answer == OLLSKUVAN_OK && (sample_type & OLLSKUVAN_BIT_IDENTIFIER) && sample_id_all)
        fields[OLLSKUVAN_TRAILER_CPU] = fields[OLLSKUVAN_TRAILER_IDENTIFIER]; /* the last word taken for the cpu */
    if (fault(20) && answer == OLLSKUVAN_REFUSED_ROOM) /* too few words are no refusal */
        answer = OLLSKUVAN_OK;
    if (fault(36) && answer == OLLSKUVAN_OK && fields[OLLSKUVAN_TYPE] == OLLSKUVAN_TYPE_SAMPLE)
        fields[OLLSKUVAN_SAMPLE_HW_INDEX] = 0; /* the index is read and not told */
    if (fault(40) && answer == OLLSKUVAN_OK && fields[OLLSKUVAN_TYPE] == OLLSKUVAN_TYPE_COMM)
        fields[OLLSKUVAN_COMM_NAME_FLAG] = 0; /* the flag is dropped on reading */
    return answer;
}

struct ollskuvan_one ollskuvan_read_one(const uint8_t *ring, size_t ring_len, uint64_t head, uint64_t tail,
    uint64_t sample_type, uint64_t read_format, uint32_t sample_id_all, uint64_t user_mask, uint64_t interrupt_mask,
    uint64_t branch_sample_type, uint32_t edition, uint8_t *scratch, size_t scratch_len, uint64_t *fields,
    size_t fields_len)
{
    struct ollskuvan_one one = reader_read_one(ring, ring_len, head, tail, sample_type, read_format, sample_id_all,
        user_mask, interrupt_mask, branch_sample_type, edition, scratch, scratch_len, fields, fields_len);

    if (fault(28) && one.size && one.answer) /* the tail stays at a refused record */
        one.tail = tail;
    if (fault(29) && one.in_scratch) /* the place in the ring told of a record in the scratch */
        one.place = tail % ring_len;
    if (fault(30) && one.answer == OLLSKUVAN_REFUSED_ROOM) /* too few words are a stop */
        one = (struct ollskuvan_one){ .tail = tail, .stop = OLLSKUVAN_REFUSED_ROOM };
    if (fault(31) && one.answer && fields_len) /* a word changed although the record is refused */
        fields[fields_len - 1] = 0;
    if (fault(32) && one.size == 0 && one.stop == OLLSKUVAN_STOP_SCRATCH && scratch_len) /* a stop copies */
        scratch[scratch_len - 1] ^= 1;
    if (fault(33) && one.size && ring_len) /* one byte past the ring is read */
        seen = ring[ring_len];
    return one;
}

uint32_t ollskuvan_write(const uint64_t *fields, size_t fields_len, const uint8_t *source, size_t source_len,
    uint64_t sample_type, uint64_t read_format, uint32_t sample_id_all, uint64_t user_mask, uint64_t interrupt_mask,
    uint64_t branch_sample_type, uint32_t edition, uint8_t *buffer, size_t buffer_len)
{
    uint32_t answer;

    if (fault(21) && source_len) /* one byte past the source is read */
        seen = source[source_len];
    answer = reader_write(fields, fields_len, source, source_len, sample_type, read_format, sample_id_all, user_mask,
        interrupt_mask, branch_sample_type, edition, buffer, buffer_len);
    if (fault(22) && answer == OLLSKUVAN_OK && buffer_len > fields[OLLSKUVAN_SIZE]) /* a byte after the record */
        buffer[fields[OLLSKUVAN_SIZE]] ^= 1;
    if (fault(23) && answer == OLLSKUVAN_REFUSED_VALUE && buffer_len < 8) /* 40 before 42 */
        answer = OLLSKUVAN_REFUSED_ROOM;
    if (fault(24) && answer == OLLSKUVAN_REFUSED_PLACE) /* a place past the source is no refusal of its own */
        answer = OLLSKUVAN_REFUSED_VALUE;
    if ((fault(41) || fault(42)) && answer == OLLSKUVAN_REFUSED_DIRTY_VALUE) {
        uint64_t plain[OLLSKUVAN_FIELDS];
        uint32_t without;
        memcpy(plain, fields, sizeof plain);
        plain[flag_word(plain[OLLSKUVAN_TYPE])] = 0;
        without = reader_write(plain, OLLSKUVAN_FIELDS, source, source_len, sample_type, read_format, sample_id_all,
            user_mask, interrupt_mask, branch_sample_type, edition, buffer, fault(42) ? buffer_len : 0);
        if (fault(42) || without == OLLSKUVAN_REFUSED_PLACE) /* the flag is not looked at; 43 after 41 */
            answer = without;
    }
    return answer;
}

struct ollskuvan_drained ollskuvan_drain_events(const uint8_t *ring, size_t ring_len, uint64_t head, uint64_t tail,
    const struct ollskuvan_event *events, size_t event_count, uint32_t edition, uint64_t budget,
    uint8_t *scratch, size_t scratch_len, uint8_t *journal, size_t journal_len)
{
    static struct ollskuvan_event marked[2 * OLLSKUVAN_EVENTS_MAX];
    struct ollskuvan_drained d;
    uint64_t i;

    if (fault(43)) /* one word past the table is read */
        seen = *(const uint8_t *)(events + event_count);
    if (fault(44) && event_count == OLLSKUVAN_EVENTS_MAX + 1) /* one event too many is let through */
        event_count--;
    if (fault(45) && event_count == 2 && events[0].identifier == events[1].identifier) /* equal identifiers are */
        event_count--;
    memcpy(marked, events, event_count * sizeof *events);
    for (i = 0; fault(46) && i < event_count; i++) /* an event without sample_id_all is */
        marked[i].sample_id_all = 1;
    for (i = 0; fault(52) && i < event_count; i++) /* the event's branch sample type is not looked at */
        marked[i].branch_sample_type = 0;
    if (fault(47) && edition == 1) /* edition 1 looks events up */
        edition = 2;
    d = reader_drain_events(ring, ring_len, head, tail, marked, event_count, edition, budget, scratch, scratch_len,
        journal, journal_len);
    for (i = 0; fault(48) && i < d.taken; i++) /* no identifier told as one that is not there */
        if (journal[16 * i + OLLSKUVAN_JOURNAL_ANSWER] == OLLSKUVAN_REFUSED_NO_IDENTIFIER)
            journal[16 * i + OLLSKUVAN_JOURNAL_ANSWER] = OLLSKUVAN_REFUSED_IDENTIFIER;
    if (fault(49) && head == tail && d.stop == OLLSKUVAN_STOP_TABLE) /* an empty ring before the table */
        d.stop = OLLSKUVAN_STOP_NOTHING;
    return d;
}

size_t ollskuvan_find_event(const struct ollskuvan_event *events, size_t event_count, uint64_t identifier)
{
    size_t i = reader_find_event(events, event_count, identifier);

    while (fault(50) && i + 1 < event_count && events[i + 1].identifier == identifier) /* the last of equal ones */
        i++;
    return i;
}

struct ollskuvan_one ollskuvan_read_one_events(const uint8_t *ring, size_t ring_len, uint64_t head, uint64_t tail,
    const struct ollskuvan_event *events, size_t event_count, uint32_t edition, uint8_t *scratch, size_t scratch_len,
    uint64_t *fields, size_t fields_len)
{
    struct ollskuvan_one one = reader_read_one_events(ring, ring_len, head, tail, events, event_count, edition, scratch,
        scratch_len, fields, fields_len);

    if (fault(75) && one.inspected && one.answer != OLLSKUVAN_REFUSED_IDENTIFIER) /* the index told as the number inspected */
        one.inspected--;
    if (fault(51) && one.answer == OLLSKUVAN_REFUSED_IDENTIFIER && fields_len) /* a word changed although refused */
        fields[0] = 0;
    return one;
}

struct ollskuvan_judged ollskuvan_check_events(const uint8_t *record, size_t record_len,
    const struct ollskuvan_event *events, size_t event_count, uint32_t edition)
{
    struct ollskuvan_judged j = reader_check_events(record, record_len, events, event_count, edition);

    if (fault(76) && j.answer == OLLSKUVAN_REFUSED_IDENTIFIER) /* one more than the table has */
        j.inspected++;
    return j;
}

struct ollskuvan_judged ollskuvan_read_events(const uint8_t *record, size_t record_len,
    const struct ollskuvan_event *events, size_t event_count, uint32_t edition, uint64_t *fields, size_t fields_len)
{
    struct ollskuvan_judged j = reader_read_events(record, record_len, events, event_count, edition, fields, fields_len);

    if (fault(79) && j.answer == OLLSKUVAN_OK
        && reader_check_events(record, record_len, events, event_count, edition).answer == OLLSKUVAN_DIRTY_NAME)
        j.answer = OLLSKUVAN_DIRTY_NAME; /* the reader says 44 */
    return j;
}

struct ollskuvan_settings ollskuvan_read_store(const uint8_t *store, size_t store_len, struct ollskuvan_event *events,
    size_t events_room)
{
    struct ollskuvan_settings s;

    if (fault(55) && store_len > 20 && store[store_len - 20] == 19 && store[store_len - 16] == OLLSKUVAN_KIND_RING)
        store_len--; /* a byte behind kind 3 is not looked at */
    s = reader_read_store(store, store_len, events, events_room);
    if (fault(77) && s.answer == OLLSKUVAN_REFUSED_TABLE && store[6] == OLLSKUVAN_STORE_OLD_VERSION
        && store_len == OLLSKUVAN_STORE_BYTES_1(OLLSKUVAN_STORE_OLD_EVENTS + 1)) {
        s.answer = OLLSKUVAN_OK; /* version 1 with 33 events is taken */
        s.events = OLLSKUVAN_STORE_OLD_EVENTS + 1;
    }
    if (fault(56) && s.answer == OLLSKUVAN_REFUSED_DEPARTURE && events_room) /* a row is written though the store is refused */
        events[0].sample_id_all = 1;
    return s;
}

struct ollskuvan_stored ollskuvan_write_store(const struct ollskuvan_event *events, size_t event_count, uint64_t ring_length,
    uint32_t edition, uint32_t budget, uint8_t *buffer, size_t buffer_len)
{
    struct ollskuvan_stored w = reader_write_store(events, event_count, ring_length, edition, budget, buffer, buffer_len);

    if (fault(57) && w.answer == OLLSKUVAN_REFUSED_TABLE
        && reader_write_store(events, event_count ? 1 : 0, ring_length, edition, budget, NULL, 0).answer == OLLSKUVAN_REFUSED_RING_LENGTH)
        w.answer = OLLSKUVAN_REFUSED_RING_LENGTH; /* 1 before 11 */
    if (fault(58) && w.answer == OLLSKUVAN_OK && event_count > 1) /* one index for all events */
        buffer[8 + 56 + 6] = 0;
    if (fault(78) && w.answer == OLLSKUVAN_OK && event_count > 256) /* an index of one byte, the other one 0 */
        buffer[8 + 56 * 256 + 7] = 0;
    return w;
}

/* The length of the trace up to its first drain that does not empty the ring; that of the whole trace if there is none. */
static size_t up_to_a_stop(const uint8_t *trace, size_t trace_len, uint64_t start, const struct ollskuvan_event *events,
    size_t event_count, uint32_t edition, size_t rooms_len, size_t journal_len)
{
    static uint8_t rooms[1 << 16], journal[1 << 18];
    size_t at = 0;

    while (trace_len - at >= 6) {
        size_t length = trace[at] | (size_t)trace[at + 1] << 8 | (size_t)trace[at + 2] << 16 | (size_t)trace[at + 3] << 24;
        int drains = trace[at + 4] == OLLSKUVAN_KIND_DRAIN;
        if (length < 6 || length > trace_len - at)
            break;
        at += length;
        if (drains && reader_replay(trace, at, start, events, event_count, edition, rooms, rooms_len, journal, journal_len).held_bytes)
            return at;
    }
    return trace_len;
}

struct ollskuvan_replayed ollskuvan_replay(const uint8_t *trace, size_t trace_len, uint64_t start,
    const struct ollskuvan_event *events, size_t event_count, uint32_t edition, uint8_t *rooms, size_t rooms_len,
    uint8_t *journal, size_t journal_len)
{
    struct ollskuvan_replayed r;

    if (fault(67)) /* a drain's stop ends the replay */
        trace_len = up_to_a_stop(trace, trace_len, start, events, event_count, edition, rooms_len, journal_len);
    r = reader_replay(trace, trace_len, start, events, event_count, edition, rooms, rooms_len, journal, journal_len);
    if (fault(68) && r.dropped) { /* a dropped record that is not counted */
        r.dropped--;
        r.offered_bytes -= r.dropped_bytes;
        r.dropped_bytes = 0;
    }
    if (fault(69) && r.answer == OLLSKUVAN_REFUSED_OFFER) /* the faulty entry is counted among those played */
        r.entries++;
    if (fault(70) && r.head < r.tail) /* what is held, without the wrap */
        r.held_bytes = 0;
    return r;
}

struct ollskuvan_walked ollskuvan_walk_back(const uint8_t *ring, size_t ring_len, uint64_t head, uint64_t sample_type,
    uint64_t read_format, uint32_t sample_id_all, uint64_t user_mask, uint64_t interrupt_mask, uint64_t branch_sample_type,
    uint32_t edition, uint64_t budget, uint8_t *scratch, size_t scratch_len, uint8_t *journal, size_t journal_len)
{
    struct ollskuvan_walked w = reader_walk_back(ring, ring_len, head, sample_type, read_format, sample_id_all, user_mask,
        interrupt_mask, branch_sample_type, edition, budget, scratch, scratch_len, journal, journal_len);

    if (fault(59) && w.stop == OLLSKUVAN_STOP_NOTHING && w.taken && w.bytes < ring_len) /* a size of 0 as any other bad one */
        w.stop = OLLSKUVAN_STOP_SIZE;
    if (fault(60) && w.stop == OLLSKUVAN_STOP_OVERWRITTEN && w.taken == budget) /* the budget before the length */
        w.stop = OLLSKUVAN_STOP_BUDGET;
    if (fault(61) && w.taken > 1) /* the starts count from 0, not from head */
        memset(journal + 16 + OLLSKUVAN_JOURNAL_TAIL, 0, 8);
    return w;
}

struct ollskuvan_walked ollskuvan_walk_back_events(const uint8_t *ring, size_t ring_len, uint64_t head,
    const struct ollskuvan_event *events, size_t event_count, uint32_t edition, uint64_t budget,
    uint8_t *scratch, size_t scratch_len, uint8_t *journal, size_t journal_len)
{
    struct ollskuvan_walked w = reader_walk_back_events(ring, ring_len, head, events, event_count, edition, budget, scratch,
        scratch_len, journal, journal_len);

    if (fault(62) && w.stop == OLLSKUVAN_STOP_TABLE && ring[head % ring_len + 6] == 0 && ring[head % ring_len + 7] == 0)
        w.stop = OLLSKUVAN_STOP_NOTHING; /* an empty ring before the table */
    return w;
}

static void put_number(uint8_t *at, uint64_t number)
{
    int i;

    for (i = 0; i < 8; i++)
        at[i] = (uint8_t)(number >> 8 * i);
}

/* The first hole of 16 bytes or more told as two, if the list has room for one entry more. */
static uint64_t split_run(uint8_t *changes, uint64_t bytes, size_t room)
{
    uint64_t at;

    for (at = 0; at < bytes && bytes + OLLSKUVAN_CHANGE_ENTRY <= room; at += OLLSKUVAN_CHANGE_ENTRY) {
        uint8_t *entry = changes + at, *next = entry + OLLSKUVAN_CHANGE_ENTRY;
        uint64_t length = get64(entry + OLLSKUVAN_CHANGE_BYTES);
        if (length < 16)
            continue;
        memmove(next, entry, bytes - at);
        put_number(entry + OLLSKUVAN_CHANGE_BYTES, 8);
        put_number(next + OLLSKUVAN_CHANGE_START, get64(next + OLLSKUVAN_CHANGE_START) + 8);
        put_number(next + OLLSKUVAN_CHANGE_BYTES, length - 8);
        return bytes + OLLSKUVAN_CHANGE_ENTRY;
    }
    return bytes;
}

struct ollskuvan_salvaged ollskuvan_salvage(const uint8_t *stream, size_t stream_len, const struct ollskuvan_event *events,
    size_t event_count, uint32_t edition, uint8_t *out, size_t out_len, uint8_t *changes, size_t changes_len)
{
    struct ollskuvan_salvaged s;
    uint64_t at, before = 0;

    if (fault(66) && edition == 3) /* a record kept that the edition refuses */
        edition = 4;
    s = reader_salvage(stream, stream_len, events, event_count, edition, out, out_len, changes, changes_len);
    for (at = 0; fault(63) && at < s.changes; at += OLLSKUVAN_CHANGE_ENTRY) { /* a hole's start counted in the output */
        uint64_t start = get64(changes + at + OLLSKUVAN_CHANGE_START);
        put_number(changes + at + OLLSKUVAN_CHANGE_START, start - before);
        before += get64(changes + at + OLLSKUVAN_CHANGE_BYTES);
    }
    if (fault(64)) /* a run split in two */
        s.changes = split_run(changes, s.changes, changes_len);
    if (fault(65) && s.answer == OLLSKUVAN_REFUSED_SALVAGE_ROOM && out_len >= 16 && stream_len >= 16) /* room tested after */
        memcpy(out, stream, 16);                                                                     /* the first write */
    return s;
}

/* The bytes from tail to head of two rings that were found alike. */
static int same_bytes(const uint8_t *left, size_t left_len, uint64_t left_head, uint64_t left_tail, const uint8_t *right,
    size_t right_len, uint64_t right_tail)
{
    uint64_t i;
    for (i = 0; i < left_head - left_tail; i++)
        if (left[(left_tail + i) % left_len] != right[(right_tail + i) % right_len])
            return 0;
    return 1;
}

/* The right side's stop in the place of a difference before it, where that side does stop. */
static struct ollskuvan_compared stop_first(struct ollskuvan_compared c, const uint8_t *right, size_t right_len,
    uint64_t right_head, uint64_t right_tail, size_t right_scratch_len, const struct ollskuvan_event *events,
    size_t event_count, uint32_t edition)
{
    size_t journal_len = 2 * right_len + 16;
    uint8_t *journal = malloc(journal_len), *scratch = malloc(right_scratch_len + 1);
    struct ollskuvan_drained d;

    if (!journal || !scratch)
        abort();
    d = reader_drain_events(right, right_len, right_head, right_tail, events, event_count, edition, UINT64_MAX, scratch,
        right_scratch_len, journal, journal_len);
    if (d.stop != 0) {
        c.what = OLLSKUVAN_COMPARED_RIGHT_STOPPED;
        c.records = d.taken;
        c.stop = d.stop;
        c.field = 0;
    }
    free(journal);
    free(scratch);
    return c;
}

struct ollskuvan_compared ollskuvan_compare(const uint8_t *left, size_t left_len, uint64_t left_head, uint64_t left_tail,
    uint8_t *left_scratch, size_t left_scratch_len, const uint8_t *right, size_t right_len, uint64_t right_head,
    uint64_t right_tail, uint8_t *right_scratch, size_t right_scratch_len, const struct ollskuvan_event *events,
    size_t event_count, uint32_t edition)
{
    struct ollskuvan_compared c = reader_compare(left, left_len, left_head, left_tail, left_scratch, left_scratch_len, right,
        right_len, right_head, right_tail, right_scratch, right_scratch_len, events, event_count, edition);

    if (fault(71) && c.what == OLLSKUVAN_COMPARED_FIELD) /* a difference found, but the next record named */
        c.records++;
    if (fault(72) && c.field > 4) /* the identifier told twice */
        c.field++;
    if (fault(73) && c.what == OLLSKUVAN_COMPARED_RIGHT_STOPPED && right_scratch_len) /* a scratch touched by a stop */
        right_scratch[0] ^= 1;
    if (fault(74) && c.what == OLLSKUVAN_COMPARED_ALIKE &&
        !same_bytes(left, left_len, left_head, left_tail, right, right_len, right_tail)) { /* ignored bytes that count */
        c.what = OLLSKUVAN_COMPARED_FIELD;
        c.field = 1;
        c.records = 0;
    }
    if (fault(80) && c.what == OLLSKUVAN_COMPARED_FIELD) /* the right side's stop told before the left's difference */
        c = stop_first(c, right, right_len, right_head, right_tail, right_scratch_len, events, event_count, edition);
    return c;
}
