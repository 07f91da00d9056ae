/*
 * The store of settings in careful C, written for speed as careful.c is: one pass
 * over the entries, nothing written before all is known.
 */
#include "bytes.h"
#include "stores.h"

#include <stdbool.h>

enum { HEAD = 6, FIRST = 8, ROW = 56, LAST = 19, INDEX = 2 }; /* of version 2, which is written */
enum { OLD_ROW = 55, SLOTS = 2048 };

static bool ring_allowed(uint64_t length)
{
    return length >= OLLSKUVAN_RING_MIN && length <= OLLSKUVAN_RING_MAX && (length & (length - 1)) == 0;
}

/* Its kind, or 0 where it is cut short, too short or fits no kind. A row of 0: the version is not known yet. */
static uint32_t entry(const uint8_t *at, size_t left, size_t row)
{
    if (left < HEAD)
        return 0;
    uint32_t length = load32(at), kind = load16(at + 4);
    if (length > left)
        return 0;
    const bool event = row != 0 ? length == row : length == ROW || length == OLD_ROW;
    return (kind == 2 && event) || (kind == 1 && length == FIRST) || (kind == 3 && length == LAST) ? kind : 0;
}

/* The number of the refusal by the entries, or 0 and how many events there are, of which length. */
static uint32_t entries(const uint8_t *store, size_t length, size_t *events, size_t *row_length)
{
    size_t at = FIRST, count = 0;
    uint32_t kind = entry(store, length, 0);
    if (kind != 1)
        return kind == 0 ? 51 : 52;
    if (load16(store + HEAD) - 1u > 1)
        return 50;
    const size_t row = load16(store + HEAD) == 1 ? OLD_ROW : ROW;
    while ((kind = entry(store + at, length - at, row)) == 2) {
        if ((row == ROW ? load16(store + at + HEAD) : store[at + HEAD]) != count)
            return 52;
        count++;
        at += row;
    }
    if (kind != 3)
        return kind == 0 ? 51 : 52;
    if (!ring_allowed(load64(store + at + HEAD)) || store[at + 14] - 1u > 3)
        return 52;
    at += LAST;
    if (at != length)
        return entry(store + at, length - at, row) == 0 ? 51 : 52;
    *events = count;
    *row_length = row;
    return 0;
}

/* By a hash with open addressing, half of it free. */
static __attribute__((noinline)) bool many_differ(const uint64_t *identifiers, size_t count)
{
    uint16_t slot[SLOTS];
    memset(slot, 0, sizeof slot);
    for (size_t i = 0; i < count; i++) {
        size_t at = (size_t)(identifiers[i] * UINT64_C(0x9e3779b97f4a7c15) >> 53);
        for (; slot[at] != 0; at = (at + 1) % SLOTS)
            if (identifiers[slot[at] - 1] == identifiers[i])
                return false;
        slot[at] = (uint16_t)(i + 1);
    }
    return true;
}

/* Identifiers that rise, as a kernel hands them out, are looked at once; else each two of few, and many by a hash. */
static bool differ(const uint64_t *identifiers, size_t count)
{
    bool rising = true;
    for (size_t i = 1; i < count; i++)
        rising &= identifiers[i - 1] < identifiers[i];
    if (!rising && count > 32)
        return many_differ(identifiers, count);
    for (size_t i = 1; i < count && !rising; i++)
        for (size_t k = 0; k < i; k++)
            if (identifiers[k] == identifiers[i])
                return false;
    return true;
}

struct ollskuvan_settings careful_read_store(const uint8_t *store, size_t store_len, struct ollskuvan_event *events,
    size_t events_room)
{
    uint64_t identifiers[OLLSKUVAN_EVENTS_MAX];
    size_t count = 0, length = 0;
    uint32_t answer = entries(store, store_len, &count, &length);
    bool marked = true;
    if (answer != 0)
        return (struct ollskuvan_settings){ .answer = answer };
    if (count < 1 || count > (length == ROW ? OLLSKUVAN_EVENTS_MAX : OLLSKUVAN_STORE_OLD_EVENTS))
        return (struct ollskuvan_settings){ .answer = 11 };
    const uint8_t *row = store + FIRST + length - 48, *last = store + store_len - LAST + HEAD;
    for (size_t i = 0; i < count; i++) {
        identifiers[i] = load64(row + length * i);
        marked &= (load64(row + length * i + 8) & OLLSKUVAN_BIT_IDENTIFIER) != 0;
    }
    if (!marked || !differ(identifiers, count))
        return (struct ollskuvan_settings){ .answer = 11 };
    if (events_room < count)
        return (struct ollskuvan_settings){ .answer = 40 };
    for (size_t i = 0; i < count; i++) {
        memcpy(&events[i], row + length * i, 48); /* the struct's first six words, little-endian */
        events[i].sample_id_all = 1;
    }
    return (struct ollskuvan_settings){ count, load64(last), last[8], load32(last + 9), 0 };
}

static void put_head(uint8_t *at, uint32_t length, uint16_t kind)
{
    memcpy(at, &length, 4);
    memcpy(at + 4, &kind, 2);
}

static bool table_allowed(const struct ollskuvan_event *events, size_t count)
{
    uint64_t identifiers[OLLSKUVAN_EVENTS_MAX];
    bool marked = true;
    if (count < 1 || count > OLLSKUVAN_EVENTS_MAX)
        return false;
    for (size_t i = 0; i < count; i++) {
        identifiers[i] = events[i].identifier;
        marked &= (events[i].sample_type & OLLSKUVAN_BIT_IDENTIFIER) != 0 && events[i].sample_id_all != 0;
    }
    return marked && differ(identifiers, count);
}

struct ollskuvan_stored careful_write_store(const struct ollskuvan_event *events, size_t event_count, uint64_t ring_length,
    uint32_t edition, uint32_t budget, uint8_t *buffer, size_t buffer_len)
{
    static const uint8_t first[FIRST] = { FIRST, 0, 0, 0, 1, 0, 2, 0 };
    if (!table_allowed(events, event_count))
        return (struct ollskuvan_stored){ 0, 11 };
    if (!ring_allowed(ring_length))
        return (struct ollskuvan_stored){ 0, 1 };
    if (edition - 1 > 3)
        return (struct ollskuvan_stored){ 0, 2 };
    size_t bytes = FIRST + ROW * event_count + LAST;
    if (buffer_len < bytes)
        return (struct ollskuvan_stored){ 0, 40 };
    memcpy(buffer, first, FIRST);
    uint8_t *at = buffer + FIRST;
    for (size_t i = 0; i < event_count; i++, at += ROW) {
        put_head(at, ROW, 2);
        at[HEAD] = (uint8_t)i;
        at[HEAD + 1] = (uint8_t)(i >> 8);
        memcpy(at + HEAD + INDEX, &events[i], 48);
    }
    put_head(at, LAST, 3);
    memcpy(at + HEAD, &ring_length, 8);
    at[14] = (uint8_t)edition;
    memcpy(at + 15, &budget, 4);
    return (struct ollskuvan_stored){ bytes, 0 };
}
