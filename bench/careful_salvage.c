/*
 * Salvage in careful C: the frame against the bytes left, then the answer that
 * the drain with a table gives. One pass measures, one writes, which is a copy
 * where there is no hole. The pieces are careful.c's; they are compiled once more
 * here, so that the drain's own code stays as it is.
 */
#define careful_drain careful_drain_beside_salvage
#define careful_once_drain careful_once_drain_beside_salvage
#define careful_drain_events careful_drain_events_beside_salvage
#include "careful.c"

/* The size of the record that is kept here, or 0. */
static inline __attribute__((always_inline)) uint64_t kept_here(struct table *t, const uint8_t *at, uint64_t left, const bool many)
{
    if (unlikely(left < HEADER))
        return 0;
    const uint64_t header = load64(at), size = header >> 48;
    if (unlikely(size < HEADER || size % 8 != 0 || size > left))
        return 0;
    return judge_event(t, at, (uint32_t)header, header >> 32 & 0xffff, size, many) == 0 ? size : 0;
}

struct pieces {
    uint64_t kept, holes;
};

/* Both passes: with `out` and `list` null pointers it measures. */
static inline __attribute__((always_inline)) struct pieces walk_stream(struct table *t, const uint8_t *stream, uint64_t length,
    uint8_t *out, uint8_t *list, const bool many)
{
    struct pieces p = { 0, 0 };
    uint64_t at = 0;
    while (at < length) {
        const uint64_t from = at;
        uint64_t size;
        while (at < length && (size = kept_here(t, stream + at, length - at, many)) != 0)
            at += size;
        if (out != NULL)
            memcpy(out + p.kept, stream + from, at - from);
        p.kept += at - from;
        if (at == length)
            break;
        const uint64_t hole = at;
        do {
            at += length - at < 8 ? length - at : 8;
        } while (at < length && kept_here(t, stream + at, length - at, many) == 0);
        if (list != NULL) {
            const uint32_t entry = OLLSKUVAN_CHANGE_ENTRY;
            const uint16_t kind = OLLSKUVAN_KIND_DROPPED;
            memcpy(list, &entry, 4);
            memcpy(list + OLLSKUVAN_CHANGE_KIND, &kind, 2);
            store64(list + OLLSKUVAN_CHANGE_START, hole);
            store64(list + OLLSKUVAN_CHANGE_BYTES, at - hole);
            list += OLLSKUVAN_CHANGE_ENTRY;
        }
        p.holes++;
    }
    return p;
}

static __attribute__((noinline)) struct pieces walk_many(struct table *t, const uint8_t *stream, uint64_t length, uint8_t *out,
    uint8_t *list)
{
    return walk_stream(t, stream, length, out, list, true);
}

struct ollskuvan_salvaged careful_salvage(const uint8_t *stream, size_t stream_len, const struct ollskuvan_event *events,
    size_t event_count, uint32_t edition, uint8_t *out, size_t out_len, uint8_t *changes, size_t changes_len)
{
    struct ollskuvan_salvaged told = { 0 };
    struct table table;
    if (edition - 1 > 3) {
        told.answer = 2;
        return told;
    }
    const bool many = event_count > FEW;
    if (many ? !open_many(&table, events, event_count, edition) : !sound(events, event_count)) {
        told.answer = 11;
        return told;
    }
    if (!many)
        open_table(&table, events, event_count, edition);
    const struct pieces p = many ? walk_many(&table, stream, stream_len, NULL, NULL)
                                 : walk_stream(&table, stream, stream_len, NULL, NULL, false);
    if (out_len < p.kept || changes_len / OLLSKUVAN_CHANGE_ENTRY < p.holes) {
        told.answer = 54;
        return told;
    }
    if (p.holes == 0 && p.kept != 0) /* nothing to look for a second time */
        memcpy(out, stream, stream_len);
    else if (many)
        walk_many(&table, stream, stream_len, out, changes);
    else
        walk_stream(&table, stream, stream_len, out, changes, false);
    told.kept = p.kept;
    told.dropped = stream_len - p.kept;
    told.changes = OLLSKUVAN_CHANGE_ENTRY * p.holes;
    return told;
}
