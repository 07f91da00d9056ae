/*
 * The drains that the bench compares. All have the signature of
 * ollskuvan_drain, so that one table of them can be timed and compared.
 */
#ifndef BENCH_DRAINS_H
#define BENCH_DRAINS_H

#include "ollskuvan.h"

typedef struct ollskuvan_drained drain_function(const uint8_t *ring, size_t ring_len, uint64_t head, uint64_t tail,
    uint64_t sample_type, uint64_t read_format, uint32_t sample_id_all, uint64_t user_mask, uint64_t interrupt_mask,
    uint64_t branch_sample_type, uint32_t edition, uint64_t budget, uint8_t *scratch, size_t scratch_len,
    uint8_t *journal, size_t journal_len);

/* careful.c: all that the drain does, every stop tested at every record. */
drain_function careful_drain;

/* careful.c: the same answers; the stops that cannot change during a drain
 * (1, 2, 4, 5) are tested once. */
drain_function careful_once_drain;

/* With a table of events: the signature of ollskuvan_drain_events. */
typedef struct ollskuvan_drained events_function(const uint8_t *ring, size_t ring_len, uint64_t head, uint64_t tail,
    const struct ollskuvan_event *events, size_t event_count, uint32_t edition, uint64_t budget,
    uint8_t *scratch, size_t scratch_len, uint8_t *journal, size_t journal_len);

/* careful.c: every stop tested at every record, 11 once. */
events_function careful_drain_events;

/* careful_replay.c: all that ollskuvan_replay does, and its signature. */
typedef struct ollskuvan_replayed replay_function(const uint8_t *trace, size_t trace_len, uint64_t start,
    const struct ollskuvan_event *events, size_t event_count, uint32_t edition, uint8_t *rooms, size_t rooms_len,
    uint8_t *journal, size_t journal_len);
replay_function careful_replay;

/* careful_salvage.c: all that ollskuvan_salvage does, and its signature. */
typedef struct ollskuvan_salvaged salvage_function(const uint8_t *stream, size_t stream_len,
    const struct ollskuvan_event *events, size_t event_count, uint32_t edition, uint8_t *out, size_t out_len,
    uint8_t *changes, size_t changes_len);
salvage_function careful_salvage;

/* floor.c: trusts every size and looks at no body. */
drain_function floor_drain;

#ifdef WITH_OTHER
/* other.rs: Debian's linux-perf-event-reader parses each record. */
drain_function other_drain;
/* The same, and for each record that crate's "common data" too. */
drain_function other_read;
#endif

#endif
