/*
 * The bench: first that the drains agree, then what they cost.
 *
 *   bench compare [RINGS [SEED]]   careful C and ollskuvan_drain on the same sound and damaged rings
 *   bench tables [RINGS [SEED]]    the same with a table of events
 *   bench walks [RINGS [SEED]]     walks of backward rings, without a table and with one
 *   bench time [ROUNDS]            the three workloads, interleaved
 *   bench sizes [ROUNDS]           the cost of a record in rings of 64 bytes to 1 MiB
 *   bench values [ROUNDS]          the cost of ollskuvan_read and ollskuvan_write
 *   bench mixes [ROUNDS]           rings of 1 to 1,024 events with their table; and drains of one record and of none
 *   bench kinds [DRAIN]            every kind of ring: that the drains agree; with a name, two drains of each for callgrind
 *   bench table-kinds [DRAIN]      the same with a table of events
 *   bench stores [STORES [SEED]]   careful C and ours on the same stores of settings, sound and damaged
 *   bench store-times [ROUNDS]     the cost of reading and writing a store
 *   bench store WHOSE CALL EVENTS  one read or write of a store, for callgrind: careful or ours
 *   bench compare-replay [TRACES [SEED]]   careful C and ollskuvan_replay on the same traces
 *   bench replay [ROUNDS]          the cost of playing a trace
 *   bench replay-once WHOSE        one play, for callgrind; prints the number of records
 *   bench compare-salvage [STREAMS [SEED]]   careful C and ollskuvan_salvage on the same damaged streams
 *   bench salvage [ROUNDS]         the cost of salvage: sound, torn, and the worst case, headers that claim 65,528 bytes
 *   bench compare-rings [RINGS [SEED]]   ollskuvan_compare on rings and their copies, one byte changed or none
 *   bench rings [ROUNDS]           the cost of comparing two rings that are alike, beside reading both
 *   bench rings-once WHAT NUMBER   rings of a workload, alike but for ignored bytes, for callgrind: compare, read or drain
 *   bench salvage-once WHOSE STREAM   one salvage, for callgrind; prints the stream's words of 8 bytes
 *   bench check WHOSE NUMBER       record check of each record of a workload, for callgrind: careful or ours
 *   bench reads [RINGS [SEED]]     careful C and ollskuvan_read on the records of the same rings
 *   bench read WHOSE WHAT          ollskuvan_read or careful C's of each record of a workload, or of one record of a type, for callgrind
 *   bench writes [RINGS [SEED]]    careful C and ollskuvan_write on the values of the same rings' records
 *   bench write WHOSE WHAT         ollskuvan_write or careful C's of the values of a workload, or of one record of a type, for callgrind
 *   bench ones-list                the names that `read` and `write` take
 *   bench once DRAIN WORKLOAD [BUDGET]   one drain, for callgrind; prints the number of records; 0: of an empty ring
 *   bench list                     the names that `once` takes
 */
#include "bench.h"
#include "kinds.h"
#include "stores.h"
#include "values.h"
#include "walks.h"
#include "writes.h"

#include <errno.h>
#include <stdlib.h>
#include <string.h>

static struct ollskuvan_drained memcpy_drain(const uint8_t *ring, size_t ring_len, uint64_t head, uint64_t tail,
    uint64_t sample_type, uint64_t read_format, uint32_t sample_id_all, uint64_t user_mask, uint64_t interrupt_mask,
    uint64_t branch_sample_type, uint32_t edition, uint64_t budget, uint8_t *scratch, size_t scratch_len,
    uint8_t *journal, size_t journal_len)
{
    (void)sample_type, (void)read_format, (void)sample_id_all, (void)user_mask, (void)interrupt_mask,
        (void)branch_sample_type;
    (void)edition, (void)budget, (void)journal, (void)journal_len;
    memcpy(scratch, ring, ring_len < scratch_len ? ring_len : scratch_len);
    __asm__ volatile("" : : "r"(scratch) : "memory"); /* the copy is wanted, though nobody reads it */
    return (struct ollskuvan_drained){ .taken = 0, .bytes = head - tail, .tail = head, .stop = 0 };
}

const struct contender contenders[] = {
    [CAREFUL] = { "careful", "careful C, every stop at every record", careful_drain, careful_drain_events },
    [CAREFUL_ONCE] = { "careful-once", "careful C, stops 1, 2, 4, 5 once", careful_once_drain, NULL },
    [OURS] = { "ours", "ollskuvan_drain", ollskuvan_drain, ollskuvan_drain_events },
    { "floor", "floor: trusts sizes, no body", floor_drain, NULL },
#ifdef WITH_OTHER
    { "other", "linux-perf-event-reader, parse", other_drain, NULL },
#endif
    { "memcpy", "memcpy of the bytes", memcpy_drain, NULL },
};
const size_t contender_count = sizeof contenders / sizeof contenders[0];

void *grab(size_t bytes)
{
    void *memory = calloc(bytes == 0 ? 1 : bytes, 1);
    if (memory == NULL) {
        fprintf(stderr, "bench: out of memory\n");
        exit(1);
    }
    return memory;
}

struct ollskuvan_drained run_drain(drain_function *drain, const struct made_ring *ring, uint8_t *scratch, uint8_t *journal)
{
    const struct made_attributes *a = &ring->attributes;
    return drain(ring->length == 0 ? NULL : ring->bytes, ring->length, ring->head, ring->tail, a->sample_type,
        a->read_format, a->sample_id_all, a->user_mask, a->interrupt_mask, a->branch_sample_type, ring->edition,
        ring->budget, ring->scratch_length == 0 ? NULL : scratch, ring->scratch_length, ring->journal_length == 0 ? NULL : journal,
        ring->journal_length);
}

struct ollskuvan_drained run_events(events_function *drain, const struct made_ring *ring, uint8_t *scratch, uint8_t *journal)
{
    return drain(ring->length == 0 ? NULL : ring->bytes, ring->length, ring->head, ring->tail,
        ring->event_count == 0 ? NULL : ring->events, ring->event_count, ring->edition, ring->budget,
        ring->scratch_length == 0 ? NULL : scratch, ring->scratch_length, ring->journal_length == 0 ? NULL : journal,
        ring->journal_length);
}

/* ---- one drain, for callgrind ---- */

static int list_names(void)
{
    for (size_t k = 0; k < contender_count; k++)
        printf("drain %s\n", contenders[k].name);
    for (size_t k = 0; k < WALKERS; k++)
        printf("walk %s\n", walkers[k].name);
    for (unsigned which = 0; which < MADE_WORKLOADS; which++)
        printf("workload %s\n", made_workload_names[which]);
    printf("workload empty\n");
    for (unsigned which = 0; which < MADE_MIXES; which++)
        printf("mix %s\n", made_mixes[which].name);
    return list_streams();
}

static int run_once(const char *drain, const char *workload, uint64_t budget)
{
    struct made_ring ring = { .bytes = grab(MADE_RING_MAX), .events = grab(MADE_EVENTS_MAX * sizeof *ring.events) };
    bool known = false, mixed = false;
    for (unsigned which = 0; which < MADE_MIXES; which++)
        if (strcmp(workload, made_mixes[which].name) == 0) {
            made_table_fill(&made_mixes[which], MIB, &ring);
            known = mixed = true;
        }
    for (unsigned which = 0; which < MADE_WORKLOADS; which++)
        if (strcmp(workload, made_workload_names[which]) == 0) {
            made_fill(which, MIB, &ring);
            known = true;
        }
    if (strcmp(workload, "empty") == 0) { /* what a call costs before the first record */
        made_fill(MADE_FAT_SAMPLES, MIB, &ring);
        ring.tail = ring.head;
        known = true;
    }
    const struct contender *found = NULL;
    for (size_t k = 0; k < contender_count; k++)
        if (strcmp(drain, contenders[k].name) == 0)
            found = &contenders[k];
    for (size_t k = 0; k < WALKERS; k++)
        if (strcmp(drain, walkers[k].name) == 0)
            found = &walkers[k];
    if (!known || found == NULL || (mixed && found->events == NULL)) {
        fprintf(stderr, "bench: no such drain or workload: %s, %s (see: bench list)\n", drain, workload);
        free(ring.events);
        free(ring.bytes);
        return 2;
    }
    if (budget == 0)
        ring.tail = ring.head;
    ring.budget = budget;
    uint8_t *scratch = grab(ring.scratch_length), *journal = grab(ring.journal_length);
    struct ollskuvan_drained done =
        mixed ? run_events(found->events, &ring, scratch, journal) : run_drain(found->drain, &ring, scratch, journal);
    printf("records %llu bytes %llu stop %u\n", (unsigned long long)done.taken, (unsigned long long)done.bytes, done.stop);
    free(scratch);
    free(journal);
    free(ring.events);
    free(ring.bytes);
    return 0;
}

/* ---- arguments ---- */

static uint64_t number(const char *text, uint64_t least, uint64_t most)
{
    char *end;
    errno = 0;
    unsigned long long n = strtoull(text, &end, 10);
    if (errno != 0 || end == text || *end != '\0' || *text == '-' || n < least || n > most) {
        fprintf(stderr, "bench: not a number from %llu to %llu: %s\n", (unsigned long long)least, (unsigned long long)most,
            text);
        exit(2);
    }
    return n;
}

static int usage(void)
{
    fprintf(stderr, "usage: bench compare [RINGS [SEED]] | tables [RINGS [SEED]] | walks [RINGS [SEED]] | time [ROUNDS] | mixes [ROUNDS] | sizes [ROUNDS] | values [ROUNDS]\n"
                    "       bench once DRAIN WORKLOAD [BUDGET] | kinds [DRAIN] | table-kinds [DRAIN] | list\n"
                    "       bench stores [STORES [SEED]] | store-times [ROUNDS] | store WHOSE CALL EVENTS\n"
                    "       bench compare-replay [TRACES [SEED]] | replay [ROUNDS] | replay-once WHOSE [CALLS]\n"
                    "       bench compare-salvage [STREAMS [SEED]] | salvage [ROUNDS] | salvage-once WHOSE STREAM [CALLS]\n"
                    "       bench reads [RINGS [SEED]] | read WHOSE WHAT | writes [RINGS [SEED]] | write WHOSE WHAT | ones-list\n"
                    "       bench compare-rings [RINGS [SEED]] | rings [ROUNDS] | rings-once WHAT NUMBER\n");
    return 2;
}

int main(int argc, char **argv)
{
    const char *mode = argc > 1 ? argv[1] : "";
    if (strcmp(mode, "compare") == 0 && argc <= 4)
        return compare(argc > 2 ? number(argv[2], 1, UINT64_MAX) : 20000, argc > 3 ? number(argv[3], 0, UINT64_MAX) : 1);
    if (strcmp(mode, "tables") == 0 && argc <= 4)
        return compare_tables(argc > 2 ? number(argv[2], 1, UINT64_MAX) : 10000, argc > 3 ? number(argv[3], 0, UINT64_MAX) : 1);
    if (strcmp(mode, "stores") == 0 && argc <= 4)
        return compare_stores(argc > 2 ? number(argv[2], 1, UINT64_MAX) : 10000, argc > 3 ? number(argv[3], 0, UINT64_MAX) : 1);
    if (strcmp(mode, "store") == 0 && argc == 5)
        return run_store(argv[2], argv[3], number(argv[4], 1, OLLSKUVAN_EVENTS_MAX));
    if (strcmp(mode, "compare-replay") == 0 && argc <= 4)
        return compare_replay(argc > 2 ? number(argv[2], 1, UINT64_MAX) : 2000, argc > 3 ? number(argv[3], 0, UINT64_MAX) : 1);
    if (strcmp(mode, "replay-once") == 0 && (argc == 3 || argc == 4))
        return run_replays(argv[2], argc > 3 ? number(argv[3], 1, 1000) : 1);
    if (strcmp(mode, "walks") == 0 && argc <= 4)
        return compare_walks(argc > 2 ? number(argv[2], 1, UINT64_MAX) : 10000, argc > 3 ? number(argv[3], 0, UINT64_MAX) : 1);
    if (strcmp(mode, "compare-salvage") == 0 && argc <= 4)
        return compare_salvage(argc > 2 ? number(argv[2], 1, UINT64_MAX) : 5000, argc > 3 ? number(argv[3], 0, UINT64_MAX) : 1);
    if (strcmp(mode, "compare-rings") == 0 && argc <= 4)
        return compare_rings(argc > 2 ? number(argv[2], 1, UINT64_MAX) : 2000, argc > 3 ? number(argv[3], 0, UINT64_MAX) : 1);
    if (strcmp(mode, "rings-once") == 0 && argc == 4)
        return run_rings(argv[2], (unsigned)number(argv[3], 0, MADE_WORKLOADS - 1));
    if (strcmp(mode, "salvage-once") == 0 && (argc == 4 || argc == 5))
        return run_salvages(argv[2], argv[3], argc > 4 ? number(argv[4], 1, 1000) : 1);
    if (strcmp(mode, "once") == 0 && (argc == 4 || argc == 5))
        return run_once(argv[2], argv[3], argc > 4 ? number(argv[4], 0, UINT64_MAX) : UINT64_MAX);
    if (strcmp(mode, "check") == 0 && argc == 4)
        return run_checks(argv[2], (enum made_workload)number(argv[3], 0, MADE_WORKLOADS - 1));
    if (strcmp(mode, "reads") == 0 && argc <= 4)
        return compare_reads(argc > 2 ? number(argv[2], 1, UINT64_MAX) : 10000, argc > 3 ? number(argv[3], 0, UINT64_MAX) : 1);
    if (strcmp(mode, "ones-list") == 0 && argc == 2)
        return list_ones();
    if (strcmp(mode, "read") == 0 && argc == 4)
        return run_reads(argv[2], argv[3]);
    if (strcmp(mode, "writes") == 0 && argc <= 4)
        return compare_writes(argc > 2 ? number(argv[2], 1, UINT64_MAX) : 10000, argc > 3 ? number(argv[3], 0, UINT64_MAX) : 1);
    if (strcmp(mode, "write") == 0 && argc == 4)
        return run_writes(argv[2], argv[3]);
    if (strcmp(mode, "kinds") == 0 && argc <= 3)
        return argc > 2 ? run_kinds(argv[2], false) : compare_kinds();
    if (strcmp(mode, "table-kinds") == 0 && argc <= 3)
        return argc > 2 ? run_kinds(argv[2], true) : compare_table_kinds();
    if (strcmp(mode, "list") == 0 && argc == 2)
        return list_names();
    if (argc > 3)
        return usage();
    size_t rounds = argc > 2 ? (size_t)number(argv[2], 4, 100000) : 0;
    if (strcmp(mode, "time") == 0)
        return time_workloads(rounds != 0 ? rounds : 1000);
    if (strcmp(mode, "sizes") == 0)
        return time_sizes(rounds != 0 ? rounds : 200);
    if (strcmp(mode, "mixes") == 0)
        return time_tables(rounds != 0 ? rounds : 300);
    if (strcmp(mode, "store-times") == 0)
        return time_stores(rounds != 0 ? rounds : 100);
    if (strcmp(mode, "replay") == 0)
        return time_replay(rounds != 0 ? rounds : 100);
    if (strcmp(mode, "salvage") == 0)
        return time_salvage(rounds != 0 ? rounds : 20);
    if (strcmp(mode, "rings") == 0)
        return time_rings(rounds != 0 ? rounds : 20);
    if (strcmp(mode, "values") == 0)
        return time_values(rounds != 0 ? rounds : 100);
    return usage();
}
