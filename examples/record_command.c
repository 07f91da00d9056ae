/*
 * A controller's reading loop: one ring a cpu, drained in small budgets between
 * two heating steps.
 *
 * It opens the switches, names, forks and exits of each cpu (and mappings with
 * build ids: of everyone, or of PROGRAM and its children), drains the rings through
 * libollskuvan.a, handles every stop, hands back each tail, and names what is
 * refused. With --events more events write into the same ring, and it is drained
 * with a table of all of them. With --save nothing is drained until the end; the
 * rings are then written as images that the report takes. With --settings it starts
 * from a store of settings, and keeps in it what it was started with. With --trace
 * what the kernel wrote and each drain go to a file too, which ollskuvan replay plays
 * again. With --flight the rings are written backward, over their oldest records,
 * until a signal comes or a step runs late: then they are paused, walked and saved.
 */
#define _GNU_SOURCE
#include <getopt.h>
#include <stdio.h>
#include <stdlib.h>
#include <string.h>

#include "again.h"
#include "arguments.h"
#include "bytes.h"
#include "commands.h"
#include "events.h"
#include "file.h"
#include "flight.h"
#include "kept.h"
#include "live.h"
#include "memory.h"
#include "messages.h"
#include "names.h"
#include "ollskuvan.h"
#include "readers.h"
#include "trace.h"

enum { BUDGET_MAX = KEPT_BUDGET_MAX, REFUSALS_SHOWN = 20, PATH_ROOM = 512, STOPS = 14, REFUSALS = 64, TURNS = 64 };

struct options {
    struct live_want want;
    uint64_t budget;
    const char *save; /* with --flight too */
    const char *settings; /* the store that it keeps them in */
    const char *trace;
    bool again; /* each ring's drains once more, as one */
    uint64_t report; /* records that a second reader takes a look; 0: there is none */
};

struct controller {
    struct options options;
    struct live live;
    struct names names;
    bool broken; /* a stop that is this program's own fault */
    bool *full;  /* by ring: said already */
    struct again *again; /* by ring */
    struct again_sums compared;
    struct readers *readers; /* by ring: with --report */
    struct trace *traces;    /* by ring: with --trace */
    uint8_t scratch[OLLSKUVAN_RECORD_MAX]; /* so stop 3 cannot be */
    uint8_t journal[BUDGET_MAX * OLLSKUVAN_JOURNAL_ENTRY];
    /* what it saw */
    uint64_t taken, bytes, drains, gaps, skipped, longest_ns, refused; /* skipped: bytes of the gaps, but for those at stop 4 */
    uint64_t by_kind[OLLSKUVAN_KIND_OTHER + 1u], by_refusal[REFUSALS], by_stop[STOPS];
    uint64_t by_event[OLLSKUVAN_EVENTS_MAX]; /* the tables of all rings have the same order */
};

/* ---- the loop ---- */

static void look_at_entry(struct controller *c, const struct perf_ring *ring, const uint8_t *entry)
{
    unsigned kind = (unsigned)little(entry + OLLSKUVAN_JOURNAL_KIND, 2);
    unsigned answer = (unsigned)little(entry + OLLSKUVAN_JOURNAL_ANSWER, 2);
    c->by_kind[kind]++;
    if (answer == OLLSKUVAN_OK)
        return;
    c->by_refusal[answer < REFUSALS ? answer : 0]++;
    if (c->refused++ < REFUSALS_SHOWN)
        printf("cpu %d: refused %s (type %u) at tail %llu: %u, %s\n", ring->cpu, ollskuvan_type_name(kind), kind,
            (unsigned long long)little(entry + OLLSKUVAN_JOURNAL_TAIL, 8), answer, ollskuvan_refusal_text(answer));
    else if (c->refused == REFUSALS_SHOWN + 1)
        printf("further refusals are counted only\n");
}

/* Which event wrote a record: by the identifier in its value. */
static void count_event(struct controller *c, const struct perf_ring *ring, uint64_t head, const uint8_t *entry)
{
    uint64_t fields[OLLSKUVAN_FIELDS];
    if (little(entry + OLLSKUVAN_JOURNAL_ANSWER, 2) != OLLSKUVAN_OK)
        return;
    ollskuvan_read_one_events(ring->bytes, ring->length, head, little(entry + OLLSKUVAN_JOURNAL_TAIL, 8), ring->table.events,
        ring->table.count, ring->attributes.edition, c->scratch, sizeof c->scratch, fields, OLLSKUVAN_FIELDS);
    size_t event = event_of(&ring->table, fields);
    if (event < ring->table.count)
        c->by_event[event]++;
}

/* The tail to hand back. A stop that no later call can get past would hold the
 * ring for ever, so what lies between is given up and counted. */
static uint64_t tail_after(struct controller *c, const struct perf_ring *ring, uint64_t head,
    const struct ollskuvan_drained *done)
{
    char text[GAP_TEXT];
    switch (done->stop) {
    case OLLSKUVAN_STOP_NOTHING:
    case OLLSKUVAN_STOP_BUDGET:  /* the next call goes on */
    case OLLSKUVAN_STOP_JOURNAL: /* the journal is read by now: the next call goes on */
        return done->tail;
    case OLLSKUVAN_STOP_DISTANCE:
    case OLLSKUVAN_STOP_ALIGNMENT:
    case OLLSKUVAN_STOP_SIZE:
    case OLLSKUVAN_STOP_PAST_HEAD:
        printf("cpu %d: stop %u at tail %llu: %s; given up: %s\n", ring->cpu, done->stop, (unsigned long long)done->tail,
            ollskuvan_stop_text(done->stop), gap_text(done->stop, head - done->tail, text));
        c->gaps++;
        c->skipped += done->stop != OLLSKUVAN_STOP_DISTANCE ? head - done->tail : 0;
        return head;
    default: /* 1, 2, 3, 11: this program is set up wrongly, and no ring can mend it */
        complain("cpu %d: stop %u: %s", ring->cpu, done->stop, ollskuvan_stop_text(done->stop));
        c->broken = true;
        return done->tail;
    }
}

static struct ollskuvan_drained drain(struct controller *c, const struct perf_ring *ring, uint64_t head, uint64_t tail)
{
    const struct ring_attributes *a = &ring->attributes;
    if (ring->table.count != 0)
        return ollskuvan_drain_events(ring->bytes, ring->length, head, tail, ring->table.events, ring->table.count, a->edition,
            c->options.budget, c->scratch, sizeof c->scratch, c->journal, sizeof c->journal);
    return ollskuvan_drain(ring->bytes, ring->length, head, tail, a->sample_type, a->read_format,
        a->sample_id_all, a->user_mask, a->interrupt_mask, a->branch_sample_type, a->edition, c->options.budget, c->scratch,
        sizeof c->scratch, c->journal, sizeof c->journal);
}

/* One drain. True if there may be more. */
static bool drain_some(struct controller *c, const struct perf_ring *ring)
{
    uint64_t head = perf_ring_head(ring), tail = perf_ring_tail(ring), began = now_ns();
    struct ollskuvan_drained done = drain(c, ring, head, tail);
    uint64_t took = now_ns() - began;
    c->longest_ns = took > c->longest_ns ? took : c->longest_ns;
    c->drains++;
    c->taken += done.taken;
    c->bytes += done.bytes;
    if (done.stop < STOPS) /* there is no other */
        c->by_stop[done.stop]++;
    for (uint64_t i = 0; i < done.taken; i++) {
        look_at_entry(c, ring, c->journal + i * OLLSKUVAN_JOURNAL_ENTRY);
        if (ring->table.count != 0)
            count_event(c, ring, head, c->journal + i * OLLSKUVAN_JOURNAL_ENTRY);
    }
    if (c->options.again)
        again_follow(&c->again[ring - c->live.rings], &c->compared, ring, head, tail, &done, c->journal);
    if (c->options.trace != NULL)
        trace_follow(&c->traces[ring - c->live.rings], ring, head, c->options.budget, &done, c->journal);
    perf_ring_give_back(ring, tail_after(c, ring, head, &done));
    return !c->broken && (done.stop == OLLSKUVAN_STOP_BUDGET || done.stop == OLLSKUVAN_STOP_JOURNAL);
}

/* A ring may fill as fast as it is drained: after some turns the next one is looked at. */
static void drain_ring(struct controller *c, const struct perf_ring *ring, unsigned turns)
{
    for (unsigned turn = 0; turn < turns && drain_some(c, ring); turn++)
        ;
}

/* ---- two readers of each ring: the logger, then the report ---- */

static void serve_ring(struct controller *c, size_t i, unsigned turns, uint64_t report)
{
    struct readers *r = &c->readers[i];
    if (readers_turn(r, &c->live.rings[i], turns, c->options.budget, report))
        return;
    complain("cpu %d: the logger stopped with %u, the report with %u; the kernel's tail: %u, %s", c->live.rings[i].cpu, r->logger.stop,
        r->report.stop, r->refused, ollskuvan_stop_text(r->refused));
    c->broken = true;
}

static void serve_all(struct controller *c, unsigned turns)
{
    for (size_t i = 0; i < c->live.count && !c->broken; i++)
        serve_ring(c, i, turns, c->options.report);
}

/* The events are stopped: both take the rest. */
static void serve_the_rest(struct controller *c)
{
    for (size_t i = 0; i < c->live.count; i++)
        while (!c->broken && !readers_even(&c->readers[i], &c->live.rings[i]))
            serve_ring(c, i, UINT32_MAX, READER_BUDGET_MAX);
}

static void print_readers(const struct controller *c)
{
    uint64_t logger = 0, report = 0, lost[2] = { 0, 0 }, held = 0, furthest = 0, delayed = 0;
    bool alike = true;
    for (size_t i = 0; i < c->live.count; i++) {
        const struct readers *r = &c->readers[i];
        logger += r->logger.taken;
        report += r->report.taken;
        lost[0] += r->logger.lost;
        lost[1] += r->report.lost;
        held += r->held;
        furthest = r->furthest > furthest ? r->furthest : furthest;
        delayed += r->delayed;
        alike = alike && r->logger.sum == r->report.sum;
    }
    printf("logger: %llu %s, %llu told as lost; report: %llu %s, %llu told as lost; told %s\n", (unsigned long long)logger, plural(logger, "record", "records"),
        (unsigned long long)lost[0], (unsigned long long)report, plural(report, "record", "records"), (unsigned long long)lost[1],
        alike ? "the same" : "something else");
    printf("the report held the kernel's tail back %llu %s, by up to %llu bytes; the logger waited for it %llu times\n",
        (unsigned long long)held, plural(held, "time", "times"), (unsigned long long)furthest, (unsigned long long)delayed);
}

/* What is kept of the drains, compared; and where they gave something else it is said. */
static void compare_all(struct controller *c)
{
    for (size_t i = 0; i < c->live.count && c->options.again; i++) {
        again_compare(&c->again[i], &c->compared, &c->live.rings[i]);
        again_free(&c->again[i]);
    }
}

static void drain_all(struct controller *c, unsigned turns)
{
    for (size_t i = 0; i < c->live.count && !c->broken; i++)
        drain_ring(c, &c->live.rings[i], turns);
}

/* A ring that is saved is not drained: once it is full, what follows is lost. */
static void look_at_room(struct controller *c)
{
    uint64_t held = 0;
    for (size_t i = 0; i < c->live.count; i++) {
        const struct perf_ring *ring = &c->live.rings[i];
        uint64_t head = perf_ring_head(ring), tail = perf_ring_tail(ring);
        held += head - tail;
        if (!c->full[i] && ring_is_full(ring->length, head, tail)) {
            c->full[i] = true;
            complain("cpu %d: the ring is full after %.1f s: what follows there is lost%s", ring->cpu,
                (double)(now_ns() - c->live.began) / 1e9, c->options.want.pages < PAGES_MAX ? " (more --pages hold more)" : "");
        }
    }
    progress_in("recording", held, "byte", "bytes");
}

static void look(void *context)
{
    struct controller *c = context;
    if (c->options.want.backward) {
        return; /* it runs over itself: there is nothing to look at until it is paused */
    } else if (c->options.save != NULL) {
        look_at_room(c);
    } else if (c->options.report != 0) {
        serve_all(c, TURNS);
    } else {
        drain_all(c, TURNS);
        progress_in("recording", c->taken, "record", "records");
    }
}

/* ---- saving ---- */

static bool path_for(char path[PATH_ROOM], const char *name, const char *end, const char *option)
{
    int length = snprintf(path, PATH_ROOM, "%s%s", name, end);
    if (length >= 0 && length < PATH_ROOM)
        return true;
    complain("%s: the name is too long", option);
    return false;
}

/* The option that named the files. */
static const char *save_option(const struct controller *c)
{
    return c->options.want.backward ? "--flight" : "--save";
}

/* Before anything is recorded: whether it can be saved. An older recording of that name stays until then. */
static bool may_save(const struct controller *c)
{
    char path[PATH_ROOM], why[WHY_ROOM];
    if (!path_for(path, c->options.save, "-names.txt", save_option(c)))
        return false;
    if (file_replaceable(path, why))
        return true;
    complain("%s: %s", path, why);
    return false;
}

static bool save_names(const struct controller *c)
{
    char path[PATH_ROOM], why[WHY_ROOM];
    if (!path_for(path, c->options.save, "-names.txt", save_option(c)))
        return false;
    if (names_save(&c->names, path, why))
        return true;
    complain("%s: %s", path, why);
    return false;
}

static bool save_ring(const struct controller *c, size_t number)
{
    const struct perf_ring *ring = &c->live.rings[number];
    char path[PATH_ROOM], why[WHY_ROOM], end[32];
    snprintf(end, sizeof end, "-cpu%d.img", ring->cpu);
    if (!path_for(path, c->options.save, end, save_option(c)))
        return false;
    uint64_t head = perf_ring_head(ring), tail = perf_ring_tail(ring);
    if (!ring_image_save(path, &ring->attributes, head, tail, ring->bytes, ring->length, why) ||
        !event_table_save(&ring->table, path, why)) {
        complain("%s: %s", path, why);
        return false;
    }
    printf("saved %s: a ring of %zu bytes, %llu of them to read%s%s\n", path, ring->length, (unsigned long long)(head - tail),
        ring->length > RINGDUMP_RING_MAX ? " (longer than ringdump takes)"
            : ring->attributes.branch_sample_type != 0 ? " (with a branch sample type, which ringdump does not take)" : "",
        c->full[number] ? "; it is full" : "");
    return true;
}

static bool save_all(struct controller *c)
{
    bool saved = true;
    names_from_proc(&c->names, true);
    look_at_room(c);
    for (size_t i = 0; i < c->live.count; i++)
        saved = save_ring(c, i) && saved;
    saved = save_names(c) && saved;
    if (saved)
        printf("saved %s-names.txt: the names of threads, for --names of the report\n", c->options.save);
    return saved;
}

/* ---- traces ---- */

static bool begin_trace(struct controller *c, size_t number)
{
    const struct perf_ring *ring = &c->live.rings[number];
    char path[PATH_ROOM], why[WHY_ROOM], end[32];
    snprintf(end, sizeof end, "-cpu%d.trace", ring->cpu);
    if (!path_for(path, c->options.trace, end, "--trace"))
        return false;
    if (trace_begin(&c->traces[number], path, ring, why))
        return true;
    complain("%s: %s", path, why);
    return false;
}

static bool begin_traces(struct controller *c)
{
    c->traces = must(calloc(c->live.count + 1, sizeof *c->traces));
    for (size_t i = 0; i < c->live.count && c->options.trace != NULL; i++)
        if (!begin_trace(c, i))
            return false;
    return true;
}

/* What a replay has to be told beside the trace: the ring's length, the edition and where it began. */
static void print_trace(const struct trace *t, const struct perf_ring *ring)
{
    printf("saved %s: %llu %s and %llu %s; play it with --ring %zu --edition %u --start %llu\n", t->path,
        (unsigned long long)t->records, plural(t->records, "record", "records"), (unsigned long long)t->drains,
        plural(t->drains, "drain", "drains"), ring->length, ring->attributes.edition, (unsigned long long)t->start);
}

static bool end_traces(struct controller *c)
{
    bool written = true;
    for (size_t i = 0; i < c->live.count && c->options.trace != NULL; i++) {
        struct trace *t = &c->traces[i];
        char why[WHY_ROOM];
        if (!trace_close(t, why)) {
            complain("%s: %s", t->path, why);
            written = false;
        } else {
            print_trace(t, &c->live.rings[i]);
        }
        if (t->ended)
            complain("%s: it ends early: a header in the ring was no record's, or the ring's head no count of it", t->path);
    }
    return written;
}

/* ---- flight recorders ---- */

/* All that the ring holds is counted as drained records are. */
static void count_flight(struct controller *c, const struct perf_ring *ring, const struct flight *flight)
{
    c->taken += flight->walked.taken;
    c->bytes += flight->walked.bytes;
    if (flight->walked.stop < STOPS) /* there is no other */
        c->by_stop[flight->walked.stop]++;
    for (uint64_t i = 0; i < flight->walked.taken; i++) {
        look_at_entry(c, ring, flight_entry(flight, i));
        if (ring->table.count != 0)
            count_event(c, ring, flight->end, flight_entry(flight, i));
    }
}

static bool save_flight(struct controller *c, const struct perf_ring *ring)
{
    uint64_t head = perf_ring_head(ring);
    struct flight flight = flight_walk(&ring->attributes, &ring->table, ring->bytes, ring->length, head);
    char path[PATH_ROOM], why[WHY_ROOM], end[32];
    snprintf(end, sizeof end, "-cpu%d.img", ring->cpu);
    count_flight(c, ring, &flight);
    free(flight.journal);
    if (!path_for(path, c->options.save, end, save_option(c)))
        return false;
    if (!ring_image_save(path, &ring->attributes, head, perf_ring_tail(ring), ring->bytes, ring->length, why) ||
        !event_table_save(&ring->table, path, why)) {
        complain("%s: %s", path, why);
        return false;
    }
    printf("saved %s: a backward ring of %zu bytes, %llu %s, stop %u: %s\n", path, ring->length,
        (unsigned long long)flight.walked.taken, plural(flight.walked.taken, "record", "records"), flight.walked.stop,
        flight.walked.stop == OLLSKUVAN_STOP_NOTHING ? (flight.round ? "the whole length" : "it has not gone round")
            : ollskuvan_stop_text(flight.walked.stop));
    if (!flight_is_whole(flight.walked.stop))
        c->broken = true;
    return true;
}

static void say_end(const struct controller *c, enum live_end end)
{
    double after = (double)(c->live.ended - c->live.began) / 1e9;
    const char *why = end == LIVE_TIME ? "the time was over" : end == LIVE_PROGRAM ? "the program had ended" : "a signal came";
    if (end == LIVE_LATE)
        printf("paused after %.3f s: a step of %d ms came %.3f ms late\n", after, STEP_MS, (double)c->live.late / 1e6);
    else
        printf("paused after %.3f s: %s\n", after, why);
}

/* The rings are paused. A program that asked, or that was only looked at, runs on to its end. */
static int land(struct controller *c, enum live_end end)
{
    bool saved = true;
    say_end(c, end);
    names_from_proc(&c->names, true);
    for (size_t i = 0; i < c->live.count; i++)
        saved = save_flight(c, &c->live.rings[i]) && saved;
    saved = save_names(c) && saved;
    if (saved)
        printf("saved %s-names.txt: the names of threads, for --names of the report\n", c->options.save);
    fflush(stdout);
    if (end == LIVE_LATE || end == LIVE_ASKED)
        live_wait(&c->live);
    return saved && !c->broken ? STATUS_DONE : STATUS_FAILED;
}

/* ---- the end ---- */

static void print_kinds(const struct controller *c)
{
    for (unsigned kind = 0; kind <= OLLSKUVAN_KIND_OTHER; kind++)
        if (c->by_kind[kind] != 0)
            printf("  %-16s %11llu\n", ollskuvan_type_name(kind), (unsigned long long)c->by_kind[kind]);
}

static void print_events(const struct controller *c)
{
    const struct event_table *table = c->live.count != 0 ? &c->live.rings[0].table : NULL;
    for (size_t i = 0; table != NULL && i < table->count; i++)
        printf("  of event %-24s %11llu\n", table->names[i], (unsigned long long)c->by_event[i]);
}

static void print_counts(const char *what, const uint64_t *counts, unsigned most, const char *(*words)(uint32_t number))
{
    for (unsigned number = 0; number < most; number++)
        if (counts[number] != 0)
            printf("  %s %-2u %*llu  %s\n", what, number, (int)(24 - strlen(what)), (unsigned long long)counts[number], words(number));
}

static void summary(const struct controller *c)
{
    printf("%llu %s, %llu %s, in ", (unsigned long long)c->taken, plural(c->taken, "record", "records"), (unsigned long long)c->bytes,
        plural(c->bytes, "byte", "bytes"));
    if (c->options.want.backward)
        printf("%zu backward %s\n", c->live.count, plural(c->live.count, "ring", "rings"));
    else
        printf("%llu %s of at most %llu %s; the longest took %.1f us\n", (unsigned long long)c->drains,
            plural(c->drains, "drain", "drains"), (unsigned long long)c->options.budget, plural(c->options.budget, "record", "records"),
            (double)c->longest_ns / 1000);
    print_kinds(c);
    print_events(c);
    print_counts("stop", c->by_stop, STOPS, ollskuvan_stop_text);
    print_counts("refused with", c->by_refusal, REFUSALS, ollskuvan_refusal_text);
    if (c->options.again)
        printf("  once more: %llu %s in %llu %s, one for what fits the ring; %llu gave something else\n",
            (unsigned long long)c->compared.records, plural(c->compared.records, "record", "records"),
            (unsigned long long)c->compared.drains, plural(c->compared.drains, "drain", "drains"),
            (unsigned long long)c->compared.differences);
    if (c->gaps != 0)
        printf("  given up: %llu %s, %llu %s but for what stop 4 gave up\n", (unsigned long long)c->gaps, plural(c->gaps, "gap", "gaps"),
            (unsigned long long)c->skipped, plural(c->skipped, "byte", "bytes"));
}

/* ---- set-up ---- */

static void usage(FILE *out)
{
    fprintf(out,
        "usage: %s [OPTION..] [-- PROGRAM ARG..]\n"
        "Reads live rings, one a cpu, and counts what they hold; or saves them.\n"
        "  --seconds S   how long (2); with PROGRAM until it ends, and it is ended after S\n"
        "  --budget N    records of one drain (32; at most 4096)\n"
        "  --pages N     pages of a ring (4, with --save and --flight 256; a power of two up\n"
        "                to 256)\n"
        "  --cpu N       this cpu alone (all that are online)\n"
        "  --clock       samples of the cpu clock too\n"
        "  --branch N    samples of the cpu's cycles too, with the branches before each, by\n"
        "                this branch sample type (0x9: any of user code; 0x20000 more: the\n"
        "                hardware index, see the manual page); not with --clock\n"
        "  --events LIST events that sample too, in the same ring: cpu-clock, page-faults,\n"
        "                context-switches, cpu-migrations; with commas, each once\n"
        "  --edition N   what the reader knows: 1, 2, 3 or 4 (4)\n"
        "  --settings FILE\n"
        "                start from the budget, pages, edition and events that FILE keeps, but\n"
        "                for those given here, and keep in it what was started with\n"
        "  --report N    two readers of each ring: a logger that is served first, in\n"
        "                drains of --budget, and a report that takes N records a look\n"
        "  --again       drain what fits a ring once more, as one, and compare\n"
        "  --save NAME   drain nothing until the end, then write NAME-cpuN.img for each\n"
        "                ring, and NAME-names.txt; with --events NAME-cpuN.table too\n"
        "  --trace NAME  write NAME-cpuN.trace for each ring while it is drained: its records\n"
        "                and drains, which ollskuvan replay plays again; its table, and what\n"
        "                the drains took, in .trace.table and .trace.journal\n"
        "  --flight NAME flight recorders: rings that run over their oldest records. They are\n"
        "                paused and saved, as with --save, when SIGUSR1, SIGINT or SIGTERM\n"
        "                comes, when PROGRAM ends, after --seconds if they are given, or by\n"
        "                --late. PROGRAM runs on after SIGUSR1 and --late\n"
        "  --late MS     with --flight: when a step of the recorder's own, every 5 ms, comes\n"
        "                more than MS late\n"
        "  --help        this\n"
        "Exit status: 0 done; 1 something failed; 2 wrong arguments; 3 the kernel does\n"
        "not allow perf events.\n",
        own_name());
}

static bool take_option(void *options, int letter)
{
    struct options *o = options;
    unsigned long long n;
    double number;
    switch (letter) {
    case 's':
        return decimal_argument(optarg, "--seconds", 86400, &o->want.seconds);
    case 'b':
        if (!whole_argument(optarg, "--budget", 1, BUDGET_MAX, &n))
            return false;
        o->budget = n;
        return true;
    case 'p':
        return pages_argument(optarg, &o->want.pages);
    case 'c':
        if (!whole_argument(optarg, "--cpu", 0, 65535, &n))
            return false;
        o->want.cpu = (int)n;
        return true;
    case 'k':
        return o->want.clock = true;
    case 'r':
        return bits_argument(optarg, "--branch", &o->want.branch);
    case 'v':
        return counters_argument(optarg, &o->want.counters);
    case 'e':
        return edition_argument(optarg, &o->want.edition);
    case 'w':
    case 'f':
        if (o->save != NULL) {
            complain("one of --save and --flight is wanted, once");
            return false;
        }
        o->save = optarg;
        o->want.backward = letter == 'f';
        return true;
    case 'l':
        if (!decimal_argument(optarg, "--late", 3600000, &number))
            return false;
        o->want.late = (uint64_t)(number * 1e6);
        return true;
    case 't':
        if (strcmp(optarg, "-") == 0)
            complain("--settings: a file is wanted, not '-'");
        o->settings = optarg;
        return strcmp(optarg, "-") != 0;
    case 'x':
        o->trace = optarg;
        return o->want.table = true;
    case 'g':
        return o->again = true;
    case 'o':
        if (!whole_argument(optarg, "--report", 1, READER_BUDGET_MAX, &n))
            return false;
        o->report = n;
        return true;
    default:
        usage(stderr);
        return false;
    }
}

static bool read_options(struct options *o, int argc, char **argv, bool *help)
{
    static const struct option names[] = {
        { "seconds", 1, NULL, 's' }, { "budget", 1, NULL, 'b' }, { "pages", 1, NULL, 'p' }, { "cpu", 1, NULL, 'c' },
        { "clock", 0, NULL, 'k' }, { "branch", 1, NULL, 'r' }, { "events", 1, NULL, 'v' }, { "edition", 1, NULL, 'e' },
        { "save", 1, NULL, 'w' }, { "trace", 1, NULL, 'x' }, { "again", 0, NULL, 'g' }, { "report", 1, NULL, 'o' }, { "settings", 1, NULL, 't' },
        { "flight", 1, NULL, 'f' },
        { "late", 1, NULL, 'l' }, { "help", 0, NULL, 'h' }, { NULL, 0, NULL, 0 },
    };
    if (!each_option(argc, argv, names, take_option, o, help))
        return false;
    if (*help)
        return true;
    if (!kept_events_go(&o->want))
        return false;
    if (o->report != 0 && (o->save != NULL || o->again)) {
        complain("--report goes with none of --save, --flight and --again: each of the two readers drains by its own tail");
        return false;
    }
    if (o->want.backward && o->again) {
        complain("--again goes with drains, and a backward ring is not drained");
        return false;
    }
    if (o->want.late != 0 && !o->want.backward) {
        complain("--late goes with --flight: what shall be paused?");
        return false;
    }
    if (o->trace != NULL && (o->save != NULL || o->report != 0)) {
        complain("--trace goes with none of --save, --flight and --report: it is of one reader that drains while it records");
        return false;
    }
    o->want.program = optind < argc ? argv + optind : NULL;
    if (o->want.seconds == 0 && o->want.program == NULL && !o->want.backward)
        o->want.seconds = 2;
    return true;
}

/* ---- settings that are kept ---- */

/* What the store does not tell, or nobody asked it for. */
static void fill_in(struct options *o)
{
    if (o->want.pages == 0)
        o->want.pages = o->save != NULL ? PAGES_MAX : 4;
    if (o->want.edition == 0)
        o->want.edition = OLLSKUVAN_EDITION_4;
    if (o->budget == 0)
        o->budget = 32;
}

/* A store that is there and cannot be used ends it: it is not taken for none, and nothing is written over it. */
static bool start_from_store(struct options *o)
{
    struct settings settings;
    char why[WHY_ROOM], text[KEPT_TEXT];
    switch (settings_load(o->settings, &settings, why)) {
    case SETTINGS_MISSING:
        return true;
    case SETTINGS_READ:
        if (kept_start(&settings, &o->want, &o->budget, why)) {
            printf("settings of %s: %s\n", o->settings, kept_text(&settings, text));
            return true;
        }
        /* fall through */
    default:
        complain("%s: %s", o->settings, why);
        return false;
    }
}

/* Once the kernel has opened it all: what it does not open is not kept. */
static bool keep_settings(const struct options *o)
{
    struct settings now, before;
    char why[WHY_ROOM], text[KEPT_TEXT];
    kept_settings(&o->want, o->budget, &now);
    if (settings_load(o->settings, &before, why) == SETTINGS_READ && settings_equal(&now, &before))
        return true;
    if (!settings_save(o->settings, &now, why)) {
        complain("%s: %s", o->settings, why);
        return false;
    }
    printf("kept in %s: %s\n", o->settings, kept_text(&now, text));
    return true;
}

static int control(struct controller *c)
{
    if (c->options.settings != NULL && !start_from_store(&c->options))
        return STATUS_FAILED;
    fill_in(&c->options);
    if (c->options.save != NULL && !may_save(c))
        return STATUS_FAILED;
    int status = live_open(&c->live, &c->options.want);
    if (status != STATUS_DONE)
        return status;
    if (c->options.settings != NULL && !keep_settings(&c->options))
        return STATUS_FAILED;
    if (c->options.save != NULL)
        names_from_proc(&c->names, false);
    c->full = must(calloc(c->live.count + 1, sizeof *c->full));
    c->again = must(calloc(c->live.count + 1, sizeof *c->again));
    c->readers = must(calloc(c->options.report != 0 ? c->live.count + 1 : 1, sizeof *c->readers));
    for (size_t i = 0; i < c->live.count && c->options.report != 0; i++)
        readers_begin(&c->readers[i], &c->live.rings[i]);
    if (!begin_traces(c))
        return STATUS_FAILED;
    progress_begin();
    status = live_start(&c->live);
    enum live_end end = status == STATUS_DONE ? live_record(&c->live, look, c) : LIVE_SIGNAL;
    int stopped = live_stop(&c->live);
    if (status != STATUS_DONE || stopped != STATUS_DONE)
        return status != STATUS_DONE ? status : stopped;
    if (c->options.want.backward) {
        status = land(c, end);
        summary(c);
        return status;
    }
    if (c->options.report != 0) {
        serve_the_rest(c);
        print_readers(c);
        return c->broken ? STATUS_FAILED : status;
    }
    if (c->options.save != NULL && !save_all(c))
        status = STATUS_FAILED;
    drain_all(c, UINT32_MAX); /* the events are stopped: this comes to an end */
    compare_all(c);
    if (!end_traces(c))
        status = STATUS_FAILED;
    summary(c);
    return c->broken || c->gaps != 0 || c->compared.differences != 0 ? STATUS_FAILED : status;
}

int record_command(int argc, char **argv)
{
    bool help = false;
    called_as(argv[0]);
    struct controller *c = must(calloc(1, sizeof *c)); /* its buffers are long for a stack */
    c->options = (struct options){ .want = { .cpu = -1 } };
    c->live.program = PROGRAM_NONE;
    int status = read_options(&c->options, argc, argv, &help) ? STATUS_DONE : STATUS_USAGE;
    if (help)
        usage(stdout);
    else if (status == STATUS_DONE)
        status = control(c);
    if (!output_written())
        status = STATUS_FAILED;
    for (size_t i = 0; i < c->live.count && c->traces != NULL; i++) { /* those that a failure left open */
        char why[WHY_ROOM];
        trace_close(&c->traces[i], why);
    }
    live_close(&c->live);
    names_free(&c->names);
    free(c->traces);
    free(c->full);
    free(c->again);
    free(c->readers);
    free(c);
    return status;
}
