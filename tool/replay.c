/*
 * ollskuvan replay: plays a recorded trace over a ring of its own, and prints
 * the journal of its drains and what became of the records.
 */
#include <inttypes.h>
#include <stdio.h>
#include <stdlib.h>
#include <string.h>

#include "arguments.h"
#include "bytes.h"
#include "command.h"
#include "events.h"
#include "file.h"
#include "messages.h"
#include "ollskuvan.h"
#include "show.h"

static const struct takes takes = {
    "usage: ollskuvan replay TRACE [--ring BYTES] [--start COUNT] [--edition N]\n"
    "Plays a trace, as ollskuvan record --trace writes it: offers its records to a ring and drains them.\n"
    "Prints the journal of all drains, an entry of 32 hex digits a line, then the counts. The table of\n"
    "events stands beside the trace: TRACE.table.\n"
    "  --ring BYTES    the ring's length (16384)\n"
    "  --start COUNT   where head and tail begin (0)\n"
    "  --edition N     what the reader knows: 1, 2, 3 or 4 (4)\n",
    NULL, 1, 1,
};

enum { OFFER_LEAST = 14 }; /* the bytes of the shortest entry that offers a record */

/* What a trace is played with. */
struct settings {
    struct event_table table;
    uint64_t ring, start;
    uint32_t edition;
};

/* Where they are found: the options, and the table beside the trace. */
static bool settings_of(struct settings *settings, const char *path)
{
    char why[WHY_ROOM];
    if (!event_table_load(&settings->table, path, why)) {
        complain("%s: %s", path, why);
        return false;
    }
    if (settings->table.count == 0)
        complain("%s: there is no table of events beside it (%s.table)", path, path);
    return settings->table.count != 0;
}

/* ---- the trace ---- */

struct trace {
    const char *path;
    struct file file;
};

static bool read_trace(struct trace *trace)
{
    char why[WHY_ROOM];
    if (file_read(&trace->file, trace->path, SIZE_MAX, why))
        return true;
    complain("%s: %s", trace->path, why);
    return false;
}

/* Where the entry of this number begins: those before it were played, and so are whole. */
static size_t place_of(const struct trace *trace, uint64_t entry)
{
    size_t at = 0;
    for (uint64_t i = 0; i < entry; i++)
        at += (size_t)little(trace->file.bytes + at, 4);
    return at;
}

/* ---- what is told ---- */

static void print_told(const struct ollskuvan_replayed *r)
{
    printf("entries %" PRIu64 " head %" PRIu64 " tail %" PRIu64 "\n", r->entries, r->head, r->tail);
    printf("offered %" PRIu64 " bytes: drained %" PRIu64 " in %" PRIu64 " %s, dropped %" PRIu64 " in %" PRIu64
        " %s, still in the ring %" PRIu64 "\n", r->offered_bytes, r->drained_bytes, r->taken,
        r->taken == 1 ? "record" : "records", r->dropped_bytes, r->dropped, r->dropped == 1 ? "record" : "records",
        r->held_bytes);
}

static bool is_before_all(uint32_t answer)
{
    return answer == OLLSKUVAN_STOP_RING_LENGTH || answer == OLLSKUVAN_STOP_EDITION || answer == OLLSKUVAN_STOP_ALIGNMENT ||
        answer == OLLSKUVAN_STOP_TABLE;
}

static int tell_end(const struct trace *trace, const struct ollskuvan_replayed *r)
{
    if (r->answer == OLLSKUVAN_OK)
        return STATUS_DONE;
    if (is_before_all(r->answer))
        complain("%s: not played: %" PRIu32 ", %s", trace->path, r->answer, ollskuvan_stop_text(r->answer));
    else
        complain("%s: not played to its end: %" PRIu32 " at entry %" PRIu64 ", byte %zu: %s", trace->path, r->answer,
            r->entries, place_of(trace, r->entries), ollskuvan_refusal_text(r->answer));
    return STATUS_FAILED;
}

/* ---- the command ---- */

/* Every record of the journal was offered by an entry of its own. */
static int play(const struct trace *trace, const struct settings *s)
{
    size_t rooms_len = 2 * (size_t)s->ring, journal_len = OLLSKUVAN_JOURNAL_ENTRY * (trace->file.length / OFFER_LEAST + 1);
    uint8_t *rooms = calloc(rooms_len + 1, 1), *journal = malloc(journal_len);
    int status = STATUS_FAILED;
    if (rooms == NULL || journal == NULL) {
        complain("%s: out of memory", trace->path);
    } else {
        struct ollskuvan_replayed r = ollskuvan_replay(trace->file.bytes, trace->file.length, s->start, s->table.events, s->table.count,
            s->edition, rooms, rooms_len, journal, journal_len);
        for (uint64_t i = 0; i < r.taken && !ferror(stdout); i++)
            show_entry(journal + i * OLLSKUVAN_JOURNAL_ENTRY);
        if (!is_before_all(r.answer))
            print_told(&r);
        status = tell_end(trace, &r);
    }
    free(rooms);
    free(journal);
    return status;
}

/* Without the option the number stays as it is. */
static bool take_number(const char *option, const char *text, uint64_t most, uint64_t *number)
{
    unsigned long long n = *number;
    bool taken = text == NULL || whole_argument(text, option, 0, most, &n);
    *number = n;
    return taken;
}

int replay_command(int argc, char **argv)
{
    struct settings settings = { .ring = 16384, .start = 0, .edition = OLLSKUVAN_EDITION_4 };
    struct trace trace;
    const char *ring = NULL, *start = NULL, *edition = NULL;
    int status;
    if (!take_option(&argc, argv, "--ring", &ring, takes.usage, &status) ||
        !take_option(&argc, argv, "--start", &start, takes.usage, &status) ||
        !take_option(&argc, argv, "--edition", &edition, takes.usage, &status) ||
        take_words(argc, argv, &takes, &status) < 0)
        return status;
    if (!take_number("--ring", ring, OLLSKUVAN_RING_MAX, &settings.ring) ||
        !take_number("--start", start, UINT64_MAX, &settings.start) ||
        (edition != NULL && !edition_argument(edition, &settings.edition)))
        return STATUS_USAGE;
    trace.path = argv[1];
    status = read_trace(&trace) && settings_of(&settings, trace.path) ? play(&trace, &settings) : STATUS_FAILED;
    free(trace.file.bytes);
    return finished(status);
}
