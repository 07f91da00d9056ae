#define _GNU_SOURCE
#include "kept.h"

#include <inttypes.h>
#include <stdio.h>
#include <string.h>
#include <unistd.h>

#include "arguments.h"
#include "messages.h"
#include "text.h"

static uint64_t page_bytes(void)
{
    long page = sysconf(_SC_PAGESIZE);
    return page > 0 ? (uint64_t)page : 4096;
}

static void wanted_table(const struct live_want *want, struct event_table *table)
{
    /* the mappings are the first event's or the program's own: the row is the same */
    struct perf_want w = { .clock = want->clock, .branch = want->branch, .counters = want->counters };
    perf_want_table(&w, table);
}

void kept_settings(const struct live_want *want, uint64_t budget, struct settings *settings)
{
    static struct event_table table; /* too long for a stack */
    wanted_table(want, &table);
    memset(settings, 0, sizeof *settings);
    memcpy(settings->events, table.events, table.count * sizeof table.events[0]);
    settings->count = table.count;
    settings->ring_length = want->pages * page_bytes();
    settings->edition = want->edition;
    settings->budget = (uint32_t)budget;
}

/* The events that a store names by this program's numbers; then the rows must be as this program opens them. */
static bool start_events(const struct settings *settings, struct live_want *want, char why[WHY_ROOM])
{
    const struct ollskuvan_event *first = &settings->events[0];
    static struct event_table table;
    bool branches = (first->sample_type & OLLSKUVAN_BIT_BRANCHES) != 0;
    want->branch = branches ? first->branch_sample_type : 0;
    want->clock = !branches && (first->sample_type & OLLSKUVAN_BIT_PERIOD) != 0;
    want->counters = 0;
    for (size_t i = 1; i < settings->count; i++)
        if (settings->events[i].identifier >= COUNTER_NUMBER && settings->events[i].identifier < COUNTER_NUMBER + COUNTERS)
            want->counters |= UINT32_C(1) << (settings->events[i].identifier - COUNTER_NUMBER);
    wanted_table(want, &table);
    for (size_t i = 0; i < settings->count; i++)
        if (i >= table.count || memcmp(&settings->events[i], &table.events[i], sizeof table.events[i]) != 0) {
            snprintf(why, WHY_ROOM, "event %zu, number %" PRIu64 ", is none that this program opens", i, settings->events[i].identifier);
            return false;
        }
    return true;
}

static bool start_pages(const struct settings *settings, struct live_want *want, char why[WHY_ROOM])
{
    want->pages = (size_t)(settings->ring_length / page_bytes());
    if (want->pages != 0)
        return true;
    snprintf(why, WHY_ROOM, "a ring of %" PRIu64 " bytes: a live one has at least a page, %" PRIu64, settings->ring_length, page_bytes());
    return false;
}

static bool start_budget(const struct settings *settings, uint64_t *budget, char why[WHY_ROOM])
{
    *budget = settings->budget;
    if (*budget >= 1 && *budget <= KEPT_BUDGET_MAX)
        return true;
    snprintf(why, WHY_ROOM, "a budget of %" PRIu64 " records: 1 to %d are taken here", *budget, KEPT_BUDGET_MAX);
    return false;
}

bool kept_start(const struct settings *settings, struct live_want *want, uint64_t *budget, char why[WHY_ROOM])
{
    bool events_given = want->clock || want->branch != 0 || want->counters != 0;
    if (want->edition == 0)
        want->edition = settings->edition;
    return (want->pages != 0 || start_pages(settings, want, why)) && (*budget != 0 || start_budget(settings, budget, why)) &&
        (events_given || start_events(settings, want, why));
}

bool kept_events_go(const struct live_want *want)
{
    if (want->clock && want->branch != 0) {
        complain("--branch and --clock are one event: choose --branch and --events %s", counter_names[0]);
        return false;
    }
    if (want->clock && (want->counters & 1) != 0) { /* one software counter twice in a table */
        complain("--clock and --events %s are the same counter: choose one", counter_names[0]);
        return false;
    }
    return true;
}

const char *kept_text(const struct settings *settings, char text[KEPT_TEXT])
{
    snprintf(text, KEPT_TEXT, "%zu %s, rings of %" PRIu64 " bytes, edition %" PRIu32 ", a budget of %" PRIu32, settings->count,
        plural(settings->count, "event", "events"), settings->ring_length, settings->edition, settings->budget);
    return text;
}
