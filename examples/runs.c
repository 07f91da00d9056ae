/*
 * Who ran where, who waited, and where records are missing.
 */
#include <stdlib.h>
#include <string.h>

#include "memory.h"
#include "messages.h"
#include "order.h"
#include "story.h"

/* ---- gaps: no wait is told that one of them touches ---- */

static void add_gap(struct story *story, uint64_t from, uint64_t to)
{
    story->gaps = grown(story->gaps, story->gap_count, &story->gap_room, sizeof *story->gaps);
    story->gaps[story->gap_count++] = (struct gap){ .from = from < to ? from : to, .to = from < to ? to : from };
}

static int by_begin(const void *left, const void *right)
{
    const struct gap *l = left, *r = right;
    return l->from < r->from ? -1 : l->from > r->from;
}

/* Sorted, and those that touch are one: then they can be looked up by time. */
static void merge_gaps(struct story *story)
{
    size_t kept = 0;
    if (story->gap_count > 1)
        qsort(story->gaps, story->gap_count, sizeof *story->gaps, by_begin);
    for (size_t i = 0; i < story->gap_count; i++) {
        const struct gap *gap = &story->gaps[i];
        if (kept != 0 && gap->from <= story->gaps[kept - 1].to) {
            if (gap->to > story->gaps[kept - 1].to)
                story->gaps[kept - 1].to = gap->to;
        } else {
            story->gaps[kept++] = *gap;
        }
    }
    story->gap_count = kept;
}

/* Whether what happened on it after its last record is not known. A backward ring is read from its end. */
static bool ends_unknown(const struct source *s)
{
    return (s->stop != OLLSKUVAN_STOP_NOTHING && !s->backward) || s->full || s->cut;
}

/* Whether what happened on it before its first record is not known, while another ring may tell of that time. */
static bool begins_unknown(const struct source *s)
{
    return s->backward && s->round && s->any_time;
}

static void add_gaps_of_rings(struct story *story)
{
    for (size_t i = 0; i < story->source_count; i++) {
        const struct source *s = &story->sources[i];
        if (ends_unknown(s))
            add_gap(story, s->last_time, UINT64_MAX);
        if (begins_unknown(s))
            add_gap(story, 0, s->first_time);
        if (!s->any_time && (s->switches != 0 || s->lost != 0)) /* it may tell of anyone, at any time */
            add_gap(story, 0, UINT64_MAX);
    }
}

void find_gaps(struct story *story)
{
    for (size_t i = 0; i < story->event_count; i++) {
        const struct event *e = &story->events[i];
        if (e->missing && story->sources[e->ring].any_time)
            add_gap(story, e->since, e->until);
    }
    add_gaps_of_rings(story);
    merge_gaps(story);
}

struct gap_search {
    const struct gap *gaps;
    uint64_t time;
};

static bool is_over(const void *context, size_t place)
{
    const struct gap_search *s = context;
    return s->gaps[place].to <= s->time;
}

static bool in_a_gap(const struct story *story, uint64_t from, uint64_t to)
{
    size_t next = first_not(story->gap_count, is_over, &(struct gap_search){ story->gaps, from });
    return next < story->gap_count && story->gaps[next].from < to;
}

/* ---- lanes: what runs on a cpu while the events go by ---- */

struct lane {
    uint32_t cpu;
    bool busy;       /* `who` runs there since `since` */
    bool fresh;      /* no switch was seen there: who runs there since `since` is told by the first */
    unsigned ring;   /* which told of it last */
    size_t gaps;     /* how many of that ring's gaps it knows of */
    uint64_t since;
    struct whom who;
};

struct lanes {
    struct lane *list;
    size_t count, room;
    uint32_t *slots; /* number plus 1, by cpu; open places, at most half full */
    size_t slot_count;
};

static size_t lane_slot(const struct lanes *lanes, uint32_t cpu)
{
    size_t mask = lanes->slot_count - 1, slot = (cpu * UINT32_C(2654435769)) & mask;
    while (lanes->slots[slot] != 0 && lanes->list[lanes->slots[slot] - 1].cpu != cpu)
        slot = (slot + 1) & mask;
    return slot;
}

static void grow_lanes(struct lanes *lanes)
{
    free(lanes->slots);
    lanes->slot_count = lanes->slot_count == 0 ? 256 : 2 * lanes->slot_count;
    lanes->slots = must(calloc(lanes->slot_count, sizeof *lanes->slots));
    for (size_t i = 0; i < lanes->count; i++)
        lanes->slots[lane_slot(lanes, lanes->list[i].cpu)] = (uint32_t)i + 1;
}

static struct lane *lane_of(struct lanes *lanes, uint32_t cpu)
{
    if (2 * (lanes->count + 1) > lanes->slot_count)
        grow_lanes(lanes);
    size_t slot = lane_slot(lanes, cpu);
    if (lanes->slots[slot] == 0) {
        lanes->list = grown(lanes->list, lanes->count, &lanes->room, sizeof *lanes->list);
        lanes->list[lanes->count++] = (struct lane){ .cpu = cpu, .ring = UINT32_MAX };
        lanes->slots[slot] = (uint32_t)lanes->count;
    }
    return &lanes->list[lanes->slots[slot] - 1];
}

/* ---- runs ---- */

static void add_run(struct story *story, uint32_t cpu, const struct whom *who, uint64_t from, uint64_t to)
{
    if (to <= from || who->tid == TID_ENDED)
        return;
    story->runs = grown(story->runs, story->run_count, &story->run_room, sizeof *story->runs);
    story->runs[story->run_count++] = (struct run){ .cpu = cpu, .who = *who, .from = from, .to = to };
    story_thread_of(story, who->pid, who->tid)->ran += to - from;
}

static void end_run(struct story *story, struct lane *lane, uint64_t time)
{
    if (lane->busy)
        add_run(story, lane->cpu, &lane->who, lane->since, time);
    lane->busy = lane->fresh = false;
}

static void begin_run(struct lane *lane, const struct whom *who, uint64_t time)
{
    lane->busy = who->known && who->tid != TID_ENDED;
    lane->who = *who;
    lane->since = time;
}

/* What is known of the lane ends where records are missing, and where another ring goes on. */
static void look_for_gaps(struct story *story, struct lane *lane, unsigned ring)
{
    const struct source *s = &story->sources[ring];
    if (lane->ring != ring) {
        if (lane->ring != UINT32_MAX)
            end_run(story, lane, story->sources[lane->ring].last_time);
        lane->fresh = lane->ring == UINT32_MAX;
        lane->ring = ring;
        lane->gaps = 0;
        lane->since = s->began != 0 ? s->began : s->first_time;
    }
    if (lane->gaps < s->gap_count)
        end_run(story, lane, s->gaps[lane->gaps]);
    lane->gaps = s->gap_count;
}

static void switch_out(struct story *story, struct lane *lane, const struct event *e)
{
    bool its_own = lane->who.tid == e->who.tid || e->who.tid == TID_ENDED;
    if (lane->fresh)
        add_run(story, lane->cpu, &e->who, lane->since, e->time);
    lane->busy = lane->busy && its_own;
    end_run(story, lane, e->time);
    begin_run(lane, &e->other, e->time); /* where the record names the next one, it runs from now on */
}

/* The record before it told that it comes next: then it has the cpu since that. */
static void switch_in(struct story *story, struct lane *lane, struct event *e)
{
    bool after = e->other.known && (e->other.tid == lane->who.tid || e->other.tid == TID_ENDED);
    if (lane->busy && lane->who.tid == e->who.tid) {
        lane->who = e->who;
        e->since = lane->since;
        return;
    }
    lane->busy = lane->busy && after;
    end_run(story, lane, e->time);
    begin_run(lane, &e->who, e->time);
}

/* When the ring's last run ends, as far as that is known. */
static uint64_t end_of(const struct story *story, const struct source *s)
{
    if (ends_unknown(s) || s->alone_in_time)
        return s->last_time;
    return s->ended != 0 ? s->ended : story->last_time;
}

static int by_cpu_and_time(const void *left, const void *right)
{
    const struct run *l = left, *r = right;
    if (l->cpu != r->cpu)
        return l->cpu < r->cpu ? -1 : 1;
    return l->from < r->from ? -1 : l->from > r->from;
}

static void note_gap(struct source *s, uint64_t from)
{
    s->gaps = grown(s->gaps, s->gap_count, &s->gap_room, sizeof *s->gaps);
    s->gaps[s->gap_count++] = from;
}

static void end_lanes(struct story *story, struct lanes *lanes)
{
    for (size_t i = 0; i < lanes->count; i++) {
        struct lane *lane = &lanes->list[i];
        look_for_gaps(story, lane, lane->ring);
        end_run(story, lane, end_of(story, &story->sources[lane->ring]));
    }
    free(lanes->list);
    free(lanes->slots);
}

/* Whether a cpu may be missing: those whose switches are told are not 0, 1 .. n, or only one. */
static bool is_partial(const struct story *story, const struct lanes *lanes)
{
    uint32_t highest = 0;
    bool live = false, whole_cpus = false;
    for (size_t i = 0; i < lanes->count; i++) {
        const struct lane *lane = &lanes->list[i];
        highest = lane->cpu > highest ? lane->cpu : highest;
        live = live || story->sources[lane->ring].ended != 0;
        whole_cpus = whole_cpus || story->sources[lane->ring].whole_cpu;
    }
    return whole_cpus && !live && (lanes->count < 2 || highest != lanes->count - 1);
}

void find_runs(struct story *story)
{
    struct lanes lanes = { 0 };
    for (size_t i = 0; i < story->event_count; i++) {
        struct event *e = &story->events[i];
        if (e->kind == EVENT_IN)
            e->since = e->time;
        if (e->missing)
            note_gap(&story->sources[e->ring], e->since);
        if ((e->kind != EVENT_IN && e->kind != EVENT_OUT) || !e->timed || !e->on_cpu || !e->who.known)
            continue;
        struct lane *lane = lane_of(&lanes, e->cpu);
        look_for_gaps(story, lane, e->ring);
        if (e->kind == EVENT_OUT)
            switch_out(story, lane, e);
        else
            switch_in(story, lane, e);
        progress("finding runs", i, story->event_count);
    }
    story->partial = is_partial(story, &lanes);
    story->cpu_count = lanes.count;
    end_lanes(story, &lanes);
    if (story->run_count > 1)
        qsort(story->runs, story->run_count, sizeof *story->runs, by_cpu_and_time);
}

struct run_search {
    const struct run *runs;
    uint64_t number; /* a cpu, or a time */
};

static bool is_of_lower_cpu(const void *context, size_t place)
{
    const struct run_search *s = context;
    return s->runs[place].cpu < s->number;
}

static bool has_ended(const void *context, size_t place)
{
    const struct run_search *s = context;
    return s->runs[place].to <= s->number;
}

const struct run *story_runs_of(const struct story *story, uint32_t cpu, size_t *count)
{
    size_t first = first_not(story->run_count, is_of_lower_cpu, &(struct run_search){ story->runs, cpu });
    size_t end = first_not(story->run_count, is_of_lower_cpu, &(struct run_search){ story->runs, (uint64_t)cpu + 1 });
    *count = end - first;
    return *count != 0 ? story->runs + first : NULL;
}

size_t first_run_after(const struct run *runs, size_t count, uint64_t time)
{
    return first_not(count, has_ended, &(struct run_search){ runs, time });
}

/* ---- waits ---- */

/* A thread's last switches. */
struct last {
    bool in_known, out_open;
    uint64_t in_time;
    struct event const *out;
};

/* What a wait says of its thread. */
static void weigh(struct story *story, struct wait *wait)
{
    struct thread *thread = story_thread(story, wait->who.tid);
    uint64_t away = wait->to - wait->from;
    wait->unsure = in_a_gap(story, wait->from, wait->to);
    if (in_a_gap(story, wait->started, wait->from))
        wait->started = 0; /* it may have come and gone between */
    if (wait->open && !wait->preempted)
        return; /* it sleeps still: that is no wait that could be told */
    if (wait->unsure) {
        thread->unsure++;
    } else if (wait->preempted) {
        thread->waits++;
        thread->waited += away;
        thread->longest_wait = away > thread->longest_wait ? away : thread->longest_wait;
    } else {
        thread->sleeps++;
        thread->slept += away;
        thread->longest_sleep = away > thread->longest_sleep ? away : thread->longest_sleep;
    }
}

static void add_wait(struct story *story, const struct last *last, const struct event *in, uint64_t to)
{
    const struct event *out = last->out;
    if (to <= out->time)
        return;
    story->waits = grown(story->waits, story->wait_count, &story->wait_room, sizeof *story->waits);
    story->waits[story->wait_count] = (struct wait){
        .who = in != NULL ? in->who : out->who, .next = out->other, .started = last->in_known ? last->in_time : 0,
        .from = out->time, .to = to, .in_time = in != NULL ? in->time : to, .preempted = out->flag, .open = in == NULL,
        .on_cpu = out->on_cpu && (in == NULL || in->on_cpu), .cpu_out = out->cpu, .cpu_in = in != NULL ? in->cpu : out->cpu,
    };
    weigh(story, &story->waits[story->wait_count++]);
}

static void follow(struct story *story, struct last *last, const struct event *e)
{
    switch (e->kind) {
    case EVENT_OUT:
        last->in_known = last->in_known && !last->out_open;
        last->out = e;
        last->out_open = true;
        break;
    case EVENT_IN:
        if (last->out_open)
            add_wait(story, last, e, e->since);
        last->out_open = false;
        last->in_known = true;
        last->in_time = e->since;
        break;
    case EVENT_EXIT:
        last->out_open = last->in_known = false;
        break;
    default:
        break;
    }
}

/* One that was preempted and never came back waited at least until the end, and
 * one that slept did so, if the rings of all cpus are here: else it may have come
 * back on another. */
static void add_open_waits(struct story *story, const struct last *lasts)
{
    for (size_t i = 0; i < story->thread_count && !story->partial; i++)
        if (lasts[i].out_open)
            add_wait(story, &lasts[i], NULL, story->last_time);
}

void find_waits(struct story *story)
{
    struct last *lasts = must(calloc(story->thread_count + 1, sizeof *lasts));
    for (size_t i = 0; i < story->event_count; i++) {
        const struct event *e = &story->events[i];
        if (!e->timed || !e->who.known || e->who.tid == 0 || e->who.tid == TID_ENDED)
            continue;
        follow(story, &lasts[story_thread(story, e->who.tid) - story->threads], e);
        progress("finding waits", i, story->event_count);
    }
    add_open_waits(story, lasts);
    free(lasts);
}
