/*
 * Records to events.
 */
#include <stdlib.h>
#include <string.h>

#include "bytes.h"
#include "events.h"
#include "flight.h"
#include "memory.h"
#include "messages.h"
#include "story.h"

struct reading {
    struct story *story;
    struct source *source;
    const uint8_t *record;
    size_t size;
    uint64_t fields[OLLSKUVAN_FIELDS];
    uint64_t bits; /* the sample type that the record was written with */
    bool id_all;
    struct event *event;
};

/* Whether misc has this meaning for the record's type: OLLSKUVAN_MEANS_... */
static bool means(const struct reading *r, uint32_t meaning)
{
    return (ollskuvan_misc_meaning(r->fields[OLLSKUVAN_TYPE], r->fields[OLLSKUVAN_MISC]) & meaning) != 0;
}

static struct whom whom(uint64_t pid, uint64_t tid)
{
    return (struct whom){ .known = true, .pid = (uint32_t)pid, .tid = (uint32_t)tid };
}

/* ---- the parts of a record ---- */

static void take_name(struct reading *r, uint64_t place, uint64_t count, uint64_t flag, size_t room)
{
    uint8_t buffer[FILE_NAME_ROOM];
    uint32_t answer = ollskuvan_copy_name(r->record, r->size, place, count, buffer, room);
    r->event->text_bytes = count;
    r->event->stale = flag != 0;
    r->source->stale += flag != 0;
    if (answer == OLLSKUVAN_OK) /* else it is said to be too long, never cut */
        r->event->text = story_keep(r->story, (const char *)buffer);
}

static void take_time(struct event *e, uint64_t time)
{
    e->timed = true;
    e->time = time;
}

static void take_cpu(struct event *e, uint64_t cpu)
{
    e->on_cpu = true;
    e->cpu = (uint32_t)cpu;
}

static void take_sample(struct reading *r)
{
    const uint64_t *f = r->fields, bits = r->bits;
    struct event *e = r->event;
    e->kind = EVENT_SAMPLE;
    e->number = f[OLLSKUVAN_SAMPLE_IP];
    e->flag = (bits & OLLSKUVAN_BIT_IP) != 0;
    if ((bits & OLLSKUVAN_BIT_TID) != 0)
        e->who = whom(f[OLLSKUVAN_SAMPLE_PID], f[OLLSKUVAN_SAMPLE_TID]);
    if ((bits & OLLSKUVAN_BIT_TIME) != 0)
        take_time(e, f[OLLSKUVAN_SAMPLE_TIME]);
    if ((bits & OLLSKUVAN_BIT_CPU) != 0)
        take_cpu(e, f[OLLSKUVAN_SAMPLE_CPU]);
}

/* Who, when and where, as far as the trailer says it. */
static void take_trailer(struct reading *r)
{
    const uint64_t *f = r->fields, bits = r->bits;
    struct event *e = r->event;
    if (!r->id_all)
        return;
    if ((bits & OLLSKUVAN_BIT_TID) != 0)
        e->who = whom(f[OLLSKUVAN_TRAILER_PID], f[OLLSKUVAN_TRAILER_TID]);
    if ((bits & OLLSKUVAN_BIT_TIME) != 0)
        take_time(e, f[OLLSKUVAN_TRAILER_TIME]);
    if ((bits & OLLSKUVAN_BIT_CPU) != 0)
        take_cpu(e, f[OLLSKUVAN_TRAILER_CPU]);
}

/* Which event wrote the record, where the trailer tells. */
static bool trailer_id(const struct reading *r, uint64_t *id)
{
    uint64_t bits = r->bits;
    bool identifier = (bits & OLLSKUVAN_BIT_IDENTIFIER) != 0;
    *id = r->fields[identifier ? OLLSKUVAN_TRAILER_IDENTIFIER : OLLSKUVAN_TRAILER_ID];
    return r->id_all && (identifier || (bits & OLLSKUVAN_BIT_ID) != 0);
}

/* ---- by type ---- */

static void take_switch(struct reading *r)
{
    const uint64_t *f = r->fields;
    struct event *e = r->event;
    struct source *source = r->source;
    e->kind = means(r, OLLSKUVAN_MEANS_SWITCHED_OUT) ? EVENT_OUT : EVENT_IN;
    e->flag = means(r, OLLSKUVAN_MEANS_PREEMPTED);
    if (f[OLLSKUVAN_TYPE] == OLLSKUVAN_TYPE_SWITCH_CPU_WIDE) {
        e->other = whom(f[OLLSKUVAN_SWITCH_CPU_WIDE_PID], f[OLLSKUVAN_SWITCH_CPU_WIDE_TID]);
        source->whole_cpu = true;
    }
    source->switches++;
    source->any_switch_id = trailer_id(r, &source->switch_id);
}

static void take_comm(struct reading *r)
{
    const uint64_t *f = r->fields;
    struct event *e = r->event;
    e->kind = EVENT_NAME;
    e->flag = means(r, OLLSKUVAN_MEANS_EXEC);
    e->who = whom(f[OLLSKUVAN_COMM_PID], f[OLLSKUVAN_COMM_TID]);
    take_name(r, f[OLLSKUVAN_COMM_NAME], f[OLLSKUVAN_COMM_NAME_COUNT], f[OLLSKUVAN_COMM_NAME_FLAG], THREAD_NAME_ROOM);
    e->numbered = trailer_id(r, &e->number);
}

/* FORK and EXIT have the same words. Their time is their own, with a trailer or without. */
static void take_task(struct reading *r)
{
    const uint64_t *f = r->fields;
    struct event *e = r->event;
    e->kind = f[OLLSKUVAN_TYPE] == OLLSKUVAN_TYPE_FORK ? EVENT_FORK : EVENT_EXIT;
    e->who = whom(f[OLLSKUVAN_FORK_PID], f[OLLSKUVAN_FORK_TID]);
    e->other = whom(f[OLLSKUVAN_FORK_PPID], f[OLLSKUVAN_FORK_PTID]);
    take_time(e, f[OLLSKUVAN_FORK_TIME]);
    e->numbered = trailer_id(r, &e->number);
}

static void take_mmap(struct reading *r)
{
    const uint64_t *f = r->fields;
    r->event->kind = EVENT_MAPPED;
    r->event->numbered = trailer_id(r, &r->event->number);
    r->event->flag = means(r, OLLSKUVAN_MEANS_DATA_MAPPING);
    r->event->who = whom(f[OLLSKUVAN_MMAP_PID], f[OLLSKUVAN_MMAP_TID]);
    take_name(r, f[OLLSKUVAN_MMAP_NAME], f[OLLSKUVAN_MMAP_NAME_COUNT], f[OLLSKUVAN_MMAP_NAME_FLAG], FILE_NAME_ROOM);
}

static void take_build_id(struct reading *r)
{
    uint64_t count = r->fields[OLLSKUVAN_MMAP2_BUILD_ID_COUNT];
    if (count > sizeof r->event->build_id) /* the reader accepts 0 to 20 */
        return;
    memcpy(r->event->build_id, r->record + r->fields[OLLSKUVAN_MMAP2_BUILD_ID], (size_t)count);
    r->event->build_id_bytes = (uint8_t)count;
}

static void take_mmap2(struct reading *r)
{
    const uint64_t *f = r->fields;
    r->event->kind = EVENT_MAPPED;
    r->event->numbered = trailer_id(r, &r->event->number);
    r->event->flag = means(r, OLLSKUVAN_MEANS_DATA_MAPPING);
    r->event->who = whom(f[OLLSKUVAN_MMAP2_PID], f[OLLSKUVAN_MMAP2_TID]);
    take_name(r, f[OLLSKUVAN_MMAP2_NAME], f[OLLSKUVAN_MMAP2_NAME_COUNT], f[OLLSKUVAN_MMAP2_NAME_FLAG], FILE_NAME_ROOM);
    if (means(r, OLLSKUVAN_MEANS_BUILD_ID))
        take_build_id(r);
}

/* What is lost was lost after the record before this one. */
static void take_lost(struct reading *r, uint64_t count)
{
    struct event *e = r->event;
    e->kind = EVENT_LOST;
    e->number = count;
    e->missing = true;
    e->since = r->source->last_time;
    e->until = e->time;
    r->source->lost += count;
    r->story->lost += count;
}

static void take_body(struct reading *r)
{
    const uint64_t *f = r->fields;
    switch (f[OLLSKUVAN_TYPE]) {
    case OLLSKUVAN_TYPE_SWITCH:
    case OLLSKUVAN_TYPE_SWITCH_CPU_WIDE:
        take_switch(r);
        break;
    case OLLSKUVAN_TYPE_COMM:
        take_comm(r);
        break;
    case OLLSKUVAN_TYPE_FORK:
    case OLLSKUVAN_TYPE_EXIT:
        take_task(r);
        break;
    case OLLSKUVAN_TYPE_MMAP:
        take_mmap(r);
        break;
    case OLLSKUVAN_TYPE_MMAP2:
        take_mmap2(r);
        break;
    case OLLSKUVAN_TYPE_LOST:
        take_lost(r, f[OLLSKUVAN_LOST_LOST]);
        break;
    case OLLSKUVAN_TYPE_LOST_SAMPLES:
        take_lost(r, f[OLLSKUVAN_LOST_SAMPLES_LOST]);
        break;
    case OLLSKUVAN_TYPE_KSYMBOL:
        take_name(r, f[OLLSKUVAN_KSYMBOL_NAME], f[OLLSKUVAN_KSYMBOL_NAME_COUNT], f[OLLSKUVAN_KSYMBOL_NAME_FLAG],
            FILE_NAME_ROOM);
        break;
    case OLLSKUVAN_TYPE_CGROUP:
        take_name(r, f[OLLSKUVAN_CGROUP_NAME], f[OLLSKUVAN_CGROUP_NAME_COUNT], f[OLLSKUVAN_CGROUP_NAME_FLAG],
            FILE_NAME_ROOM);
        break;
    case OLLSKUVAN_TYPE_READ:
        r->event->who = whom(f[OLLSKUVAN_READ_PID], f[OLLSKUVAN_READ_TID]);
        break;
    default:
        break;
    }
}

/* ---- a record ---- */

/* A record that is refused may have been a switch: one that is damaged may have
 * been anything, one that the edition does not know is what its type says. */
static bool may_hide_a_switch(uint32_t type, uint32_t answer)
{
    return answer >= OLLSKUVAN_REFUSED_SHORT || type == OLLSKUVAN_TYPE_SWITCH || type == OLLSKUVAN_TYPE_SWITCH_CPU_WIDE ||
        type == OLLSKUVAN_TYPE_LOST || type == OLLSKUVAN_TYPE_EXIT;
}

static void take_event(struct reading *r, uint32_t answer)
{
    struct event *e = r->event;
    e->type = (uint32_t)little(r->record, 4); /* also of a record that is refused, which has no value */
    e->kind = EVENT_OTHER;
    e->time = r->source->last_time;
    e->early = !r->source->any_time;
    e->answer = answer;
    if (answer != OLLSKUVAN_OK) {
        e->kind = EVENT_REFUSED;
        e->missing = may_hide_a_switch(e->type, answer);
        e->since = e->time; /* until: the next time of the ring, which is found later */
        r->source->refused++;
    } else if (r->fields[OLLSKUVAN_TYPE] == OLLSKUVAN_TYPE_SAMPLE) {
        take_sample(r);
    } else {
        take_trailer(r);
        take_body(r);
    }
}

/* An event that tells of a program's mappings tells of its forks and ends too, as the cpu's own event does: a moment later, once more. */
static bool is_told_twice(const struct event *first, const struct event *second)
{
    const uint64_t moment = 1000000;
    return (second->kind == EVENT_FORK || second->kind == EVENT_EXIT) && first->kind == second->kind && first->who.tid == second->who.tid &&
        first->who.pid == second->who.pid && first->numbered && second->numbered && first->number != second->number &&
        second->time - first->time < moment;
}

/* Keeps it, if it says something new. */
static void keep_event(struct story *story, struct source *source, struct event *event)
{
    struct event *before = source->last_kept != 0 ? &story->events[source->last_kept - 1] : NULL;
    if (before != NULL && is_told_twice(before, event)) {
        before->twice = true;
        return;
    }
    source->last_kept = ++story->event_count;
}

static void note_time(struct source *source, uint64_t time)
{
    if (!source->any_time || time < source->first_time)
        source->first_time = time;
    source->last_time = time;
    source->any_time = true;
}

static void add_event(struct reading *r, unsigned number, uint32_t answer)
{
    struct story *story = r->story;
    struct source *source = &story->sources[number];
    source->records++;
    source->bytes += r->size;
    if (story->event_count == story->event_most)
        source->cut = story->cut = true;
    if (source->cut)
        return;
    story->events = grown(story->events, story->event_count, &story->event_room, sizeof *story->events);
    struct event *event = &story->events[story->event_count];
    memset(event, 0, sizeof *event);
    event->ring = number;
    event->sequence = source->records;
    r->source = source;
    r->event = event;
    take_event(r, answer);
    if (event->timed)
        note_time(source, event->time);
    keep_event(story, source, event);
    progress("reading", story->event_count, 0);
}

/* The record at a tail, with the ring's one attribute set or its table of events. */
static struct ollskuvan_one read_one(struct reading *r, const struct source *source, const uint8_t *ring, uint64_t head,
    uint64_t tail)
{
    const struct ring_attributes *a = &source->attributes;
    r->bits = a->sample_type;
    r->id_all = a->sample_id_all != 0;
    if (source->table.count == 0)
        return ollskuvan_read_one(ring, source->length, head, tail, a->sample_type, a->read_format,
            a->sample_id_all, a->user_mask, a->interrupt_mask, a->branch_sample_type, a->edition, r->story->scratch,
            OLLSKUVAN_RECORD_MAX, r->fields, OLLSKUVAN_FIELDS);
    struct ollskuvan_one one = ollskuvan_read_one_events(ring, source->length, head, tail, source->table.events,
        source->table.count, a->edition, r->story->scratch, OLLSKUVAN_RECORD_MAX, r->fields, OLLSKUVAN_FIELDS);
    if (one.size != 0 && one.answer == OLLSKUVAN_OK) /* it has an event, which selects what it holds */
        r->bits = source->table.events[event_of(&source->table, r->fields)].sample_type;
    r->id_all = true;
    return one;
}

uint64_t story_take(struct story *story, unsigned number, const uint8_t *ring, uint64_t head, uint64_t tail)
{
    struct source *source = &story->sources[number];
    struct reading r = { .story = story };
    for (;;) {
        struct ollskuvan_one one = read_one(&r, source, ring, head, tail);
        if (one.size == 0) {
            source->last_stop = one.stop;
            if (source->stop == OLLSKUVAN_STOP_NOTHING) { /* the first fault is kept, also when a live ring goes on */
                source->stop = one.stop;
                source->stop_tail = tail;
            }
            return tail;
        }
        r.record = (one.in_scratch != 0 ? story->scratch : ring) + one.place;
        r.size = (size_t)one.size;
        add_event(&r, number, one.answer);
        tail = one.tail;
    }
}

/* From the journal's last entry, the oldest record, to its first. */
void story_take_back(struct story *story, unsigned number, const uint8_t *ring, uint64_t head)
{
    struct source *source = &story->sources[number];
    struct reading r = { .story = story };
    struct flight flight = flight_walk(&source->attributes, &source->table, ring, source->length, head);
    for (uint64_t i = 0; i < flight.walked.taken; i++) {
        uint64_t start = little(flight_entry(&flight, i) + OLLSKUVAN_JOURNAL_TAIL, 8);
        struct ollskuvan_one one = read_one(&r, source, ring, flight.end, start);
        r.record = (one.in_scratch != 0 ? story->scratch : ring) + one.place;
        r.size = (size_t)one.size;
        add_event(&r, number, one.answer);
    }
    source = &story->sources[number];
    source->backward = true;
    source->round = flight.round;
    source->stop = flight.walked.stop;
    source->stop_tail = flight.end;
    free(flight.journal);
}
