#include "story.h"

#include <stdio.h>
#include <stdlib.h>
#include <string.h>

#include "flight.h"
#include "memory.h"
#include "messages.h"

/* ---- memory ---- */

struct text {
    struct text *next;
    char bytes[];
};

const char *story_keep(struct story *story, const char *text)
{
    size_t length = strlen(text);
    struct text *kept = must(malloc(sizeof *kept + length + 1));
    memcpy(kept->bytes, text, length + 1);
    kept->next = story->texts;
    story->texts = kept;
    return kept->bytes;
}

void story_begin(struct story *story, size_t event_most)
{
    memset(story, 0, sizeof *story);
    story->event_most = event_most;
    story->scratch = must(malloc(OLLSKUVAN_RECORD_MAX));
}

static void free_texts(struct story *story)
{
    while (story->texts != NULL) {
        struct text *next = story->texts->next;
        free(story->texts);
        story->texts = next;
    }
}

void story_end(struct story *story)
{
    free_texts(story);
    for (size_t i = 0; i < story->source_count; i++)
        free(story->sources[i].gaps);
    free(story->sources);
    free(story->events);
    free(story->runs);
    free(story->waits);
    free(story->gaps);
    free(story->threads);
    free(story->thread_slots);
    free(story->scratch);
    memset(story, 0, sizeof *story);
}

unsigned story_add_source(struct story *story, const char *label, const struct ring_attributes *attributes, size_t length)
{
    story->sources = must(realloc(story->sources, (story->source_count + 1) * sizeof *story->sources));
    struct source *source = &story->sources[story->source_count];
    memset(source, 0, sizeof *source);
    if (!plain_text(source->label, sizeof source->label, label, sizeof source->label - 1))
        snprintf(source->label, sizeof source->label, "ring %zu (its name is too long to show)", story->source_count + 1);
    source->attributes = *attributes;
    source->length = length;
    return (unsigned)story->source_count++;
}

bool source_is_whole(const struct source *source)
{
    return source->stop == OLLSKUVAN_STOP_NOTHING || (source->backward && flight_is_whole(source->stop));
}

bool story_is_whole(const struct story *story)
{
    for (size_t i = 0; i < story->source_count; i++)
        if (!source_is_whole(&story->sources[i]))
            return false;
    return !story->cut;
}

/* ---- threads: a table with open places, at most half full ---- */

static size_t slot_of(const struct story *story, uint32_t tid)
{
    size_t mask = story->thread_slot_count - 1, slot = (tid * UINT32_C(2654435769)) & mask;
    while (story->thread_slots[slot] != 0 && story->threads[story->thread_slots[slot] - 1].tid != tid)
        slot = (slot + 1) & mask;
    return slot;
}

struct thread *story_thread(const struct story *story, uint32_t tid)
{
    if (story->thread_slot_count == 0)
        return NULL;
    uint32_t number = story->thread_slots[slot_of(story, tid)];
    return number != 0 ? &story->threads[number - 1] : NULL;
}

static void grow_slots(struct story *story)
{
    free(story->thread_slots);
    story->thread_slot_count = story->thread_slot_count == 0 ? 1024 : 2 * story->thread_slot_count;
    story->thread_slots = must(calloc(story->thread_slot_count, sizeof *story->thread_slots));
    for (size_t i = 0; i < story->thread_count; i++)
        story->thread_slots[slot_of(story, story->threads[i].tid)] = (uint32_t)i + 1;
}

struct thread *story_thread_of(struct story *story, uint32_t pid, uint32_t tid)
{
    struct thread *thread = story_thread(story, tid);
    if (thread == NULL) {
        if (2 * (story->thread_count + 1) > story->thread_slot_count)
            grow_slots(story);
        story->threads = grown(story->threads, story->thread_count, &story->thread_room, sizeof *story->threads);
        thread = &story->threads[story->thread_count++];
        *thread = (struct thread){ .tid = tid, .name = tid == 0 ? "idle" : NULL };
        story->thread_slots[slot_of(story, tid)] = (uint32_t)story->thread_count;
    }
    thread->pid = pid;
    return thread;
}

/* ---- names ---- */

void story_names(struct story *story, const struct names *names)
{
    for (size_t i = 0; i < names->count; i++) {
        const struct named *n = &names->list[i];
        if (n->tid == 0)
            continue;
        struct thread *thread = story_thread_of(story, n->pid, n->tid);
        if (n->at_end)
            thread->later = story_keep(story, n->name);
        else
            thread->name = story_keep(story, n->name);
    }
}

/* What another event writes than the switches is told of a program alone; and
 * so is what that program starts. */
static bool tells_of_program(struct story *story, const struct event *e)
{
    const struct source *s = &story->sources[e->ring];
    if (e->twice || (e->numbered && s->any_switch_id && e->number != s->switch_id))
        return true;
    if (story->program != 0 && e->who.pid == story->program)
        return true;
    return e->kind == EVENT_FORK && story_thread_of(story, e->other.pid, e->other.tid)->of_program;
}

static void meet(struct story *story, const struct event *e)
{
    if (e->other.known)
        story_thread_of(story, e->other.pid, e->other.tid)->seen = true;
    if (!e->who.known)
        return;
    bool of_program = tells_of_program(story, e);
    struct thread *thread = story_thread_of(story, e->who.pid, e->who.tid);
    thread->seen = true;
    thread->named = thread->named || e->kind == EVENT_NAME;
    thread->of_program = thread->of_program || of_program;
}

/* A name from the recording's end serves a thread that no record names. */
static void use_later_names(struct story *story)
{
    for (size_t i = 0; i < story->thread_count; i++)
        if (story->threads[i].name == NULL && !story->threads[i].named)
            story->threads[i].name = story->threads[i].later;
}

static const char *name_of(struct story *story, const struct whom *whom)
{
    return whom->known ? story_thread_of(story, whom->pid, whom->tid)->name : NULL;
}

/* Names change with time: each event gets those of its moment. */
static void give_names(struct story *story)
{
    use_later_names(story);
    for (size_t i = 0; i < story->event_count; i++) {
        struct event *e = &story->events[i];
        e->other.name = name_of(story, &e->other);
        e->who.name = name_of(story, &e->who);
        if (e->kind == EVENT_NAME && e->who.known)
            story_thread(story, e->who.tid)->name = e->text != NULL ? e->text : "(name too long)";
        if (e->kind == EVENT_FORK && e->other.name != NULL && e->who.known && e->who.tid != 0) {
            story_thread(story, e->who.tid)->name = e->other.name; /* a child has its parent's name at first */
            e->who.name = e->other.name;
        }
    }
}

/* ---- order ---- */

static int by_time(const void *left, const void *right)
{
    const struct event *l = left, *r = right;
    if (l->time != r->time)
        return l->time < r->time ? -1 : 1;
    if (l->ring != r->ring)
        return l->ring < r->ring ? -1 : 1;
    return l->sequence < r->sequence ? -1 : l->sequence > r->sequence;
}

/* A ring's records without a time of their own stay behind the one before
 * them; those before its first time go to that time. What is missing at a
 * refused record is missing up to the ring's next time. */
static void settle_times(struct story *story)
{
    uint64_t *next = must(malloc((story->source_count + 1) * sizeof *next));
    memset(next, 0xff, (story->source_count + 1) * sizeof *next); /* none: the greatest */
    for (size_t i = story->event_count; i-- > 0;) {
        struct event *e = &story->events[i];
        if (e->early && !e->timed && next[e->ring] != UINT64_MAX)
            e->time = next[e->ring];
        if (e->kind == EVENT_REFUSED)
            e->until = next[e->ring];
        if (e->timed)
            next[e->ring] = e->time;
    }
    free(next);
}

static void widen(struct story *story, uint64_t from, uint64_t to)
{
    if (!story->any_time || from < story->first_time)
        story->first_time = from;
    if (!story->any_time || to > story->last_time)
        story->last_time = to;
    story->any_time = true;
}

static void find_first_and_last(struct story *story)
{
    for (size_t i = 0; i < story->event_count; i++)
        if (story->events[i].timed)
            widen(story, story->events[i].time, story->events[i].time);
}

static void add_times_of_recording(struct story *story)
{
    for (size_t i = 0; i < story->source_count && story->any_time; i++)
        if (story->sources[i].ended != 0)
            widen(story, story->sources[i].began, story->sources[i].ended);
}

/* Rings of one recording overlap in time, or nearly: a cpu may be silent for a while, but its kernel threads run now and then. */
static bool is_alone_in_time(const struct story *story, const struct source *source)
{
    const uint64_t silence = UINT64_C(10000000000);
    bool others = false;
    for (const struct source *o = story->sources; o < story->sources + story->source_count; o++) {
        if (o == source || !o->any_time)
            continue;
        others = true;
        bool before = o->last_time < source->first_time && source->first_time - o->last_time > silence;
        bool after = o->first_time > source->last_time && o->first_time - source->last_time > silence;
        if (!before && !after)
            return false;
    }
    return others && source->any_time;
}

static void find_strangers(struct story *story)
{
    for (size_t i = 0; i < story->source_count; i++)
        story->sources[i].alone_in_time = is_alone_in_time(story, &story->sources[i]);
}

/* ---- the whole ---- */

void story_tell(struct story *story)
{
    settle_times(story);
    find_first_and_last(story);
    add_times_of_recording(story);
    find_strangers(story);
    progress_in("sorting", story->event_count, "record", "records");
    if (story->event_count > 1)
        qsort(story->events, story->event_count, sizeof *story->events, by_time);
    for (size_t i = 0; i < story->event_count; i++)
        meet(story, &story->events[i]);
    give_names(story);
    find_gaps(story);
    find_runs(story);
    find_waits(story);
}
