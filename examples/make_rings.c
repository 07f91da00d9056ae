/*
 * Rings of a story that is written down, for tests: the records are written by
 * ollskuvan_write, an image for each cpu.
 *
 *   make_rings SCENE PREFIX           PREFIX-cpuN.img for each cpu of the scene
 *   make_rings --many RECORDS LOST PREFIX   so many records over rings of 1 MiB; each LOST-th is a LOST record (0: none)
 *
 * A scene has a line for each thing; times are in milliseconds, `idle` is a
 * thread that is always there, what follows '#' is not read:
 *
 *   thread WORD PID TID NAME          a thread; the other lines speak of it by its word
 *   without cpu|time                  the records hold no such thing
 *   TIME CPU WORD preempted WORD      the first is switched out though it could run on, the second in
 *   TIME CPU WORD sleeps WORD         the first gives the cpu up
 *   TIME CPU out WORD WORD            the same, but the record that the second is in is missing
 *   TIME CPU in WORD WORD             the second is switched in after the first, whose own record is missing
 *   TIME CPU name WORD                its name
 *   TIME CPU dirty WORD               its name, with bytes that are not zero after the name's zero
 *   TIME CPU exit WORD                its end
 *   TIME CPU lost COUNT               so many records were lost
 *   TIME CPU damaged                  a switch that is too short
 *   TIME CPU fill                     the ring has no room for more
 */
#include <errno.h>
#include <stdbool.h>
#include <stdio.h>
#include <stdlib.h>
#include <string.h>

#include "arguments.h"
#include "bytes.h"
#include "commands.h"
#include "memory.h"
#include "messages.h"
#include "ollskuvan.h"
#include "perf_ring.h"

enum { CPUS_MAX = 256, THREADS_MAX = 64, WORD_ROOM = 32, SWITCH_NS = 2000, RECORD_ROOM = 512 };

#define MS 1000000u

struct actor {
    char word[WORD_ROOM], name[WORD_ROOM];
    uint32_t pid, tid;
};

struct ring {
    uint8_t *bytes; /* NULL: no record yet */
    size_t used, length;
};

struct scene {
    struct ring rings[CPUS_MAX];
    struct actor actors[THREADS_MAX];
    size_t actor_count;
    uint64_t sample_type;
};

/* What a record has beside its body. */
struct moment {
    uint64_t time;
    uint32_t cpu;
    const struct actor *who;
};

static void die(const char *what)
{
    complain("%s", what);
    exit(STATUS_FAILED);
}

/* ---- records ---- */

/* The words of the trailer that the scene's records have. */
static void fill_trailer(const struct scene *s, const struct moment *m, uint64_t fields[OLLSKUVAN_FIELDS])
{
    fields[OLLSKUVAN_TRAILER_PID] = m->who->pid;
    fields[OLLSKUVAN_TRAILER_TID] = m->who->tid;
    if ((s->sample_type & OLLSKUVAN_BIT_TIME) != 0)
        fields[OLLSKUVAN_TRAILER_TIME] = m->time;
    if ((s->sample_type & OLLSKUVAN_BIT_CPU) != 0)
        fields[OLLSKUVAN_TRAILER_CPU] = m->cpu;
}

static size_t trailer_bytes(const struct scene *s)
{
    return 8 + ((s->sample_type & OLLSKUVAN_BIT_TIME) != 0 ? 8 : 0) + ((s->sample_type & OLLSKUVAN_BIT_CPU) != 0 ? 8 : 0);
}

/* Writes the value as a record behind the others of its cpu's ring. */
static void add(struct scene *s, const struct moment *m, uint64_t fields[OLLSKUVAN_FIELDS], size_t body, const char *source)
{
    struct ring *ring = &s->rings[m->cpu];
    if (ring->bytes == NULL)
        ring->bytes = must(malloc(OLLSKUVAN_RING_MAX));
    fields[OLLSKUVAN_SIZE] = 8 + body + trailer_bytes(s);
    fill_trailer(s, m, fields);
    uint32_t answer = ollskuvan_write(fields, OLLSKUVAN_FIELDS, (const uint8_t *)source, strlen(source), s->sample_type, 0, 1, 0, 0,
        0, OLLSKUVAN_EDITION_4, ring->bytes + ring->used, OLLSKUVAN_RING_MAX - ring->used);
    if (answer != OLLSKUVAN_OK)
        die("a record cannot be written: the ring is too long, or the scene says what no record holds");
    ring->used += (size_t)fields[OLLSKUVAN_SIZE];
}

static void add_half_switch(struct scene *s, const struct moment *m, const struct actor *other, uint64_t misc)
{
    uint64_t fields[OLLSKUVAN_FIELDS] = { [OLLSKUVAN_TYPE] = OLLSKUVAN_TYPE_SWITCH_CPU_WIDE, [OLLSKUVAN_MISC] = misc,
        [OLLSKUVAN_SWITCH_CPU_WIDE_PID] = other->pid, [OLLSKUVAN_SWITCH_CPU_WIDE_TID] = other->tid };
    add(s, m, fields, 8, "");
}

static void add_switch(struct scene *s, const struct moment *m, const struct actor *next, bool preempted)
{
    struct moment in = { m->time + SWITCH_NS, m->cpu, next };
    add_half_switch(s, m, next, OLLSKUVAN_MISC_SWITCH_OUT | (preempted ? OLLSKUVAN_MISC_SWITCH_OUT_PREEMPT : 0));
    add_half_switch(s, &in, m->who, 0);
}

static void add_name(struct scene *s, const struct moment *m)
{
    size_t length = strlen(m->who->name);
    uint64_t fields[OLLSKUVAN_FIELDS] = { [OLLSKUVAN_TYPE] = OLLSKUVAN_TYPE_COMM, [OLLSKUVAN_COMM_PID] = m->who->pid,
        [OLLSKUVAN_COMM_TID] = m->who->tid, [OLLSKUVAN_COMM_NAME_COUNT] = length };
    add(s, m, fields, 8 + (length / 8 + 1) * 8, m->who->name);
}

/* The writer writes zeros after a name: here they are made stale bytes, up to the trailer. */
static void add_dirty_name(struct scene *s, const struct moment *m)
{
    struct ring *ring = &s->rings[m->cpu];
    size_t name = ring->used + 16, length = strlen(m->who->name);
    add_name(s, m);
    memset(ring->bytes + name + length + 1, 'x', 7 - length % 8);
}

static void add_exit(struct scene *s, const struct moment *m)
{
    uint64_t fields[OLLSKUVAN_FIELDS] = { [OLLSKUVAN_TYPE] = OLLSKUVAN_TYPE_EXIT, [OLLSKUVAN_EXIT_PID] = m->who->pid,
        [OLLSKUVAN_EXIT_TID] = m->who->tid, [OLLSKUVAN_EXIT_TIME] = m->time };
    add(s, m, fields, 24, "");
}

static void add_lost(struct scene *s, const struct moment *m, uint64_t count)
{
    uint64_t fields[OLLSKUVAN_FIELDS] = { [OLLSKUVAN_TYPE] = OLLSKUVAN_TYPE_LOST, [OLLSKUVAN_LOST_LOST] = count };
    add(s, m, fields, 16, "");
}

/* A switch whose size leaves no room for its body. */
static void add_damaged(struct scene *s, const struct moment *m)
{
    struct ring *ring = &s->rings[m->cpu];
    size_t at = ring->used;
    add_half_switch(s, m, m->who, 0);
    memset(ring->bytes + at + 8, 0, 8);
    put_little(ring->bytes + at + 6, 2, 16);
    ring->used = at + 16;
}

static size_t length_for(size_t bytes)
{
    size_t length = OLLSKUVAN_RING_MIN;
    while (length < bytes)
        length *= 2;
    return length;
}

/* Records that mean nothing here, until no switch would fit. */
static void fill(struct scene *s, const struct moment *m)
{
    struct ring *ring = &s->rings[m->cpu];
    ring->length = length_for(ring->used + 1);
    while (!ring_is_full(ring->length, ring->used, 0)) {
        uint64_t fields[OLLSKUVAN_FIELDS] = { [OLLSKUVAN_TYPE] = OLLSKUVAN_TYPE_ITRACE_START };
        add(s, m, fields, 8, "");
    }
}

/* ---- lines ---- */

static const struct actor *find(const struct scene *s, const char *word)
{
    for (size_t i = 0; i < s->actor_count; i++)
        if (strcmp(s->actors[i].word, word) == 0)
            return &s->actors[i];
    return NULL;
}

static bool add_actor(struct scene *s, const char *line)
{
    struct actor a = { .word = "" };
    if (s->actor_count == THREADS_MAX || sscanf(line, "thread %31s %u %u %15s", a.word, &a.pid, &a.tid, a.name) != 4)
        return false;
    s->actors[s->actor_count++] = a;
    return true;
}

static bool add_one(struct scene *s, struct moment *m, const char *what, const char *object)
{
    const struct actor *actor = find(s, object);
    if (strcmp(what, "lost") == 0) {
        add_lost(s, m, strtoull(object, NULL, 10));
    } else if (strcmp(what, "damaged") == 0) {
        add_damaged(s, m);
    } else if (strcmp(what, "fill") == 0) {
        fill(s, m);
    } else if (actor != NULL && strcmp(what, "name") == 0) {
        m->who = actor;
        add_name(s, m);
    } else if (actor != NULL && strcmp(what, "dirty") == 0) {
        m->who = actor;
        add_dirty_name(s, m);
    } else if (actor != NULL && strcmp(what, "exit") == 0) {
        m->who = actor;
        add_exit(s, m);
    } else {
        return false;
    }
    return true;
}

/* One record of a switch that has two. */
static bool add_torn(struct scene *s, struct moment *m, char words[3][WORD_ROOM])
{
    const struct actor *first = find(s, words[1]), *second = find(s, words[2]);
    bool out = strcmp(words[0], "out") == 0;
    if (first == NULL || second == NULL)
        return false;
    m->who = out ? first : second;
    add_half_switch(s, m, out ? second : first, out ? OLLSKUVAN_MISC_SWITCH_OUT : 0);
    return true;
}

static bool add_line(struct scene *s, const char *line)
{
    char words[3][WORD_ROOM] = { "" };
    double time;
    struct moment m = { .who = &s->actors[0] };
    int count = sscanf(line, "%lf %u %31s %31s %31s", &time, &m.cpu, words[0], words[1], words[2]);
    if (count < 3 || m.cpu >= CPUS_MAX || time < 0)
        return false;
    m.time = (uint64_t)(time * MS) + 1000 * MS;
    if (count != 5)
        return add_one(s, &m, words[0], words[1]);
    if (strcmp(words[0], "out") == 0 || strcmp(words[0], "in") == 0)
        return add_torn(s, &m, words);
    const struct actor *next = find(s, words[2]);
    bool preempted = strcmp(words[1], "preempted") == 0;
    m.who = find(s, words[0]);
    if (m.who == NULL || next == NULL || (!preempted && strcmp(words[1], "sleeps") != 0))
        return false;
    add_switch(s, &m, next, preempted);
    return true;
}

static bool take_line(struct scene *s, char *line)
{
    line[strcspn(line, "#\n")] = '\0';
    if (line[strspn(line, " ")] == '\0')
        return true;
    if (strncmp(line, "thread ", 7) == 0)
        return add_actor(s, line);
    if (strcmp(line, "without cpu") == 0)
        s->sample_type &= ~OLLSKUVAN_BIT_CPU;
    else if (strcmp(line, "without time") == 0)
        s->sample_type &= ~OLLSKUVAN_BIT_TIME;
    else
        return add_line(s, line);
    return true;
}

static void read_scene(struct scene *s, const char *path)
{
    char line[200];
    unsigned number = 0;
    FILE *file = fopen(path, "r");
    if (file == NULL)
        die(strerror(errno));
    while (fgets(line, sizeof line, file) != NULL) {
        number++;
        if (!take_line(s, line)) {
            complain("%s:%u: what does this line say?", path, number);
            exit(STATUS_FAILED);
        }
    }
    fclose(file);
}

/* ---- many ---- */

enum { RECORDS_A_RING = 18000, TURNS = 3 };

/* One record of a cpu on which three threads take turns; half of them are preempted. */
static void add_turn(struct scene *s, uint32_t cpu, uint64_t number, bool lost)
{
    const uint32_t pid = 1000 + 10 * cpu, turn = (uint32_t)(number / 2);
    const struct actor now = { .pid = pid, .tid = pid + turn % TURNS }, next = { .pid = pid, .tid = pid + (turn + 1) % TURNS };
    const uint64_t time = 1000 * MS + number * 10000 + cpu;
    if (lost)
        add_lost(s, &(struct moment){ time, cpu, &now }, 1);
    else if (number % 2 == 0)
        add_half_switch(s, &(struct moment){ time, cpu, &now }, &next,
            OLLSKUVAN_MISC_SWITCH_OUT | (number % 4 == 0 ? OLLSKUVAN_MISC_SWITCH_OUT_PREEMPT : 0));
    else
        add_half_switch(s, &(struct moment){ time, cpu, &next }, &now, 0);
}

static void make_many(struct scene *s, uint64_t records, uint64_t lost_every)
{
    if (records > (uint64_t)CPUS_MAX * RECORDS_A_RING)
        die("--many: so many do not fit");
    for (uint64_t i = 0; i < records; i++)
        add_turn(s, (uint32_t)(i / RECORDS_A_RING), i % RECORDS_A_RING, lost_every != 0 && i % lost_every == 0);
}

/* ---- the whole ---- */

static void save(const struct scene *s, const char *prefix)
{
    const struct ring_attributes attributes = { .sample_type = s->sample_type, .sample_id_all = 1, .edition = OLLSKUVAN_EDITION_4 };
    for (unsigned cpu = 0; cpu < CPUS_MAX; cpu++) {
        const struct ring *ring = &s->rings[cpu];
        char path[RECORD_ROOM], why[WHY_ROOM];
        if (ring->bytes == NULL)
            continue;
        size_t length = ring->length != 0 ? ring->length : length_for(ring->used + 160);
        if (snprintf(path, sizeof path, "%s-cpu%u.img", prefix, cpu) >= (int)sizeof path)
            die("the prefix is too long");
        if (length > OLLSKUVAN_RING_MAX || !ring_image_save(path, &attributes, ring->used, 0, ring->bytes, length, why))
            die(length > OLLSKUVAN_RING_MAX ? "a ring is too long" : why);
    }
}

int main(int argc, char **argv)
{
    static struct scene scene = { .sample_type = OLLSKUVAN_BIT_TID | OLLSKUVAN_BIT_TIME | OLLSKUVAN_BIT_CPU,
        .actors = { { .word = "idle", .name = "idle" } }, .actor_count = 1 };
    called_as(argv[0]);
    if (argc == 3) {
        read_scene(&scene, argv[1]);
    } else if (argc == 5 && strcmp(argv[1], "--many") == 0) {
        unsigned long long records, lost;
        if (!whole_argument(argv[2], "RECORDS", 1, 1000000000, &records) || !whole_argument(argv[3], "LOST", 0, 1000000000, &lost))
            return STATUS_USAGE;
        make_many(&scene, records, lost);
    } else {
        fprintf(stderr, "usage: %s SCENE PREFIX | %s --many RECORDS LOST PREFIX\n", own_name(), own_name());
        return STATUS_USAGE;
    }
    save(&scene, argv[argc - 1]);
    for (unsigned cpu = 0; cpu < CPUS_MAX; cpu++)
        free(scene.rings[cpu].bytes);
    return STATUS_DONE;
}
