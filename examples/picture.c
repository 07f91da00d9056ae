#define _GNU_SOURCE
#include "picture.h"

#include <math.h>
#include <stdlib.h>
#include <string.h>

#include "memory.h"
#include "order.h"
#include "svg.h"

/* ---- sizes, in pixels ---- */

enum {
    WIDTH = 1200,
    LEFT = 130,  /* room for the lanes' labels */
    RIGHT = 60,  /* room for a mark's number at the end */
    STRIP = 20,  /* above a lane: the marks */
    LANE = 42,
    GAP = 12,
    LEGEND_ROW = 22,
    LEGEND_COLUMNS = 3,
    MARK = 14,   /* marks that are closer than this are one mark with a number */
    SENTENCE = 130, /* signs on a line above the lanes */
    CPUS_DRAWN = 64,
};

#define PLOT (WIDTH - LEFT - RIGHT)

/* Slices that are thinner than this are drawn together. */
static const double thin = 1.0;

static const char watched_colour[] = "#ff922b", others_colour[] = "#d9d9d9", idle_colour[] = "#ffffff", slept_colour[] = "#e7f5ff",
    sample_colour[] = "#868e96";
static const char *const colours[] = {
    "#a6c8e4", "#b7dba0", "#d3bfe0", "#f4e19a", "#9fd3dc", "#e3cdb5", "#a5d6c9", "#dfe3a0", "#c4c9ee", "#e0b7cf",
};
enum { COLOURS = sizeof colours / sizeof colours[0] };

/* What was drawn, for the legend. */
struct drawn {
    bool threads[COLOURS], watched, others, idle, unknown, waited, slept, sample, mapped, lost, told;
};

struct ranked {
    const struct thread *thread;
    uint64_t weight; /* ns run; without any switches the samples */
};

struct canvas {
    FILE *out;
    const struct story *story;
    const struct verdict *verdict;
    double ns_to_px;
    uint32_t *cpus;
    size_t cpu_count;
    struct ranked *ranked; /* the threads with a colour come first */
    size_t ranked_count;
    const struct event **points; /* samples, mappings and losses, by cpu and time */
    size_t point_count;
    struct drawn drawn;
    int y; /* where the next part starts */
};

static double x_of(const struct canvas *c, uint64_t time)
{
    return LEFT + (double)(time - c->story->first_time) * c->ns_to_px;
}

/* ms since the first record, as the axis shows it */
static const char *moment(const struct canvas *c, char out[MS_ROOM], uint64_t time)
{
    return ms_in_words(out, time - c->story->first_time);
}

static struct whom as_whom(const struct thread *thread)
{
    return (struct whom){ true, thread->pid, thread->tid, thread->name };
}

/* ---- colours ---- */

static int by_weight(const void *left, const void *right)
{
    const struct ranked *l = left, *r = right;
    if (l->weight != r->weight)
        return l->weight > r->weight ? -1 : 1;
    return l->thread->tid < r->thread->tid ? -1 : l->thread->tid > r->thread->tid;
}

/* How many samples each thread has. To be freed. */
static uint64_t *count_samples(const struct canvas *c)
{
    uint64_t *samples = must(calloc(c->story->thread_count + 1, sizeof *samples));
    for (size_t i = 0; i < c->point_count; i++)
        if (c->points[i]->kind == EVENT_SAMPLE && c->points[i]->who.known)
            samples[story_thread(c->story, c->points[i]->who.tid) - c->story->threads]++;
    return samples;
}

static void rank_threads(struct canvas *c)
{
    const struct story *story = c->story;
    uint64_t *samples = count_samples(c);
    c->ranked = must(calloc(story->thread_count + 1, sizeof *c->ranked));
    for (size_t i = 0; i < story->thread_count; i++) {
        const struct thread *thread = &story->threads[i];
        bool watched = thread == c->verdict->thread;
        if (thread->tid != 0 && thread->tid != TID_ENDED && !watched && (thread->ran != 0 || samples[i] != 0))
            c->ranked[c->ranked_count++] = (struct ranked){ thread, thread->ran + samples[i] };
    }
    free(samples);
    if (c->ranked_count > 1)
        qsort(c->ranked, c->ranked_count, sizeof *c->ranked, by_weight);
}

/* The colour of a thread, which is then drawn. */
static const char *colour_of(struct canvas *c, uint32_t tid)
{
    if (tid == 0) {
        c->drawn.idle = true;
        return idle_colour;
    }
    if (c->verdict->thread != NULL && c->verdict->thread->tid == tid) {
        c->drawn.watched = true;
        return watched_colour;
    }
    for (size_t i = 0; i < c->ranked_count && i < COLOURS; i++)
        if (c->ranked[i].thread->tid == tid) {
            c->drawn.threads[i] = true;
            return colours[i];
        }
    c->drawn.others = true;
    return others_colour;
}

/* ---- slices ---- */

/* Only if it fits: a label is never cut, and never runs into its neighbour. */
static bool label_in(const struct canvas *c, double x, double width, double y, const char *text)
{
    double needed = 6.8 * (double)strlen(text) + 6;
    if (width < needed)
        return false;
    svg_label(c->out, x + width / 2, y, "in", text);
    return true;
}

/* The whole of it, else the name or the number alone, else nothing: colour and title tell. */
static void label_who(const struct canvas *c, double x, double width, double y, const struct whom *who)
{
    char text[WHO_ROOM];
    if (who->tid == 0 || label_in(c, x, width, y, who_in_words(text, who)))
        return;
    if (who->name == NULL || !plain_text(text, sizeof text, who->name, 30))
        snprintf(text, sizeof text, "%u", who->tid);
    label_in(c, x, width, y, text);
}

/* Never thinner than half a pixel. */
static double slice_width(double from, double to)
{
    return to - from > 0.5 ? to - from : 0.5;
}

static void draw_unknown(struct canvas *c, double from, double to, int y)
{
    if (to - from < 0.5)
        return;
    svg_box(c->out, from, y, to - from, LANE, SVG_UNKNOWN, "not known: no record tells");
    c->drawn.unknown = true;
}

static void draw_run(struct canvas *c, const struct run *run, int y)
{
    char title[WHO_ROOM + 4 * MS_ROOM], who[WHO_ROOM], ms[MS_ROOM], from[MS_ROOM], to[MS_ROOM];
    double x = x_of(c, run->from), width = slice_width(x, x_of(c, run->to));
    snprintf(title, sizeof title, "%s: %s ms on cpu %u, from %s to %s", who_in_words(who, &run->who), ms_in_words(ms, run->to - run->from),
        run->cpu, moment(c, from, run->from), moment(c, to, run->to));
    svg_box(c->out, x, y, width, LANE, colour_of(c, run->who.tid), title);
    label_who(c, x, width, y + LANE / 2 + 4, &run->who);
}

/* Many thin runs: one slice in the colour of the one that ran most in it. */
static void draw_many(struct canvas *c, uint32_t cpu, size_t runs, uint64_t from, uint64_t to, int y)
{
    char title[WHO_ROOM + 6 * MS_ROOM], who[WHO_ROOM], most[MS_ROOM], begin[MS_ROOM], end[MS_ROOM];
    struct account a = account_of(c->story, cpu, TID_ENDED, from, to);
    static const struct whom idle = { .known = true };
    const struct whom *top = a.shown != 0 && a.top[0].ran >= a.idle ? &a.top[0].who : &idle;
    uint64_t ran = top == &idle ? a.idle : a.top[0].ran;
    double x = x_of(c, from);
    snprintf(title, sizeof title, "%zu runs of %zu %s, from %s to %s; most: %s, %s ms", runs, a.count + (a.idle != 0),
        plural(a.count + (a.idle != 0), "thread", "threads"), moment(c, begin, from), moment(c, end, to), who_in_words(who, top), ms_in_words(most, ran));
    svg_box(c->out, x, y, slice_width(x, x_of(c, to)), LANE, colour_of(c, top->tid), title);
}

/* How many runs from this one on are drawn as one slice. */
static size_t runs_in_slice(const struct canvas *c, const struct run *runs, size_t count)
{
    double begin = x_of(c, runs[0].from);
    size_t i = 1;
    if (x_of(c, runs[0].to) - begin >= thin)
        return 1;
    while (i < count && x_of(c, runs[i].to) - begin < 2 * thin && x_of(c, runs[i].from) - x_of(c, runs[i - 1].to) < 0.5)
        i++;
    return i;
}

static void draw_runs(struct canvas *c, uint32_t cpu, int y)
{
    size_t count, step;
    const struct run *runs = story_runs_of(c->story, cpu, &count);
    double known_to = LEFT;
    for (size_t i = 0; i < count; i += step) {
        step = runs_in_slice(c, runs + i, count - i);
        draw_unknown(c, known_to, x_of(c, runs[i].from), y);
        if (step == 1)
            draw_run(c, &runs[i], y);
        else
            draw_many(c, cpu, step, runs[i].from, runs[i + step - 1].to, y);
        known_to = x_of(c, runs[i + step - 1].to);
    }
    draw_unknown(c, known_to, LEFT + PLOT, y);
}

/* ---- lanes ---- */

static int by_number(const void *left, const void *right)
{
    uint32_t l = *(const uint32_t *)left, r = *(const uint32_t *)right;
    return l < r ? -1 : l > r;
}

/* In order, each once. Returns how many are left. */
static size_t order_cpus(uint32_t *cpus, size_t count)
{
    size_t kept = 0;
    if (count > 1)
        qsort(cpus, count, sizeof *cpus, by_number);
    for (size_t i = 0; i < count; i++)
        if (kept == 0 || cpus[kept - 1] != cpus[i])
            cpus[kept++] = cpus[i];
    return kept;
}

/* The cpus of all timed records. */
static void find_cpus(struct canvas *c)
{
    size_t count = 0;
    c->cpus = must(malloc((c->story->event_count + 1) * sizeof *c->cpus));
    for (size_t i = 0; i < c->story->event_count; i++) {
        const struct event *e = &c->story->events[i];
        if (e->timed && e->on_cpu)
            c->cpus[count++] = e->cpu;
    }
    c->cpu_count = order_cpus(c->cpus, count);
}

static size_t lanes_of_cpus(const struct canvas *c)
{
    return c->cpu_count < CPUS_DRAWN ? c->cpu_count : CPUS_DRAWN;
}

static void lane_frame(const struct canvas *c, int y)
{
    fprintf(c->out, "<rect x=\"%d\" y=\"%d\" width=\"%d\" height=\"%d\" class=\"frame\"/>\n", LEFT, y, PLOT, LANE);
}

/* ---- samples and marks ---- */

static int by_cpu_then_time(const void *left, const void *right)
{
    const struct event *l = *(const struct event *const *)left, *r = *(const struct event *const *)right;
    if (l->cpu != r->cpu)
        return l->cpu < r->cpu ? -1 : 1;
    return l < r ? -1 : l > r; /* the events lie by time */
}

static void find_points(struct canvas *c)
{
    c->points = must(malloc((c->story->event_count + 1) * sizeof *c->points));
    for (size_t i = 0; i < c->story->event_count; i++) {
        const struct event *e = &c->story->events[i];
        if (e->timed && e->on_cpu && (e->kind == EVENT_SAMPLE || e->kind == EVENT_MAPPED || e->kind == EVENT_LOST))
            c->points[c->point_count++] = e;
    }
    if (c->point_count > 1)
        qsort(c->points, c->point_count, sizeof *c->points, by_cpu_then_time);
}

struct point_search {
    const struct event **points;
    uint32_t cpu;
};

static bool lies_on_lower_cpu(const void *context, size_t place)
{
    const struct point_search *s = context;
    return s->points[place]->cpu < s->cpu;
}

/* The first point of this cpu or a later one. */
static size_t first_point(const struct canvas *c, uint32_t cpu)
{
    return first_not(c->point_count, lies_on_lower_cpu, &(struct point_search){ c->points, cpu });
}

static void draw_samples(struct canvas *c, uint32_t cpu, int y)
{
    double last = -10;
    for (size_t i = first_point(c, cpu); i < c->point_count && c->points[i]->cpu == cpu; i++) {
        const struct event *e = c->points[i];
        double x = x_of(c, e->time);
        if (e->kind != EVENT_SAMPLE || x - last < 1.5)
            continue; /* too close to be seen apart */
        last = x;
        c->drawn.sample = true;
        svg_box(c->out, x - 0.75, y + 8, 1.5, LANE - 16, e->who.known && e->who.tid != 0 ? colour_of(c, e->who.tid) : sample_colour, "a sample");
    }
}

static void draw_mark(const struct canvas *c, enum event_kind kind, double x, int y, unsigned long long count)
{
    char text[32];
    if (kind == EVENT_MAPPED)
        fprintf(c->out, "<path d=\"M %.1f %d l -5 -9 l 10 0 z\" fill=\"#1864ab\"/>\n", x, y);
    else
        fprintf(c->out, "<path d=\"M %.1f %d l 8 8 m 0 -8 l -8 8\" stroke=\"#c92a2a\" stroke-width=\"2.5\" fill=\"none\"/>\n", x - 4,
            y - 9);
    if (count > 1) {
        snprintf(text, sizeof text, "%llu", count);
        svg_label(c->out, x + 7, y - 1, kind == EVENT_MAPPED ? "mapped" : "lost", text);
    }
}

/* Room that a mark and its number take to the right. */
static double mark_room(unsigned long long count)
{
    int digits = count > 1 ? snprintf(NULL, 0, "%llu", count) : 0;
    return MARK + 7.0 * digits;
}

/* The marks of one kind. Mapped: how many at one place. Lost: how many records. Marks that would touch are joined. */
static bool draw_marks(const struct canvas *c, enum event_kind kind, uint32_t cpu, int y)
{
    unsigned long long count = 0;
    double at = 0;
    bool open = false;
    for (size_t i = first_point(c, cpu); i < c->point_count && c->points[i]->cpu == cpu; i++) {
        const struct event *e = c->points[i];
        if (e->kind != kind)
            continue;
        double x = x_of(c, e->time);
        if (open && x - at > mark_room(count)) {
            draw_mark(c, kind, at, y, count);
            open = false;
        }
        at = open ? at : x;
        count = (open ? count : 0) + (kind == EVENT_LOST ? e->number : 1);
        open = true;
    }
    if (open)
        draw_mark(c, kind, at, y, count);
    return open;
}

static void draw_cpu(struct canvas *c, uint32_t cpu)
{
    char text[32];
    int y = c->y + STRIP;
    snprintf(text, sizeof text, "cpu %u", cpu);
    svg_label(c->out, LEFT - 12, y + LANE / 2 + 5, "lane", text);
    draw_runs(c, cpu, y);
    draw_samples(c, cpu, y);
    lane_frame(c, y);
    /* mapped above the lane, lost below it: they may share a moment */
    c->drawn.mapped = draw_marks(c, EVENT_MAPPED, cpu, y - 2) || c->drawn.mapped;
    c->drawn.lost = draw_marks(c, EVENT_LOST, cpu, y + LANE + 11) || c->drawn.lost;
    c->y = y + LANE + GAP;
}

/* ---- the watched thread ---- */

/* What it did for a time: it ran, or it waited. */
struct piece {
    const struct run *run;
    const struct wait *wait;
    uint64_t from, to;
};

static int by_begin(const void *left, const void *right)
{
    const struct piece *l = left, *r = right;
    return l->from < r->from ? -1 : l->from > r->from;
}

static size_t add_runs(const struct story *s, uint32_t tid, struct piece *list)
{
    size_t count = 0;
    for (size_t i = 0; i < s->run_count; i++)
        if (s->runs[i].who.tid == tid)
            list[count++] = (struct piece){ .run = &s->runs[i], .from = s->runs[i].from, .to = s->runs[i].to };
    return count;
}

static size_t add_waits(const struct story *s, uint32_t tid, struct piece *list)
{
    size_t count = 0;
    for (size_t i = 0; i < s->wait_count; i++)
        if (s->waits[i].who.tid == tid && !s->waits[i].unsure)
            list[count++] = (struct piece){ .wait = &s->waits[i], .from = s->waits[i].from, .to = s->waits[i].to };
    return count;
}

static struct piece *find_pieces(const struct canvas *c, size_t *count)
{
    const struct story *s = c->story;
    struct piece *list = must(malloc((s->run_count + s->wait_count + 1) * sizeof *list));
    *count = add_runs(s, c->verdict->thread->tid, list);
    *count += add_waits(s, c->verdict->thread->tid, list + *count);
    if (*count > 1)
        qsort(list, *count, sizeof *list, by_begin);
    return list;
}

static const char *fill_of(struct canvas *c, const struct piece *p)
{
    if (p->run != NULL)
        return colour_of(c, p->run->who.tid);
    if (p->wait->preempted) {
        c->drawn.waited = true;
        return SVG_WAITED;
    }
    c->drawn.slept = true;
    return slept_colour;
}

static void draw_piece(struct canvas *c, const struct piece *p, int y)
{
    char title[6 * MS_ROOM], text[2 * MS_ROOM], ms[MS_ROOM], from[MS_ROOM], to[MS_ROOM];
    const char *did = p->run != NULL ? "ran" : p->wait->preempted ? "waited" : "slept";
    double x = x_of(c, p->from), width = slice_width(x, x_of(c, p->to));
    snprintf(title, sizeof title, "%s %s ms, from %s to %s", did, ms_in_words(ms, p->to - p->from), moment(c, from, p->from), moment(c, to, p->to));
    svg_box(c->out, x, y, width, LANE, fill_of(c, p), title);
    snprintf(text, sizeof text, "%s %s ms", did, short_ms(ms, p->to - p->from));
    if (p->wait != NULL)
        label_in(c, x, width, y + LANE / 2 + 4, text);
}

/* Many thin ones: one slice that looks as what it did longest in it. */
static void draw_pieces_as_one(struct canvas *c, const struct piece *list, size_t count, int y)
{
    uint64_t sums[3] = { 0 }; /* ran, waited, slept */
    const struct piece *any[3] = { NULL };
    char title[8 * MS_ROOM], ran[MS_ROOM], waited[MS_ROOM], slept[MS_ROOM];
    double x = x_of(c, list[0].from), width = slice_width(x, x_of(c, list[count - 1].to));
    for (size_t i = 0; i < count; i++) {
        size_t k = list[i].run != NULL ? 0 : list[i].wait->preempted ? 1 : 2;
        sums[k] += list[i].to - list[i].from;
        any[k] = &list[i];
    }
    size_t most = sums[1] >= sums[0] && sums[1] >= sums[2] ? 1 : sums[0] >= sums[2] ? 0 : 2;
    snprintf(title, sizeof title, "ran %s ms, waited %s ms, slept %s ms", ms_in_words(ran, sums[0]), ms_in_words(waited, sums[1]),
        ms_in_words(slept, sums[2]));
    if (any[most] != NULL)
        svg_box(c->out, x, y, width, LANE, fill_of(c, any[most]), title);
}

static size_t pieces_in_slice(const struct canvas *c, const struct piece *list, size_t count)
{
    double begin = x_of(c, list[0].from);
    size_t i = 1;
    if (x_of(c, list[0].to) - begin >= thin)
        return 1;
    while (i < count && x_of(c, list[i].to) - begin < 2 * thin)
        i++;
    return i;
}

static void draw_pieces(struct canvas *c, int y)
{
    size_t count, step;
    struct piece *list = find_pieces(c, &count);
    double known_to = LEFT;
    for (size_t i = 0; i < count; i += step) {
        step = pieces_in_slice(c, list + i, count - i);
        draw_unknown(c, known_to, x_of(c, list[i].from), y);
        if (step == 1)
            draw_piece(c, &list[i], y);
        else
            draw_pieces_as_one(c, list + i, step, y);
        known_to = x_of(c, list[i + step - 1].to);
    }
    draw_unknown(c, known_to, LEFT + PLOT, y);
    free(list);
}

/* What the verdict tells of: a frame in the watched thread's lane, and lines through those of the cpus. */
static void draw_told(struct canvas *c, int top, int y)
{
    if (!is_late(c->verdict))
        return;
    double from = x_of(c, c->verdict->late_from), to = x_of(c, c->verdict->worst->to);
    svg_line(c->out, from, top, from, y, "told");
    svg_line(c->out, to, top, to, y, "told");
    fprintf(c->out, "<rect x=\"%.2f\" y=\"%d\" width=\"%.2f\" height=\"%d\" class=\"outline\"/>\n", from, y, slice_width(from, to), LANE);
    c->drawn.told = true;
}

static void draw_watched(struct canvas *c, int top)
{
    char name[40], numbers[32];
    const struct thread *thread = c->verdict->thread;
    int y = c->y + STRIP;
    bool named = thread->name != NULL && plain_text(name, sizeof name, thread->name, 15);
    snprintf(numbers, sizeof numbers, "%u/%u", thread->pid, thread->tid);
    svg_label(c->out, LEFT - 12, y + LANE / 2 - (named ? 3 : -5), "lane", named ? name : numbers);
    if (named)
        svg_label(c->out, LEFT - 12, y + LANE / 2 + 14, "small", numbers);
    draw_pieces(c, y);
    lane_frame(c, y);
    draw_told(c, top, y);
    c->y = y + LANE + GAP;
}

/* ---- axis ---- */

/* 1, 2 or 5 times a power of ten, for some ten steps. */
static double step_of(double whole)
{
    double power = pow(10, floor(log10(whole / 10)));
    double part = whole / 10 / power;
    return power * (part <= 1 ? 1 : part <= 2 ? 2 : part <= 5 ? 5 : 10);
}

static void draw_grid(const struct canvas *c, double ms, double step, int top, int bottom)
{
    for (int i = 0; i * step <= ms * 1.0001; i++) {
        double x = LEFT + i * step * 1e6 * c->ns_to_px;
        svg_line(c->out, x, top, x, bottom, "grid");
    }
}

static void draw_axis(struct canvas *c, double ms, double step)
{
    int y = c->y + 6, places = step >= 1 ? 0 : step >= 0.1 ? 1 : step >= 0.01 ? 2 : 3;
    svg_line(c->out, LEFT, y, WIDTH - RIGHT, y, "axis");
    for (int i = 0; i * step <= ms * 1.0001; i++) {
        char text[32];
        double x = LEFT + i * step * 1e6 * c->ns_to_px;
        svg_line(c->out, x, y, x, y + 6, "axis");
        snprintf(text, sizeof text, "%.*f", places, i * step);
        svg_label(c->out, x, y + 21, "tick", text);
    }
    svg_label(c->out, LEFT - 24, y + 21, "small", "ms");
    c->y = y + 34;
}

/* ---- legend: what was drawn, and nothing else ---- */

struct place {
    int column, row;
};

/* The text, beside its sign at *x, *y. */
static void legend_text(const struct canvas *c, struct place *place, const char *text, int *x, int *y)
{
    *x = LEFT + place->column * (PLOT / LEGEND_COLUMNS);
    *y = c->y + place->row * LEGEND_ROW;
    svg_label(c->out, *x + 21, *y + 11.5, "legend", text);
    place->row += place->column == LEGEND_COLUMNS - 1;
    place->column = (place->column + 1) % LEGEND_COLUMNS;
}

static void legend_item(const struct canvas *c, struct place *place, bool drawn, const char *fill, const char *text)
{
    int x, y;
    if (!drawn)
        return;
    legend_text(c, place, text, &x, &y);
    fprintf(c->out, "<rect x=\"%d\" y=\"%d\" width=\"14\" height=\"14\" fill=\"%s\" stroke=\"#868e96\" stroke-width=\"0.7\"/>\n", x, y, fill);
}

static void legend_mark(const struct canvas *c, struct place *place, bool drawn, enum event_kind kind, const char *text)
{
    int x, y;
    if (!drawn)
        return;
    legend_text(c, place, text, &x, &y);
    draw_mark(c, kind, x + 7, y + 11, 1);
}

static void legend_thread(const struct canvas *c, struct place *place, bool drawn, const char *fill, const struct thread *thread)
{
    char who[WHO_ROOM], text[WHO_ROOM + MS_ROOM + 8], ms[MS_ROOM];
    struct whom whom = as_whom(thread);
    who_in_words(who, &whom);
    snprintf(text, sizeof text, thread->ran != 0 ? "%s, %s ms" : "%s", who, short_ms(ms, thread->ran));
    legend_item(c, place, drawn, fill, text);
}

static void legend_sample(const struct canvas *c, struct place *place)
{
    int x, y;
    if (!c->drawn.sample)
        return;
    legend_text(c, place, "a line in a lane: a sample", &x, &y);
    svg_box(c->out, x + 6, y, 1.5, 14, sample_colour, NULL);
}

static void legend_told(const struct canvas *c, struct place *place)
{
    int x, y;
    if (!c->drawn.told)
        return;
    legend_text(c, place, "the time that is told above", &x, &y);
    fprintf(c->out, "<rect x=\"%d\" y=\"%d\" width=\"12\" height=\"12\" class=\"outline\"/>\n", x + 1, y + 1);
}

static void draw_legend(struct canvas *c)
{
    struct place place = { 0, 0 };
    const struct drawn *d = &c->drawn;
    if (d->watched)
        legend_thread(c, &place, true, watched_colour, c->verdict->thread);
    for (size_t i = 0; i < c->ranked_count && i < COLOURS; i++)
        legend_thread(c, &place, d->threads[i], colours[i], c->ranked[i].thread);
    legend_item(c, &place, d->others, others_colour, "other threads");
    legend_item(c, &place, d->idle, idle_colour, "idle");
    legend_item(c, &place, d->unknown, SVG_UNKNOWN, "not known");
    legend_item(c, &place, d->waited, SVG_WAITED, "could run, but waited");
    legend_item(c, &place, d->slept, slept_colour, "slept (when it was woken is not told)");
    legend_sample(c, &place);
    legend_mark(c, &place, d->mapped, EVENT_MAPPED, "mapped (and how many)");
    legend_mark(c, &place, d->lost, EVENT_LOST, "records lost (and how many)");
    legend_told(c, &place);
    c->y += (place.row + (place.column != 0)) * LEGEND_ROW;
}

/* ---- the title: what the verdict says ---- */

static const char *title_of(const struct verdict *v)
{
    switch (v->kind) {
    case VERDICT_WAITED:
    case VERDICT_PAST:
        return "Why it ran late";
    case VERDICT_ON_TIME:
        return "On time";
    case VERDICT_SLEPT:
        return "Slept";
    default:
        return "Watched";
    }
}

/* A sentence over as many lines as it takes. */
static void draw_sentence(struct canvas *c, const char *sentence, const char *style, int height)
{
    while (*sentence != '\0') {
        size_t length = first_line_of(sentence, SENTENCE);
        char *line = must(strndup(sentence, length));
        svg_label(c->out, LEFT, c->y, style, line);
        free(line);
        c->y += height;
        sentence += length;
        sentence += strspn(sentence, " ");
    }
}

static void draw_note(struct canvas *c, double ms)
{
    char text[200], more[64] = "";
    const struct story *s = c->story;
    if (c->cpu_count > CPUS_DRAWN)
        snprintf(more, sizeof more, "; %zu more cpus are not drawn", c->cpu_count - CPUS_DRAWN);
    snprintf(text, sizeof text, "%zu %s over %.1f ms, from %zu %s%s%s", s->event_count, plural(s->event_count, "record", "records"), ms,
        s->source_count, plural(s->source_count, "ring", "rings"), s->lost != 0 ? "; records were lost" : "", more);
    draw_sentence(c, text, "note", 16);
}

static void draw_title(struct canvas *c, double ms)
{
    const struct verdict *v = c->verdict;
    char who[WHO_ROOM], text[WHO_ROOM + 32];
    c->y = 34;
    if (v->thread != NULL) {
        struct whom whom = as_whom(v->thread);
        snprintf(text, sizeof text, "%s: %s", title_of(v), who_in_words(who, &whom));
        svg_label(c->out, LEFT, c->y, "title", text);
    } else {
        svg_label(c->out, LEFT, c->y, "title", "Who ran, and what happened");
    }
    c->y += 24;
    draw_sentence(c, v->headline, "line", 20);
    for (size_t i = 0; i < v->detail_count; i++)
        draw_sentence(c, v->details[i], "note", 16);
    draw_note(c, ms);
}

/* ---- the whole ---- */

static void draw_lanes(struct canvas *c, double ms)
{
    const int lanes = (int)lanes_of_cpus(c) + (c->verdict->thread != NULL), top = c->y + STRIP;
    const double step = step_of(ms);
    draw_grid(c, ms, step, top - 6, c->y + lanes * (STRIP + LANE + GAP) + 6);
    for (size_t i = 0; i < lanes_of_cpus(c); i++)
        draw_cpu(c, c->cpus[i]);
    if (c->verdict->thread != NULL)
        draw_watched(c, top);
    draw_axis(c, ms, step);
    draw_legend(c);
}

/* The picture without its begin: how high it is, is known at its end. */
static void draw_body(struct canvas *c)
{
    uint64_t whole = c->story->last_time - c->story->first_time;
    const double ms = (double)(whole != 0 ? whole : 1) / 1e6;
    c->ns_to_px = PLOT / (ms * 1e6);
    if (c->story->any_time && c->cpu_count != 0) {
        draw_title(c, ms);
        draw_lanes(c, ms);
    } else {
        svg_label(c->out, LEFT, 34, "title", "Nothing to draw");
        svg_label(c->out, LEFT, 58, "line", "these records hold no time, or no cpu");
        c->y = 70;
    }
}

void picture(FILE *out, const struct story *story, const struct verdict *verdict)
{
    char *body = NULL;
    size_t size;
    struct canvas c = { .story = story, .verdict = verdict };
    c.out = must(open_memstream(&body, &size));
    find_points(&c);
    rank_threads(&c);
    find_cpus(&c);
    draw_body(&c);
    if (fclose(c.out) != 0)
        body = NULL;
    svg_begin(out, WIDTH, c.y + 16);
    fputs(must(body), out);
    fputs("</svg>\n", out);
    free(body);
    free(c.points);
    free(c.cpus);
    free(c.ranked);
}
