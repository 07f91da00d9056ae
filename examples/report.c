#include "report.h"

#include <stdlib.h>
#include <string.h>

#include "memory.h"
#include "messages.h"
#include "ollskuvan.h"
#include "order.h"

/* Where the parts of a record's line stand. */
enum { TIME_WIDTH = 11, WHAT_WIDTH = 7, INDENT = TIME_WIDTH + 5 + WHAT_WIDTH + 1, DETAIL_ROOM = 400 };

struct page {
    FILE *out;
    const struct story *story;
    const struct verdict *verdict;
    size_t columns;
};

/* ---- the table ---- */

/* What does not fit beside the rest goes to a line of its own, whole. */
static void print_apart(const struct page *p, const char *detail)
{
    size_t length = strlen(detail), room = p->columns > length ? p->columns - length : 0;
    if (length > p->columns)
        fprintf(p->out, "%*s(what belongs here is too long to show)\n", INDENT, "");
    else
        fprintf(p->out, "%*s%s\n", (int)(room < INDENT ? room : INDENT), "", detail);
}

/* One record. */
static void print_row(const struct page *p, const char *time, const char *cpu, const char *what, const char *who, const char *detail)
{
    const int who_width = p->columns >= 100 ? 34 : 24;
    size_t who_room = strlen(who) > (size_t)who_width ? strlen(who) : (size_t)who_width;
    int used = fprintf(p->out, "%*s %3s %-*s ", TIME_WIDTH, time, cpu, WHAT_WIDTH, what);
    size_t before = used > 0 ? (size_t)used : 0;
    if (before + strlen(who) > p->columns) { /* a time or a cpu that no clock or machine has */
        fputc('\n', p->out);
        before = (size_t)fprintf(p->out, "%*s", INDENT, "");
    }
    if (detail[0] == '\0') {
        fprintf(p->out, "%s\n", who);
    } else if (before + who_room + 1 + strlen(detail) <= p->columns) {
        fprintf(p->out, "%-*s %s\n", who_width, who, detail);
    } else {
        fprintf(p->out, "%s\n", who);
        print_apart(p, detail);
    }
}

struct wait_search {
    const struct wait *waits;
    uint64_t time;
};

static bool ends_before(const void *context, size_t place)
{
    const struct wait_search *s = context;
    return s->waits[place].in_time < s->time;
}

static const struct wait *wait_that_ends(const struct story *story, const struct event *e)
{
    size_t i = first_not(story->wait_count, ends_before, &(struct wait_search){ story->waits, e->time });
    for (; i < story->wait_count && story->waits[i].in_time == e->time; i++)
        if (story->waits[i].who.tid == e->who.tid && !story->waits[i].unsure && !story->waits[i].open)
            return &story->waits[i];
    return NULL;
}

/* Switching out tells who comes next; switching in how long it took, as far as that is known. */
static void describe_switch(char detail[DETAIL_ROOM], const struct story *story, const struct event *e)
{
    char other[WHO_ROOM], ms[MS_ROOM];
    who_in_words(other, &e->other);
    if (e->kind == EVENT_OUT) {
        snprintf(detail, DETAIL_ROOM, "%s%s%s", e->flag ? "preempted" : "sleeps", e->other.known ? ", next " : "",
            e->other.known ? other : "");
        return;
    }
    const struct wait *wait = e->timed && e->who.known ? wait_that_ends(story, e) : NULL;
    if (wait != NULL)
        snprintf(detail, DETAIL_ROOM, "%s %s ms", wait->preempted ? "waited" : "slept", ms_in_words(ms, wait->to - wait->from));
    else if (e->other.known)
        snprintf(detail, DETAIL_ROOM, "after %s", other);
}

static void describe_text(char detail[DETAIL_ROOM], const struct event *e, const char *before, const char *quote)
{
    char plain[FILE_NAME_ROOM];
    if (e->text != NULL && plain_text(plain, sizeof plain, e->text, FILE_NAME_ROOM - 1))
        snprintf(detail, DETAIL_ROOM, "%s%s%s%s", before, quote, plain, quote);
    else
        snprintf(detail, DETAIL_ROOM, "%s(a name of %llu %s: too long to show)", before, (unsigned long long)e->text_bytes,
            plural(e->text_bytes, "byte", "bytes"));
}

static void describe_other(char detail[DETAIL_ROOM], const struct event *e)
{
    char before[32];
    snprintf(before, sizeof before, "%s ", ollskuvan_type_name(e->type));
    if (e->text_bytes != 0)
        describe_text(detail, e, before, "");
    else
        snprintf(detail, DETAIL_ROOM, "%s", ollskuvan_type_name(e->type));
}

static void describe_lost(char detail[DETAIL_ROOM], const struct event *e)
{
    bool samples = e->type == OLLSKUVAN_TYPE_LOST_SAMPLES;
    snprintf(detail, DETAIL_ROOM, "%llu %s lost: the reader was too slow", (unsigned long long)e->number,
        samples ? plural(e->number, "sample", "samples") : plural(e->number, "record", "records"));
}

static const char *describe(char detail[DETAIL_ROOM], const struct story *story, const struct event *e)
{
    char other[WHO_ROOM];
    detail[0] = '\0';
    switch (e->kind) {
    case EVENT_IN:
        describe_switch(detail, story, e);
        return "in";
    case EVENT_OUT:
        describe_switch(detail, story, e);
        return "out";
    case EVENT_NAME:
        describe_text(detail, e, e->flag ? "runs a new program: " : "is now called ", "'");
        return "name";
    case EVENT_FORK:
        snprintf(detail, DETAIL_ROOM, "started by %s", who_in_words(other, &e->other));
        return "fork";
    case EVENT_EXIT:
        return "exit";
    case EVENT_MAPPED:
        describe_text(detail, e, e->flag ? "data: " : "", "");
        return "mapped";
    case EVENT_LOST:
        describe_lost(detail, e);
        return "LOST";
    case EVENT_SAMPLE:
        if (e->flag)
            snprintf(detail, DETAIL_ROOM, "at %#llx", (unsigned long long)e->number);
        return "sample";
    case EVENT_REFUSED:
        snprintf(detail, DETAIL_ROOM, "%s: %u, %s", ollskuvan_type_name(e->type), e->answer, ollskuvan_refusal_text(e->answer));
        return "REFUSED";
    default:
        describe_other(detail, e);
        return "other";
    }
}

static void print_build_id(const struct page *p, const struct event *e)
{
    char hex[2 * sizeof e->build_id + 1], line[64];
    if (e->build_id_bytes == 0)
        return;
    for (unsigned i = 0; i < e->build_id_bytes; i++)
        snprintf(hex + 2 * i, 3, "%02x", e->build_id[i]);
    snprintf(line, sizeof line, "build id %s", hex);
    print_apart(p, line);
}

/* The name is sound; the kernel left something behind it. */
static void print_stale(const struct page *p, const struct event *e)
{
    if (e->stale)
        print_apart(p, "(a dirty name: stale bytes after its zero)");
}

static void print_table(const struct page *p)
{
    print_row(p, "time ms", "cpu", "what", "who", "how");
    for (size_t i = 0; i < p->story->event_count && !ferror(p->out); i++) {
        const struct event *e = &p->story->events[i];
        char time[MS_ROOM] = "-", cpu[16] = "-", who[WHO_ROOM], detail[DETAIL_ROOM];
        if (e->timed)
            ms_in_words(time, e->time - p->story->first_time);
        if (e->on_cpu)
            snprintf(cpu, sizeof cpu, "%u", e->cpu);
        const char *what = describe(detail, p->story, e);
        print_row(p, time, cpu, what, who_in_words(who, &e->who), detail);
        print_build_id(p, e);
        print_stale(p, e);
        progress("writing the table", i, p->story->event_count);
    }
}

/* ---- the rings ---- */

/* How far back it reaches, from the last record of all rings. */
static void print_flight(const struct page *p, const struct source *s)
{
    char text[200], ms[MS_ROOM];
    const char *before = s->round ? "what came before is overwritten" : "it has not gone round";
    if (s->any_time)
        snprintf(text, sizeof text, "a flight recorder: the last %s ms; %s", ms_in_words(ms, p->story->last_time - s->first_time), before);
    else
        snprintf(text, sizeof text, "a flight recorder; %s", before);
    print_sentence(p->out, p->columns, 2, text);
}

static void print_source(const struct page *p, const struct source *s)
{
    char text[200], events[48] = "";
    if (s->table.count != 0)
        snprintf(events, sizeof events, ", a table of %zu %s", s->table.count, plural(s->table.count, "event", "events"));
    snprintf(text, sizeof text, "%s: ring of %zu %s, edition %u%s", s->label, s->length, plural(s->length, "byte", "bytes"), s->attributes.edition, events);
    print_sentence(p->out, p->columns, 0, text);
    snprintf(text, sizeof text, "%llu %s in %llu %s, %llu refused, %llu lost by the kernel", (unsigned long long)s->records,
        plural(s->records, "record", "records"), (unsigned long long)s->bytes, plural(s->bytes, "byte", "bytes"),
        (unsigned long long)s->refused, (unsigned long long)s->lost);
    print_sentence(p->out, p->columns, 2, text);
    if (s->stale != 0) {
        snprintf(text, sizeof text, "%llu dirty %s: stale bytes were left after %s zero", (unsigned long long)s->stale,
            plural(s->stale, "name", "names"), plural(s->stale, "its", "their"));
        print_sentence(p->out, p->columns, 2, text);
    }
    if (s->backward)
        print_flight(p, s);
    if (!source_is_whole(s)) {
        fprintf(p->out, "  NOT READ TO ITS END: stop %u at tail %llu\n", s->stop, (unsigned long long)s->stop_tail);
        fprintf(p->out, "  (%s)\n", ollskuvan_stop_text(s->stop));
    }
    if (s->records > s->refused && !s->any_time)
        print_sentence(p->out, p->columns, 2, "its records hold no time: they are listed as they lie, and no waits can be told");
}

static void print_sources(const struct page *p)
{
    const struct story *story = p->story;
    fputc('\n', p->out);
    for (size_t i = 0; i < story->source_count; i++)
        print_source(p, &story->sources[i]);
    if (story->any_time)
        fprintf(p->out, "times are ms since %llu.%09llu s of the kernel's clock\n", (unsigned long long)(story->first_time / 1000000000),
            (unsigned long long)(story->first_time % 1000000000));
}

/* ---- the waits of the watched thread ---- */

static int by_from(const void *left, const void *right)
{
    const struct wait *l = *(const struct wait *const *)left, *r = *(const struct wait *const *)right;
    return l->from < r->from ? -1 : l->from > r->from;
}

static int by_length(const void *left, const void *right)
{
    const struct wait *l = *(const struct wait *const *)left, *r = *(const struct wait *const *)right;
    if (l->to - l->from != r->to - r->from)
        return l->to - l->from > r->to - r->from ? -1 : 1;
    return by_from(left, right);
}

static int by_lateness(const void *left, const void *right)
{
    const struct wait *l = *(const struct wait *const *)left, *r = *(const struct wait *const *)right;
    if (l->to - l->started != r->to - r->started)
        return l->to - l->started > r->to - r->started ? -1 : 1;
    return by_from(left, right);
}

/* Where the shares stand: behind two times, the cpu, and with a period how the thread left it. */
enum { CPU_WIDTH = 8, HOW_WIDTH = 10 };

static int shares_at(const struct page *p)
{
    return 2 * TIME_WIDTH + 3 + CPU_WIDTH + (p->verdict->period != 0 ? HOW_WIDTH : 0);
}

static void print_share(const struct page *p, bool *first, uint64_t ns, const char *who)
{
    char ms[MS_ROOM];
    size_t before = (size_t)shares_at(p) + 14;
    fprintf(p->out, "%*s%10s ms ", *first ? 0 : shares_at(p), "", ms_in_words(ms, ns));
    if (before + strlen(who) > p->columns) /* on a line of its own, up to the right edge */
        fprintf(p->out, "\n%*s", (int)(p->columns > strlen(who) ? p->columns - strlen(who) : 0), "");
    fprintf(p->out, "%s\n", who);
    *first = false;
}

/* Who ran on this cpu, a line each; the first goes on the line that is begun. */
static void print_shares(const struct page *p, uint32_t cpu, uint32_t tid, uint64_t from, uint64_t to)
{
    struct account a = account_of(p->story, cpu, tid, from, to);
    char who[WHO_ROOM];
    bool first = true;
    uint64_t rest = a.others;
    for (size_t i = 0; i < a.shown; i++) {
        print_share(p, &first, a.top[i].ran, who_in_words(who, &a.top[i].who));
        rest -= a.top[i].ran;
    }
    snprintf(who, sizeof who, "%zu %s", a.count - a.shown, plural(a.count - a.shown, "other", "others"));
    if (a.count > a.shown)
        print_share(p, &first, rest, who);
    if (a.idle > a.whole / 100)
        print_share(p, &first, a.idle, "idle");
    if (a.own > a.whole / 100)
        print_share(p, &first, a.own, "it itself");
    if (a.unknown > a.whole / 100 || first)
        print_share(p, &first, a.unknown, "not known");
}

/* From here on a wait is explained: from its begin, or from when the thread was due. */
static uint64_t explained_from(const struct wait *w, uint64_t period)
{
    uint64_t due = period != 0 ? w->started + period : 0;
    return due > w->from ? due : w->from;
}

/* A cpu, and behind it how the thread left it. */
static void print_cpu(const struct page *p, const char *before, uint32_t cpu, const char *after, const char *how)
{
    int used = fprintf(p->out, "  %s%u%s", before, cpu, after) - 2;
    fprintf(p->out, "%*s", used < CPU_WIDTH ? CPU_WIDTH - used : 1, "");
    if (p->verdict->period != 0)
        fprintf(p->out, "%-*s", HOW_WIDTH, how);
}

/* What it ran itself after it was due: then the others begin a new line. */
static void print_own_share(const struct page *p, const struct wait *w)
{
    uint64_t due = w->started + p->verdict->period;
    bool first = true;
    if (p->verdict->period == 0 || w->from <= due)
        return;
    print_share(p, &first, w->from - due, "it itself");
    fprintf(p->out, "%*s", shares_at(p), "");
}

/* Where it came back: what ran there while it may have waited there. */
static void print_second_cpu(const struct page *p, const struct wait *w, uint64_t from)
{
    fprintf(p->out, "%*s", 2 * TIME_WIDTH + 1, "");
    print_cpu(p, "-> ", w->cpu_in, "", "");
    if (w->to - from <= SWITCH_TAKES)
        fprintf(p->out, "%10s    idle when it came\n", "");
    else
        print_shares(p, w->cpu_in, w->who.tid, from, w->to);
}

/* True: for how long it waited for each of two cpus is not known. */
static bool print_wait(const struct page *p, const struct wait *w)
{
    char at[MS_ROOM], length[MS_ROOM];
    const uint64_t period = p->verdict->period, from = explained_from(w, period);
    const uint64_t ns = period != 0 ? lateness(w, period) : w->to - w->from;
    const bool moved = w->on_cpu && w->cpu_out != w->cpu_in;
    struct move m = { .left_by = w->to, .not_before = from };
    if (moved && w->preempted)
        m = move_of(p->story, w, from);
    int used = fprintf(p->out, "%*s %*s", TIME_WIDTH, ms_in_words(at, w->to - ns - p->story->first_time), TIME_WIDTH, ms_in_words(length, ns));
    if (used > 2 * TIME_WIDTH + 1) /* longer than any recording */
        fprintf(p->out, "\n%*s", 2 * TIME_WIDTH + 1, "");
    if (!w->on_cpu) {
        fprintf(p->out, "  these records hold no cpu\n");
        return false;
    }
    print_cpu(p, "", w->cpu_out, moved ? " ->" : "", w->preempted ? "preempted" : "slept");
    print_own_share(p, w);
    print_shares(p, w->cpu_out, w->who.tid, from, m.left_by);
    if (moved)
        print_second_cpu(p, w, m.not_before);
    return moved && m.left_by > m.not_before + SWITCH_TAKES;
}

enum { WAITS_SHOWN = 10 };

/* Those that are told: preempted ones, with a period those that end past it. */
static size_t told_waits(const struct page *p, const struct wait **list)
{
    size_t count = 0;
    uint64_t period = p->verdict->period;
    for (size_t i = 0; i < p->story->wait_count; i++) {
        const struct wait *w = &p->story->waits[i];
        if (w->who.tid != p->verdict->thread->tid || w->unsure || (period != 0 ? lateness(w, period) == 0 : !w->preempted))
            continue;
        list[count++] = w;
    }
    qsort(list, count, sizeof *list, period != 0 ? by_lateness : by_length);
    qsort(list, count < WAITS_SHOWN ? count : WAITS_SHOWN, sizeof *list, by_from);
    return count;
}

static void print_waits_title(const struct page *p, size_t count)
{
    const bool period = p->verdict->period != 0;
    char ms[MS_ROOM];
    if (!period && count == 0) {
        fprintf(p->out, "\n%s\n", p->story->gap_count == 0 ? "it was never preempted" : "no record shows that it was preempted");
        return;
    }
    if (period)
        fprintf(p->out, "\nit came back %zu %s past its period", count, plural(count, "time", "times"));
    else
        fprintf(p->out, "\nit was preempted %zu %s, %s ms in all", count, plural(count, "time", "times"),
            ms_in_words(ms, p->verdict->thread->waited));
    fprintf(p->out, "%s\n", count > WAITS_SHOWN ? "; the worst ten:" : count != 0 ? ":" : "");
    if (count != 0)
        fprintf(p->out, "%*s %*s  %-*s%-*swho ran there meanwhile\n", TIME_WIDTH, period ? "due ms" : "from ms", TIME_WIDTH,
            period ? "late ms" : "waited ms", CPU_WIDTH, "cpu", period ? HOW_WIDTH : 0, period ? "how" : "");
}

static void print_waits(const struct page *p)
{
    bool open = false;
    const struct wait **list = must(malloc((p->story->wait_count + 1) * sizeof *list));
    size_t count = told_waits(p, list);
    print_waits_title(p, count);
    for (size_t i = 0; i < count && i < WAITS_SHOWN; i++)
        open = print_wait(p, list[i]) || open;
    if (open)
        print_sentence(p->out, p->columns, 2, "A -> B: it left cpu A and came back on cpu B; when it moved is not known, so for how long "
            "it waited for each is not known either");
    free(list);
}

static void print_sleeps(const struct page *p)
{
    const struct thread *t = p->verdict->thread;
    char all[MS_ROOM], longest[MS_ROOM], text[200];
    if (t->sleeps == 0)
        return;
    snprintf(text, sizeof text, "it slept %zu %s, %s ms in all, %s ms at most; when it was woken these records do not tell", t->sleeps,
        plural(t->sleeps, "time", "times"), ms_in_words(all, t->slept), ms_in_words(longest, t->longest_sleep));
    print_sentence(p->out, p->columns, 0, text);
}

/* ---- the verdict ---- */

static void print_verdict(const struct page *p)
{
    const struct verdict *v = p->verdict;
    char who[WHO_ROOM];
    print_sentence(p->out, p->columns, 0, v->headline);
    for (size_t i = 0; i < v->detail_count; i++)
        print_sentence(p->out, p->columns, 2, v->details[i]);
    if (v->thread == NULL)
        return;
    who_in_words(who, &(struct whom){ true, v->thread->pid, v->thread->tid, v->thread->name });
    fprintf(p->out, "watched: %s\n", who);
    if (!v->chosen_by_user)
        fprintf(p->out, "  (it fared worst; --watch chooses another)\n");
    if (v->kind == VERDICT_NEVER_OUT)
        return;
    print_waits(p);
    print_sleeps(p);
}

/* ---- who ran most ---- */

static int by_most_run(const void *left, const void *right)
{
    const struct thread *l = *(const struct thread *const *)left, *r = *(const struct thread *const *)right;
    if (l->ran != r->ran)
        return l->ran > r->ran ? -1 : 1;
    return l->tid < r->tid ? -1 : l->tid > r->tid;
}

enum { THREADS_SHOWN = 12 };

/* Those that ran, the one that did most first. To be freed. */
static const struct thread **threads_that_ran(const struct story *story, size_t *count)
{
    const struct thread **list = must(malloc((story->thread_count + 1) * sizeof *list));
    *count = 0;
    for (size_t i = 0; i < story->thread_count; i++)
        if (story->threads[i].ran != 0 && story->threads[i].tid != 0)
            list[(*count)++] = &story->threads[i];
    qsort(list, *count, sizeof *list, by_most_run);
    return list;
}

static void print_threads(const struct page *p)
{
    size_t count;
    const struct thread **list = threads_that_ran(p->story, &count);
    if (count != 0)
        fprintf(p->out, "\nwho ran most:\n");
    for (size_t i = 0; i < count && i < THREADS_SHOWN; i++) {
        char who[WHO_ROOM], ms[MS_ROOM];
        who_in_words(who, &(struct whom){ true, list[i]->pid, list[i]->tid, list[i]->name });
        fprintf(p->out, "%*s ms  %s\n", TIME_WIDTH + 1, ms_in_words(ms, list[i]->ran), who);
    }
    if (count > THREADS_SHOWN)
        fprintf(p->out, "%*s     and %zu more\n", TIME_WIDTH + 1, "", count - THREADS_SHOWN);
    free(list);
}

void report(FILE *out, const struct story *story, const struct verdict *verdict, bool with_table, size_t columns)
{
    struct page page = { .out = out, .story = story, .verdict = verdict, .columns = columns };
    print_verdict(&page);
    print_threads(&page);
    print_sources(&page);
    if (with_table) {
        fputc('\n', out);
        print_table(&page);
    }
}
