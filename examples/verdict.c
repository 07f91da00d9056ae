#define _GNU_SOURCE
#include "verdict.h"

#include <stdarg.h>
#include <stdlib.h>
#include <string.h>

#include "memory.h"
#include "ollskuvan.h"

/* ---- sentences ---- */

static char *composed(const char *format, va_list list)
{
    char *text = NULL;
    if (vasprintf(&text, format, list) < 0)
        text = NULL;
    return must(text);
}

static void say_first(struct verdict *v, const char *format, ...) __attribute__((format(printf, 2, 3)));
static void say(struct verdict *v, const char *format, ...) __attribute__((format(printf, 2, 3)));

static void say_first(struct verdict *v, const char *format, ...)
{
    va_list list;
    va_start(list, format);
    v->headline = composed(format, list);
    va_end(list);
}

static void say(struct verdict *v, const char *format, ...)
{
    va_list list;
    va_start(list, format);
    v->details = grown(v->details, v->detail_count, &v->detail_room, sizeof *v->details);
    v->details[v->detail_count++] = composed(format, list);
    va_end(list);
}

void verdict_end(struct verdict *v)
{
    for (size_t i = 0; i < v->detail_count; i++)
        free(v->details[i]);
    free(v->details);
    free(v->headline);
    memset(v, 0, sizeof *v);
}

/* ---- who had a cpu, in words ---- */

/* Nine tenths of it. */
static bool is_nearly(uint64_t part, uint64_t whole)
{
    return part >= whole - whole / 10;
}

/* Too little of it to be worth a word. */
static bool is_hardly(uint64_t part, uint64_t whole)
{
    return part <= whole / 100;
}

/* "ran 'a' 1/1 (20.1 ms), 'b' 2/2 (10.0 ms), 3 others (2.0 ms)" */
static void put_shares(FILE *out, const struct account *a)
{
    char who[WHO_ROOM], ms[MS_ROOM];
    uint64_t rest = a->others;
    size_t named = 0;
    for (; named < a->shown && (named == 0 || !is_hardly(a->top[named].ran, a->whole)); named++) {
        const struct share *share = &a->top[named];
        fprintf(out, "%s%s (%s ms)", named == 0 ? "ran " : ", ", who_in_words(who, &share->who), short_ms(ms, share->ran));
        rest -= share->ran;
    }
    if (!is_hardly(rest, a->whole))
        fprintf(out, ", %zu %s (%s ms)", a->count - named, plural(a->count - named, "other", "others"), short_ms(ms, rest));
}

/* "cpu 1 ran 'backup' 812/812": one that had nearly all of it is named alone. To be freed. */
static char *account_in_words(const struct account *a, uint32_t cpu)
{
    char *text = NULL, who[WHO_ROOM], ms[MS_ROOM];
    size_t size;
    FILE *out = must(open_memstream(&text, &size));
    fprintf(out, "cpu %u ", cpu);
    if (a->shown != 0 && is_nearly(a->top[0].ran, a->whole)) {
        fprintf(out, "ran %s", who_in_words(who, &a->top[0].who));
    } else if (is_nearly(a->idle, a->whole)) {
        fputs("was idle", out);
    } else if (a->shown == 0 && is_hardly(a->idle, a->whole)) {
        fputs("ran what these records do not tell", out);
    } else {
        put_shares(out, a);
        if (!is_hardly(a->idle, a->whole))
            fprintf(out, "%swas idle for %s ms", a->shown != 0 ? ", " : "", short_ms(ms, a->idle));
        if (!is_hardly(a->unknown, a->whole))
            fprintf(out, ", and who ran for %s ms is not known", short_ms(ms, a->unknown));
    }
    if (fclose(out) != 0)
        text = NULL;
    return must(text);
}

/* ---- a wait from one cpu to another ---- */

static uint64_t first_idle(const struct story *story, uint32_t cpu, uint64_t from, uint64_t to)
{
    size_t count;
    const struct run *runs = story_runs_of(story, cpu, &count);
    for (size_t i = first_run_after(runs, count, from); i < count && runs[i].from < to; i++)
        if (runs[i].who.tid == 0)
            return runs[i].from > from ? runs[i].from : from;
    return to;
}

static uint64_t last_idle(const struct story *story, uint32_t cpu, uint64_t from, uint64_t to)
{
    size_t count;
    const struct run *runs = story_runs_of(story, cpu, &count);
    for (size_t i = first_run_after(runs, count, to); i-- > 0 && runs[i].to > from;)
        if (runs[i].who.tid == 0)
            return runs[i].to < to ? runs[i].to : to;
    return from;
}

struct move move_of(const struct story *story, const struct wait *w, uint64_t from)
{
    return (struct move){ .left_by = first_idle(story, w->cpu_out, from, w->to),
        .not_before = last_idle(story, w->cpu_in, from, w->to) };
}

static char *cpu_in_words(const struct story *story, const struct wait *w, uint32_t cpu, uint64_t from, uint64_t to)
{
    struct account a = account_of(story, cpu, w->who.tid, from, to);
    return account_in_words(&a, cpu);
}

/* The parts of the wait: for the first cpu until it moved, for the second after that. */
static void say_parts(struct verdict *v, const struct story *story, struct move m)
{
    const struct wait *w = v->worst;
    char *first = cpu_in_words(story, w, w->cpu_out, v->from, m.left_by);
    char *second = cpu_in_words(story, w, w->cpu_in, m.not_before, w->to);
    char ms[MS_ROOM];
    say(v, "these records do not tell when it moved");
    if (m.left_by > v->from)
        say(v, "until it moved it waited for cpu %u, in the first %s ms at most: %s", w->cpu_out, short_ms(ms, m.left_by - v->from), first);
    if (m.not_before < w->to)
        say(v, "after that, if at all, for cpu %u, in the last %s ms at most: %s", w->cpu_in, short_ms(ms, w->to - m.not_before), second);
    free(first);
    free(second);
}

/* Of all but a tenth of the time it is known for which cpu it waited. */
static void say_first_cpu(struct verdict *v, const struct story *story, struct move m, const char *late)
{
    const struct wait *w = v->worst;
    char *first = cpu_in_words(story, w, w->cpu_out, v->from, m.left_by), ms[MS_ROOM];
    say_first(v, "%s: %s; then it moved to cpu %u", late, first, w->cpu_in);
    if (w->to - m.not_before > SWITCH_TAKES)
        say(v, "cpu %u was idle until %s ms before it came: before that nobody was in its way there", w->cpu_in, short_ms(ms, w->to - m.not_before));
    else
        say(v, "cpu %u was idle when it came: nobody was in its way there", w->cpu_in);
    free(first);
}

static void say_second_cpu(struct verdict *v, const struct story *story, struct move m, const char *late)
{
    const struct wait *w = v->worst;
    char *second = cpu_in_words(story, w, w->cpu_in, m.not_before, w->to), ms[MS_ROOM];
    say_first(v, "%s: it moved from cpu %u to cpu %u, and %s", late, w->cpu_out, w->cpu_in, second);
    say(v, "cpu %u was idle after the first %s ms: after that nobody was in its way there", w->cpu_out, short_ms(ms, m.left_by - v->from));
    free(second);
}

/* Who took its place, where the record tells. */
static void say_lost_to(struct verdict *v, const char *late)
{
    char who[WHO_ROOM];
    const struct wait *w = v->worst;
    if (w->next.known && w->next.tid != 0)
        say_first(v, "%s: lost cpu %u to %s, came back on cpu %u", late, w->cpu_out, who_in_words(who, &w->next), w->cpu_in);
    else
        say_first(v, "%s: lost cpu %u, came back on cpu %u", late, w->cpu_out, w->cpu_in);
}

static void tell_moved_wait(struct verdict *v, const struct story *story, const char *late)
{
    const struct wait *w = v->worst;
    struct move m = move_of(story, w, v->from);
    uint64_t whole = w->to - v->from;
    uint64_t sure_first = (m.not_before < m.left_by ? m.not_before : m.left_by) - v->from;
    uint64_t sure_second = w->to - (m.left_by > m.not_before ? m.left_by : m.not_before);
    if (is_nearly(sure_first, whole)) {
        say_first_cpu(v, story, m, late);
    } else if (is_nearly(sure_second, whole)) {
        say_second_cpu(v, story, m, late);
    } else {
        say_lost_to(v, late);
        say_parts(v, story, m);
    }
}

/* ---- a wait of a thread that could have run; late: "late: waited 41.2 ms" ---- */

static void tell_wait_without_cpu(struct verdict *v, const char *late)
{
    char who[WHO_ROOM];
    const struct wait *w = v->worst;
    if (w->preempted && w->next.known && w->next.tid != 0)
        say_first(v, "%s: %s took its place", late, who_in_words(who, &w->next));
    else
        say_first(v, "%s", late);
    say(v, "these records hold no cpu: who ran there is not known");
}

static void tell_wait(struct verdict *v, const struct story *story, const char *late)
{
    const struct wait *w = v->worst;
    if (!w->on_cpu) {
        tell_wait_without_cpu(v, late);
    } else if (w->cpu_out != w->cpu_in) {
        tell_moved_wait(v, story, late);
    } else {
        struct account a = account_of(story, w->cpu_in, w->who.tid, v->from, w->to);
        char *text = account_in_words(&a, w->cpu_in);
        say_first(v, "%s: %s", late, text);
        if (is_nearly(a.idle, a.whole))
            say(v, "nobody was in its way on cpu %u: what kept it from running these records do not tell", w->cpu_in);
        free(text);
    }
    if (w->open)
        say(v, "it had not come back when the recording ended");
}

/* ---- a period ---- */

uint64_t lateness(const struct wait *w, uint64_t period)
{
    bool told = w->started != 0 && !w->unsure && (!w->open || w->preempted);
    return told && w->to - w->started > period ? w->to - w->started - period : 0;
}

/* It slept, and when it was woken is not told: who ran meanwhile may have been in its way, or not. */
static void tell_late_sleep(struct verdict *v, const struct story *story, const char *late)
{
    const struct wait *w = v->worst;
    if (!w->on_cpu) {
        tell_wait_without_cpu(v, late);
    } else {
        char *first = cpu_in_words(story, w, w->cpu_out, v->from, w->to), *second = cpu_in_words(story, w, w->cpu_in, v->from, w->to);
        if (w->cpu_out == w->cpu_in)
            say_first(v, "%s; meanwhile %s", late, second);
        else
            say_first(v, "%s; slept on cpu %u, came back on cpu %u", late, w->cpu_out, w->cpu_in);
        if (w->cpu_out != w->cpu_in)
            say(v, "meanwhile %s, and %s", first, second);
        free(first);
        free(second);
    }
    say(v, "it slept before: these records do not tell when it was woken, so not whether it waited for anyone or slept on");
}

static void tell_past(struct verdict *v, const struct story *story)
{
    const struct wait *w = v->worst;
    uint64_t due = w->started + v->period;
    char late[96], ms[MS_ROOM];
    snprintf(late, sizeof late, "late: %s ms past its period of %g ms", short_ms(ms, w->to - due), (double)v->period / 1e6);
    v->late_from = due;
    v->from = due > w->from ? due : w->from;
    if (is_nearly(v->from - due, w->to - due)) {
        say_first(v, "%s: it was running itself", late);
        return;
    }
    if (w->preempted)
        tell_wait(v, story, late);
    else
        tell_late_sleep(v, story, late);
    if (v->from > due)
        say(v, "for the first %s ms of that it was running itself", short_ms(ms, v->from - due));
}

static void judge_period(struct verdict *v, const struct story *story)
{
    const struct wait *w = v->worst;
    char ms[MS_ROOM];
    if (w == NULL) {
        v->kind = VERDICT_NOT_KNOWN;
        say_first(v, "not known: no two switch-ins of it are told");
    } else if (lateness(w, v->period) == 0) {
        v->kind = VERDICT_ON_TIME;
        say_first(v, "on time: no two switch-ins lie further apart than its period of %g ms (at most %s ms)", (double)v->period / 1e6,
            short_ms(ms, w->to - w->started));
    } else {
        v->kind = VERDICT_PAST;
        tell_past(v, story);
    }
}

/* ---- without a period ---- */

static void judge_waits(struct verdict *v, const struct story *story)
{
    const struct thread *t = v->thread;
    char ms[MS_ROOM];
    if (v->worst != NULL) {
        char late[64];
        v->kind = VERDICT_WAITED;
        snprintf(late, sizeof late, "late: waited %s ms", short_ms(ms, v->worst->to - v->worst->from));
        tell_wait(v, story, late);
    } else if (t->sleeps != 0) {
        v->kind = VERDICT_SLEPT;
        say_first(v, "slept %s ms at most (%zu %s): these records do not tell when it was woken", short_ms(ms, t->longest_sleep), t->sleeps,
            plural(t->sleeps, "time", "times"));
        say(v, "%s; whether it came back in time is told with --period MS",
            story->gap_count == 0 ? "it was never preempted" : "no record shows that it was preempted");
    } else if (t->unsure != 0) {
        v->kind = VERDICT_NOT_KNOWN;
        say_first(v, "not known: records are missing in each of its waits");
    } else {
        v->kind = VERDICT_NEVER_OUT;
        say_first(v, "it was never switched out and in again");
    }
}

/* The longest wait; with a period the one that ends furthest past it, or comes nearest to it. */
static bool is_worse(const struct wait *left, const struct wait *right, uint64_t period)
{
    uint64_t begin = period != 0 ? left->started : left->from;
    if (right == NULL)
        return true;
    return left->to - begin > right->to - (period != 0 ? right->started : right->from);
}

static bool counts(const struct wait *w, uint64_t period)
{
    if (w->unsure || (w->open && !w->preempted))
        return false;
    return period == 0 ? w->preempted : w->started != 0;
}

static const struct wait *worst_wait(const struct story *story, uint32_t tid, uint64_t period)
{
    const struct wait *worst = NULL;
    for (size_t i = 0; i < story->wait_count; i++) {
        const struct wait *w = &story->waits[i];
        if (w->who.tid == tid && counts(w, period) && is_worse(w, worst, period))
            worst = w;
    }
    return worst;
}

/* ---- whom to watch ---- */

static bool is_thread(const struct thread *thread)
{
    return thread->seen && thread->tid != 0 && thread->tid != TID_ENDED;
}

/* The one that waited longest; else the one that slept longest. */
static bool fared_worse(const struct thread *left, const struct thread *right)
{
    if (right == NULL || left->longest_wait != right->longest_wait)
        return right == NULL || left->longest_wait > right->longest_wait;
    if (left->longest_sleep != right->longest_sleep)
        return left->longest_sleep > right->longest_sleep;
    return left->tid < right->tid;
}

/* Where a program was recorded, its own threads come first. */
static const struct thread *fared_worst(const struct story *story)
{
    const struct thread *own = NULL, *any = NULL;
    for (size_t i = 0; i < story->thread_count; i++) {
        const struct thread *thread = &story->threads[i];
        if (!is_thread(thread) || (thread->waits == 0 && thread->sleeps == 0))
            continue;
        if (thread->of_program && fared_worse(thread, own))
            own = thread;
        if (fared_worse(thread, any))
            any = thread;
    }
    return own != NULL ? own : any;
}

static int by_number(const void *left, const void *right)
{
    const struct thread *l = *(const struct thread *const *)left, *r = *(const struct thread *const *)right;
    return l->tid < r->tid ? -1 : l->tid > r->tid;
}

/* Which threads are called so at the end. To be freed. */
static bool *last_called(const struct story *story, const char *name, bool *any)
{
    bool *called = must(calloc(story->thread_count + 1, sizeof *called));
    for (size_t i = 0; i < story->thread_count; i++) {
        const struct thread *t = &story->threads[i];
        called[i] = is_thread(t) && t->name != NULL && strcmp(t->name, name) == 0;
        *any = *any || called[i];
    }
    return called;
}

/* Which were ever called so. To be freed. */
static bool *ever_called(const struct story *story, const char *name)
{
    bool *called = must(calloc(story->thread_count + 1, sizeof *called));
    for (size_t i = 0; i < story->event_count; i++) {
        const struct whom *who = &story->events[i].who;
        if (who->known && who->name != NULL && strcmp(who->name, name) == 0)
            called[story_thread(story, who->tid) - story->threads] = true;
    }
    return called;
}

/* Those that are called so at the end; if there are none, those that ever were. By tid; to be freed. */
static const struct thread **threads_called(const struct story *story, const char *name, size_t *count)
{
    const struct thread **list = must(malloc((story->thread_count + 1) * sizeof *list));
    bool any = false, *last = last_called(story, name, &any), *ever = ever_called(story, name);
    *count = 0;
    for (size_t i = 0; i < story->thread_count; i++)
        if (is_thread(&story->threads[i]) && (any ? last[i] : ever[i]))
            list[(*count)++] = &story->threads[i];
    qsort(list, *count, sizeof *list, by_number);
    free(ever);
    free(last);
    return list;
}

static const struct thread *by_tid(const struct story *story, const char *watch)
{
    char *end;
    unsigned long tid = strtoul(watch, &end, 10);
    if (*watch < '1' || *watch > '9' || *end != '\0' || tid >= TID_ENDED)
        return NULL;
    const struct thread *thread = story_thread(story, (uint32_t)tid);
    return thread != NULL && is_thread(thread) ? thread : NULL;
}

static enum judged choose(const struct story *story, const char *watch, const struct thread **chosen)
{
    size_t count;
    *chosen = by_tid(story, watch);
    if (*chosen != NULL)
        return JUDGED;
    const struct thread **list = threads_called(story, watch, &count);
    if (count == 1)
        *chosen = list[0];
    free(list);
    return count == 0 ? NO_SUCH_THREAD : count == 1 ? JUDGED : SEVERAL_THREADS;
}

/* ---- what the records leave open ---- */

enum { CAUTIONS_SHOWN = 3 };

static void say_of_ring(struct verdict *v, const struct source *s)
{
    if (!source_is_whole(s))
        say(v, "caution: %s was not read to its end: %s", s->label, ollskuvan_stop_text(s->stop));
    else if (s->full)
        say(v, "caution: %s is full: what came after its last record is not known", s->label);
    else if (s->alone_in_time)
        say(v, "caution: %s is of another time than the other rings: give the rings of one recording", s->label);
}

static void say_of_rings(struct verdict *v, const struct story *story)
{
    size_t count = 0;
    for (size_t i = 0; i < story->source_count; i++) {
        const struct source *s = &story->sources[i];
        bool faulty = !source_is_whole(s) || s->full || s->alone_in_time;
        if (faulty && ++count <= CAUTIONS_SHOWN)
            say_of_ring(v, s);
    }
    if (count > CAUTIONS_SHOWN)
        say(v, "caution: the same or the like of %zu more rings", count - CAUTIONS_SHOWN);
}

static void say_cautions(struct verdict *v, const struct story *story)
{
    if (v->thread != NULL && v->thread->unsure != 0)
        say(v, "caution: records are missing: %zu of its waits cannot be told", v->thread->unsure);
    else if (v->thread != NULL && story->lost != 0)
        say(v, "caution: records were lost: there may be waits that are not told");
    if (story->cut)
        say(v, "caution: there were more records than are kept: the report ends with the first %zu", story->event_most);
    if (v->thread != NULL && story->partial && story->cpu_count == 1)
        say(v, "caution: the switches of one cpu alone are here: on another it may have run meanwhile");
    else if (v->thread != NULL && story->partial)
        say(v, "caution: the switches of some cpus are not here: on those it may have run meanwhile");
    say_of_rings(v, story);
}

/* ---- the whole ---- */

bool is_late(const struct verdict *v)
{
    return v->kind == VERDICT_WAITED || v->kind == VERDICT_PAST;
}

enum judged judge(const struct story *story, const char *watch, uint64_t period, struct verdict *v)
{
    enum judged answer = JUDGED;
    memset(v, 0, sizeof *v);
    v->chosen_by_user = watch != NULL;
    v->period = period;
    if (watch != NULL)
        answer = choose(story, watch, &v->thread);
    else
        v->thread = fared_worst(story);
    if (answer != JUDGED)
        return answer;
    if (v->thread == NULL) {
        v->kind = VERDICT_NOBODY;
        say_first(v, "nobody was switched out and in again: there is nobody to watch");
        say_cautions(v, story);
        return JUDGED;
    }
    v->worst = worst_wait(story, v->thread->tid, period);
    v->late_from = v->from = v->worst != NULL ? v->worst->from : 0;
    if (period != 0)
        judge_period(v, story);
    else
        judge_waits(v, story);
    say_cautions(v, story);
    return JUDGED;
}

size_t print_threads_called(FILE *out, const struct story *story, const char *name)
{
    enum { MOST = 40 };
    size_t count;
    const struct thread **list = threads_called(story, name, &count);
    for (size_t i = 0; i < count && i < MOST; i++) {
        char ran[MS_ROOM], waited[MS_ROOM];
        fprintf(out, "  --watch %-8u process %u, ran %s ms, waited %s ms at most\n", list[i]->tid, list[i]->pid,
            ms_in_words(ran, list[i]->ran), ms_in_words(waited, list[i]->longest_wait));
    }
    if (count > MOST)
        fprintf(out, "  and %zu more\n", count - MOST);
    free(list);
    return count;
}
