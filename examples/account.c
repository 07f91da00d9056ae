/*
 * Who had a cpu between two times.
 */
#include <stdlib.h>
#include <string.h>

#include "memory.h"
#include "verdict.h"

static int by_thread(const void *left, const void *right)
{
    const struct share *l = left, *r = right;
    if (l->who.tid != r->who.tid)
        return l->who.tid < r->who.tid ? -1 : 1;
    return l->last < r->last ? -1 : l->last > r->last;
}

static int by_ran(const void *left, const void *right)
{
    const struct share *l = left, *r = right;
    if (l->ran != r->ran)
        return l->ran > r->ran ? -1 : 1;
    return by_thread(left, right);
}

/* Those of one thread become one, with the name it had last. */
static size_t fold(struct share *all, size_t count)
{
    size_t kept = 0;
    if (count > 1)
        qsort(all, count, sizeof *all, by_thread);
    for (size_t i = 0; i < count; i++) {
        bool another = kept == 0 || all[kept - 1].who.tid != all[i].who.tid;
        uint64_t before = another ? 0 : all[kept - 1].ran;
        kept += another;
        all[kept - 1] = all[i];
        all[kept - 1].ran += before;
    }
    if (kept > 1)
        qsort(all, kept, sizeof *all, by_ran);
    return kept;
}

static uint64_t overlap(const struct run *run, uint64_t from, uint64_t to)
{
    uint64_t begin = run->from > from ? run->from : from, end = run->to < to ? run->to : to;
    return begin < end ? end - begin : 0;
}

struct account account_of(const struct story *story, uint32_t cpu, uint32_t own_tid, uint64_t from, uint64_t to)
{
    struct account a = { .whole = to > from ? to - from : 0 };
    struct share *others = NULL;
    size_t count, found = 0, room = 0;
    const struct run *runs = story_runs_of(story, cpu, &count);
    for (size_t i = first_run_after(runs, count, from); i < count && runs[i].from < to; i++) {
        uint64_t ran = overlap(&runs[i], from, to);
        if (runs[i].who.tid == 0) {
            a.idle += ran;
        } else if (runs[i].who.tid == own_tid) {
            a.own += ran;
        } else {
            others = grown(others, found, &room, sizeof *others);
            others[found++] = (struct share){ .who = runs[i].who, .ran = ran, .last = runs[i].to };
            a.others += ran;
        }
    }
    uint64_t told = a.others + a.own + a.idle;
    a.unknown = a.whole > told ? a.whole - told : 0;
    a.count = fold(others, found);
    a.shown = a.count < SHARES_MAX ? a.count : SHARES_MAX;
    if (a.shown != 0)
        memcpy(a.top, others, a.shown * sizeof *others);
    free(others);
    return a;
}
