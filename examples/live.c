#define _GNU_SOURCE
#include "live.h"

#include <errno.h>
#include <signal.h>
#include <stdio.h>
#include <stdlib.h>
#include <string.h>
#include <sys/wait.h>
#include <time.h>

#include "commands.h"
#include "memory.h"
#include "messages.h"
#include "text.h"

enum { CPUS_MAX = 4096 };

/* ---- signals ---- */

static volatile sig_atomic_t interrupted;
static const int signals[] = { SIGINT, SIGTERM, SIGUSR1 };
enum { SIGNALS = sizeof signals / sizeof signals[0], ENDING = 2 }; /* the first ones end any recording */
static struct sigaction before[SIGNALS];
static size_t caught; /* how many of them */

/* One that ends the program goes before one that asks for the rings. */
static void on_interrupt(int signal)
{
    if (interrupted == 0 || interrupted == SIGUSR1)
        interrupted = signal;
}

/* A signal that the caller has us ignore stays ignored. */
static void catch_signals(size_t count)
{
    struct sigaction ours = { .sa_handler = on_interrupt };
    interrupted = 0;
    for (size_t i = 0; i < count; i++) {
        sigaction(signals[i], NULL, &before[i]);
        if (before[i].sa_handler != SIG_IGN)
            sigaction(signals[i], &ours, NULL);
    }
    caught = count;
}

static void restore_signals(void)
{
    for (size_t i = 0; i < caught; i++)
        sigaction(signals[i], &before[i], NULL);
    caught = 0;
}

/* ---- which cpus ---- */

static bool is_among(int cpu, const int *cpus, size_t count)
{
    for (size_t i = 0; i < count; i++)
        if (cpus[i] == cpu)
            return true;
    return false;
}

static int choose_cpus(const struct live_want *want, int cpus[CPUS_MAX], size_t *count)
{
    *count = cpus_online(cpus, CPUS_MAX);
    if (*count == 0 && want->cpu < 0) {
        complain("the cpus that are online are not known");
        return STATUS_FAILED;
    }
    if (want->cpu < 0)
        return STATUS_DONE;
    if (*count != 0 && !is_among(want->cpu, cpus, *count)) {
        complain("--cpu: cpu %d is not online (there are %zu, from %d to %d)", want->cpu, *count, cpus[0], cpus[*count - 1]);
        return STATUS_USAGE;
    }
    cpus[0] = want->cpu;
    *count = 1;
    return STATUS_DONE;
}

/* ---- open, start, stop ---- */

static int open_ring(struct live *live, int cpu)
{
    char why[WHY_ROOM];
    const struct live_want *w = &live->want;
    struct perf_want want = { .cpu = cpu, .pages = w->pages, .program = live->program.pid, .clock = w->clock,
        .branch = w->branch, .counters = w->counters, .table = w->table, .backward = w->backward, .edition = w->edition };
    switch (perf_ring_open(&live->rings[live->count], &want, why)) {
    case PERF_OPEN:
        live->count++;
        return STATUS_DONE;
    case PERF_NOT_ALLOWED:
        complain("cpu %d: %s", cpu, why);
        return STATUS_KERNEL_SAYS_NO;
    default:
        complain("cpu %d: %s", cpu, why);
        return STATUS_FAILED;
    }
}

int live_open(struct live *live, const struct live_want *want)
{
    static int cpus[CPUS_MAX];
    size_t count;
    *live = (struct live){ .want = *want, .program = PROGRAM_NONE };
    int status = choose_cpus(want, cpus, &count);
    if (status != STATUS_DONE)
        return status;
    if (want->program != NULL && !program_prepare(&live->program, want->program)) {
        complain("no process for %s: %s", want->program[0], strerror(errno));
        return STATUS_FAILED;
    }
    live->rings = must(calloc(count, sizeof *live->rings));
    for (size_t i = 0; i < count && status == STATUS_DONE; i++)
        status = open_ring(live, cpus[i]);
    return status;
}

static bool for_each_ring(struct live *live, bool (*act)(const struct perf_ring *, char *))
{
    char why[WHY_ROOM];
    for (size_t i = 0; i < live->count; i++)
        if (!act(&live->rings[i], why)) {
            complain("%s", why);
            return false;
        }
    return true;
}

int live_start(struct live *live)
{
    catch_signals(live->want.backward ? SIGNALS : ENDING);
    if (!for_each_ring(live, perf_ring_start))
        return STATUS_FAILED;
    live->began = now_ns();
    if (live->want.program != NULL && !program_go(&live->program)) {
        complain("%s did not start: %s", live->want.program[0], strerror(errno));
        return STATUS_FAILED;
    }
    return STATUS_DONE;
}

int live_stop(struct live *live)
{
    live->ended = now_ns();
    bool stopped = for_each_ring(live, perf_ring_stop);
    restore_signals();
    return stopped ? STATUS_DONE : STATUS_FAILED;
}

void live_close(struct live *live)
{
    restore_signals();
    program_stop(&live->program);
    for (size_t i = 0; i < live->count; i++)
        perf_ring_close(&live->rings[i]);
    free(live->rings);
    live->rings = NULL;
    live->count = 0;
}

/* ---- the loop ---- */

static void tell_end(int status)
{
    if (WIFEXITED(status) && WEXITSTATUS(status) != 0)
        complain("the program ended with %d", WEXITSTATUS(status));
    else if (WIFSIGNALED(status))
        complain("the program was ended by signal %d (%s)", WTERMSIG(status), strsignal(WTERMSIG(status)));
}

/* How much longer than a step it was, since then. */
static uint64_t lateness(uint64_t since)
{
    uint64_t step = STEP_MS * UINT64_C(1000000), took = now_ns() - since;
    return took > step ? took - step : 0;
}

/* Backward rings run over what is wanted: they are paused first of all. */
static enum live_end ended_by(struct live *live, enum live_end end)
{
    if (live->want.backward && !for_each_ring(live, perf_ring_pause))
        complain("what was recorded last may be overwritten meanwhile");
    return end;
}

enum live_end live_record(struct live *live, void (*look)(void *context), void *context)
{
    const struct timespec nap = { 0, STEP_MS * 1000000L };
    const uint64_t until = live->want.seconds > 0 ? live->began + (uint64_t)(live->want.seconds * 1e9) : UINT64_MAX;
    bool has_program = live->program.pid != 0;
    int status = 0;
    while (!interrupted && now_ns() < until) {
        uint64_t since = now_ns();
        nanosleep(&nap, NULL); /* a signal may end it early */
        live->late = lateness(since);
        if (live->want.late != 0 && live->late > live->want.late)
            return ended_by(live, LIVE_LATE);
        look(context);
        if (has_program && program_ended(&live->program, &status)) {
            enum live_end end = ended_by(live, LIVE_PROGRAM);
            tell_end(status);
            return end;
        }
    }
    return ended_by(live, interrupted == SIGUSR1 ? LIVE_ASKED : interrupted ? LIVE_SIGNAL : LIVE_TIME);
}

void live_wait(struct live *live)
{
    const struct timespec nap = { 0, STEP_MS * 1000000L };
    int status = 0;
    catch_signals(ENDING);
    while (live->program.pid != 0 && !interrupted) {
        nanosleep(&nap, NULL);
        if (program_ended(&live->program, &status))
            tell_end(status);
    }
    restore_signals();
}

const char *gap_text(uint32_t stop, uint64_t bytes, char text[GAP_TEXT])
{
    if (stop == OLLSKUVAN_STOP_DISTANCE)
        snprintf(text, GAP_TEXT, "what lies before head");
    else
        snprintf(text, GAP_TEXT, "%llu %s", (unsigned long long)bytes, plural(bytes, "byte", "bytes"));
    return text;
}
