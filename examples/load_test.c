/*
 * A ring under load: a writer that is faster than the reader.
 *
 *   load_test [RECORDS [BUDGET [REPORT]]]
 *
 * A thread changes its name again and again; each change is one COMM record in
 * a ring of one page. The reader drains in small budgets and naps between them,
 * so the kernel must drop records, which it counts in LOST records. In the end
 * every record taken and every count of LOST must add up to the changes made.
 * With REPORT two readers share the ring: a logger that takes all it finds, in
 * such budgets, and behind it a report that takes at most REPORT records a turn.
 * Then it must add up for each of them, both must be told the same, and the logger
 * may never wait for the report.
 * Ends with 3 where the kernel does not allow perf events.
 */
#define _GNU_SOURCE
#include <errno.h>
#include <linux/perf_event.h>
#include <pthread.h>
#include <semaphore.h>
#include <stdatomic.h>
#include <stdbool.h>
#include <stdio.h>
#include <stdlib.h>
#include <string.h>
#include <sys/ioctl.h>
#include <sys/mman.h>
#include <sys/prctl.h>
#include <sys/syscall.h>
#include <time.h>
#include <unistd.h>

#include "arguments.h"
#include "bytes.h"
#include "messages.h"
#include "ollskuvan.h"
#include "perf_ring.h"
#include "readers.h"
#include "text.h"

enum { TURNS = 1000000, BUDGET_MAX = 1024, HANG_SECONDS = 120, KERNEL_SAYS_NO = 3 };

struct test {
    uint64_t changes, budget, slow; /* asked for; slow: what the report takes a turn, 0 for one reader alone */
    /* the writer */
    pthread_t thread;
    pid_t tid;
    sem_t ready, go, finished, flush, flushed, leave;
    atomic_bool done;
    uint64_t produced;
    /* the ring */
    int fd;
    struct perf_event_attr attr;
    struct perf_event_mmap_page *page;
    const uint8_t *ring;
    size_t length;
    /* the reader */
    uint8_t scratch[OLLSKUVAN_RECORD_MAX], journal[BUDGET_MAX * OLLSKUVAN_JOURNAL_ENTRY];
    uint64_t names, losts, lost, others, drains, longest_ns, fullest;
    /* or two of them */
    struct perf_ring shared;
    struct readers two;
};

static void die(const char *what)
{
    complain("%s: %s", what, strerror(errno));
    exit(1);
}

static void change_name(struct test *t)
{
    char name[16];
    snprintf(name, sizeof name, "step-%llu", (unsigned long long)(t->produced % 100000000));
    if (prctl(PR_SET_NAME, name) != 0)
        die("prctl");
    t->produced++;
}

static void *writer(void *argument)
{
    struct test *t = argument;
    t->tid = (pid_t)syscall(SYS_gettid);
    sem_post(&t->ready);
    sem_wait(&t->go);
    for (uint64_t i = 0; i < t->changes; i++)
        change_name(t);
    atomic_store(&t->done, true);
    sem_post(&t->finished);
    /* a count of losses is written with the next record that finds room: one more, after the ring is empty */
    sem_wait(&t->flush);
    change_name(t);
    sem_post(&t->flushed);
    /* an event with comm tells of a thread's end too: it may end only when the ring is read */
    sem_wait(&t->leave);
    return NULL;
}

static void open_ring(struct test *t)
{
    long page = sysconf(_SC_PAGESIZE);
    t->attr = (struct perf_event_attr){ .size = sizeof t->attr, .type = PERF_TYPE_SOFTWARE, .config = PERF_COUNT_SW_DUMMY,
        .sample_type = OLLSKUVAN_BIT_TID | OLLSKUVAN_BIT_TIME | OLLSKUVAN_BIT_CPU, .sample_id_all = 1, .comm = 1,
        .disabled = 1, .read_format = 16 /* PERF_FORMAT_LOST, since Linux 6.0 */ };
    t->fd = (int)syscall(SYS_perf_event_open, &t->attr, t->tid, -1, -1, PERF_FLAG_FD_CLOEXEC);
    if (t->fd < 0 && errno == EINVAL) {
        t->attr.read_format = 0;
        t->fd = (int)syscall(SYS_perf_event_open, &t->attr, t->tid, -1, -1, PERF_FLAG_FD_CLOEXEC);
    }
    if (t->fd < 0) {
        fprintf(stderr, "load_test: the kernel does not allow perf events: %s\n", strerror(errno));
        exit(errno == EACCES || errno == EPERM || errno == ENOSYS || errno == ENOENT ? KERNEL_SAYS_NO : 1);
    }
    uint8_t *base = mmap(NULL, 2 * (size_t)page, PROT_READ | PROT_WRITE, MAP_SHARED, t->fd, 0);
    if (base == MAP_FAILED)
        die("mmap of the ring");
    t->page = (struct perf_event_mmap_page *)base;
    t->ring = base + page;
    t->length = (size_t)page;
    if (ioctl(t->fd, PERF_EVENT_IOC_ENABLE, 0) != 0)
        die("enable");
}

static uint64_t cpu_ns(void)
{
    struct timespec now;
    clock_gettime(CLOCK_THREAD_CPUTIME_ID, &now);
    return (uint64_t)now.tv_sec * 1000000000u + (uint64_t)now.tv_nsec;
}

static void fail(const char *what, uint32_t answer, uint64_t tail)
{
    fprintf(stderr, "load_test: %s %u at tail %llu\n", what, answer, (unsigned long long)tail);
    exit(1);
}

/* What a LOST record says. */
static void count_lost(struct test *t, uint64_t head, uint64_t tail)
{
    uint64_t fields[OLLSKUVAN_FIELDS];
    struct ollskuvan_one one = ollskuvan_read_one(t->ring, t->length, head, tail, t->attr.sample_type,
        t->attr.read_format, 1, 0, 0, 0, OLLSKUVAN_EDITION_4, t->scratch, sizeof t->scratch, fields, OLLSKUVAN_FIELDS);
    if (one.size == 0 || one.answer != OLLSKUVAN_OK)
        fail("a LOST record is refused with", one.answer, tail);
    t->losts++;
    t->lost += fields[OLLSKUVAN_LOST_LOST];
}

static void count_entries(struct test *t, uint64_t head, const struct ollskuvan_drained *done)
{
    for (uint64_t i = 0; i < done->taken; i++) {
        const uint8_t *entry = t->journal + i * OLLSKUVAN_JOURNAL_ENTRY;
        uint32_t kind = (uint32_t)little(entry + OLLSKUVAN_JOURNAL_KIND, 2);
        uint32_t answer = (uint32_t)little(entry + OLLSKUVAN_JOURNAL_ANSWER, 2);
        uint64_t tail = little(entry + OLLSKUVAN_JOURNAL_TAIL, 8);
        if (answer != OLLSKUVAN_OK)
            fail("the kernel's own record is refused with", answer, tail);
        if (kind == OLLSKUVAN_TYPE_COMM)
            t->names++;
        else if (kind == OLLSKUVAN_TYPE_LOST)
            count_lost(t, head, tail);
        else
            t->others++;
    }
}

/* One drain: at most the budget. True if there may be more. */
static bool drain_some(struct test *t)
{
    uint64_t head = __atomic_load_n(&t->page->data_head, __ATOMIC_RELAXED), tail = t->page->data_tail;
    __atomic_thread_fence(__ATOMIC_ACQUIRE);
    uint64_t began = cpu_ns();
    struct ollskuvan_drained done = ollskuvan_drain(t->ring, t->length, head, tail, t->attr.sample_type, t->attr.read_format,
        1, 0, 0, 0, OLLSKUVAN_EDITION_4, t->budget, t->scratch, sizeof t->scratch, t->journal, sizeof t->journal);
    uint64_t took = cpu_ns() - began;
    if (done.stop != OLLSKUVAN_STOP_NOTHING && done.stop != OLLSKUVAN_STOP_BUDGET) {
        fprintf(stderr, "load_test: %s\n", ollskuvan_stop_text(done.stop));
        fail("a sound ring stops with", done.stop, done.tail);
    }
    if (done.taken > t->budget)
        fail("a drain took more than its budget:", (uint32_t)done.taken, done.tail);
    t->longest_ns = took > t->longest_ns ? took : t->longest_ns;
    t->fullest = head - tail > t->fullest ? head - tail : t->fullest;
    t->drains++;
    count_entries(t, head, &done);
    __atomic_thread_fence(__ATOMIC_SEQ_CST);
    __atomic_store_n(&t->page->data_tail, done.tail, __ATOMIC_RELAXED);
    return done.stop == OLLSKUVAN_STOP_BUDGET;
}

static void empty(struct test *t)
{
    while (drain_some(t))
        ;
}

/* The kernel's own count of what it dropped, where it keeps one. */
static bool kernel_lost(const struct test *t, uint64_t *lost)
{
    uint64_t values[2];
    if (t->attr.read_format == 0 || read(t->fd, values, sizeof values) != (ssize_t)sizeof values)
        return false;
    *lost = values[1];
    return true;
}

static int judge(const struct test *t)
{
    uint64_t own;
    bool known = kernel_lost(t, &own), sum = t->names + t->lost == t->produced;
    printf("%llu name changes: %llu taken, %llu lost (told by %llu LOST %s): %s\n", (unsigned long long)t->produced,
        (unsigned long long)t->names, (unsigned long long)t->lost, (unsigned long long)t->losts, plural(t->losts, "record", "records"),
        sum ? "they add up" : "THEY DO NOT ADD UP");
    if (t->others != 0)
        printf("%llu RECORDS THAT NOBODY ASKED FOR\n", (unsigned long long)t->others);
    if (known)
        printf("the kernel's own count of lost records: %llu%s\n", (unsigned long long)own, own == t->lost ? ", the same" : ", ANOTHER");
    printf("%llu drains of at most %llu %s; the ring held up to %llu of %zu bytes; the longest drain took %.1f us of processor time\n",
        (unsigned long long)t->drains, (unsigned long long)t->budget, plural(t->budget, "record", "records"), (unsigned long long)t->fullest, t->length,
        (double)t->longest_ns / 1000);
    bool bounded = t->longest_ns <= t->budget * 1000000; /* a millisecond a record: far above any real cost */
    if (!bounded)
        printf("A DRAIN TOOK LONGER THAN ITS BUDGET ALLOWS\n");
    if (t->lost == 0)
        printf("nothing was lost: the writer was not faster than the reader, so this run shows little\n");
    return sum && t->others == 0 && bounded && (!known || own == t->lost) ? 0 : 1;
}

/* ---- two readers ---- */

static void share(struct test *t)
{
    t->shared = (struct perf_ring){ .fd = -1, .program_fd = -1, .bytes = t->ring, .length = t->length, .mapped = t->page,
        .attributes = { .sample_type = t->attr.sample_type, .read_format = t->attr.read_format, .sample_id_all = 1,
            .edition = OLLSKUVAN_EDITION_4 } };
    readers_begin(&t->two, &t->shared);
}

static void turn(struct test *t, uint64_t slow)
{
    if (readers_turn(&t->two, &t->shared, TURNS, t->budget, slow))
        return;
    fprintf(stderr, "load_test: the logger stopped with %u, the report with %u, and the kernel's tail is refused with %u\n",
        t->two.logger.stop, t->two.report.stop, t->two.refused);
    exit(1);
}

/* The report comes no faster: the ring is full by now, so it holds the kernel's tail back. */
static void even(struct test *t)
{
    while (!readers_even(&t->two, &t->shared))
        turn(t, t->slow);
}

static bool adds_up(const struct test *t, const char *who, const struct reader *reader)
{
    bool sum = reader->names + reader->lost == t->produced && reader->names + reader->losts == reader->taken && reader->refused == 0;
    printf("the %s: %llu taken in %llu drains, %llu lost (told by %llu LOST): %s\n", who, (unsigned long long)reader->names,
        (unsigned long long)reader->drains, (unsigned long long)reader->lost, (unsigned long long)reader->losts,
        sum ? "they add up" : "THEY DO NOT ADD UP");
    return sum;
}

static int judge_two(const struct test *t)
{
    const struct readers *r = &t->two;
    uint64_t own;
    bool known = kernel_lost(t, &own);
    printf("%llu name changes, a logger and a report that takes %llu %s a turn\n", (unsigned long long)t->produced,
        (unsigned long long)t->slow, plural(t->slow, "record", "records"));
    bool sums = adds_up(t, "logger", &r->logger) & adds_up(t, "report", &r->report);
    bool alike = r->logger.sum == r->report.sum && r->logger.lost == r->report.lost;
    printf("both were told %s; the report held the kernel's tail back after %llu of %llu turns, by up to %llu of %zu bytes\n",
        alike ? "the same" : "SOMETHING ELSE", (unsigned long long)r->held, (unsigned long long)r->turns,
        (unsigned long long)r->furthest, t->length);
    printf("the logger waited for the report %llu times\n", (unsigned long long)r->delayed);
    if (known)
        printf("the kernel's own count of lost records: %llu%s\n", (unsigned long long)own, own == r->logger.lost ? ", the same" : ", ANOTHER");
    return sums && alike && r->delayed == 0 && (!known || own == r->logger.lost) ? 0 : 1;
}

static void read_until_done(struct test *t)
{
    const struct timespec nap = { 0, 1000000 };
    while (!atomic_load(&t->done)) {
        if (t->slow != 0)
            turn(t, t->slow);
        else
            drain_some(t);
        nanosleep(&nap, NULL);
    }
}

static void read_the_rest(struct test *t)
{
    if (t->slow != 0)
        even(t);
    else
        empty(t);
}

static uint64_t argument(const char *text, const char *what, uint64_t most)
{
    unsigned long long n;
    if (!whole_argument(text, what, 1, most, &n))
        exit(2);
    return n;
}

int main(int argc, char **argv)
{
    static struct test t;
    called_as(argv[0]);
    if (argc > 4) {
        fprintf(stderr, "usage: load_test [RECORDS [BUDGET [REPORT]]]\n");
        return 2;
    }
    t.changes = argc > 1 ? argument(argv[1], "RECORDS", 1000000000) : 100000;
    t.budget = argc > 2 ? argument(argv[2], "BUDGET", 40) : 16; /* 40 COMM records are less than a page */
    t.slow = argc > 3 ? argument(argv[3], "REPORT", 40) : 0;
    alarm(HANG_SECONDS); /* a hang ends the test by a signal */
    sem_init(&t.ready, 0, 0);
    sem_init(&t.go, 0, 0);
    sem_init(&t.finished, 0, 0);
    sem_init(&t.flush, 0, 0);
    sem_init(&t.flushed, 0, 0);
    sem_init(&t.leave, 0, 0);
    if (pthread_create(&t.thread, NULL, writer, &t) != 0)
        die("pthread_create");
    sem_wait(&t.ready);
    open_ring(&t);
    share(&t);
    sem_post(&t.go);
    read_until_done(&t);
    sem_wait(&t.finished);
    read_the_rest(&t);
    sem_post(&t.flush);
    sem_wait(&t.flushed);
    read_the_rest(&t);
    sem_post(&t.leave);
    pthread_join(t.thread, NULL);
    int status = t.slow != 0 ? judge_two(&t) : judge(&t);
    return output_written() ? status : 1;
}
