/*
 * Records real rings from the running kernel and saves them as images for
 * ringdump: head, tail, sample type, read format, user mask, interrupt mask (8
 * bytes each), edition and sample_id_all (1 byte each), then the ring.
 *
 *     record_ring PLAN OUT.img      record one plan
 *     record_ring list              print the plans
 *
 * A plan of several events writes their table beside the image, OUT.table: an
 * event a line, the words of struct ollskuvan_event. The image's own attributes
 * are then those of its first event.
 *
 * A backward plan saves the counts that the kernel keeps: its head has fallen from
 * 0, and its tail is 0.
 *
 * Needs the right to open perf events (root, or a low perf_event_paranoid).
 * Only software events and a tracepoint are used. What the records hold comes from small
 * workloads of this program alone; where stacks are recorded it runs on one of
 * its own. The cpu-wide plans record process numbers of others and nothing else
 * of them.
 */
#define _GNU_SOURCE
#include <errno.h>
#include <fcntl.h>
#include <linux/bpf.h>
#include <linux/perf_event.h>
#include <pthread.h>
#include <sched.h>
#include <signal.h>
#include <stdint.h>
#include <stdio.h>
#include <stdlib.h>
#include <string.h>
#include <sys/ioctl.h>
#include <sys/mman.h>
#include <sys/prctl.h>
#include <sys/stat.h>
#include <sys/syscall.h>
#include <sys/wait.h>
#include <ucontext.h>
#include <unistd.h>

/* Names in the images: neutral folders alone. */
#define FOLDER "/tmp/kiln"

#if defined(__aarch64__)
/* x0 to x30, sp, pc */
#define REGISTERS UINT64_C(0x1ffffffff)
#define FEW_REGISTERS UINT64_C(0x1e0000000)
#elif defined(__arm__)
/* r0 to r10, fp, ip, sp, lr, pc */
#define REGISTERS UINT64_C(0xffff)
#define FEW_REGISTERS UINT64_C(0xe800)
#else
/* rax rbx rcx rdx rsi rdi rbp rsp rip flags cs ss, r8 to r15 (x86) */
#define REGISTERS UINT64_C(0xff0fff)
#define FEW_REGISTERS UINT64_C(0x1c0)
#endif

#define VALUE_FORMAT (PERF_FORMAT_ID | PERF_FORMAT_TOTAL_TIME_ENABLED | PERF_FORMAT_TOTAL_TIME_RUNNING)
#define GROUP_FORMAT (PERF_FORMAT_GROUP | VALUE_FORMAT)

static void die(const char *what)
{
    fprintf(stderr, "record_ring: %s: %s\n", what, strerror(errno));
    exit(1);
}

/* As the system tells it: on ARM pages may have 16 or 64 KiB. */
static size_t page_size(void)
{
    return (size_t)sysconf(_SC_PAGESIZE);
}

/* One open event and its ring. */
struct recording {
    struct perf_event_attr attr;
    int fd;
    size_t length; /* of the ring */
    struct perf_event_mmap_page *page;
    uint8_t *ring;
};

static int open_event(struct perf_event_attr *attr, pid_t pid, int cpu, int group)
{
    attr->size = sizeof *attr;
    return (int)syscall(SYS_perf_event_open, attr, pid, cpu, group, PERF_FLAG_FD_CLOEXEC);
}

/* Pages of 4096 bytes, or one of the system's where that is longer. */
static void open_ring(struct recording *r, pid_t pid, int cpu, size_t pages)
{
    uint8_t *base;
    r->attr.disabled = 1;
    r->fd = open_event(&r->attr, pid, cpu, -1);
    if (r->fd < 0)
        die("perf_event_open");
    r->length = pages * 4096 < page_size() ? page_size() : pages * 4096;
    /* mapped for reading alone a ring is written over its oldest records */
    base = mmap(NULL, r->length + page_size(), r->attr.write_backward ? PROT_READ : PROT_READ | PROT_WRITE, MAP_SHARED, r->fd, 0);
    if (base == MAP_FAILED)
        die("mmap of the ring");
    r->page = (struct perf_event_mmap_page *)base;
    r->ring = base + page_size();
}

/* A kernel of 32 bits counts in 32 bits, and data_head's upper half is 0: a backward ring's head, which falls from 0, is widened. */
static uint64_t head_of(struct recording *r)
{
    uint64_t head = __atomic_load_n(&r->page->data_head, __ATOMIC_ACQUIRE);
    return r->attr.write_backward && head >> 31 == 1 ? head | UINT64_C(0xffffffff) << 32 : head;
}

static void set_tail(struct recording *r, uint64_t tail)
{
    __atomic_store_n(&r->page->data_tail, tail, __ATOMIC_SEQ_CST);
}

/* Reads on, record by record, until at most keep bytes are left in the ring. */
static void read_on(struct recording *r, size_t keep)
{
    uint64_t tail = r->page->data_tail, head = head_of(r);
    while (head - tail > keep) {
        uint16_t size;
        memcpy(&size, r->ring + (tail + 6) % r->length, 2);
        if (size < 8) {
            fprintf(stderr, "record_ring: size %u in a real ring\n", size);
            exit(1);
        }
        tail += size;
    }
    set_tail(r, tail);
}

static void start(struct recording *r)
{
    if (ioctl(r->fd, PERF_EVENT_IOC_ENABLE, 0))
        die("enable");
}

static void stop(struct recording *r)
{
    if (ioctl(r->fd, PERF_EVENT_IOC_DISABLE, 0))
        die("disable");
}

static void save(struct recording *r, const char *path)
{
    uint64_t words[6] = {head_of(r), r->page->data_tail, r->attr.sample_type, r->attr.read_format,
        r->attr.sample_regs_user, r->attr.sample_regs_intr};
    /* the oldest edition that knows all of it */
    uint8_t last[2] = {r->attr.read_format & PERF_FORMAT_LOST ? 4 : 3, r->attr.sample_id_all};
    FILE *file = fopen(path, "wb");
    if (!file || fwrite(words, 8, 6, file) != 6 || fwrite(last, 1, 2, file) != 2
        || fwrite(r->ring, 1, r->length, file) != r->length || fclose(file))
        die(path);
    printf("%s: ring of %zu bytes, head %llu, tail %llu\n", path, r->length, (unsigned long long)words[0],
        (unsigned long long)words[1]);
}

/* ---- workloads ---- */

static volatile uint64_t burned;

static __attribute__((noinline)) void burn(unsigned rounds)
{
    while (rounds--)
        burned = burned * 6364136223846793005u + 1442695040888963407u;
}

static __attribute__((noinline)) void deeper(unsigned depth, unsigned rounds)
{
    volatile uint64_t shelf[6] = {depth, 2, 3, 4, 5, 6};
    if (depth)
        deeper(depth - 1, rounds);
    else
        burn(rounds);
    burned += shelf[depth % 6];
}

/* Pages touched for the first time, each a page fault. */
static void touch_pages(size_t pages)
{
    size_t i, page = page_size();
    uint8_t *area = mmap(NULL, pages * page, PROT_READ | PROT_WRITE, MAP_PRIVATE | MAP_ANONYMOUS, -1, 0);
    if (area == MAP_FAILED)
        die("mmap");
    for (i = 0; i < pages; i++)
        area[i * page] = 1;
    munmap(area, pages * page);
}

/* Runs a function on a stack of its own, which holds zeros and nothing else. */
static ucontext_t outside, inside;
static void (*to_run)(void);

static void entry(void)
{
    to_run();
}

static void on_own_stack(void (*function)(void))
{
    size_t size = 1 << 16;
    void *stack = mmap(NULL, size, PROT_READ | PROT_WRITE, MAP_PRIVATE | MAP_ANONYMOUS, -1, 0);
    if (stack == MAP_FAILED)
        die("mmap");
    to_run = function;
    getcontext(&inside);
    inside.uc_stack.ss_sp = stack;
    inside.uc_stack.ss_size = size;
    inside.uc_link = &outside;
    makecontext(&inside, entry, 0);
    swapcontext(&outside, &inside);
    munmap(stack, size);
}

static void pin(int cpu)
{
    cpu_set_t set;
    CPU_ZERO(&set);
    CPU_SET(cpu, &set);
    if (sched_setaffinity(0, sizeof set, &set))
        die("sched_setaffinity");
}

static void naps(int count)
{
    while (count--) {
        burn(2000);
        usleep(200);
    }
}

/* A file with a build id, under a name of this many letters. */
static const char *library(size_t letters, char *path)
{
    static const char *from[] = {"/lib/x86_64-linux-gnu/libm.so.6", "/usr/lib64/libm.so.6", "/lib/libm.so.6", "/proc/self/exe"};
    size_t i, n;
    char bytes[4096];
    int in = -1, out;
    ssize_t got;
    mkdir(FOLDER, 0755);
    n = (size_t)sprintf(path, FOLDER "/firing-");
    for (i = 0; i < letters; i++)
        path[n + i] = (char)('a' + i % 26);
    strcpy(path + n + letters, ".so");
    for (i = 0; in < 0 && i < sizeof from / sizeof *from; i++)
        in = open(from[i], O_RDONLY);
    out = open(path, O_WRONLY | O_CREAT | O_TRUNC, 0755);
    if (in < 0 || out < 0)
        die(path);
    while ((got = read(in, bytes, sizeof bytes)) > 0)
        if (write(out, bytes, (size_t)got) != got)
            die(path);
    close(in);
    close(out);
    return path;
}

/* Maps libraries under names of growing length, to be run and to be read. */
static void map_libraries(void)
{
    static const size_t letters[] = {1, 2, 3, 4, 5, 6, 7, 8, 40, 100, 180, 230};
    char path[400];
    size_t i, page = page_size();
    for (i = 0; i < sizeof letters / sizeof *letters; i++) {
        int fd = open(library(letters[i], path), O_RDONLY);
        void *text = mmap(NULL, 2 * page, PROT_READ | PROT_EXEC, MAP_PRIVATE, fd, (off_t)page * (off_t)(i % 3));
        void *data = mmap(NULL, page, PROT_READ | PROT_WRITE, MAP_PRIVATE, fd, 0);
        if (text == MAP_FAILED || data == MAP_FAILED)
            die(path);
        munmap(text, 2 * page);
        munmap(data, page);
        close(fd);
        unlink(path);
    }
    /* memory with no file: "//anon" */
    munmap(mmap(NULL, page, PROT_READ | PROT_EXEC, MAP_PRIVATE | MAP_ANONYMOUS, -1, 0), page);
    rmdir(FOLDER);
}

/* A child that waits to be told, then runs its part; events are opened on it before. */
static int gate[2];

static pid_t child(void (*part)(void))
{
    pid_t pid;
    char go;
    if (pipe(gate))
        die("pipe");
    pid = fork();
    if (pid < 0)
        die("fork");
    if (pid == 0) {
        pin(0);
        prctl(PR_SET_NAME, "kiln");
        close(gate[1]);
        if (read(gate[0], &go, 1) != 1)
            _exit(1);
        part();
        _exit(0);
    }
    close(gate[0]);
    return pid;
}

static void let_run(pid_t pid)
{
    int status;
    if (write(gate[1], "g", 1) != 1 || waitpid(pid, &status, 0) != pid)
        die("child");
    close(gate[1]);
}

static void rename_and_fork(void)
{
    static const char *names[] = {"k", "kiln-1", "kiln-12", "kiln-123", "bisque-firing-1"};
    int i;
    for (i = 0; i < 5; i++) {
        pid_t pid;
        prctl(PR_SET_NAME, names[i]);
        pid = fork();
        if (pid == 0) {
            burn(20000);
            if (i == 3) {
                char *none[] = {NULL}, *words[] = {"true", NULL};
                execve("/usr/bin/true", words, none);
            }
            _exit(0);
        }
        waitpid(pid, NULL, 0);
    }
}

static void *thread_part(void *unused)
{
    burn(300000);
    return unused;
}

static void threads(void)
{
    int i;
    for (i = 0; i < 6; i++) {
        pthread_t thread;
        if (pthread_create(&thread, NULL, thread_part, NULL) == 0)
            pthread_join(thread, NULL);
    }
    for (i = 0; i < 4; i++) {
        pid_t pid = fork();
        if (pid == 0) {
            burn(200000);
            _exit(0);
        }
        waitpid(pid, NULL, 0);
    }
}

/* ---- plans ---- */

static void software(struct perf_event_attr *attr, uint64_t config, uint64_t sample_type, int id_all)
{
    memset(attr, 0, sizeof *attr);
    attr->type = PERF_TYPE_SOFTWARE;
    attr->config = config;
    attr->sample_type = sample_type;
    attr->sample_id_all = id_all != 0;
}

#define IDENTITY (PERF_SAMPLE_TID | PERF_SAMPLE_TIME | PERF_SAMPLE_CPU)
#define ALL_IDENTITY (IDENTITY | PERF_SAMPLE_ID | PERF_SAMPLE_STREAM_ID | PERF_SAMPLE_IDENTIFIER)

static void plan_switches(const char *out)
{
    struct recording r;
    int i;
    software(&r.attr, PERF_COUNT_SW_DUMMY, IDENTITY | PERF_SAMPLE_IDENTIFIER, 1);
    r.attr.context_switch = 1;
    open_ring(&r, 0, -1, 1);
    start(&r);
    for (i = 0; i < 12; i++) {
        naps(10);
        read_on(&r, 3900);
    }
    stop(&r);
    save(&r, out);
}

static void plan_switches_cpu_wide(const char *out)
{
    struct recording r;
    int i;
    software(&r.attr, PERF_COUNT_SW_DUMMY, IDENTITY, 0);
    r.attr.context_switch = 1;
    open_ring(&r, -1, 0, 1);
    pin(0);
    start(&r);
    for (i = 0; i < 20; i++) {
        naps(10);
        read_on(&r, 4000);
    }
    stop(&r);
    save(&r, out);
}

static void plan_mappings(const char *out)
{
    struct recording r;
    software(&r.attr, PERF_COUNT_SW_DUMMY, IDENTITY, 1);
    r.attr.mmap = 1;
    r.attr.mmap_data = 1;
    open_ring(&r, 0, -1, 1);
    start(&r);
    map_libraries();
    stop(&r);
    save(&r, out);
}

static void plan_mappings_build_id(const char *out)
{
    struct recording r;
    int i;
    software(&r.attr, PERF_COUNT_SW_DUMMY, ALL_IDENTITY, 1);
    r.attr.mmap = 1;
    r.attr.mmap2 = 1;
    r.attr.build_id = 1;
    open_ring(&r, 0, -1, 2);
    start(&r);
    for (i = 0; i < 5; i++) {
        map_libraries();
        read_on(&r, 5700);
    }
    stop(&r);
    save(&r, out);
}

static void tasks(const char *out, int id_all)
{
    struct recording r;
    pid_t pid = child(rename_and_fork);
    software(&r.attr, PERF_COUNT_SW_DUMMY, ALL_IDENTITY, id_all);
    r.attr.inherit = 1;
    r.attr.comm = 1;
    r.attr.comm_exec = 1;
    r.attr.task = 1;
    r.attr.mmap = 1;
    r.attr.mmap2 = 1;
    r.attr.build_id = id_all != 0;
    r.attr.namespaces = 1;
    open_ring(&r, pid, 0, 1);
    start(&r);
    let_run(pid);
    stop(&r);
    save(&r, out);
}

static void plan_tasks(const char *out)
{
    tasks(out, 1);
}

static void plan_tasks_plain(const char *out)
{
    tasks(out, 0);
}

/* A slow reader: the ring runs over, and the next records say how many were lost. */
static void plan_lost(const char *out)
{
    struct recording r;
    int i;
    software(&r.attr, PERF_COUNT_SW_PAGE_FAULTS, IDENTITY | PERF_SAMPLE_ADDR | PERF_SAMPLE_PERIOD, 1);
    r.attr.sample_period = 1;
    r.attr.exclude_kernel = 1;
    open_ring(&r, 0, -1, 1);
    start(&r);
    for (i = 0; i < 12; i++) {
        touch_pages(60 + 10 * (size_t)i);
        read_on(&r, 3500);
        touch_pages(3);
    }
    stop(&r);
    save(&r, out);
}

static struct recording clock_ring;

static int read_every = 1; /* rounds of the workload; a slow reader loses samples */

static void clock_part(void)
{
    int i;
    for (i = 0; i < 40; i++) {
        deeper((unsigned)i % 9, 60000);
        touch_pages(2);
        if (i % read_every == 0)
            read_on(&clock_ring, clock_ring.length - 1500);
    }
}

/* With read values: those of a group of three, by read_format. */
static void clock_samples(const char *out, uint64_t sample_type, uint64_t read_format, int kernel, size_t pages)
{
    int i;
    software(&clock_ring.attr, PERF_COUNT_SW_CPU_CLOCK, sample_type, 1);
    clock_ring.attr.sample_period = 100000;
    clock_ring.attr.exclude_kernel = !kernel;
    if (sample_type & PERF_SAMPLE_STACK_USER)
        clock_ring.attr.sample_stack_user = 256;
    if (sample_type & PERF_SAMPLE_REGS_USER)
        clock_ring.attr.sample_regs_user = REGISTERS;
    if (sample_type & PERF_SAMPLE_REGS_INTR)
        clock_ring.attr.sample_regs_intr = FEW_REGISTERS;
    clock_ring.attr.read_format = read_format;
    open_ring(&clock_ring, 0, -1, pages);
    for (i = 0; sample_type & PERF_SAMPLE_READ && i < 2; i++) {
        struct perf_event_attr member;
        software(&member, i ? PERF_COUNT_SW_PAGE_FAULTS : PERF_COUNT_SW_TASK_CLOCK, 0, 0);
        member.read_format = clock_ring.attr.read_format;
        if (open_event(&member, 0, -1, clock_ring.fd) < 0)
            die("perf_event_open of a member");
    }
    start(&clock_ring);
    on_own_stack(clock_part);
    stop(&clock_ring);
    save(&clock_ring, out);
}

static void plan_callchains(const char *out)
{
    clock_samples(out, PERF_SAMPLE_IP | IDENTITY | PERF_SAMPLE_CALLCHAIN | PERF_SAMPLE_PERIOD, 0, 1, 1);
}

static void plan_stacks(const char *out)
{
    clock_samples(out, PERF_SAMPLE_IP | IDENTITY | PERF_SAMPLE_REGS_USER | PERF_SAMPLE_STACK_USER
        | PERF_SAMPLE_REGS_INTR | PERF_SAMPLE_CALLCHAIN, 0, 0, 4);
}

/* Every sample bit that a software event can have: not branches (11), not aux (20), one weight. */
static void plan_many_bits(const char *out)
{
    clock_samples(out, PERF_SAMPLE_IP | ALL_IDENTITY | PERF_SAMPLE_ADDR | PERF_SAMPLE_READ | PERF_SAMPLE_CALLCHAIN
        | PERF_SAMPLE_PERIOD | PERF_SAMPLE_RAW | PERF_SAMPLE_REGS_USER | PERF_SAMPLE_STACK_USER
        | PERF_SAMPLE_WEIGHT_STRUCT | PERF_SAMPLE_DATA_SRC | PERF_SAMPLE_TRANSACTION | PERF_SAMPLE_REGS_INTR
        | PERF_SAMPLE_PHYS_ADDR | PERF_SAMPLE_CGROUP | PERF_SAMPLE_DATA_PAGE_SIZE | PERF_SAMPLE_CODE_PAGE_SIZE,
        GROUP_FORMAT, 0, 4);
}

/* Values of a group, each with its lost count: the reader is slow, so samples are lost. */
static void plan_lost_counts(const char *out)
{
    read_every = 13;
    clock_samples(out, PERF_SAMPLE_IP | IDENTITY | PERF_SAMPLE_READ | PERF_SAMPLE_PERIOD, GROUP_FORMAT | PERF_FORMAT_LOST, 0, 1);
}

/* READ records: the counts of threads and children as they end. */
static void counts_at_exit(const char *out, uint64_t read_format)
{
    struct recording r;
    pid_t pid = child(threads);
    software(&r.attr, PERF_COUNT_SW_TASK_CLOCK, IDENTITY | PERF_SAMPLE_ID, 1);
    r.attr.inherit = 1;
    r.attr.inherit_stat = 1;
    r.attr.task = 1;
    r.attr.read_format = read_format;
    open_ring(&r, pid, 0, 1);
    start(&r);
    let_run(pid);
    stop(&r);
    save(&r, out);
}

static void plan_counts_at_exit(const char *out)
{
    counts_at_exit(out, VALUE_FORMAT);
}

/* The same with lost counts. */
static void plan_lost_counts_at_exit(const char *out)
{
    counts_at_exit(out, VALUE_FORMAT | PERF_FORMAT_LOST);
}

/* A program for the kernel's filter: return 0. */
static void load_filter(const char *name)
{
    struct bpf_insn code[2] = {{.code = 0xb7, .dst_reg = 0, .imm = 0}, {.code = 0x95}};
    union bpf_attr attr;
    int fd;
    memset(&attr, 0, sizeof attr);
    attr.prog_type = BPF_PROG_TYPE_SOCKET_FILTER;
    attr.insn_cnt = 2;
    attr.insns = (uint64_t)(uintptr_t)code;
    attr.license = (uint64_t)(uintptr_t)"GPL";
    strncpy(attr.prog_name, name, BPF_OBJ_NAME_LEN - 1);
    fd = (int)syscall(SYS_bpf, BPF_PROG_LOAD, &attr, sizeof attr);
    if (fd < 0)
        fprintf(stderr, "record_ring: no filter could be loaded: %s\n", strerror(errno));
    else
        close(fd);
}

/* What the kernel says of itself: filters that are loaded and taken away, and their symbols. */
static void plan_kernel(const char *out)
{
    struct recording r;
    int i;
    static const char *names[] = {"kiln", "kiln_limit", "kiln_ceiling_xx"};
    software(&r.attr, PERF_COUNT_SW_DUMMY, IDENTITY | PERF_SAMPLE_IDENTIFIER, 1);
    r.attr.ksymbol = 1;
    r.attr.bpf_event = 1;
    open_ring(&r, -1, 0, 1);
    pin(0);
    start(&r);
    for (i = 0; i < 12; i++)
        load_filter(names[i % 3]);
    usleep(100000);
    stop(&r);
    save(&r, out);
}

/* The number of a tracepoint, by the kernel's own list; 0 where that cannot be read. */
static uint64_t tracepoint(const char *name)
{
    static const char *folders[] = {"/sys/kernel/tracing/events", "/sys/kernel/debug/tracing/events"};
    char path[200];
    unsigned long long number = 0;
    size_t i;
    FILE *file = NULL;
    for (i = 0; !file && i < 2; i++) {
        snprintf(path, sizeof path, "%s/%s/id", folders[i], name);
        file = fopen(path, "r");
    }
    if (!file || fscanf(file, "%llu", &number) != 1)
        number = 0;
    if (file)
        fclose(file);
    return number;
}

/* Samples with the raw data of a tracepoint: each switch of one thread. */
static void plan_tracepoint(const char *out)
{
    struct recording r;
    uint64_t number = tracepoint("sched/sched_switch");
    if (number == 0) {
        fprintf(stderr, "record_ring: tracefs is not mounted, or may not be read: no %s\n", out);
        return;
    }
    software(&r.attr, number, PERF_SAMPLE_IP | IDENTITY | PERF_SAMPLE_PERIOD | PERF_SAMPLE_RAW, 1);
    r.attr.type = PERF_TYPE_TRACEPOINT;
    r.attr.sample_period = 1;
    open_ring(&r, 0, -1, 1);
    start(&r);
    naps(20);
    stop(&r);
    save(&r, out);
}

/* ---- several events in one ring ---- */

enum { EVENTS = 4 };

struct several {
    struct recording r; /* the first event, and the ring of all */
    struct perf_event_attr attrs[EVENTS];
    int fds[EVENTS];
    const char *names[EVENTS];
    uint64_t identifiers[EVENTS];
};

/* All write into the ring of the first. Each has a counter of its own: where two share a software counter, the second
 * one's samples carry the first one's identifier. */
static void open_several(struct several *s, pid_t pid, int cpu, size_t pages)
{
    int i;
    s->r.attr = s->attrs[0];
    open_ring(&s->r, pid, cpu, pages);
    s->fds[0] = s->r.fd;
    for (i = 1; i < EVENTS; i++) {
        s->attrs[i].disabled = 1;
        s->fds[i] = open_event(&s->attrs[i], pid, cpu, -1);
        if (s->fds[i] < 0)
            die("perf_event_open of another event");
        if (ioctl(s->fds[i], PERF_EVENT_IOC_SET_OUTPUT, s->fds[0]))
            die("one ring for several events");
    }
    for (i = 0; i < EVENTS; i++)
        if (ioctl(s->fds[i], PERF_EVENT_IOC_ID, &s->identifiers[i]))
            die("an event's identifier");
}

static void switch_several(struct several *s, unsigned long request)
{
    int i;
    for (i = 0; i < EVENTS; i++)
        if (ioctl(s->fds[i], request, 0))
            die("several events on or off");
}

static void save_several(struct several *s, const char *path)
{
    char table[4096];
    FILE *file;
    int i;
    save(&s->r, path);
    snprintf(table, sizeof table, "%.*s.table", (int)(strlen(path) - strlen(".img")), path);
    file = fopen(table, "w");
    if (!file)
        die(table);
    fprintf(file, "# identifier sample_type read_format user_mask interrupt_mask branch_sample_type sample_id_all\n");
    for (i = 0; i < EVENTS; i++)
        fprintf(file, "%llu 0x%llx 0x%llx 0x%llx 0x%llx 0x0 %d # %s\n", (unsigned long long)s->identifiers[i],
            (unsigned long long)s->attrs[i].sample_type, (unsigned long long)s->attrs[i].read_format,
            (unsigned long long)s->attrs[i].sample_regs_user, (unsigned long long)s->attrs[i].sample_regs_intr,
            (int)s->attrs[i].sample_id_all, s->names[i]);
    if (fclose(file))
        die(table);
}

/* Names, mappings and switches; page faults; the cpu clock with what it can tell; switches as a counter of its own. */
static void choose_several(struct several *s)
{
    const uint64_t every = IDENTITY | PERF_SAMPLE_IDENTIFIER;
    s->names[0] = "names, mappings and switches";
    software(&s->attrs[0], PERF_COUNT_SW_DUMMY, every, 1);
    s->attrs[0].context_switch = s->attrs[0].comm = s->attrs[0].task = 1;
    s->attrs[0].mmap = s->attrs[0].mmap2 = s->attrs[0].build_id = 1;
    s->names[1] = "page faults";
    software(&s->attrs[1], PERF_COUNT_SW_PAGE_FAULTS, every | PERF_SAMPLE_ADDR | PERF_SAMPLE_PERIOD, 1);
    s->attrs[1].sample_period = 3;
    s->names[2] = "cpu clock";
    software(&s->attrs[2], PERF_COUNT_SW_CPU_CLOCK,
        every | PERF_SAMPLE_IP | PERF_SAMPLE_CALLCHAIN | PERF_SAMPLE_REGS_USER | PERF_SAMPLE_REGS_INTR, 1);
    s->attrs[2].sample_period = 500000;
    s->attrs[2].exclude_kernel = 1;
    s->attrs[2].sample_regs_user = REGISTERS;
    s->attrs[2].sample_regs_intr = FEW_REGISTERS;
    s->names[3] = "context switches, counted";
    software(&s->attrs[3], PERF_COUNT_SW_CONTEXT_SWITCHES,
        PERF_SAMPLE_IDENTIFIER | PERF_SAMPLE_TIME | PERF_SAMPLE_ID | PERF_SAMPLE_STREAM_ID | PERF_SAMPLE_READ, 1);
    s->attrs[3].sample_period = 2;
    s->attrs[3].read_format = PERF_FORMAT_TOTAL_TIME_ENABLED | PERF_FORMAT_TOTAL_TIME_RUNNING | PERF_FORMAT_ID;
}

static struct several several;

static void several_part(void)
{
    int i;
    for (i = 0; i < 30; i++) {
        deeper((unsigned)i % 9, 60000);
        touch_pages(4);
        naps(2);
        if (i % 8 == 0)
            prctl(PR_SET_NAME, i % 16 ? "kiln-1" : "kiln");
        if (i == 25)
            munmap(mmap(NULL, page_size(), PROT_READ | PROT_EXEC, MAP_PRIVATE | MAP_ANONYMOUS, -1, 0), page_size());
        read_on(&several.r, several.r.length - 900);
    }
}

/* One thread; the ring goes round, and the reader falls behind at its end. */
static void plan_events_counters(const char *out)
{
    choose_several(&several);
    open_several(&several, 0, -1, 2);
    switch_several(&several, PERF_EVENT_IOC_ENABLE);
    on_own_stack(several_part);
    touch_pages(400);
    read_on(&several.r, several.r.length - 900);
    touch_pages(6);
    switch_several(&several, PERF_EVENT_IOC_DISABLE);
    save_several(&several, out);
}

/* A process with children, whose records carry the identifiers of the events that they have from it. */
static void plan_events_children(const char *out)
{
    pid_t pid = child(rename_and_fork);
    int i;
    choose_several(&several);
    several.attrs[2].sample_period = 40000;
    several.attrs[3].read_format = 0;
    several.attrs[3].sample_type &= ~(uint64_t)PERF_SAMPLE_READ;
    several.attrs[3].sample_type |= PERF_SAMPLE_CPU;
    several.attrs[1].sample_period = 60;
    several.attrs[3].sample_period = 1;
    for (i = 0; i < EVENTS; i++)
        several.attrs[i].inherit = 1;
    open_several(&several, pid, 0, 4);
    switch_several(&several, PERF_EVENT_IOC_ENABLE);
    let_run(pid);
    switch_several(&several, PERF_EVENT_IOC_DISABLE);
    save_several(&several, out);
}

/* ---- backward rings: flight recorders, which are paused and then saved ---- */

static void pause_output(struct recording *r)
{
    if (ioctl(r->fd, PERF_EVENT_IOC_PAUSE_OUTPUT, 1))
        die("pause");
}

/* Switches of one thread, so many naps long. */
static void backward_switches(const char *out, uint64_t sample_type, int count)
{
    struct recording r;
    software(&r.attr, PERF_COUNT_SW_DUMMY, sample_type, 1);
    r.attr.context_switch = 1;
    r.attr.write_backward = 1;
    open_ring(&r, 0, -1, 1);
    start(&r);
    naps(count);
    pause_output(&r);
    stop(&r);
    save(&r, out);
}

/* It does not go round: behind the oldest record are zeros. */
static void plan_backward_short(const char *out)
{
    backward_switches(out, IDENTITY | PERF_SAMPLE_IDENTIFIER, 12);
}

/* Records of 40 bytes: the oldest is overwritten in part. */
static void plan_backward_round(const char *out)
{
    backward_switches(out, IDENTITY | PERF_SAMPLE_IDENTIFIER, 200);
}

/* Records of 32 bytes: the ring holds 128 of them, and the oldest is whole. */
static void plan_backward_whole(const char *out)
{
    backward_switches(out, IDENTITY, 300);
}

/* Records of many sizes, several times round. */
static void backward_tasks_part(void)
{
    int i;
    for (i = 0; i < 12; i++)
        rename_and_fork();
}

static void plan_backward_tasks(const char *out)
{
    struct recording r;
    pid_t pid = child(backward_tasks_part);
    software(&r.attr, PERF_COUNT_SW_DUMMY, ALL_IDENTITY, 1);
    r.attr.inherit = 1;
    r.attr.comm = r.attr.comm_exec = r.attr.task = 1;
    r.attr.mmap = r.attr.mmap2 = r.attr.build_id = 1;
    r.attr.write_backward = 1;
    open_ring(&r, pid, 0, 1);
    start(&r);
    let_run(pid);
    pause_output(&r);
    stop(&r);
    save(&r, out);
}

static void backward_part(void)
{
    int i;
    for (i = 0; i < 40; i++) {
        deeper((unsigned)i % 9, 60000);
        touch_pages(12);
        naps(2);
        if (i % 8 == 0)
            prctl(PR_SET_NAME, i % 16 ? "kiln-1" : "kiln");
    }
}

/* Four events of different counters, several times round. */
static void plan_backward_events(const char *out)
{
    int i;
    choose_several(&several);
    several.attrs[2].sample_type &= ~(uint64_t)(PERF_SAMPLE_REGS_USER | PERF_SAMPLE_REGS_INTR);
    several.attrs[2].sample_regs_user = several.attrs[2].sample_regs_intr = 0;
    for (i = 0; i < EVENTS; i++)
        several.attrs[i].write_backward = 1;
    open_several(&several, 0, -1, 1);
    switch_several(&several, PERF_EVENT_IOC_ENABLE);
    on_own_stack(backward_part);
    pause_output(&several.r);
    switch_several(&several, PERF_EVENT_IOC_DISABLE);
    save_several(&several, out);
}

static const struct {
    const char *name;
    void (*run)(const char *out);
    const char *holds;
} PLANS[] = {
    {"switches", plan_switches, "switches of one process, read while it ran"},
    {"switches-cpu-wide", plan_switches_cpu_wide, "switches of one cpu"},
    {"mappings", plan_mappings, "MMAP of text and data, names of 1 to 230 letters"},
    {"mappings-build-id", plan_mappings_build_id, "MMAP2 with build ids"},
    {"tasks", plan_tasks, "names, forks, an exec, exits, namespaces"},
    {"tasks-plain", plan_tasks_plain, "the same without sample_id_all"},
    {"lost", plan_lost, "page faults with a slow reader: lost records"},
    {"callchains", plan_callchains, "cpu-clock samples with call chains"},
    {"stacks", plan_stacks, "cpu-clock samples with user stacks and registers"},
    {"many-bits", plan_many_bits, "cpu-clock samples with 22 of the 25 sample bits and the values of a group"},
    {"counts-at-exit", plan_counts_at_exit, "READ records of threads and children"},
    {"lost-counts", plan_lost_counts, "samples with the values of a group and their lost counts"},
    {"lost-counts-at-exit", plan_lost_counts_at_exit, "READ records with lost counts"},
    {"kernel", plan_kernel, "filters and their symbols"},
    {"events/counters", plan_events_counters, "four events of different counters in one ring, with their table"},
    {"events/children", plan_events_children, "the same of a process with children"},
    {"backward/short", plan_backward_short, "a backward ring that has not gone round"},
    {"backward/round", plan_backward_round, "one that has: its oldest record is overwritten in part"},
    {"backward/whole", plan_backward_whole, "one whose oldest record is whole"},
    {"backward/tasks", plan_backward_tasks, "names, forks, execs, exits and mappings, several times round"},
    {"backward/events", plan_backward_events, "four events with their table, several times round"},
    {"tracepoint", plan_tracepoint, "samples of a tracepoint with its raw data; needs tracefs"},
};

int main(int argc, char **argv)
{
    size_t i, count = sizeof PLANS / sizeof *PLANS;
    if (argc == 2 && strcmp(argv[1], "list") == 0) {
        for (i = 0; i < count; i++)
            printf("%-19s %s\n", PLANS[i].name, PLANS[i].holds);
        return 0;
    }
    for (i = 0; argc == 3 && i < count; i++) {
        if (strcmp(argv[1], PLANS[i].name) == 0) {
            prctl(PR_SET_NAME, "kiln");
            PLANS[i].run(argv[2]);
            return 0;
        }
    }
    fprintf(stderr, "record_ring PLAN OUT.img, or record_ring list\n");
    return 2;
}
