#define _GNU_SOURCE
#include "perf_ring.h"

#include <errno.h>
#include <linux/perf_event.h>
#include <stdio.h>
#include <stdlib.h>
#include <string.h>
#include <sys/ioctl.h>
#include <sys/mman.h>
#include <sys/syscall.h>
#include <time.h>
#include <unistd.h>

#include "bytes.h"
#include "file.h"
#include "ollskuvan.h"
#include "ring_image.h"
#include "why.h"

/* ---- events ---- */

static int paranoid(void)
{
    int level = 99;
    FILE *file = fopen("/proc/sys/kernel/perf_event_paranoid", "r");
    if (file != NULL) {
        if (fscanf(file, "%d", &level) != 1)
            level = 99;
        fclose(file);
    }
    return level;
}

static enum perf_answer refuse_open(char why[WHY_ROOM], const char *what, int error)
{
    if (error == EACCES || error == EPERM)
        refuse(why, "the kernel does not allow %s (%s; kernel.perf_event_paranoid is %d): run as root, or with CAP_PERFMON", what,
            strerror(error), paranoid());
    else if (error == ENOSYS || error == ENOENT)
        refuse(why, "this kernel has no perf events (%s)", strerror(error));
    else
        refuse(why, "perf_event_open of %s: %s", what, strerror(error));
    return error == EACCES || error == EPERM || error == ENOSYS || error == ENOENT ? PERF_NOT_ALLOWED : PERF_FAILED;
}

/* A kernel or processor without branch stacks says so in several ways. */
static enum perf_answer refuse_branches(char why[WHY_ROOM], int error)
{
    if (error != ENOENT && error != EOPNOTSUPP && error != EINVAL)
        return refuse_open(why, "the branches of a cpu", error);
    refuse(why, "this processor or kernel has no branch stacks of this branch sample type (%s)", strerror(error));
    return error == EINVAL ? PERF_FAILED : PERF_NOT_ALLOWED;
}

static int open_event(struct perf_event_attr *attr, pid_t pid, int cpu)
{
    return (int)syscall(SYS_perf_event_open, attr, pid, cpu, -1, PERF_FLAG_FD_CLOEXEC);
}

/* All events of a ring have the same layout, the same clock and the same direction. */
static void common(struct perf_event_attr *attr, bool backward)
{
    memset(attr, 0, sizeof *attr);
    attr->size = sizeof *attr;
    attr->type = PERF_TYPE_SOFTWARE;
    attr->config = PERF_COUNT_SW_DUMMY;
    attr->sample_type = OLLSKUVAN_BIT_TID | OLLSKUVAN_BIT_TIME | OLLSKUVAN_BIT_CPU | OLLSKUVAN_BIT_IDENTIFIER;
    attr->sample_id_all = 1;
    attr->disabled = 1;
    attr->use_clockid = 1;
    attr->clockid = CLOCK_MONOTONIC;
    attr->write_backward = backward; /* since Linux 4.7 */
}

static void with_mappings(struct perf_event_attr *attr)
{
    attr->mmap = 1;
    attr->mmap2 = 1;
    attr->build_id = 1; /* since Linux 5.12 */
}

static void with_clock(struct perf_event_attr *attr)
{
    attr->config = PERF_COUNT_SW_CPU_CLOCK;
    attr->sample_period = 1000000; /* ns */
    attr->sample_type |= OLLSKUVAN_BIT_IP | OLLSKUVAN_BIT_PERIOD;
}

/* Only a processor's own counter has branch stacks. */
static void with_branches(struct perf_event_attr *attr, uint64_t branch_sample_type)
{
    attr->type = PERF_TYPE_HARDWARE;
    attr->config = PERF_COUNT_HW_CPU_CYCLES;
    attr->sample_period = 1000000;
    attr->sample_type |= OLLSKUVAN_BIT_IP | OLLSKUVAN_BIT_PERIOD | OLLSKUVAN_BIT_BRANCHES;
    attr->branch_sample_type = branch_sample_type;
}

/* The counters: each with a period and sample bits of its own. */
const char *const counter_names[COUNTERS] = { "cpu-clock", "page-faults", "context-switches", "cpu-migrations" };
static const struct {
    uint64_t config, period, bits;
} counters[COUNTERS] = {
    { PERF_COUNT_SW_CPU_CLOCK, 1000000, OLLSKUVAN_BIT_IP | OLLSKUVAN_BIT_PERIOD },
    { PERF_COUNT_SW_PAGE_FAULTS, 100, OLLSKUVAN_BIT_IP | OLLSKUVAN_BIT_ADDR },
    { PERF_COUNT_SW_CONTEXT_SWITCHES, 100, OLLSKUVAN_BIT_IP },
    { PERF_COUNT_SW_CPU_MIGRATIONS, 1, 0 },
};

static void counter_attr(struct perf_event_attr *attr, size_t number, bool backward)
{
    common(attr, backward);
    attr->config = counters[number].config;
    attr->sample_period = counters[number].period;
    attr->sample_type |= counters[number].bits;
}

/* The ring's first event: the switches of the whole cpu. */
static void first_attr(struct perf_event_attr *attr, const struct perf_want *want)
{
    common(attr, want->backward);
    attr->context_switch = 1;
    attr->comm = 1;
    attr->comm_exec = 1;
    attr->task = 1;
    if (want->program == 0)
        with_mappings(attr);
    if (want->clock)
        with_clock(attr);
    if (want->branch != 0)
        with_branches(attr, want->branch);
}

/* An event's row in a table, as it is opened. */
static void add_row(struct event_table *table, uint64_t identifier, const struct perf_event_attr *attr, const char *name)
{
    table->names[table->count] = name;
    table->events[table->count++] = (struct ollskuvan_event){
        .identifier = identifier, .sample_type = attr->sample_type, .read_format = attr->read_format,
        .branch_sample_type = attr->branch_sample_type, .sample_id_all = 1,
    };
}

void perf_want_table(const struct perf_want *want, struct event_table *table)
{
    struct perf_event_attr attr;
    table->count = 0;
    first_attr(&attr, want);
    add_row(table, SWITCHES_NUMBER, &attr, "switches");
    for (size_t i = 0; i < COUNTERS; i++)
        if ((want->counters >> i & 1) != 0) {
            counter_attr(&attr, i, want->backward);
            add_row(table, COUNTER_NUMBER + i, &attr, counter_names[i]);
        }
}

/* An older kernel refuses what it does not know: then without build ids. */
static int open_or_without_build_id(struct perf_event_attr *attr, pid_t pid, int cpu)
{
    int fd = open_event(attr, pid, cpu);
    if (fd < 0 && (errno == EINVAL || errno == E2BIG) && attr->build_id) {
        attr->build_id = 0;
        fd = open_event(attr, pid, cpu);
    }
    return fd;
}

/* A ring that is mapped for reading alone is one that the kernel writes over its oldest records. */
static enum perf_answer map_ring(struct perf_ring *ring, size_t pages, bool backward, char why[WHY_ROOM])
{
    long page = sysconf(_SC_PAGESIZE);
    if (page <= 0 || pages > OLLSKUVAN_RING_MAX / (size_t)page) {
        refuse(why, "a ring has at most %u bytes: %zu pages of %ld are too many", OLLSKUVAN_RING_MAX, pages, page);
        return PERF_FAILED;
    }
    ring->mapped_length = (pages + 1) * (size_t)page;
    void *base = mmap(NULL, ring->mapped_length, backward ? PROT_READ : PROT_READ | PROT_WRITE, MAP_SHARED, ring->fd, 0);
    if (base == MAP_FAILED) {
        int error = errno;
        refuse(why, "mapping a ring of %zu pages: %s%s", pages, strerror(error),
            error == EPERM ? " (fewer --pages, more kernel.perf_event_mlock_kb, or run as root)" : "");
        return error == EPERM ? PERF_NOT_ALLOWED : PERF_FAILED;
    }
    ring->mapped = base;
    const struct perf_event_mmap_page *control = base;
    uint64_t offset = control->data_offset, size = control->data_size;
    if (offset == 0) { /* before Linux 4.1 the ring starts behind the first page */
        offset = (uint64_t)page;
        size = (uint64_t)pages * (uint64_t)page;
    }
    ring->bytes = (const uint8_t *)base + offset;
    ring->length = (size_t)size;
    return PERF_OPEN;
}

/* Mappings of the program, into the cpu's ring. */
static enum perf_answer open_program_events(struct perf_ring *ring, const struct perf_want *want, char why[WHY_ROOM])
{
    struct perf_event_attr attr;
    common(&attr, want->backward);
    with_mappings(&attr);
    /* it has no samples of its own, and no software event has branches */
    attr.sample_type = ring->attributes.sample_type & ~OLLSKUVAN_BIT_BRANCHES;
    attr.inherit = 1;
    ring->program_fd = open_or_without_build_id(&attr, want->program, want->cpu);
    if (ring->program_fd < 0)
        return refuse_open(why, "the mappings of a program", errno);
    if (ioctl(ring->program_fd, PERF_EVENT_IOC_SET_OUTPUT, ring->fd) == 0)
        return PERF_OPEN;
    refuse(why, "the program's events do not go into the cpu's ring: %s", strerror(errno));
    return PERF_FAILED;
}

/* The event's row in the table: its identifier, and what it was opened with. */
static bool add_to_table(struct event_table *table, int fd, const struct perf_event_attr *attr, const char *name)
{
    uint64_t identifier;
    if (ioctl(fd, PERF_EVENT_IOC_ID, &identifier) != 0)
        return false;
    add_row(table, identifier, attr, name);
    return true;
}

static enum perf_answer open_counter(struct perf_ring *ring, const struct perf_want *want, size_t number, char why[WHY_ROOM])
{
    struct perf_event_attr attr;
    counter_attr(&attr, number, want->backward);
    int fd = ring->counter_fds[number] = open_event(&attr, -1, want->cpu);
    if (fd < 0)
        return refuse_open(why, counter_names[number], errno);
    if (ioctl(fd, PERF_EVENT_IOC_SET_OUTPUT, ring->fd) == 0 && add_to_table(&ring->table, fd, &attr, counter_names[number]))
        return PERF_OPEN;
    refuse(why, "the samples of %s do not go into the cpu's ring: %s", counter_names[number], strerror(errno));
    return PERF_FAILED;
}

/* All events of the ring go into the table, the first with the attributes of the ring, the program's as it was opened. */
static enum perf_answer open_counters(struct perf_ring *ring, const struct perf_want *want, char why[WHY_ROOM])
{
    const struct ring_attributes *a = &ring->attributes;
    struct perf_event_attr first = { .sample_type = a->sample_type, .branch_sample_type = a->branch_sample_type };
    struct perf_event_attr program = { .sample_type = a->sample_type & ~OLLSKUVAN_BIT_BRANCHES };
    enum perf_answer answer = PERF_OPEN;
    if (!add_to_table(&ring->table, ring->fd, &first, "switches") ||
        (ring->program_fd >= 0 && !add_to_table(&ring->table, ring->program_fd, &program, "mappings of the program"))) {
        refuse(why, "the kernel does not tell an event's identifier: %s", strerror(errno));
        return PERF_FAILED;
    }
    for (size_t i = 0; i < COUNTERS && answer == PERF_OPEN; i++)
        if ((want->counters >> i & 1) != 0)
            answer = open_counter(ring, want, i, why);
    return answer;
}

static enum perf_answer open_events(struct perf_ring *ring, const struct perf_want *want, char why[WHY_ROOM])
{
    struct perf_event_attr attr;
    first_attr(&attr, want);
    ring->fd = open_or_without_build_id(&attr, -1, want->cpu);
    if (ring->fd < 0)
        return want->branch != 0 ? refuse_branches(why, errno) : refuse_open(why, "the switches of a cpu", errno);
    ring->attributes = (struct ring_attributes){
        .sample_type = attr.sample_type, .read_format = attr.read_format, .branch_sample_type = attr.branch_sample_type,
        .sample_id_all = 1, .edition = want->edition,
    };
    enum perf_answer answer = map_ring(ring, want->pages, want->backward, why);
    if (answer == PERF_OPEN && want->program != 0)
        answer = open_program_events(ring, want, why);
    return answer == PERF_OPEN && (want->counters != 0 || want->table) ? open_counters(ring, want, why) : answer;
}

static const struct perf_ring CLOSED = { .fd = -1, .program_fd = -1, .counter_fds = { -1, -1, -1, -1 } };

enum perf_answer perf_ring_open(struct perf_ring *ring, const struct perf_want *want, char why[WHY_ROOM])
{
    *ring = CLOSED;
    ring->cpu = want->cpu;
    enum perf_answer answer = open_events(ring, want, why);
    if (answer != PERF_OPEN)
        perf_ring_close(ring);
    return answer;
}

static bool switch_events(const struct perf_ring *ring, unsigned long request, const char *what, char why[WHY_ROOM])
{
    bool done = ioctl(ring->fd, request, 0) == 0 && (ring->program_fd < 0 || ioctl(ring->program_fd, request, 0) == 0);
    for (size_t i = 0; i < COUNTERS && done; i++)
        done = ring->counter_fds[i] < 0 || ioctl(ring->counter_fds[i], request, 0) == 0;
    return done || refuse(why, "the events of cpu %d cannot be %s: %s", ring->cpu, what, strerror(errno));
}

bool perf_ring_start(const struct perf_ring *ring, char why[WHY_ROOM])
{
    return switch_events(ring, PERF_EVENT_IOC_ENABLE, "started", why);
}

bool perf_ring_stop(const struct perf_ring *ring, char why[WHY_ROOM])
{
    return switch_events(ring, PERF_EVENT_IOC_DISABLE, "stopped", why);
}

bool perf_ring_pause(const struct perf_ring *ring, char why[WHY_ROOM])
{
    return ioctl(ring->fd, PERF_EVENT_IOC_PAUSE_OUTPUT, 1) == 0 ||
        refuse(why, "the ring of cpu %d cannot be stopped: %s", ring->cpu, strerror(errno));
}

void perf_ring_close(struct perf_ring *ring)
{
    if (ring->mapped != NULL)
        munmap(ring->mapped, ring->mapped_length);
    for (size_t i = 0; i < COUNTERS; i++)
        if (ring->counter_fds[i] >= 0)
            close(ring->counter_fds[i]);
    if (ring->program_fd >= 0)
        close(ring->program_fd);
    if (ring->fd >= 0)
        close(ring->fd);
    *ring = CLOSED;
}

/* ---- head and tail ---- */

uint64_t perf_ring_head(const struct perf_ring *ring)
{
    const struct perf_event_mmap_page *control = ring->mapped;
    uint64_t head = __atomic_load_n(&control->data_head, __ATOMIC_RELAXED);
    __atomic_thread_fence(__ATOMIC_ACQUIRE); /* the page's rmb(): no byte of the ring is read before the head */
    return head;
}

uint64_t perf_ring_tail(const struct perf_ring *ring)
{
    const struct perf_event_mmap_page *control = ring->mapped;
    return control->data_tail; /* nobody else writes it */
}

void perf_ring_give_back(const struct perf_ring *ring, uint64_t tail)
{
    struct perf_event_mmap_page *control = ring->mapped;
    __atomic_thread_fence(__ATOMIC_SEQ_CST); /* the header's smp_mb(): every read is done before the store */
    __atomic_store_n(&control->data_tail, tail, __ATOMIC_RELAXED);
}

bool ring_is_full(size_t length, uint64_t head, uint64_t tail)
{
    /* a switch of a cpu with a whole trailer has 72 bytes, the LOST that may have to go before it 80 */
    return head - tail > length || length - (head - tail) < 72 + 80;
}

size_t cpus_online(int *cpus, size_t most)
{
    FILE *file = fopen("/sys/devices/system/cpu/online", "r"); /* "0-3,6" */
    size_t count = 0;
    int first, last;
    if (file == NULL)
        return 0;
    while (fscanf(file, "%d", &first) == 1) {
        int next = fgetc(file);
        last = first;
        if (next == '-' && fscanf(file, "%d", &last) == 1)
            next = fgetc(file);
        for (int cpu = first; cpu <= last && count < most; cpu++)
            cpus[count++] = cpu;
        if (next != ',')
            break;
    }
    fclose(file);
    return count;
}

/* ---- images ---- */

bool ring_image_load(const char *path, struct ring_image *image, char why[WHY_ROOM])
{
    struct file file;
    if (!file_read(&file, path, IMAGE_MOST + 1, why)) /* one more, so that a longer file is seen */
        return false;
    bool fits = file.length >= IMAGE_HEADER || refuse(why, "no ring image: it has fewer than 50 bytes");
    if (fits && file.length > IMAGE_HEADER + OLLSKUVAN_RING_MAX && !ring_has_branch(file.length - IMAGE_HEADER))
        fits = refuse(why, "no ring image: it has a ring of more than 1,048,576 bytes");
    if (!fits) {
        free(file.bytes);
        return false;
    }
    *image = ring_image_of(file.bytes, file.length);
    image->bytes = memmove(file.bytes, image->bytes, image->length); /* so that it can be freed */
    return true;
}

bool ring_image_save(const char *path, const struct ring_attributes *attributes, uint64_t head, uint64_t tail,
    const uint8_t *bytes, size_t length, char why[WHY_ROOM])
{
    size_t behind = attributes->branch_sample_type != 0 ? IMAGE_BRANCH : 0;
    uint8_t *all = malloc(IMAGE_HEADER + length + IMAGE_BRANCH);
    if (all == NULL)
        return refuse(why, "out of memory");
    put_little(all, 8, head);
    put_little(all + 8, 8, tail);
    put_little(all + 16, 8, attributes->sample_type);
    put_little(all + 24, 8, attributes->read_format);
    put_little(all + 32, 8, attributes->user_mask);
    put_little(all + 40, 8, attributes->interrupt_mask);
    all[48] = (uint8_t)attributes->edition;
    all[49] = attributes->sample_id_all != 0;
    memcpy(all + IMAGE_HEADER, bytes, length);
    put_little(all + IMAGE_HEADER + length, IMAGE_BRANCH, attributes->branch_sample_type);
    bool written = file_replace(path, all, IMAGE_HEADER + length + behind, why);
    free(all);
    return written;
}
