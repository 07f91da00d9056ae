/* The least that decodes a live ring: names, mappings and switches of one cpu, as they come. decode [CPU], as root. */
#define _GNU_SOURCE
#include <linux/perf_event.h>
#include <ollskuvan.h>
#include <stdio.h>
#include <stdlib.h>
#include <string.h>
#include <sys/mman.h>
#include <sys/syscall.h>
#include <unistd.h>

static uint8_t scratch[OLLSKUVAN_RECORD_MAX], journal[64 * OLLSKUVAN_JOURNAL_ENTRY];
static struct perf_event_attr attr = { .size = sizeof attr, .type = PERF_TYPE_SOFTWARE, .config = PERF_COUNT_SW_DUMMY,
    .sample_type = OLLSKUVAN_BIT_TID | OLLSKUVAN_BIT_TIME, .sample_id_all = 1, .comm = 1, .mmap = 1, .mmap2 = 1,
    .context_switch = 1 };
#define ATTRIBUTES attr.sample_type, attr.read_format, attr.sample_id_all, 0, 0, 0, OLLSKUVAN_EDITION_4

static void print_name(const char *what, const uint8_t *record, const uint64_t *f, unsigned place, unsigned count)
{
    uint8_t name[4097]; /* a longer name is left out, never cut short */
    if (ollskuvan_copy_name(record, f[OLLSKUVAN_SIZE], f[place], f[count], name, sizeof name) == OLLSKUVAN_OK)
        printf("%d/%d %s %s\n", (int)f[OLLSKUVAN_TRAILER_PID], (int)f[OLLSKUVAN_TRAILER_TID], what, (const char *)name);
}

static void print_record(const uint8_t *record, uint32_t answer, const uint64_t *f)
{
    if (answer != OLLSKUVAN_OK)
        printf("refused: %u, %s\n", answer, ollskuvan_refusal_text(answer));
    else if (f[OLLSKUVAN_TYPE] == OLLSKUVAN_TYPE_COMM)
        print_name("is called", record, f, OLLSKUVAN_COMM_NAME, OLLSKUVAN_COMM_NAME_COUNT);
    else if (f[OLLSKUVAN_TYPE] == OLLSKUVAN_TYPE_MMAP2)
        print_name("maps", record, f, OLLSKUVAN_MMAP2_NAME, OLLSKUVAN_MMAP2_NAME_COUNT);
    else if (f[OLLSKUVAN_TYPE] == OLLSKUVAN_TYPE_SWITCH_CPU_WIDE)
        printf("%.6f s: %d/%d %s\n", (double)f[OLLSKUVAN_TRAILER_TIME] / 1e9, (int)f[OLLSKUVAN_TRAILER_PID],
            (int)f[OLLSKUVAN_TRAILER_TID],
            ollskuvan_misc_meaning(f[OLLSKUVAN_TYPE], f[OLLSKUVAN_MISC]) & OLLSKUVAN_MEANS_SWITCHED_OUT ? "out" : "in");
}

static int drain(struct perf_event_mmap_page *page)
{
    const uint8_t *ring = (const uint8_t *)page + page->data_offset;
    uint64_t head = __atomic_load_n(&page->data_head, __ATOMIC_ACQUIRE), length = page->data_size, tail;
    uint64_t f[OLLSKUVAN_FIELDS];
    struct ollskuvan_drained done = ollskuvan_drain(ring, length, head, page->data_tail, ATTRIBUTES, 64, scratch,
        sizeof scratch, journal, sizeof journal);
    for (uint64_t i = 0; i < done.taken; i++) {
        memcpy(&tail, journal + i * OLLSKUVAN_JOURNAL_ENTRY + OLLSKUVAN_JOURNAL_TAIL, sizeof tail);
        struct ollskuvan_one one = ollskuvan_read_one(ring, length, head, tail, ATTRIBUTES, scratch, sizeof scratch, f,
            OLLSKUVAN_FIELDS);
        print_record((one.in_scratch ? scratch : ring) + one.place, one.answer, f);
    }
    __atomic_thread_fence(__ATOMIC_SEQ_CST); /* all is read; after a stop from 4 to 7 the rest is given up */
    __atomic_store_n(&page->data_tail, done.stop >= 4 && done.stop <= 7 ? head : done.tail, __ATOMIC_RELAXED);
    return done.stop == OLLSKUVAN_STOP_BUDGET; /* there is more */
}

int main(int argc, char **argv)
{
    int fd = (int)syscall(SYS_perf_event_open, &attr, -1, argc > 1 ? atoi(argv[1]) : 0, -1, PERF_FLAG_FD_CLOEXEC);
    size_t length = 65 * (size_t)sysconf(_SC_PAGESIZE); /* a page of counts, and the ring */
    void *page = fd < 0 ? MAP_FAILED : mmap(NULL, length, PROT_READ | PROT_WRITE, MAP_SHARED, fd, 0);
    if (page == MAP_FAILED)
        return perror("decode"), 1;
    while (fflush(stdout) == 0)
        if (!drain(page))
            usleep(10000);
    return perror("decode"), 1;
}
