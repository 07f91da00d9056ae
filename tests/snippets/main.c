/*
 * Runs the C of docs/CONTROLLER.md, which tests/snippets.sh puts into page.c: a scene a name, on a store that it
 * writes itself and on shipped rings. A saved ring is laid out as the kernel maps one, a page and then the data, so
 * that the page's own functions read it.
 */
#include "page.c"

#include <errno.h>
#include <inttypes.h>
#include <sched.h>
#include <stdlib.h>
#include <sys/wait.h>

#include "numbers.h"

enum { IMAGE_HEADER = 50, PAGE = 4096, RING = 8192, BUDGET = 16 };

static struct ring ring;

static void fail(const char *what, const char *why)
{
    fprintf(stderr, "snippets: %s: %s\n", what, why);
    exit(1);
}

/* ---- a saved ring, and the identifiers that the kernel told of its events ---- */

static struct perf_event_mmap_page *load_image(const char *path)
{
    static uint8_t bytes[IMAGE_HEADER + OLLSKUVAN_RING_MAX];
    FILE *file = fopen(path, "rb");
    size_t length = file != NULL ? fread(bytes, 1, sizeof bytes, file) : 0;
    if (file == NULL || length <= IMAGE_HEADER)
        fail(path, "no ring image");
    fclose(file);
    uint8_t *mapped = aligned_alloc(PAGE, PAGE + OLLSKUVAN_RING_MAX);
    if (mapped == NULL)
        fail(path, "out of memory");
    struct perf_event_mmap_page *page = (void *)mapped;
    memset(page, 0, PAGE);
    page->data_offset = PAGE;
    page->data_size = length - IMAGE_HEADER;
    memcpy(&page->data_head, bytes, 8);
    memcpy(&page->data_tail, bytes + 8, 8);
    memcpy(mapped + PAGE, bytes + IMAGE_HEADER, page->data_size);
    return page;
}

/* The rows of the table beside an image: seven numbers a line. */
static void load_table(const char *path, struct ollskuvan_event rows[EVENTS])
{
    char line[256];
    size_t count = 0;
    FILE *file = fopen(path, "r");
    if (file == NULL)
        fail(path, strerror(errno));
    while (fgets(line, sizeof line, file) != NULL) {
        char *at = line;
        uint64_t words[7];
        if (line[0] == '#')
            continue;
        for (size_t i = 0; i < 7; i++)
            words[i] = strtoull(at, &at, 0);
        if (count == EVENTS)
            fail(path, "too many events");
        memcpy(&rows[count++], words, sizeof words);
    }
    fclose(file);
    if (count != EVENTS)
        fail(path, "too few events");
}

/* In place of PERF_EVENT_IOC_ID: the attributes must be those that the page asks for. */
static void take_identifiers(const char *path)
{
    struct ollskuvan_event rows[EVENTS];
    load_table(path, rows);
    for (size_t i = 0; i < EVENTS; i++) {
        ring.table[i].identifier = rows[i].identifier;
        if (memcmp(&ring.table[i], &rows[i], sizeof rows[i]) != 0)
            fail(path, "an event has other attributes than the page's");
    }
}

/* ---- the store, by way of a file ---- */

static size_t through_file(const char *path, uint8_t *store, size_t length, size_t room)
{
    FILE *file = fopen(path, "wb");
    if (file == NULL || fwrite(store, 1, length, file) != length || fclose(file) != 0)
        fail(path, "not written");
    memset(store, 0, room);
    file = fopen(path, "rb");
    if (file == NULL)
        fail(path, strerror(errno));
    length = fread(store, 1, room, file);
    fclose(file);
    return length;
}

static void start(const char *folder)
{
    uint8_t store[2 * OLLSKUVAN_STORE_BYTES(EVENTS)] = { 0 };
    char path[512];
    snprintf(path, sizeof path, "%s/kiln.store", folder);
    size_t length = through_file(path, store, write_settings(store, RING, BUDGET), sizeof store);
    if (!start_from(&ring, store, length))
        fail("store", "not read");
}

static void scene_store(const char *folder)
{
    uint8_t store[2 * OLLSKUVAN_STORE_BYTES(EVENTS)];
    start(folder);
    printf("%" PRIu64 " events, a ring of %" PRIu64 " bytes, edition %u, budget %u\n", ring.set.events, ring.set.ring_length,
        ring.set.edition, ring.set.budget);
    size_t length = write_settings(store, RING, BUDGET);
    start_from(&ring, store, length - 1);
    memcpy(store + length, store, 8); /* the version a second time, behind the last entry */
    start_from(&ring, store, length + 8);
    store[6] = 99;
    start_from(&ring, store, length);
    write_settings(store, RING, BUDGET);
    size_t entry = OLLSKUVAN_STORE_BYTES(2) - OLLSKUVAN_STORE_BYTES(1);
    store[8 + entry - 40] ^= 1; /* the first event's sample type: its lowest bit */
    start_from(&ring, store, length);
}

/* ---- drains ---- */

static void print_steps(const char *before, const struct sums *s, uint32_t budget, uint32_t stop)
{
    printf("%s%" PRIu64 " %s of at most %u: %" PRIu64 " taken, %" PRIu64 " refused, %" PRIu64 " bytes given up, stop %u\n",
        before, s->steps, s->steps == 1 ? "step" : "steps", budget, s->taken, s->by_fault[OF_RECORD] + s->by_fault[OF_EVENT],
        s->given_up, stop);
}

static void print_events(const struct sums *s)
{
    printf("by event:");
    for (size_t i = 0; i < EVENTS; i++)
        printf(" %" PRIu64, s->by_event[i]);
    if (s->by_event[EVENTS] != 0)
        fail("events", "an accepted record has no event");
}

static uint32_t steps(struct sums *s)
{
    uint32_t stop;
    memset(s, 0, sizeof *s);
    while ((stop = step(&ring, s)) == OLLSKUVAN_STOP_BUDGET)
        ;
    return stop;
}

static void counters_ring(const char *folder)
{
    start(folder);
    take_identifiers("rings/events/counters.table");
    ring.page = load_image("rings/events/counters.img");
    if (ring.page->data_size != ring.set.ring_length)
        fail("counters.img", "another length than the settings'");
}

static void scene_step(const char *folder)
{
    struct sums s;
    counters_ring(folder);
    uint64_t tail = ring.page->data_tail;
    uint32_t stop = steps(&s);
    print_steps("", &s, BUDGET, stop);
    print_events(&s);
    printf("; lost %" PRIu64 "; %" PRIu64 " names too long, the last file: %s\n", s.lost, s.long_names, (const char *)s.name);
    ring.page->data_tail = tail;
    ring.set.budget = BUDGET_MAX;
    memset(&s, 0, sizeof s);
    stop = step(&ring, &s);
    print_steps("", &s, BUDGET_MAX, stop);
    /* the next record's header: what is behind it is given up */
    memset((uint8_t *)ring.page + PAGE + ring.page->data_tail % ring.page->data_size, 0, 8);
    memset(&s, 0, sizeof s);
    stop = step(&ring, &s);
    print_steps("damaged: ", &s, BUDGET_MAX, stop);
    memset(&s, 0, sizeof s);
    stop = step(&ring, &s);
    print_steps("then: ", &s, BUDGET_MAX, stop);
}

/* A turn, and what both have and the kernel got. */
static void print_turn(struct reader *logger, struct reader *report, uint64_t from)
{
    uint32_t answer = turn(&ring, logger, report);
    if (at_stop(logger->stop) != GO_ON || at_stop(report->stop) != GO_ON)
        fail("readers", "a reader stopped");
    if (logger->tail != ring.page->data_head || ring.page->data_tail != report->tail)
        fail("readers", "the kernel's tail is not the slower one's");
    printf("logger %" PRIu64 ", report %" PRIu64 ", answer %u, %" PRIu64 " bytes given back", logger->taken, report->taken, answer,
        (uint64_t)ring.page->data_tail - from);
}

static void scene_readers(const char *folder)
{
    static struct reader logger = { .budget = BUDGET_MAX }, report = { .budget = 50 };
    static struct reader again = { .budget = BUDGET_MAX }, slow = { .budget = 5 };
    counters_ring(folder);
    uint64_t tail = logger.tail = report.tail = again.tail = slow.tail = ring.page->data_tail;
    for (unsigned i = 1; i <= 3; i++) {
        printf("turn %u: ", i);
        print_turn(&logger, &report, tail);
        printf("\n");
    }
    printf("too slow: ");
    print_turn(&again, &slow, tail);
    printf(", %" PRIu64 " of them skipped by the report\n", slow.skipped);
}

/* ---- a flight recorder ---- */

static void scene_flight(const char *folder)
{
    static uint8_t journal[2 * RING];
    struct sums s = { 0 };
    start(folder);
    load_table("rings/backward/events.table", ring.table);
    ring.page = load_image("rings/backward/events.img");
    struct ollskuvan_walked w = look_back(&ring, journal, sizeof journal, &s);
    printf("%" PRIu64 " taken in %" PRIu64 " bytes, %" PRIu64 " refused, stop %u\n", w.taken, w.bytes,
        s.by_fault[OF_RECORD] + s.by_fault[OF_EVENT], w.stop);
    print_events(&s);
    memset(&s, 0, sizeof s);
    w = look_back(&ring, journal, 10 * OLLSKUVAN_JOURNAL_ENTRY, &s);
    printf("\n%" PRIu64 " taken in %" PRIu64 " bytes, %" PRIu64 " refused, stop %u\n", w.taken, w.bytes,
        s.by_fault[OF_RECORD] + s.by_fault[OF_EVENT], w.stop);
}

/* ---- records without their ring ---- */

static uint8_t kept[RING];

/* Copies the record at a tail count out of the ring; its length. */
static size_t copy_out(uint64_t tail)
{
    struct ollskuvan_one one = ollskuvan_read_one_events(data(&ring), ring.page->data_size, ring.page->data_head, tail, ring.table,
        ring.set.events, ring.set.edition, ring.scratch, sizeof ring.scratch, NULL, 0);
    if (one.size == 0)
        fail("kept", "the reader of one record stopped");
    memcpy(kept, (one.in_scratch ? ring.scratch : data(&ring)) + one.place, one.size);
    return one.size;
}

static void look_at_kept(size_t length, struct sums *s, uint64_t *stale, uint64_t *unknown)
{
    uint64_t f[OLLSKUVAN_FIELDS];
    uint32_t answer, of_value;
    const struct ollskuvan_event *event = event_of(&ring, kept, length, &answer);
    s->taken++;
    of_value = value_of(&ring, kept, length, f);
    if (of_value != (answer == OLLSKUVAN_DIRTY_NAME ? OLLSKUVAN_OK : answer))
        fail("kept", "check and read answer otherwise");
    *stale += answer == OLLSKUVAN_DIRTY_NAME;
    *unknown += answer == OLLSKUVAN_REFUSED_IDENTIFIER && event == NULL;
    s->by_fault[at_refusal(of_value)]++;
    if (event != NULL)
        s->by_event[event - ring.table]++;
}

static void look_at_all(struct sums *s, uint64_t *stale, uint64_t *unknown)
{
    size_t length;
    *s = (struct sums){ 0 };
    *stale = *unknown = 0;
    for (uint64_t tail = ring.page->data_tail; tail != ring.page->data_head; tail += length) {
        length = copy_out(tail);
        look_at_kept(length, s, stale, unknown);
    }
}

static void scene_kept(const char *folder)
{
    struct sums s;
    uint64_t stale, unknown;
    uint32_t answer;
    counters_ring(folder);
    look_at_all(&s, &stale, &unknown);
    printf("%" PRIu64 " kept: %" PRIu64 " read, %" PRIu64 " with stale bytes behind a name\n", s.taken, s.by_fault[NONE], stale);
    print_events(&s);
    ring.table[1] = ring.table[--ring.set.events];
    look_at_all(&s, &stale, &unknown);
    printf("\nwithout the second row: %" PRIu64 " read, %" PRIu64 " refused with 26, of no event\n", s.by_fault[NONE], unknown);
    size_t length = copy_out(ring.page->data_tail);
    const struct ollskuvan_event *event = event_of(&ring, kept, length + 8, &answer);
    printf("too long: refused with %u, of %s event\n", answer, event == NULL ? "no" : "an");
}

/* ---- each number ---- */

static void print_stops(const char *before, const uint32_t *got, size_t count, enum act act)
{
    printf("%s:", before);
    for (size_t i = 0; i < count; i++)
        if (at_stop(got[i]) == act)
            printf(" %u", got[i]);
    printf("\n");
}

static void print_refusals(const char *before, const uint32_t *got, size_t count, enum fault fault)
{
    printf("%s:", before);
    for (size_t i = 0; i < count; i++)
        if (at_refusal(got[i]) == fault)
            printf(" %u", got[i]);
    printf("\n");
}

static void print_answers(const char *before, const uint32_t *got, size_t count)
{
    printf("%s:", before);
    for (size_t i = 0; i < count; i++)
        printf(at_refusal(got[i]) == NONE ? ", and %u" : " %u", got[i]);
    printf("\n");
}

static void scene_numbers(void)
{
    uint32_t got[NUMBERS_MOST];
    size_t count = each_stop(got);
    print_stops("go on", got, count, GO_ON);
    print_stops("give up", got, count, GIVE_UP);
    print_stops("set up", got, count, SET_UP);
    count = each_refusal(got);
    print_refusals("of the record", got, count, OF_RECORD);
    print_refusals("of the event", got, count, OF_EVENT);
    count = each_call(got);
    print_answers("of a call", got, count);
    count = each_store(got);
    print_answers("of a store, a trace, a stream", got, count);
}

/* ---- live: only where the kernel allows it ---- */

/* Programs that are started on the ring's cpu: names, mappings, switches, page faults. */
static void work(void)
{
    for (unsigned i = 0; i < 20; i++) {
        pid_t child = fork();
        if (child == 0) {
            execl("/bin/true", "true", (char *)NULL);
            _exit(1);
        }
        if (child > 0)
            waitpid(child, NULL, 0);
    }
}

static bool open_live(const char *folder, int cpu, bool backward)
{
    start(folder);
    if (open_ring(&ring, cpu, backward))
        return true;
    if (errno != EACCES && errno != EPERM && errno != ENOSYS && errno != ENOENT && errno != EOPNOTSUPP)
        fail("live", strerror(errno));
    printf("live part skipped: the kernel does not allow perf events (%s)\n", strerror(errno));
    return false;
}

static void must_be_sound(const char *what, const struct sums *s)
{
    if (s->by_fault[NONE] != s->taken || s->gaps != 0 || s->by_event[EVENTS] != 0)
        fail(what, "records are refused or given up");
    if (s->by_event[0] == 0 || s->by_event[1] == 0) /* switches and page faults: the work has both */
        fail(what, "an event wrote nothing into the ring");
}

/* The cpu that this program runs on, and from now on stays on. */
static int own_cpu(void)
{
    cpu_set_t set;
    int cpu = sched_getcpu();
    if (cpu < 0)
        fail("live", strerror(errno));
    CPU_ZERO(&set);
    CPU_SET(cpu, &set);
    sched_setaffinity(0, sizeof set, &set);
    return cpu;
}

static void live_steps(void)
{
    struct sums s;
    work();
    for (size_t i = 0; i < EVENTS; i++)
        ioctl(ring.fds[i], PERF_EVENT_IOC_DISABLE, 0);
    uint32_t stop = steps(&s);
    must_be_sound("live steps", &s);
    if (stop != OLLSKUVAN_STOP_NOTHING || ring.page->data_tail != ring.page->data_head)
        fail("live steps", "they do not end at head");
    printf("live: %" PRIu64 " records in %" PRIu64 " steps, %" PRIu64 " lost, none refused", s.taken, s.steps, s.lost);
}

/* Heats while there is something to take: the ring is written in the first step alone. */
static bool heat(void)
{
    static unsigned steps;
    if (steps++ == 0) {
        work();
        for (size_t i = 0; i < EVENTS; i++)
            ioctl(ring.fds[i], PERF_EVENT_IOC_DISABLE, 0);
    }
    return ring.page->data_tail != ring.page->data_head;
}

static void live_attend(int cpu)
{
    uint8_t store[OLLSKUVAN_STORE_BYTES(EVENTS)];
    struct sums s = { 0 };
    size_t length = write_settings(store, RING, BUDGET);
    if (!attend(&ring, store, length, cpu, heat, &s) || ring.page != NULL || ring.fds[0] != -1)
        fail("live ring", "not attended, or left open");
    must_be_sound("live ring", &s);
    printf("; attended: %" PRIu64 " in %" PRIu64 " steps", s.taken, s.steps);
}

static void live_walk(void)
{
    static uint8_t journal[2 * RING];
    struct sums s = { 0 };
    work();
    if (!pause_ring(&ring, true))
        fail("live walk", strerror(errno));
    struct ollskuvan_walked w = look_back(&ring, journal, sizeof journal, &s);
    must_be_sound("live walk", &s);
    if ((w.stop != OLLSKUVAN_STOP_NOTHING && w.stop != OLLSKUVAN_STOP_OVERWRITTEN) || !pause_ring(&ring, false))
        fail("live walk", "it does not end at its oldest record");
    printf("; walked back %" PRIu64 ", stop %u\n", w.taken, w.stop);
}

static void scene_live(const char *folder)
{
    int cpu = own_cpu();
    if (!open_live(folder, cpu, false))
        return;
    live_steps();
    close_ring(&ring);
    live_attend(cpu);
    if (!open_live(folder, cpu, true))
        fail("live", "a backward ring is not allowed");
    live_walk();
    close_ring(&ring);
}

int main(int argc, char **argv)
{
    const char *scene = argc > 1 ? argv[1] : "", *folder = argc > 2 ? argv[2] : ".";
    if (strcmp(scene, "store") == 0)
        scene_store(folder);
    else if (strcmp(scene, "step") == 0)
        scene_step(folder);
    else if (strcmp(scene, "readers") == 0)
        scene_readers(folder);
    else if (strcmp(scene, "flight") == 0)
        scene_flight(folder);
    else if (strcmp(scene, "kept") == 0)
        scene_kept(folder);
    else if (strcmp(scene, "numbers") == 0)
        scene_numbers();
    else if (strcmp(scene, "live") == 0)
        scene_live(folder);
    else
        fail(scene, "no such scene");
    return fflush(stdout) == 0 ? 0 : 1;
}
