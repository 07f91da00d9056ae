/*
 * Why did this step run late? The report for a potter, from saved rings or live.
 *
 * Images are what ringdump takes (and longer rings up to 1 MiB); several are
 * merged by time, as one ring a cpu is. The records are read by ollskuvan_read,
 * names are copied by ollskuvan_copy_name.
 */
#define _GNU_SOURCE
#include <getopt.h>
#include <stdio.h>
#include <stdlib.h>
#include <string.h>

#include "arguments.h"
#include "commands.h"
#include "events.h"
#include "file.h"
#include "flight.h"
#include "live.h"
#include "messages.h"
#include "names.h"
#include "ollskuvan.h"
#include "picture.h"
#include "report.h"
#include "story.h"

enum { EVENTS_MOST = 2000000 };

struct options {
    const char *watch, *names, *svg;
    uint64_t period; /* ns; 0: not given */
    size_t columns;
    bool live, short_form;
    struct live_want want;
    char **images;
    int image_count;
};

static void usage(FILE *out)
{
    fprintf(out,
        "usage: %s [OPTION..] IMAGE..\n"
        "       %s [OPTION..] --live [-- PROGRAM ARG..]\n"
        "Why a thread ran late: from saved rings of one recording ('-': standard\n"
        "input), or recorded now. X.table beside X.img is its table of events. Rings of\n"
        "record --flight are read from the oldest record to the newest.\n"
        "  --watch W     the thread: its number or its name (else the one that waited\n"
        "                longest)\n"
        "  --period MS   how often it shall run: late is what comes after that (with\n"
        "                --watch)\n"
        "  --names FILE  names of threads, as saved beside the rings\n"
        "  --short       without the table of all records\n"
        "  --columns N   the width of the report (80)\n"
        "  --svg FILE    draw it too\n"
        "  --live        record now, all cpus, and while PROGRAM runs if there is one:\n"
        "                mappings are then the program's\n"
        "  --seconds S   how long (2; with PROGRAM until it ends, which it does after S)\n"
        "  --pages N     pages of a ring (64; a power of two up to 256)\n"
        "  --help        this\n"
        "Exit status: 0 done; 1 something failed, or a ring was not read to its end, or\n"
        "there is nobody to watch; 2 wrong arguments; 3 the kernel does not allow perf\n"
        "events.\n",
        own_name(), own_name());
}

/* ---- saved rings ---- */

static int tell_names(struct story *story, const char *path)
{
    struct names names = { 0 };
    char why[WHY_ROOM];
    bool loaded = names_load(&names, path, why);
    if (loaded)
        story_names(story, &names);
    else
        complain("%s: %s", path, why);
    names_free(&names);
    return loaded ? STATUS_DONE : STATUS_FAILED;
}

static int tell_image(struct story *story, const char *path)
{
    struct ring_image image;
    static struct event_table table; /* too long for a stack */
    char why[WHY_ROOM];
    if (!event_table_load(&table, path, why) || !ring_image_load(path, &image, why)) {
        complain("%s: %s", path, why);
        return STATUS_FAILED;
    }
    const char *slash = strrchr(path, '/');
    unsigned source = story_add_source(story, slash != NULL ? slash + 1 : path, &image.attributes, image.length);
    story->sources[source].table = table;
    if (ring_is_backward(image.head, image.tail)) {
        story_take_back(story, source, image.bytes, image.head);
    } else {
        story_take(story, source, image.bytes, image.head, image.tail);
        story->sources[source].full = ring_is_full(image.length, image.head, image.tail);
    }
    free(image.bytes);
    return STATUS_DONE;
}

static int tell_images(struct story *story, const struct options *o)
{
    int status = o->names != NULL ? tell_names(story, o->names) : STATUS_DONE;
    progress_begin();
    for (int i = 0; i < o->image_count && status == STATUS_DONE; i++)
        status = tell_image(story, o->images[i]);
    return status;
}

/* ---- live ---- */

struct telling {
    struct live live;
    struct story *story;
};

static void add_sources(struct telling *t)
{
    char label[32];
    for (size_t i = 0; i < t->live.count; i++) {
        const struct perf_ring *ring = &t->live.rings[i];
        snprintf(label, sizeof label, "live, cpu %d", ring->cpu);
        story_add_source(t->story, label, &ring->attributes, ring->length);
    }
}

/* All that is there. A ring that cannot be read on is given up to its head. */
static void take_all(void *context)
{
    struct telling *t = context;
    char text[GAP_TEXT];
    for (size_t i = 0; i < t->live.count; i++) {
        const struct perf_ring *ring = &t->live.rings[i];
        struct source *source = &t->story->sources[i];
        uint64_t head = perf_ring_head(ring), tail = perf_ring_tail(ring);
        source->full = ring_is_full(ring->length, head, tail); /* what the last look saw is kept */
        tail = story_take(t->story, (unsigned)i, ring->bytes, head, tail);
        if (tail != head)
            complain("cpu %d: stop %u: %s; given up: %s", ring->cpu, source->last_stop, ollskuvan_stop_text(source->last_stop),
                gap_text(source->last_stop, head - tail, text));
        perf_ring_give_back(ring, head);
    }
}

static void note_times(struct telling *t)
{
    for (size_t i = 0; i < t->live.count; i++) {
        t->story->sources[i].began = t->live.began;
        t->story->sources[i].ended = t->live.ended;
    }
}

static int record_live(struct telling *t, struct names *names, const struct options *o)
{
    int status = live_open(&t->live, &o->want);
    if (status != STATUS_DONE)
        return status;
    names_from_proc(names, false);
    t->story->program = (uint32_t)t->live.program.pid;
    add_sources(t);
    progress_begin();
    status = live_start(&t->live);
    if (status == STATUS_DONE)
        live_record(&t->live, take_all, t);
    int stopped = live_stop(&t->live);
    names_from_proc(names, true);
    progress_begin();
    take_all(t);
    note_times(t);
    return status != STATUS_DONE ? status : stopped;
}

static int tell_live(struct story *story, const struct options *o)
{
    struct telling telling = { .story = story };
    struct names names = { 0 };
    int status = record_live(&telling, &names, o);
    live_close(&telling.live);
    story_names(story, &names);
    names_free(&names);
    return status;
}

/* ---- arguments ---- */

static bool take_option(void *options, int letter)
{
    struct options *o = options;
    unsigned long long n;
    double number;
    switch (letter) {
    case 'w':
        o->watch = optarg;
        return true;
    case 'n':
        o->names = optarg;
        return true;
    case 'v':
        o->svg = optarg;
        return true;
    case 'q':
        return o->short_form = true;
    case 'l':
        return o->live = true;
    case 'd':
        if (!decimal_argument(optarg, "--period", 86400000, &number))
            return false;
        o->period = (uint64_t)(number * 1e6);
        return true;
    case 'c':
        if (!whole_argument(optarg, "--columns", COLUMNS_LEAST, COLUMNS_MOST, &n))
            return false;
        o->columns = (size_t)n;
        return true;
    case 's':
        return decimal_argument(optarg, "--seconds", 86400, &o->want.seconds);
    case 'p':
        return pages_argument(optarg, &o->want.pages);
    default:
        usage(stderr);
        return false;
    }
}

static bool refuse(const char *why)
{
    complain("%s", why);
    return false;
}

/* What goes with what. */
static bool fits_together(const struct options *o)
{
    if (!o->live && o->image_count == 0) {
        usage(stderr);
        return false;
    }
    if (!o->live && (o->want.seconds != 0 || o->want.pages != 0))
        return refuse("--seconds and --pages go with --live");
    if (o->live && o->names != NULL)
        return refuse("--names goes with saved rings: --live finds the names itself");
    if (o->period != 0 && o->watch == NULL)
        return refuse("--period goes with --watch: whose period is it?");
    return true;
}

static bool read_options(struct options *o, int argc, char **argv, bool *help)
{
    static const struct option names[] = {
        { "watch", 1, NULL, 'w' }, { "period", 1, NULL, 'd' }, { "names", 1, NULL, 'n' }, { "columns", 1, NULL, 'c' },
        { "svg", 1, NULL, 'v' }, { "short", 0, NULL, 'q' }, { "live", 0, NULL, 'l' }, { "seconds", 1, NULL, 's' },
        { "pages", 1, NULL, 'p' }, { "help", 0, NULL, 'h' }, { NULL, 0, NULL, 0 },
    };
    if (!each_option(argc, argv, names, take_option, o, help))
        return false;
    if (*help)
        return true;
    o->images = argv + optind;
    o->image_count = argc - optind;
    return fits_together(o);
}

static void fill_in(struct options *o)
{
    o->want.cpu = -1;
    o->want.edition = OLLSKUVAN_EDITION_4;
    o->want.program = o->live && o->image_count != 0 ? o->images : NULL;
    if (o->want.pages == 0)
        o->want.pages = 64;
    if (o->want.seconds == 0 && o->want.program == NULL)
        o->want.seconds = 2;
}

/* ---- the whole ---- */

struct drawn {
    const struct story *story;
    const struct verdict *verdict;
};

static void print_picture(FILE *out, const void *what)
{
    const struct drawn *d = what;
    picture(out, d->story, d->verdict);
}

static bool draw(const struct story *story, const struct verdict *verdict, const char *path)
{
    const struct drawn drawn = { story, verdict };
    char why[WHY_ROOM];
    if (file_print(path, print_picture, &drawn, why))
        return true;
    complain("%s: %s", path, why);
    return false;
}

static int tell(struct story *story, const struct options *o)
{
    struct verdict verdict;
    story_tell(story);
    switch (judge(story, o->watch, o->period, &verdict)) {
    case NO_SUCH_THREAD:
        complain("no record tells of a thread %s", o->watch);
        return STATUS_FAILED;
    case SEVERAL_THREADS:
        complain("several threads are called '%s': choose one by its number", o->watch);
        print_threads_called(stderr, story, o->watch);
        return STATUS_FAILED;
    default:
        break;
    }
    report(stdout, story, &verdict, !o->short_form, o->columns);
    bool done = verdict.thread != NULL && story_is_whole(story);
    if (o->svg != NULL)
        done = draw(story, &verdict, o->svg) && done;
    verdict_end(&verdict);
    return done ? STATUS_DONE : STATUS_FAILED;
}

static int run(const struct options *o)
{
    struct story story;
    char why[WHY_ROOM];
    if (o->svg != NULL && !file_replaceable(o->svg, why)) { /* said before anything is read or recorded */
        complain("%s: %s", o->svg, why);
        return STATUS_FAILED;
    }
    story_begin(&story, EVENTS_MOST);
    int status = o->live ? tell_live(&story, o) : tell_images(&story, o);
    if (status == STATUS_DONE)
        status = tell(&story, o);
    story_end(&story);
    return status;
}

int report_command(int argc, char **argv)
{
    struct options options = { .columns = COLUMNS_LEAST };
    bool help = false;
    called_as(argv[0]);
    if (!read_options(&options, argc, argv, &help))
        return STATUS_USAGE;
    int status = STATUS_DONE;
    if (help) {
        usage(stdout);
    } else {
        fill_in(&options);
        status = run(&options);
    }
    return output_written() ? status : STATUS_FAILED;
}
