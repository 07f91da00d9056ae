/*
 * ollskuvan settings: what a store of settings holds, or what is wrong with it;
 * and a store written of what a controller is started with.
 */
#define _GNU_SOURCE
#include <getopt.h>
#include <inttypes.h>
#include <stdio.h>
#include <string.h>

#include "arguments.h"
#include "command.h"
#include "image.h"
#include "kept.h"
#include "messages.h"
#include "settings.h"
#include "show.h"

static const char usage[] =
    "usage: ollskuvan settings show FILE..\n"
    "       ollskuvan settings write FILE [OPTION..]\n"
    "A store of settings holds the events, the ring's length, the edition and the budget of a controller.\n"
    "show prints what a store holds, or its fault with the number and the place. write makes one, of what\n"
    "'ollskuvan record' is started with; what stands in FILE is replaced once the new store is on the disk.\n"
    "  --budget N    records of one drain (32; at most 4096)\n"
    "  --pages N     pages of a ring (4; a power of two up to 256)\n"
    "  --edition N   what the reader knows: 1, 2, 3 or 4 (4)\n"
    "  --clock       samples of the cpu clock too\n"
    "  --branch N    samples with the branches before each, by this branch sample type; not with --clock\n"
    "  --events LIST events that sample too: cpu-clock, page-faults, context-switches, cpu-migrations\n"
    "  --image IMAGE the events of a saved ring, with the identifiers that its records have, its length and its\n"
    "                edition; for reading what was saved, not for a start\n";

static int wrong(const char *what, const char *word)
{
    complain("%s%s", what, word);
    fprintf(stderr, "%.*s\ntry '%s --help'\n", (int)strcspn(usage, "\n"), usage, own_name());
    return STATUS_USAGE;
}

/* ---- show ---- */

static void show_settings(const struct settings *s)
{
    printf("store       version %" PRIu32 ", %zu bytes, %zu %s\n", s->version, s->bytes, s->count, s->count == 1 ? "event" : "events");
    printf("ring        %" PRIu64 " bytes\n", s->ring_length);
    printf("edition     %" PRIu32 "\n", s->edition);
    printf("budget      %" PRIu32 "\n", s->budget);
    for (size_t i = 0; i < s->count; i++) {
        const struct ollskuvan_event *v = &s->events[i];
        printf("event %-5zu identifier %" PRIu64 "\n", i, v->identifier);
        show_attributes(v->sample_type, v->read_format, v->user_mask, v->interrupt_mask, v->branch_sample_type);
    }
}

static int show(int count, char **paths)
{
    static struct settings settings;
    char why[WHY_ROOM];
    int status = STATUS_DONE;
    for (int i = 0; i < count; i++) {
        bool read = settings_load(paths[i], &settings, why) == SETTINGS_READ;
        if (!read) {
            complain("%s: %s", strcmp(paths[i], "-") == 0 ? "standard input" : paths[i], why);
            status = STATUS_FAILED;
        } else {
            if (count > 1)
                printf("%s\n", paths[i]);
            show_settings(&settings);
        }
    }
    return finished(status);
}

/* ---- write ---- */

struct wanted {
    struct live_want want; /* what is 0 is not given */
    uint64_t budget;
    const char *image;
};

static bool take_letter(struct wanted *w, int letter)
{
    unsigned long long n;
    switch (letter) {
    case 'b':
        if (!whole_argument(optarg, "--budget", 1, KEPT_BUDGET_MAX, &n))
            return false;
        w->budget = n;
        return true;
    case 'p':
        return pages_argument(optarg, &w->want.pages);
    case 'e':
        return edition_argument(optarg, &w->want.edition);
    case 'k':
        return w->want.clock = true;
    case 'r':
        return bits_argument(optarg, "--branch", &w->want.branch);
    case 'v':
        return counters_argument(optarg, &w->want.counters);
    case 'i':
        w->image = optarg;
        return true;
    default: /* getopt has said it */
        fprintf(stderr, "try '%s --help'\n", own_name());
        return false;
    }
}

static bool of_image(const struct wanted *w, struct settings *settings)
{
    struct image image;
    if (!image_read(&image, w->image))
        return false;
    bool good = !image_is_none(&image);
    if (good && image.table.count == 0) {
        complain("%s: no table of events beside it: a store has its events by their identifiers", image.name);
        good = false;
    }
    memset(settings, 0, sizeof *settings);
    memcpy(settings->events, image.table.events, image.table.count * sizeof settings->events[0]);
    settings->count = image.table.count;
    settings->ring_length = image.length;
    settings->edition = image.edition;
    settings->budget = (uint32_t)w->budget;
    image_free(&image);
    return good;
}

static bool gather(struct wanted *w, struct settings *settings)
{
    if (w->budget == 0)
        w->budget = 32;
    if (w->image != NULL)
        return of_image(w, settings);
    if (w->want.pages == 0)
        w->want.pages = 4;
    if (w->want.edition == 0)
        w->want.edition = OLLSKUVAN_EDITION_4;
    kept_settings(&w->want, w->budget, settings);
    return true;
}

static int write_store(struct wanted *w, const char *path)
{
    static struct settings settings;
    char why[WHY_ROOM], text[KEPT_TEXT];
    if (!gather(w, &settings))
        return STATUS_FAILED;
    if (!settings_save(path, &settings, why)) {
        complain("%s: %s", path, why);
        return STATUS_FAILED;
    }
    printf("kept in %s: %s\n", path, kept_text(&settings, text));
    return finished(STATUS_DONE);
}

static int write_command(int argc, char **argv)
{
    static const struct option names[] = {
        { "budget", 1, NULL, 'b' }, { "pages", 1, NULL, 'p' }, { "edition", 1, NULL, 'e' }, { "clock", 0, NULL, 'k' },
        { "branch", 1, NULL, 'r' }, { "events", 1, NULL, 'v' }, { "image", 1, NULL, 'i' }, { NULL, 0, NULL, 0 },
    };
    struct wanted w = { .want = { .cpu = -1 } };
    int letter;
    optind = 0; /* the words before were looked at without it */
    while ((letter = getopt_long(argc, argv, "", names, NULL)) != -1)
        if (!take_letter(&w, letter))
            return STATUS_USAGE;
    if (argc - optind != 1)
        return wrong("one FILE is wanted", "");
    if (strcmp(argv[optind], "-") == 0)
        return wrong("a FILE is wanted, not ", "-");
    const struct live_want *l = &w.want;
    if (w.image != NULL && (l->pages != 0 || l->edition != 0 || l->clock || l->branch != 0 || l->counters != 0))
        return wrong("--image tells the events, the ring's length and the edition itself", "");
    if (!kept_events_go(l))
        return STATUS_USAGE;
    return write_store(&w, argv[optind]);
}

static bool asks_for_help(int argc, char **argv)
{
    for (int i = 1; i < argc; i++)
        if (strcmp(argv[i], "--help") == 0 || strcmp(argv[i], "-h") == 0)
            return true;
    return false;
}

int settings_command(int argc, char **argv)
{
    if (asks_for_help(argc, argv)) {
        fputs(usage, stdout);
        return finished(STATUS_DONE);
    }
    if (argc < 2)
        return wrong("show or write?", "");
    if (strcmp(argv[1], "show") == 0)
        return argc > 2 ? show(argc - 2, argv + 2) : wrong("which FILE?", "");
    if (strcmp(argv[1], "write") == 0) {
        argv[1] = argv[0];
        return write_command(argc - 1, argv + 1);
    }
    return wrong("show or write is wanted, not ", argv[1]);
}
