/*
 * ollskuvan salvage: keeps what is sound of a stream of records that came back
 * with holes, and tells each hole.
 */
#include <errno.h>
#include <inttypes.h>
#include <stdio.h>
#include <stdlib.h>
#include <string.h>

#include "arguments.h"
#include "bytes.h"
#include "command.h"
#include "events.h"
#include "file.h"
#include "messages.h"
#include "ollskuvan.h"
#include "settings.h"

static const struct takes takes = {
    "usage: ollskuvan salvage IN OUT [--changes FILE] [--settings STORE] [--edition N]\n"
    "Keeps the sound records of IN, a stream of records end to end, in OUT, and prints each hole: where it\n"
    "begins in IN, and its bytes. The table of events stands beside IN: NAME.table beside NAME.img, else\n"
    "IN.table; or in a store of settings, which it does if IN is '-', standard input. Nothing is\n"
    "overwritten: OUT and FILE must not be there yet.\n"
    "  --changes FILE   the list of holes too, an entry of 22 bytes each\n"
    "  --settings STORE the table, and the edition unless it is named, of a store of settings\n"
    "  --edition N      what the reader knows: 1, 2, 3 or 4 (4)\n",
    NULL, 2, 2,
};

/* What a stream was written with. */
struct basis {
    struct ollskuvan_event events[OLLSKUVAN_EVENTS_MAX];
    size_t count;
    uint32_t edition; /* 0: not named */
};

static bool basis_of_store(struct basis *basis, const char *path)
{
    static struct settings settings; /* too long for a stack */
    char why[WHY_ROOM];
    if (settings_load(path, &settings, why) != SETTINGS_READ) {
        complain("%s: %s", path, why);
        return false;
    }
    memcpy(basis->events, settings.events, settings.count * sizeof settings.events[0]);
    basis->count = settings.count;
    if (basis->edition == 0)
        basis->edition = settings.edition;
    return true;
}

static bool basis_beside(struct basis *basis, const char *path)
{
    static struct event_table table;
    char why[WHY_ROOM];
    if (!event_table_load(&table, path, why)) {
        complain("%s: %s", path, why);
        return false;
    }
    if (table.count == 0)
        complain("%s: there is no table of events beside it (NAME.table beside NAME.img, else %s.table)", path, path);
    memcpy(basis->events, table.events, table.count * sizeof table.events[0]);
    basis->count = table.count;
    if (basis->edition == 0)
        basis->edition = OLLSKUVAN_EDITION_4;
    return table.count != 0;
}

/* ---- files ---- */

/* A new file: one that is there already is left as it is. */
static FILE *create(const char *path)
{
    FILE *file = fopen(path, "wbx");
    if (file == NULL)
        complain("%s: %s", path, errno == EEXIST ? "it is there already, and nothing is overwritten" : strerror(errno));
    return file;
}

static bool write_all(FILE *file, const char *path, const uint8_t *bytes, size_t length)
{
    errno = 0;
    bool written = fwrite(bytes, 1, length, file) == length;
    if (fclose(file) == 0 && written)
        return true;
    complain("%s cannot be written%s%s", path, errno != 0 ? ": " : "", errno != 0 ? strerror(errno) : "");
    return false;
}

struct salvage {
    const char *in, *out, *changes, *store; /* paths; changes is a null pointer if no list is wanted, store if the table stands beside */
    struct basis basis;
    struct file stream;
    uint8_t *kept, *list;
    struct ollskuvan_salvaged told;
};

/* Both files or none: what was begun is taken away where one fails. */
static bool write_files(const struct salvage *s)
{
    FILE *out = create(s->out);
    if (out == NULL)
        return false;
    FILE *changes = s->changes != NULL ? create(s->changes) : NULL;
    if (s->changes != NULL && changes == NULL) {
        fclose(out);
        remove(s->out);
        return false;
    }
    bool written = write_all(out, s->out, s->kept, (size_t)s->told.kept);
    if (changes != NULL)
        written = write_all(changes, s->changes, s->list, (size_t)s->told.changes) && written;
    if (!written) {
        remove(s->out);
        if (changes != NULL)
            remove(s->changes);
    }
    return written;
}

/* ---- what is told ---- */

/* Every record of the output is sound, so its size leads to the next one. */
static uint64_t records_in(const uint8_t *bytes, uint64_t length)
{
    uint64_t count = 0;
    for (uint64_t at = 0; at < length; at += little(bytes + at + 6, 2))
        count++;
    return count;
}

static void print_hole(const struct salvage *s, const uint8_t *entry)
{
    uint64_t start = little(entry + OLLSKUVAN_CHANGE_START, 8), bytes = little(entry + OLLSKUVAN_CHANGE_BYTES, 8);
    printf("hole at %" PRIu64 ": %" PRIu64 " %s%s\n", start, bytes, bytes == 1 ? "byte" : "bytes",
        start + bytes == s->stream.length ? ", up to the end" : "");
}

static void print_told(const struct salvage *s)
{
    uint64_t records = records_in(s->kept, s->told.kept), holes = s->told.changes / OLLSKUVAN_CHANGE_ENTRY;
    printf("kept %" PRIu64 " bytes, %" PRIu64 " %s; dropped %" PRIu64 " bytes, %" PRIu64 " %s\n", s->told.kept, records,
        records == 1 ? "record" : "records", s->told.dropped, holes, holes == 1 ? "hole" : "holes");
    for (uint64_t i = 0; i < holes && !ferror(stdout); i++)
        print_hole(s, s->list + i * OLLSKUVAN_CHANGE_ENTRY);
}

/* ---- the command ---- */

static bool read_stream(struct salvage *s)
{
    char why[WHY_ROOM];
    if (file_read(&s->stream, s->in, SIZE_MAX, why))
        return true;
    complain("%s: %s", s->in, why);
    return false;
}

/* Rooms that are always enough: see ollskuvan.h. */
static bool salvage(struct salvage *s)
{
    size_t room = OLLSKUVAN_CHANGE_ENTRY * (s->stream.length / 24 + 1);
    s->kept = malloc(s->stream.length + 1);
    s->list = malloc(room);
    if (s->kept == NULL || s->list == NULL) {
        complain("%s: out of memory", s->in);
        return false;
    }
    s->told = ollskuvan_salvage(s->stream.bytes, s->stream.length, s->basis.events, s->basis.count, s->basis.edition,
        s->kept, s->stream.length, s->list, room);
    if (s->told.answer != OLLSKUVAN_OK)
        complain("%s: not salvaged: %" PRIu32 ", %s", s->in, s->told.answer, ollskuvan_refusal_text(s->told.answer));
    return s->told.answer == OLLSKUVAN_OK;
}

int salvage_command(int argc, char **argv)
{
    struct salvage s = { 0 };
    const char *given = NULL;
    int status;
    if (!take_option(&argc, argv, "--changes", &s.changes, takes.usage, &status) ||
        !take_option(&argc, argv, "--settings", &s.store, takes.usage, &status) ||
        !take_option(&argc, argv, "--edition", &given, takes.usage, &status) ||
        take_words(argc, argv, &takes, &status) < 0)
        return status;
    if (given != NULL && !edition_argument(given, &s.basis.edition))
        return STATUS_USAGE;
    s.in = argv[1];
    s.out = argv[2];
    bool done = read_stream(&s) &&
        (s.store != NULL ? basis_of_store(&s.basis, s.store) : basis_beside(&s.basis, s.in)) && salvage(&s) && write_files(&s);
    if (done)
        print_told(&s);
    free(s.stream.bytes);
    free(s.kept);
    free(s.list);
    return finished(done ? STATUS_DONE : STATUS_FAILED);
}
