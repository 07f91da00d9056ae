#include "events.h"

#include <ctype.h>
#include <errno.h>
#include <inttypes.h>
#include <stdio.h>
#include <stdlib.h>
#include <string.h>

#include "file.h"
#include "why.h"

enum { PATH_ROOM = 4096, LINE_ROOM = 512, WORDS = sizeof(struct ollskuvan_event) / sizeof(uint64_t) };

static bool refuse_line(char why[WHY_ROOM], const char *words, unsigned line)
{
    return refuse(why, "no table of events: line %u %s", line, words);
}

static bool refuse_path(char why[WHY_ROOM])
{
    return refuse(why, "its table of events: %s", strerror(errno));
}

/* NAME.table for NAME.img, and for any other name NAME.table too. */
static bool table_path(char path[PATH_ROOM], const char *image_path)
{
    size_t length = strlen(image_path);
    if (length >= 4 && strcmp(image_path + length - 4, ".img") == 0)
        length -= 4;
    if (length + sizeof ".table" > PATH_ROOM) {
        errno = ENAMETOOLONG;
        return false;
    }
    memcpy(path, image_path, length);
    memcpy(path + length, ".table", sizeof ".table");
    return true;
}

/* ---- reading ---- */

static bool is_blank(const char *text)
{
    while (isspace((unsigned char)*text))
        text++;
    return *text == '\0';
}

/* Seven numbers and no more. */
static bool read_event(char *text, struct ollskuvan_event *event)
{
    uint64_t words[WORDS];
    for (size_t i = 0; i < WORDS; i++) {
        char *end;
        while (isspace((unsigned char)*text))
            text++;
        errno = 0;
        words[i] = strtoull(text, &end, 0);
        if (!isdigit((unsigned char)*text) || errno != 0 || (*end != '\0' && !isspace((unsigned char)*end)))
            return false;
        text = end;
    }
    memcpy(event, words, sizeof words);
    return is_blank(text);
}

static bool read_events(struct event_table *table, FILE *file, char why[WHY_ROOM])
{
    char line[LINE_ROOM];
    for (unsigned number = 1; fgets(line, sizeof line, file) != NULL; number++) {
        if (strchr(line, '\n') == NULL && !feof(file))
            return refuse_line(why, "is too long", number);
        line[strcspn(line, "#")] = '\0';
        if (is_blank(line))
            continue;
        if (table->count == OLLSKUVAN_EVENTS_MAX)
            return refuse_line(why, "has one more event than a table may have", number);
        if (!read_event(line, &table->events[table->count++]))
            return refuse_line(why, "has other than the seven words of an event", number);
    }
    if (ferror(file))
        return refuse_path(why);
    return table->count != 0 || refuse_line(why, "and all others have no event", 1);
}

bool event_table_load(struct event_table *table, const char *image_path, char why[WHY_ROOM])
{
    char path[PATH_ROOM];
    table->count = 0;
    if (strcmp(image_path, "-") == 0) /* standard input has nothing beside it */
        return true;
    if (!table_path(path, image_path))
        return refuse_path(why);
    FILE *file = fopen(path, "r");
    if (file == NULL)
        return errno == ENOENT || errno == ENOTDIR || refuse_path(why);
    bool read = read_events(table, file, why);
    fclose(file);
    return read;
}

/* ---- writing ---- */

static void write_event(FILE *file, const struct ollskuvan_event *v, const char *name)
{
    fprintf(file, "%" PRIu64 " 0x%" PRIx64 " 0x%" PRIx64 " 0x%" PRIx64 " 0x%" PRIx64 " 0x%" PRIx64 " %" PRIu64 " # %s\n",
        v->identifier, v->sample_type, v->read_format, v->user_mask, v->interrupt_mask, v->branch_sample_type,
        v->sample_id_all, name);
}

static void print_events(FILE *out, const void *what)
{
    const struct event_table *table = what;
    fprintf(out, "# identifier sample_type read_format user_mask interrupt_mask branch_sample_type sample_id_all\n");
    for (size_t i = 0; i < table->count; i++)
        write_event(out, &table->events[i], table->names[i]);
}

bool event_table_save(const struct event_table *table, const char *image_path, char why[WHY_ROOM])
{
    char path[PATH_ROOM], reason[WHY_ROOM];
    if (!table_path(path, image_path))
        return refuse_path(why);
    if (table->count == 0)
        return remove(path) == 0 || errno == ENOENT || refuse_path(why);
    return file_print(path, print_events, table, reason) || refuse(why, "its table of events: %s", reason);
}

/* ---- whose record ---- */

size_t event_of(const struct event_table *table, const uint64_t fields[OLLSKUVAN_FIELDS])
{
    bool sample = fields[OLLSKUVAN_TYPE] == OLLSKUVAN_TYPE_SAMPLE;
    return ollskuvan_find_event(table->events, table->count,
        fields[sample ? OLLSKUVAN_SAMPLE_IDENTIFIER : OLLSKUVAN_TRAILER_IDENTIFIER]);
}
