/*
 * ollskuvan compare: where two saved rings first differ, by record and field.
 * The exit status is that of cmp and diff: 0 alike, 1 different, 2 trouble.
 */
#include <inttypes.h>
#include <stdio.h>
#include <stdlib.h>
#include <string.h>

#include "arguments.h"
#include "bytes.h"
#include "command.h"
#include "flight.h"
#include "image.h"
#include "messages.h"
#include "show.h"

enum { ALIKE = 0, DIFFERENT = 1, TROUBLE = 2 };

static const struct takes takes = {
    "usage: ollskuvan compare A B [--edition N]\n"
    "Sets the records of two images side by side and prints the first field of the first record that\n"
    "differs: its number, its name and both values. Where records lie in their rings, and bytes that are\n"
    "ignored, do not count. Each image has its table of events beside it (NAME.table beside NAME.img), or\n"
    "records that carry an identifier.\n"
    "  --edition N   what the reader knows: 1, 2, 3 or 4 (that of both images)\n"
    "Exit status: 0 alike; 1 different; 2 for anything else.\n",
    NULL, 2, 2,
};

/* One side, with the table and the edition of both. */
struct side {
    struct image image;
    uint8_t scratch[OLLSKUVAN_RECORD_MAX], record[OLLSKUVAN_RECORD_MAX];
    struct ollskuvan_one one;
    uint64_t fields[OLLSKUVAN_FIELDS];
};

static struct side left, right;

/* ---- one table and one edition for both ---- */

static bool same_attributes(const struct ollskuvan_event *a, const struct ollskuvan_event *b)
{
    return a->sample_type == b->sample_type && a->read_format == b->read_format && a->user_mask == b->user_mask &&
        a->interrupt_mask == b->interrupt_mask && a->branch_sample_type == b->branch_sample_type &&
        (a->sample_id_all != 0) == (b->sample_id_all != 0);
}

/* False: no room, or the event is there with other attributes, which was said. */
static bool add_event(struct event_table *table, const struct ollskuvan_event *event, const char *name)
{
    size_t at = ollskuvan_find_event(table->events, table->count, event->identifier);
    if (at < table->count) {
        if (same_attributes(&table->events[at], event))
            return true;
        complain("%s: event %" PRIu64 " has other attributes than on the other side", name, event->identifier);
        return false;
    }
    if (table->count == OLLSKUVAN_EVENTS_MAX) {
        complain("%s: more than %u events on both sides", name, OLLSKUVAN_EVENTS_MAX);
        return false;
    }
    table->events[table->count++] = *event;
    return true;
}

/* Where a table has it: the first word after the header in a SAMPLE, the last word in any other record, refused or not.
 * False: the record is too short for one. */
static bool identifier_of(const struct image *image, uint64_t tail, uint64_t *identifier)
{
    uint64_t fields[OLLSKUVAN_FIELDS];
    const uint8_t *record;
    uint64_t size = image_read_one(image, tail, fields, &record).size;
    if (size < 16)
        return false;
    *identifier = little(record + (little(record, 4) == OLLSKUVAN_TYPE_SAMPLE ? 8 : size - 8), 8);
    return true;
}

/* What is no record of this event may hold any word there: it gets the attributes of its image if no event has it and
 * there is room, so that it is answered as without a table. */
static void add_refused(struct event_table *table, const struct ollskuvan_event *event)
{
    if (ollskuvan_find_event(table->events, table->count, event->identifier) == table->count &&
        table->count < OLLSKUVAN_EVENTS_MAX)
        table->events[table->count++] = *event;
}

/* Without a table every identifier of the ring's records, those that are accepted or those that are refused, stands
 * for an event with the image's own attributes. */
static bool add_identifiers(struct event_table *table, const struct image *image, bool refused)
{
    struct ollskuvan_event event = { 0, image->sample_type, image->read_format, image->user_mask, image->interrupt_mask,
        image->branch_sample_type, image->sample_id_all };
    struct ollskuvan_drained done;
    uint8_t *journal = image_drain(image, &done);
    bool added = journal != NULL;
    for (uint64_t i = 0; added && i < done.taken; i++) {
        const uint8_t *entry = journal + i * OLLSKUVAN_JOURNAL_ENTRY;
        if ((little(entry + OLLSKUVAN_JOURNAL_ANSWER, 2) != OLLSKUVAN_OK) != refused ||
            !identifier_of(image, little(entry + OLLSKUVAN_JOURNAL_TAIL, 8), &event.identifier))
            continue;
        if (refused)
            add_refused(table, &event);
        else
            added = add_event(table, &event, image->name);
    }
    free(journal);
    return added;
}

static bool add_side(struct event_table *table, const struct image *image)
{
    if (image->table.count == 0)
        return add_identifiers(table, image, false);
    for (size_t i = 0; i < image->table.count; i++)
        if (!add_event(table, &image->table.events[i], image->name))
            return false;
    return true;
}

/* False: there is no table, and no identifier that could stand for one, which was said. */
static bool has_events(const struct image *image)
{
    if (image->table.count != 0 || ((image->sample_type & OLLSKUVAN_BIT_IDENTIFIER) != 0 && image->sample_id_all != 0))
        return true;
    complain("%s: there is no table of events beside it, and its records carry no identifier", image->name);
    return false;
}

/* The events of both sides first, then what only refused records have: it takes no event's place. */
static bool add_both(struct event_table *table)
{
    const struct image *sides[] = { &left.image, &right.image };
    for (int i = 0; i < 2; i++)
        if (!has_events(sides[i]) || !add_side(table, sides[i]))
            return false;
    for (int i = 0; i < 2; i++)
        if (sides[i]->table.count == 0 && !add_identifiers(table, sides[i], true))
            return false;
    return true;
}

/* Two rings without a record and without a table: any event serves. */
static void add_any(struct event_table *table)
{
    const struct ollskuvan_event any = { 0, OLLSKUVAN_BIT_IDENTIFIER, 0, 0, 0, 0, 1 };
    if (table->count == 0)
        table->events[table->count++] = any;
}

static bool one_for_both(uint32_t edition)
{
    static struct event_table table;
    if (edition == 0 && left.image.edition != right.image.edition) {
        complain("%s has edition %" PRIu32 " and %s edition %" PRIu32 ": --edition N compares both under one",
            left.image.name, left.image.edition, right.image.name, right.image.edition);
        return false;
    }
    if (edition != 0) /* what is accepted, and so what brings its event, depends on it */
        left.image.edition = right.image.edition = edition;
    if (!add_both(&table))
        return false;
    add_any(&table);
    left.image.table = right.image.table = table;
    return true;
}

/* ---- what is told ---- */

/* The record of this number: those before it were taken by the comparison. */
static void take(struct side *side, uint64_t number)
{
    const uint8_t *record;
    uint64_t tail = side->image.tail;
    for (uint64_t i = 0; i < number; i++)
        tail = image_read_one(&side->image, tail, side->fields, &record).tail;
    side->one = image_read_one(&side->image, tail, side->fields, &record);
    memcpy(side->record, record, (size_t)side->one.size);
}

/* Small numbers are the same in both forms. */
static void print_number(uint64_t number, unsigned form)
{
    if ((form == OLLSKUVAN_FORM_HEX || form == OLLSKUVAN_FORM_HEADER) && number > 9)
        printf("0x%" PRIx64, number);
    else
        printf("%" PRIu64, number);
}

static void print_digits(const uint8_t *at, uint64_t count)
{
    for (uint64_t i = 0; i < count; i++)
        printf("%02x", at[i]);
}

/* What two runs of elements hold: both whole if short, else how many there are, or the first that differs. */
static void print_runs(const uint8_t *a, uint64_t a_count, const uint8_t *b, uint64_t b_count, uint64_t each)
{
    uint64_t at = 0;
    if (a_count != b_count) {
        printf("%" PRIu64 " and %" PRIu64 " %s\n", a_count, b_count, each == 1 ? "bytes" : "entries");
        return;
    }
    while (at + 1 < a_count && memcmp(a + at * each, b + at * each, (size_t)each) == 0)
        at++;
    printf("%s %" PRIu64 ": ", each == 1 ? "byte" : "entry", at);
    print_digits(a + at * each, each);
    fputs(" and ", stdout);
    print_digits(b + at * each, each);
    putchar('\n');
}

static void print_list(const struct ollskuvan_word *row)
{
    const struct value value = { record_attributes(&left.image, left.fields), left.record, left.fields, false };
    const uint8_t *a = left.record + left.fields[row->word], *b = right.record + right.fields[row->word];
    uint64_t a_count = left.fields[row->count], b_count = right.fields[row->count];
    if (row->form == OLLSKUVAN_FORM_NAME) {
        show_name(a, a_count);
        fputs(" and ", stdout);
        show_name(b, b_count);
        putchar('\n');
    } else {
        print_runs(a, a_count, b, b_count, element_bytes(&value, row));
    }
}

/* The left side's event writes the row; up to this field both sides have the same ones. */
static void print_field(uint32_t number)
{
    const struct event_table *table = &left.image.table;
    const struct ollskuvan_event *event = &table->events[event_of(table, left.fields)];
    const struct ollskuvan_written written = { event->sample_type, event->read_format, event->branch_sample_type, 1,
        left.fields };
    const struct ollskuvan_word *row = ollskuvan_field_row(&written, number);
    printf("%s, ", ollskuvan_field_name(left.fields, event, number));
    if (row->form >= OLLSKUVAN_FORM_NAME) {
        print_list(row);
        return;
    }
    unsigned form = number == 2 ? OLLSKUVAN_FORM_HEX : number < 5 ? OLLSKUVAN_FORM_DECIMAL : row->form;
    uint64_t a = left.fields[row->word], b = right.fields[row->word];
    print_number(a, form);
    fputs(" and ", stdout);
    print_number(b, form);
    putchar('\n');
}

static void print_difference(const struct ollskuvan_compared *told)
{
    take(&left, told->records);
    take(&right, told->records);
    uint64_t a = little(left.record, 4), b = little(right.record, 4);
    printf("record %" PRIu64 " (%s", told->records, ollskuvan_type_name(a));
    if (a != b)
        printf(" and %s", ollskuvan_type_name(b));
    printf("): field %" PRIu32 ", ", told->field);
    if (told->field == 0) {
        printf("answer, %" PRIu32 " and %" PRIu32 "\n", left.one.answer, right.one.answer);
    } else if (left.one.answer != OLLSKUVAN_OK) {
        printf("the bytes of both, refused with %" PRIu32 ", ", left.one.answer);
        print_runs(left.record, left.one.size, right.record, right.one.size, 1);
    } else {
        print_field(told->field);
    }
}

static int stopped(const struct image *image, const struct ollskuvan_compared *told)
{
    complain("%s: stop %" PRIu32 " after %" PRIu64 " equal %s: %s", image->name, told->stop, told->records,
        told->records == 1 ? "record" : "records", ollskuvan_stop_text(told->stop));
    return TROUBLE;
}

static int tell(const struct ollskuvan_compared *told)
{
    const char *records = told->records == 1 ? "record" : "records";
    switch (told->what) {
    case OLLSKUVAN_COMPARED_ALIKE:
        printf("alike: %" PRIu64 " %s\n", told->records, records);
        return ALIKE;
    case OLLSKUVAN_COMPARED_FIELD:
        print_difference(told);
        return DIFFERENT;
    case OLLSKUVAN_COMPARED_LEFT_ENDED:
    case OLLSKUVAN_COMPARED_RIGHT_ENDED:
        printf("%s ended after %" PRIu64 " equal %s\n",
            told->what == OLLSKUVAN_COMPARED_LEFT_ENDED ? left.image.name : right.image.name, told->records, records);
        return DIFFERENT;
    case OLLSKUVAN_COMPARED_LEFT_STOPPED:
        return stopped(&left.image, told);
    default:
        return stopped(&right.image, told);
    }
}

/* ---- the command ---- */

/* False: it cannot be compared, which was said. */
static bool side_read(struct side *side, const char *path)
{
    if (!image_read(&side->image, path))
        return false;
    if (image_is_none(&side->image))
        return false;
    if (!ring_is_backward(side->image.head, side->image.tail))
        return true;
    complain("%s: a ring that was written backward is not compared", side->image.name);
    return false;
}

static int compare(uint32_t edition)
{
    if (!one_for_both(edition))
        return TROUBLE;
    const struct image *a = &left.image, *b = &right.image;
    const struct ollskuvan_compared told = ollskuvan_compare(a->ring, a->length, a->head, a->tail, left.scratch,
        sizeof left.scratch, b->ring, b->length, b->head, b->tail, right.scratch, sizeof right.scratch, a->table.events,
        a->table.count, a->edition);
    return tell(&told);
}

int compare_command(int argc, char **argv)
{
    const char *given = NULL;
    uint32_t edition = 0; /* that of both images */
    int status;
    if (!take_option(&argc, argv, "--edition", &given, takes.usage, &status) ||
        take_words(argc, argv, &takes, &status) < 0)
        return status == STATUS_DONE ? ALIKE : TROUBLE;
    if (given != NULL && !edition_argument(given, &edition))
        return TROUBLE;
    status = side_read(&left, argv[1]) && side_read(&right, argv[2]) ? compare(edition) : TROUBLE;
    image_free(&left.image);
    image_free(&right.image);
    return output_written() ? status : TROUBLE;
}
