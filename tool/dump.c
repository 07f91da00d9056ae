/*
 * ollskuvan dump: every record of a saved ring as text.
 */
#include <inttypes.h>
#include <stdio.h>
#include <stdlib.h>

#include "bytes.h"
#include "command.h"
#include "flight.h"
#include "image.h"
#include "messages.h"
#include "show.h"

static bool all;
static const struct flag flags[] = { { "--all", &all }, { NULL, NULL } };
static const struct takes takes = {
    "usage: ollskuvan dump [--all] IMAGE\n"
    "Prints every record with its place, type, misc and size, and each of its fields by name. A record\n"
    "that is refused is printed with the refusal and its bytes. Lists show their count, their bytes, their\n"
    "place in the record, and what comes first. A name's flag is 1 where stale bytes follow its zero, which\n"
    "are shown. A ring of record --flight, which was written backward, is printed from its oldest record\n"
    "to its newest.\n"
    "  --all   lists and bytes whole\n",
    flags, 1, 1,
};

static void print_image(const struct image *image)
{
    printf("ring        %zu bytes, head %" PRIu64 ", tail %" PRIu64 "\n", image->length, image->head, image->tail);
    if (image->table.count == 0) {
        printf("edition     %" PRIu32 ", sample_id_all %s\n", image->edition,
            image->sample_id_all != 0 ? "set" : "not set");
        show_attributes(image->sample_type, image->read_format, image->user_mask, image->interrupt_mask,
            image->branch_sample_type);
        return;
    }
    printf("edition     %" PRIu32 ", a table of %zu events\n", image->edition, image->table.count);
    for (size_t i = 0; i < image->table.count; i++) {
        const struct ollskuvan_event *v = &image->table.events[i];
        printf("event       %" PRIu64 ", sample_id_all %s\n", v->identifier, v->sample_id_all != 0 ? "set" : "not set");
        show_attributes(v->sample_type, v->read_format, v->user_mask, v->interrupt_mask, v->branch_sample_type);
    }
}

/* The header is told also of a record that is refused. */
static void print_header(uint64_t number, uint64_t tail, const uint8_t *record, size_t size)
{
    uint64_t type = little(record, 4);
    printf("record %" PRIu64 " at tail %" PRIu64 ": %s, type %" PRIu64 ", misc ", number, tail,
        ollskuvan_type_name(type), type);
    show_misc(type, little(record + 4, 2));
    printf(", size %zu\n", size);
}

static bool print_record(const struct image *image, uint64_t number, uint64_t tail)
{
    const uint8_t *record;
    uint64_t fields[OLLSKUVAN_FIELDS];
    struct ollskuvan_one one = image_read_one(image, tail, fields, &record);
    print_header(number, tail, record, (size_t)one.size);
    if (one.answer == OLLSKUVAN_OK) {
        const struct value value = { record_attributes(image, fields), record, fields, all };
        show_fields(&value);
        return true;
    }
    printf("    refused: %" PRIu32 ", %s\n", one.answer, ollskuvan_refusal_text(one.answer));
    show_bytes(record, (size_t)one.size, all);
    return false;
}

static int print_records(const struct image *image)
{
    struct ollskuvan_drained done;
    uint64_t refused = 0;
    uint8_t *journal = image_drain(image, &done);
    if (journal == NULL)
        return STATUS_FAILED;
    print_image(image);
    for (uint64_t i = 0; i < done.taken && !ferror(stdout); i++) {
        const uint8_t *entry = journal + i * OLLSKUVAN_JOURNAL_ENTRY;
        refused += !print_record(image, i, little(entry + OLLSKUVAN_JOURNAL_TAIL, 8));
    }
    printf("stop %" PRIu32 " tail %" PRIu64 ": %s\n", done.stop, done.tail, ollskuvan_stop_text(done.stop));
    printf("%" PRIu64 " %s, %" PRIu64 " bytes, %" PRIu64 " refused\n", done.taken,
        done.taken == 1 ? "record" : "records", done.bytes, refused);
    free(journal);
    return image_end(image, &done);
}

/* How the walk ended. */
static int flight_end(const struct image *image, const struct flight *flight)
{
    const struct ollskuvan_walked *w = &flight->walked;
    printf("stop %" PRIu32 " after %" PRIu64 " bytes: %s\n", w->stop, w->bytes,
        w->stop != OLLSKUVAN_STOP_NOTHING ? ollskuvan_stop_text(w->stop)
            : flight->round ? "the whole length" : "the ring has not gone round");
    if (flight_is_whole(w->stop))
        return STATUS_DONE;
    complain("%s: not read to its end: stop %" PRIu32 ": %s", image->name, w->stop, ollskuvan_stop_text(w->stop));
    return STATUS_FAILED;
}

/* A backward ring, the oldest record first. */
static int print_flight(const struct image *image)
{
    const struct ring_attributes attributes = image_attributes(image);
    struct flight flight = flight_walk(&attributes, &image->table, image->ring, image->length, image->head);
    struct image walked = *image;
    uint64_t refused = 0;
    walked.head = flight.end;
    print_image(image);
    printf("written     backward: the oldest record first\n");
    for (uint64_t i = 0; i < flight.walked.taken && !ferror(stdout); i++)
        refused += !print_record(&walked, i, little(flight_entry(&flight, i) + OLLSKUVAN_JOURNAL_TAIL, 8));
    int status = flight_end(image, &flight);
    printf("%" PRIu64 " %s, %" PRIu64 " bytes, %" PRIu64 " refused\n", flight.walked.taken,
        flight.walked.taken == 1 ? "record" : "records", flight.walked.bytes, refused);
    free(flight.journal);
    return status;
}

static int print_any(const struct image *image)
{
    if (image_is_none(image))
        return STATUS_FAILED;
    return ring_is_backward(image->head, image->tail) ? print_flight(image) : print_records(image);
}

int dump_command(int argc, char **argv)
{
    return image_command(argc, argv, &takes, print_any);
}
