/*
 * The numbers of fields in words against ollskuvan_compare: of every accepted record of the given images, each byte is
 * changed in turn and both are compared. Where a field is told, the word that ollskuvan_field_row has for its number
 * must differ, and none of those before it; beyond the last number there is no name. Prints what was told how often.
 */
#include <inttypes.h>
#include <stdio.h>
#include <stdlib.h>
#include <string.h>

#include "bytes.h"
#include "image.h"
#include "ollskuvan_words.h"
#include "show.h"

static uint64_t tried, told_fields, wrong;

struct laid {
    uint8_t ring[OLLSKUVAN_RECORD_MAX + 8];
    uint64_t fields[OLLSKUVAN_FIELDS];
    size_t size;
};

/* A ring of the least length that holds the record. */
static size_t ring_length(size_t size)
{
    size_t length = OLLSKUVAN_RING_MIN;
    while (length < size)
        length *= 2;
    return length;
}

static uint64_t list_bytes(const struct ring_attributes *of, const struct laid *l, const struct ollskuvan_word *row)
{
    const struct value value = { *of, l->ring, l->fields, true };
    return element_bytes(&value, row) * l->fields[row->count];
}

static int differs(const struct ring_attributes *of, const struct laid *a, const struct laid *b, const struct ollskuvan_word *row)
{
    if (row->form < OLLSKUVAN_FORM_NAME)
        return a->fields[row->word] != b->fields[row->word];
    return list_bytes(of, a, row) != list_bytes(of, b, row) ||
        memcmp(a->ring + a->fields[row->word], b->ring + b->fields[row->word], (size_t)list_bytes(of, a, row)) != 0;
}

static uint32_t read_laid(const struct ring_attributes *of, const struct ollskuvan_event *v, struct laid *l)
{
    return ollskuvan_read(l->ring, l->size, v->sample_type, v->read_format, v->sample_id_all != 0, v->user_mask,
        v->interrupt_mask, v->branch_sample_type, of->edition, l->fields, OLLSKUVAN_FIELDS);
}

/* Every number up to the one told, and, where they are equal, past the last. */
static void check(const struct ring_attributes *of, const struct ollskuvan_event *v, const struct laid *a, const struct laid *b,
    const struct ollskuvan_compared *told)
{
    const struct ollskuvan_written written = { v->sample_type, v->read_format, v->branch_sample_type, 1, a->fields };
    for (uint32_t number = 1; number <= 64; number++) {
        const struct ollskuvan_word *row = ollskuvan_field_row(&written, number);
        int first = told->what == OLLSKUVAN_COMPARED_FIELD && number == told->field;
        if (row == NULL ? first : differs(of, a, b, row) != first) {
            wrong++;
            printf("WRONG: type %" PRIu64 ", field %" PRIu32 " told, at %" PRIu32 " '%s'\n", a->fields[OLLSKUVAN_TYPE],
                told->field, number, ollskuvan_field_name(a->fields, v, number));
        }
        if (row == NULL || first)
            return;
    }
}

static struct laid left, right;

static void change(const struct ring_attributes *of, const struct ollskuvan_event *v, size_t at)
{
    static uint8_t none[1];
    memcpy(right.ring, left.ring, left.size);
    right.ring[at] ^= 1;
    right.size = left.size;
    const size_t length = ring_length(left.size);
    static uint8_t a[OLLSKUVAN_RING_MAX], b[OLLSKUVAN_RING_MAX];
    memcpy(a, left.ring, left.size);
    memcpy(b, right.ring, right.size);
    const struct ollskuvan_compared told = ollskuvan_compare(a, length, left.size, 0, none, 0, b, length, left.size, 0, none,
        0, v, 1, of->edition);
    tried++;
    if (told.what > OLLSKUVAN_COMPARED_FIELD || (told.what == OLLSKUVAN_COMPARED_FIELD && told.field == 0))
        return;
    if (read_laid(of, v, &right) != OLLSKUVAN_OK) {
        wrong++;
        return;
    }
    told_fields += told.what;
    check(of, v, &left, &right, &told);
}

static void try_record(const struct image *image, uint64_t tail)
{
    const uint8_t *record;
    struct ollskuvan_one one = image_read_one(image, tail, left.fields, &record);
    if (one.answer != OLLSKUVAN_OK || one.stop != 0 || one.size > 4096)
        return;
    struct ring_attributes of = record_attributes(image, left.fields);
    const int sample = left.fields[OLLSKUVAN_TYPE] == OLLSKUVAN_TYPE_SAMPLE;
    struct ollskuvan_event v = { left.fields[sample ? OLLSKUVAN_SAMPLE_IDENTIFIER : OLLSKUVAN_TRAILER_IDENTIFIER],
        of.sample_type, of.read_format, of.user_mask, of.interrupt_mask, of.branch_sample_type, of.sample_id_all };
    if ((v.sample_type & OLLSKUVAN_BIT_IDENTIFIER) == 0 || v.sample_id_all == 0)
        return;
    memcpy(left.ring, record, (size_t)one.size);
    left.size = (size_t)one.size;
    for (size_t at = 0; at < left.size; at++)
        change(&of, &v, at);
}

int main(int argc, char **argv)
{
    for (int i = 1; i < argc; i++) {
        struct image image;
        struct ollskuvan_drained done;
        if (!image_read(&image, argv[i]))
            return 1;
        uint8_t *journal = image_drain(&image, &done);
        if (journal == NULL)
            return 1;
        for (uint64_t r = 0; r < done.taken && r < 40; r++)
            try_record(&image, little(journal + r * OLLSKUVAN_JOURNAL_ENTRY + OLLSKUVAN_JOURNAL_TAIL, 8));
        free(journal);
        image_free(&image);
    }
    printf("fields: %" PRIu64 " changed records compared, %" PRIu64 " fields told, %" PRIu64 " wrong\n", tried, told_fields,
        wrong);
    return wrong != 0 || told_fields < 1000;
}
