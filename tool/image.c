#include "image.h"

#include <inttypes.h>
#include <stdio.h>
#include <stdlib.h>
#include <string.h>

#include "command.h"
#include "file.h"
#include "messages.h"
#include "ring_image.h"

/* ---- reading ---- */

static void split(struct image *image)
{
    if (image->present < IMAGE_HEADER)
        return;
    const struct ring_image of = ring_image_of(image->bytes, image->present);
    const struct ring_attributes *a = &of.attributes;
    image->head = of.head;
    image->tail = of.tail;
    image->sample_type = a->sample_type;
    image->read_format = a->read_format;
    image->user_mask = a->user_mask;
    image->interrupt_mask = a->interrupt_mask;
    image->branch_sample_type = a->branch_sample_type;
    image->edition = a->edition;
    image->sample_id_all = a->sample_id_all;
    image->ring = of.bytes;
    image->length = of.length;
}

/* One byte more than the longest image, so that a longer input is seen. */
bool image_read(struct image *image, const char *path)
{
    struct file file;
    char why[WHY_ROOM];
    memset(image, 0, sizeof *image);
    image->name = strcmp(path, "-") == 0 ? "standard input" : path;
    bool done = file_read(&file, path, IMAGE_MOST + 1, why);
    image->bytes = file.bytes;
    image->present = file.length;
    if (done && event_table_load(&image->table, path, why)) {
        split(image);
        return true;
    }
    complain("%s: %s", image->name, why);
    image_free(image);
    return false;
}

void image_free(struct image *image)
{
    free(image->bytes);
    image->bytes = NULL;
}

int image_command(int argc, char **argv, const struct takes *takes, int (*print)(const struct image *image))
{
    struct image image;
    int status;
    if (take_words(argc, argv, takes, &status) < 0)
        return status;
    if (!image_read(&image, argv[1]))
        return STATUS_FAILED;
    status = print(&image);
    image_free(&image);
    return finished(status);
}

/* ---- what is wrong with it ---- */

bool image_is_none(const struct image *image)
{
    static const char perf_data[8] = { 'P', 'E', 'R', 'F', 'I', 'L', 'E', '2' };
    if (image->present == 0)
        complain("%s: no ring image: it is empty", image->name);
    else if (image->present >= sizeof perf_data && memcmp(image->bytes, perf_data, sizeof perf_data) == 0)
        complain("%s: no ring image: it is a file of perf record (perf.data)", image->name);
    else if (image->present < IMAGE_HEADER)
        complain("%s: no ring image: it has %zu bytes, and %d stand before the ring", image->name, image->present,
            IMAGE_HEADER);
    else if (image->length > OLLSKUVAN_RING_MAX)
        complain("%s: no ring image: more than %u bytes follow the first %d, and no ring is longer", image->name,
            OLLSKUVAN_RING_MAX, IMAGE_HEADER);
    else if (!ring_length_allowed(image->length))
        complain("%s: no ring image: %zu bytes follow the first %d, and a ring's length is a power of two "
            "from %u to %u", image->name, image->length, IMAGE_HEADER, OLLSKUVAN_RING_MIN, OLLSKUVAN_RING_MAX);
    else
        return false;
    return true;
}

int image_end(const struct image *image, const struct ollskuvan_drained *done)
{
    if (done->stop == OLLSKUVAN_STOP_NOTHING)
        return STATUS_DONE;
    complain("%s: not read to its end: stop %" PRIu32 " at tail %" PRIu64 ": %s", image->name, done->stop,
        done->tail, ollskuvan_stop_text(done->stop));
    return STATUS_FAILED;
}

/* ---- its records ---- */

/* No record is shorter than 8 bytes, so the journal has room for all of them. */
uint8_t *image_drain(const struct image *image, struct ollskuvan_drained *done)
{
    static uint8_t scratch[OLLSKUVAN_RECORD_MAX];
    size_t room = image->length / 8 * OLLSKUVAN_JOURNAL_ENTRY;
    uint8_t *journal = malloc(room + 1);
    if (journal == NULL) {
        complain("%s: out of memory", image->name);
        return NULL;
    }
    if (image->table.count != 0)
        *done = ollskuvan_drain_events(image->ring, image->length, image->head, image->tail, image->table.events,
            image->table.count, image->edition, UINT64_MAX, scratch, sizeof scratch, journal, room);
    else
        *done = ollskuvan_drain(image->ring, image->length, image->head, image->tail, image->sample_type,
            image->read_format, image->sample_id_all, image->user_mask, image->interrupt_mask,
            image->branch_sample_type, image->edition, UINT64_MAX, scratch, sizeof scratch, journal, room);
    return journal;
}

struct ring_attributes image_attributes(const struct image *image)
{
    const struct ring_attributes own = { image->sample_type, image->read_format, image->user_mask, image->interrupt_mask,
        image->branch_sample_type, image->sample_id_all, image->edition };
    return own;
}

struct ring_attributes record_attributes(const struct image *image, const uint64_t fields[OLLSKUVAN_FIELDS])
{
    size_t event = image->table.count != 0 ? event_of(&image->table, fields) : 0;
    if (event >= image->table.count)
        return image_attributes(image);
    const struct ollskuvan_event *v = &image->table.events[event];
    const struct ring_attributes of = { v->sample_type, v->read_format, v->user_mask, v->interrupt_mask,
        v->branch_sample_type, v->sample_id_all != 0, image->edition };
    return of;
}

struct ollskuvan_one image_read_one(const struct image *image, uint64_t tail, uint64_t fields[OLLSKUVAN_FIELDS],
    const uint8_t **record)
{
    static uint8_t scratch[OLLSKUVAN_RECORD_MAX];
    struct ollskuvan_one one;
    if (image->table.count != 0)
        one = ollskuvan_read_one_events(image->ring, image->length, image->head, tail, image->table.events,
            image->table.count, image->edition, scratch, sizeof scratch, fields, OLLSKUVAN_FIELDS);
    else
        one = ollskuvan_read_one(image->ring, image->length, image->head, tail, image->sample_type,
            image->read_format, image->sample_id_all, image->user_mask, image->interrupt_mask,
            image->branch_sample_type, image->edition, scratch, sizeof scratch, fields, OLLSKUVAN_FIELDS);
    *record = (one.in_scratch != 0 ? scratch : image->ring) + one.place;
    return one;
}
