/*
 * A saved ring: document 01's input of the program, 50 bytes and the ring. Rings
 * are taken up to the greatest length that the library allows, and not only up
 * to ringdump's 16,384 bytes. X.table beside X.img is the ring's table of events.
 *
 * Where the event had a branch sample type, its 8 bytes follow the ring. A ring's
 * length is a power of two from 64 on, so the bytes behind the first 50 tell
 * whether they are there: 8 more than a power of two. Without them it is 0.
 *
 * Where there is a table, what the image tells of attributes, the branch sample
 * type too, is the first event's and not looked at: the table has every event's own.
 */
#ifndef TOOL_IMAGE_H
#define TOOL_IMAGE_H

#include <stdbool.h>
#include <stddef.h>
#include <stdint.h>

#include "events.h"
#include "ollskuvan.h"

struct image {
    const char *name; /* for messages */
    uint64_t head, tail, sample_type, read_format, user_mask, interrupt_mask, branch_sample_type;
    uint32_t edition, sample_id_all;
    struct event_table table; /* count 0: the attributes above serve */
    const uint8_t *ring;
    size_t length;  /* of the ring; one more than is allowed stands for any longer one */
    size_t present; /* bytes of the input; below IMAGE_HEADER all numbers above are 0 */
    uint8_t *bytes; /* all of it, freed by image_free */
};

/* Reads a file, or standard input for "-". False: it cannot be read, which was
 * said. What it holds need not be an image. */
bool image_read(struct image *image, const char *path);
void image_free(struct image *image);

/* A command that takes one image: reads it, prints it and gives the exit status. */
struct takes;
int image_command(int argc, char **argv, const struct takes *takes, int (*print)(const struct image *image));

/* True if it is no image: too short, or its ring has a length that row 1
 * refuses. It was said what is wrong. */
bool image_is_none(const struct image *image);

/* Drains all of it. The journal is freed by the caller; a null pointer: no
 * memory, which was said. */
uint8_t *image_drain(const struct image *image, struct ollskuvan_drained *done);

/* A ring that stopped with anything but 0 was not read to its end: says so.
 * Returns the exit status. */
int image_end(const struct image *image, const struct ollskuvan_drained *done);

/* Its own attributes. */
struct ring_attributes image_attributes(const struct image *image);

/* Those of the event that wrote a record, of whose value the words are; without a
 * table the image's own. */
struct ring_attributes record_attributes(const struct image *image, const uint64_t fields[OLLSKUVAN_FIELDS]);

/* The record at this tail, read. It lies in the ring, or in a scratch up to the
 * next call. */
struct ollskuvan_one image_read_one(const struct image *image, uint64_t tail, uint64_t fields[OLLSKUVAN_FIELDS],
    const uint8_t **record);

#endif
