/*
 * Files, whole: read into memory, and written so that what stood there before
 * stays until the new one is complete.
 */
#ifndef EXAMPLES_FILE_H
#define EXAMPLES_FILE_H

#include <stdbool.h>
#include <stddef.h>
#include <stdint.h>
#include <stdio.h>

#include "perf_ring.h" /* WHY_ROOM */

struct file {
    uint8_t *bytes; /* to be freed; a null pointer if it was not read */
    size_t length;
    bool missing; /* it was not read: there is no such file */
};

/* Of a file, or of standard input: "-". At most so many bytes: with one more than
 * is wanted a longer file is seen. False: why says what is wrong. */
bool file_read(struct file *file, const char *path, size_t most, char why[WHY_ROOM]);

/* A new file is written in the same folder, and takes the place of an older one
 * once all of it is on the disk; behind a link, of the file that the link names.
 * What is no file, as a device, is written to as it is. False: what stood there
 * still does, no file is left beside it, and why says what is wrong. */
bool file_replace(const char *path, const void *bytes, size_t length, char why[WHY_ROOM]);

/* The same of what is printed. */
bool file_print(const char *path, void (*print)(FILE *out, const void *what), const void *what, char why[WHY_ROOM]);

/* Whether a new file can be made there. Nothing is changed. */
bool file_replaceable(const char *path, char why[WHY_ROOM]);

/* Whether something stands there that is no file. */
bool file_is_other(const char *path);

#endif
