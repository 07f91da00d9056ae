/*
 * What a command says: messages on standard error under the name it was called
 * by, progress where something takes long, and whether its output was written.
 */
#ifndef EXAMPLES_MESSAGES_H
#define EXAMPLES_MESSAGES_H

#include <stdbool.h>
#include <stdint.h>

/* From now on messages are this program's: argv[0] without its folder. The
 * three standard streams are then open: no file that is opened later takes the
 * place of one that the caller closed. */
void called_as(const char *argv0);

/* The name, for a usage text. */
const char *own_name(void);

/* "name: " and the message, as a line. */
void complain(const char *format, ...) __attribute__((format(printf, 1, 2)));

/* All that was printed on standard output is written; else it is said, and false. */
bool output_written(void);

/* ns of the monotonic clock: the one that the rings' records have too. */
uint64_t now_ns(void);

/* Work begins that may take long. */
void progress_begin(void);

/* "name: reading: 120000 records" at most once a second, and not in the first
 * one; of: how many there are, or 0. Cheap enough for each record. */
void progress(const char *what, uint64_t done, uint64_t of);

/* The same of other things than records; it looks at the clock each time. */
void progress_in(const char *what, uint64_t done, const char *one, const char *more);

#endif
