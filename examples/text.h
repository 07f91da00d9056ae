/*
 * Pieces of text: threads, times and counts in words, and sentences that keep
 * to a width.
 */
#ifndef EXAMPLES_TEXT_H
#define EXAMPLES_TEXT_H

#include <stdbool.h>
#include <stddef.h>
#include <stdint.h>
#include <stdio.h>

/* The longest names that are shown. A longer one is said to be too long. */
enum { THREAD_NAME_ROOM = 16, FILE_NAME_ROOM = 73 };

/* The kernel's number for a thread that has ended, where it switches away from it. */
#define TID_ENDED UINT32_MAX

struct whom {
    bool known;
    uint32_t pid, tid;
    const char *name; /* as last seen at that time; NULL: never seen */
};

/* Room for a thread in words, and for a time. */
enum { WHO_ROOM = 72, MS_ROOM = 32 };

/* "'kiln' 812/812", "812/812", "idle", "(ended)" or "-". */
const char *who_in_words(char out[WHO_ROOM], const struct whom *whom);

/* Milliseconds: "41.217" with three places; short_ms with one, or three below 1 ms. */
const char *ms_in_words(char out[MS_ROOM], uint64_t ns);
const char *short_ms(char out[MS_ROOM], uint64_t ns);

/* One of the two. */
const char *plural(uint64_t count, const char *one, const char *more);

/* The text with every byte that is no plain sign as \xNN, so are quotes and the
 * backslash. False: that takes more than most columns, and out is empty. */
bool plain_text(char *out, size_t room, const char *text, size_t most);

/* The other way round. False: it is no such text, or does not fit. */
bool from_plain_text(char *out, size_t room, const char *plain);

/* A sentence on lines of at most so many columns: the first begins at indent,
 * the others two columns further in. A name in quotes is not divided. */
void print_sentence(FILE *out, size_t columns, size_t indent, const char *sentence);

/* How many of its bytes go on the first line. */
size_t first_line_of(const char *sentence, size_t columns);

#endif
