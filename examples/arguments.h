/*
 * Numbers and lists among the arguments. False: it is none, and that is said.
 */
#ifndef EXAMPLES_ARGUMENTS_H
#define EXAMPLES_ARGUMENTS_H

#include <stdbool.h>
#include <stddef.h>
#include <stdint.h>

/* The longest ring that the library takes, in pages of 4096 bytes. */
enum { PAGES_MAX = 256 };

bool whole_argument(const char *text, const char *option, unsigned long long least, unsigned long long most,
    unsigned long long *number);

/* What the reader knows. */
bool edition_argument(const char *text, uint32_t *edition);

/* Bits, not 0: a number, or 0x and hexadecimal digits. */
bool bits_argument(const char *text, const char *option, uint64_t *bits);

/* More than 0, at most `most`. */
bool decimal_argument(const char *text, const char *option, double most, double *number);

/* A ring's pages: a power of two. */
bool pages_argument(const char *text, size_t *pages);

/* Names of counters with commas between them, each once: a bit for each of
 * counter_names. */
bool counters_argument(const char *text, uint32_t *counters);

/* Each option in turn, by its letter, up to the first other word: optind is its place. *help is set at -h or --help, and no
 * more are taken. False: one is none, which `take` said. */
struct option;
bool each_option(int argc, char **argv, const struct option *names, bool (*take)(void *options, int letter), void *options,
    bool *help);

#endif
