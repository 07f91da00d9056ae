#include "arguments.h"

#include <ctype.h>
#include <errno.h>
#include <getopt.h>
#include <stdlib.h>
#include <string.h>

#include "messages.h"
#include "perf_ring.h"

/* Digits alone: no sign, no blank, nothing behind them. */
static bool read_whole(const char *text, unsigned long long *number)
{
    char *end;
    errno = 0;
    *number = strtoull(text, &end, 10);
    return errno == 0 && isdigit((unsigned char)*text) && *end == '\0';
}

bool whole_argument(const char *text, const char *option, unsigned long long least, unsigned long long most,
    unsigned long long *number)
{
    if (read_whole(text, number) && *number >= least && *number <= most)
        return true;
    complain("%s: a number from %llu to %llu is wanted, not '%s'", option, least, most, text);
    return false;
}

bool edition_argument(const char *text, uint32_t *edition)
{
    unsigned long long n;
    if (!whole_argument(text, "--edition", OLLSKUVAN_EDITION_1, OLLSKUVAN_EDITION_4, &n))
        return false;
    *edition = (uint32_t)n;
    return true;
}

bool bits_argument(const char *text, const char *option, uint64_t *bits)
{
    bool hexadecimal = text[0] == '0' && text[1] == 'x' && isxdigit((unsigned char)text[2]);
    char *end;
    errno = 0;
    *bits = strtoull(text, &end, hexadecimal ? 16 : 10);
    if (errno == 0 && isdigit((unsigned char)*text) && *end == '\0' && *bits != 0)
        return true;
    complain("%s: bits are wanted, as a number or as 0x.. and not 0, not '%s'", option, text);
    return false;
}

bool decimal_argument(const char *text, const char *option, double most, double *number)
{
    char *end;
    *number = strtod(text, &end);
    if (isdigit((unsigned char)*text) && *end == '\0' && *number > 0 && *number <= most)
        return true;
    complain("%s: more than 0 and at most %.0f are wanted, not '%s'", option, most, text);
    return false;
}

bool pages_argument(const char *text, size_t *pages)
{
    unsigned long long n;
    if (read_whole(text, &n) && n >= 1 && n <= PAGES_MAX && (n & (n - 1)) == 0) {
        *pages = (size_t)n;
        return true;
    }
    complain("--pages: a power of two from 1 to %d is wanted, not '%s'", PAGES_MAX, text);
    return false;
}

static bool is_counter(const char *text, size_t length, size_t number)
{
    return strlen(counter_names[number]) == length && strncmp(text, counter_names[number], length) == 0;
}

bool counters_argument(const char *text, uint32_t *counters)
{
    *counters = 0;
    for (const char *at = text; at != NULL;) {
        size_t length = strcspn(at, ","), number = 0;
        while (number < COUNTERS && !is_counter(at, length, number))
            number++;
        if (number == COUNTERS || (*counters >> number & 1) != 0) {
            complain("--events: some of %s, %s, %s and %s are wanted, each once, with commas, not '%s'", counter_names[0],
                counter_names[1], counter_names[2], counter_names[3], text);
            return false;
        }
        *counters |= UINT32_C(1) << number;
        at = at[length] == ',' ? at + length + 1 : NULL;
    }
    return true;
}

bool each_option(int argc, char **argv, const struct option *names, bool (*take)(void *options, int letter), void *options,
    bool *help)
{
    int letter;
    optind = 0; /* a program of several commands has looked at its own arguments before */
    while ((letter = getopt_long(argc, argv, "+h", names, NULL)) != -1) {
        if (letter == 'h')
            return *help = true;
        if (!take(options, letter))
            return false;
    }
    return true;
}
