/*
 * The reason of a failure, in words, in the caller's room for it.
 */
#ifndef EXAMPLES_WHY_H
#define EXAMPLES_WHY_H

#include <stdarg.h>
#include <stdbool.h>
#include <stdio.h>
#include <string.h>

#include "perf_ring.h" /* WHY_ROOM */

static inline bool refuse(char why[WHY_ROOM], const char *format, ...) __attribute__((format(printf, 2, 3)));

/* Always false. */
static inline bool refuse(char why[WHY_ROOM], const char *format, ...)
{
    va_list list;
    va_start(list, format);
    int length = vsnprintf(why, WHY_ROOM, format, list);
    va_end(list);
    if (length < 0 || length >= WHY_ROOM) /* never half a reason */
        memcpy(why, "the reason does not fit its room", sizeof "the reason does not fit its room");
    return false;
}

#endif
