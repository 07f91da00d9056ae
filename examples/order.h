/*
 * Search in what is in order.
 */
#ifndef EXAMPLES_ORDER_H
#define EXAMPLES_ORDER_H

#include <stdbool.h>
#include <stddef.h>

/* The first of `count` places at which the test does not hold, or count: it
 * holds at all places before, and at none after. */
size_t first_not(size_t count, bool (*holds)(const void *context, size_t place), const void *context);

#endif
