/*
 * Memory for the reports: where there is none, the program ends with a word.
 */
#ifndef EXAMPLES_MEMORY_H
#define EXAMPLES_MEMORY_H

#include <stddef.h>

/* What malloc, calloc or realloc gave; NULL ends the program. */
void *must(void *memory);

/* The list with room for one more. */
void *grown(void *list, size_t count, size_t *room, size_t size);

#endif
