/*
 * The story as plain text: the verdict, what it rests on, and then every record.
 */
#ifndef EXAMPLES_REPORT_H
#define EXAMPLES_REPORT_H

#include <stdio.h>

#include "story.h"
#include "verdict.h"

/* The width of a report: lines are kept to it. */
enum { COLUMNS_LEAST = 80, COLUMNS_MOST = 400 };

/* with_table: every record on its line, by time. */
void report(FILE *out, const struct story *story, const struct verdict *verdict, bool with_table, size_t columns);

#endif
