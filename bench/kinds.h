/* The kinds of rings, each full of one record. */
#ifndef BENCH_KINDS_H
#define BENCH_KINDS_H

#include <stdbool.h>
#include <stddef.h>
#include <stdint.h>

#include "made.h"

/* Do the drains agree on every kind, and is no kind missing? The exit status. */
int compare_kinds(void);

/* The same with a table of eleven events, of which the sixth wrote the records. */
int compare_table_kinds(void);

/* Record check of every record of a workload, for callgrind: ours or careful C's. Prints the number of records. */
int run_checks(const char *whose, enum made_workload which);

/* careful_check.c: all that record check does. */
uint32_t careful_check(const uint8_t *record, size_t record_len, uint64_t sample_type, uint64_t read_format,
    uint32_t sample_id_all, uint64_t user_mask, uint64_t interrupt_mask, uint64_t branch_sample_type, uint32_t edition);

/* Two drains of each kind, for callgrind. */
int run_kinds(const char *drain, bool table);

#endif
