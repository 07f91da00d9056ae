/* The reader of one record into lent words, beside careful C. */
#ifndef BENCH_VALUES_H
#define BENCH_VALUES_H

#include <stddef.h>
#include <stdint.h>

/* careful_read.c: all that ollskuvan_read does. */
uint32_t careful_read(const uint8_t *record, size_t record_len, uint64_t sample_type, uint64_t read_format,
    uint32_t sample_id_all, uint64_t user_mask, uint64_t interrupt_mask, uint64_t branch_sample_type, uint32_t edition,
    uint64_t *out, size_t out_len);

/* Both readers of the records of so many made rings: the same answers, the same words. The exit status. */
int compare_reads(uint64_t rings, uint64_t seed);

/* The names of what one call is counted on: the three workloads, then a record of each type. */
int list_ones(void);

/* What a name names, and its number; an unknown one is said. */
enum one { ONE_WORKLOAD, ONE_TYPE, ONE_UNKNOWN };
enum one one_named(const char *what, unsigned *number);

/* Every record of a workload, or a record of one type a hundred times, for a counter of instructions. Prints the number of
 * records. */
int run_reads(const char *whose, const char *what);

#endif
