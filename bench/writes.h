/* The writer of one record, beside careful C. */
#ifndef BENCH_WRITES_H
#define BENCH_WRITES_H

#include <stddef.h>
#include <stdint.h>

/* careful_write.c: all that ollskuvan_write does. */
uint32_t careful_write(const uint64_t *fields, size_t fields_len, const uint8_t *source, size_t source_len,
    uint64_t sample_type, uint64_t read_format, uint32_t sample_id_all, uint64_t user_mask, uint64_t interrupt_mask,
    uint64_t branch_sample_type, uint32_t edition, uint8_t *buffer, size_t buffer_len);

/* Both writers of the values of the records of so many made rings, as they were read and with words changed: the same
 * answers, the same bytes. The exit status. */
int compare_writes(uint64_t rings, uint64_t seed);

/* The value of every record of a workload, or of one type a hundred times, for a counter of instructions. Prints the
 * number of records. */
int run_writes(const char *whose, const char *what);

#endif
