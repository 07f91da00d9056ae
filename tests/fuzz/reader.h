/* What the target and the planted faults share: the independent reader's exports (tests/reader/library.rs, by their own names), a number of 8 bytes,
 * and where a name's flag stands. */
#ifndef FUZZ_READER_H
#define FUZZ_READER_H

#include <stdint.h>

#include "ollskuvan.h"

struct ollskuvan_drained reader_drain(const uint8_t *, size_t, uint64_t, uint64_t, uint64_t, uint64_t, uint32_t,
    uint64_t, uint64_t, uint64_t, uint32_t, uint64_t, uint8_t *, size_t, uint8_t *, size_t);
uint32_t reader_check(const uint8_t *, size_t, uint64_t, uint64_t, uint32_t, uint64_t, uint64_t, uint64_t, uint32_t);
uint32_t reader_misc_meaning(uint64_t, uint64_t);
struct ollskuvan_published reader_publish(uint64_t, uint64_t, uint64_t, uint64_t);
uint32_t reader_copy_name(const uint8_t *, size_t, uint64_t, uint64_t, uint8_t *, size_t);
uint32_t reader_read(const uint8_t *, size_t, uint64_t, uint64_t, uint32_t, uint64_t, uint64_t, uint64_t, uint32_t,
    uint64_t *, size_t);
struct ollskuvan_one reader_read_one(const uint8_t *, size_t, uint64_t, uint64_t, uint64_t, uint64_t, uint32_t,
    uint64_t, uint64_t, uint64_t, uint32_t, uint8_t *, size_t, uint64_t *, size_t);
uint32_t reader_write(const uint64_t *, size_t, const uint8_t *, size_t, uint64_t, uint64_t, uint32_t, uint64_t,
    uint64_t, uint64_t, uint32_t, uint8_t *, size_t);
struct ollskuvan_drained reader_drain_events(const uint8_t *, size_t, uint64_t, uint64_t, const struct ollskuvan_event *,
    size_t, uint32_t, uint64_t, uint8_t *, size_t, uint8_t *, size_t);
size_t reader_find_event(const struct ollskuvan_event *, size_t, uint64_t);
struct ollskuvan_one reader_read_one_events(const uint8_t *, size_t, uint64_t, uint64_t, const struct ollskuvan_event *,
    size_t, uint32_t, uint8_t *, size_t, uint64_t *, size_t);
struct ollskuvan_walked reader_walk_back(const uint8_t *, size_t, uint64_t, uint64_t, uint64_t, uint32_t, uint64_t,
    uint64_t, uint64_t, uint32_t, uint64_t, uint8_t *, size_t, uint8_t *, size_t);
struct ollskuvan_walked reader_walk_back_events(const uint8_t *, size_t, uint64_t, const struct ollskuvan_event *, size_t,
    uint32_t, uint64_t, uint8_t *, size_t, uint8_t *, size_t);
struct ollskuvan_judged reader_check_events(const uint8_t *, size_t, const struct ollskuvan_event *, size_t, uint32_t);
struct ollskuvan_judged reader_read_events(const uint8_t *, size_t, const struct ollskuvan_event *, size_t, uint32_t,
    uint64_t *, size_t);
struct ollskuvan_settings reader_read_store(const uint8_t *, size_t, struct ollskuvan_event *, size_t);
struct ollskuvan_stored reader_write_store(const struct ollskuvan_event *, size_t, uint64_t, uint32_t, uint32_t, uint8_t *,
    size_t);
struct ollskuvan_replayed reader_replay(const uint8_t *, size_t, uint64_t, const struct ollskuvan_event *, size_t, uint32_t,
    uint8_t *, size_t, uint8_t *, size_t);
struct ollskuvan_salvaged reader_salvage(const uint8_t *, size_t, const struct ollskuvan_event *, size_t, uint32_t,
    uint8_t *, size_t, uint8_t *, size_t);
struct ollskuvan_compared reader_compare(const uint8_t *, size_t, uint64_t, uint64_t, uint8_t *, size_t, const uint8_t *,
    size_t, uint64_t, uint64_t, uint8_t *, size_t, const struct ollskuvan_event *, size_t, uint32_t);

/* The word of a name's flag; 0, which is no such word, for a type that has no name. */
static inline unsigned flag_word(uint64_t type)
{
    switch (type) {
    case OLLSKUVAN_TYPE_MMAP: return OLLSKUVAN_MMAP_NAME_FLAG;
    case OLLSKUVAN_TYPE_COMM: return OLLSKUVAN_COMM_NAME_FLAG;
    case OLLSKUVAN_TYPE_MMAP2: return OLLSKUVAN_MMAP2_NAME_FLAG;
    case OLLSKUVAN_TYPE_KSYMBOL: return OLLSKUVAN_KSYMBOL_NAME_FLAG;
    case OLLSKUVAN_TYPE_CGROUP: return OLLSKUVAN_CGROUP_NAME_FLAG;
    default: return 0;
    }
}

static inline uint64_t get64(const uint8_t *at)
{
    uint64_t number = 0;
    int i;

    for (i = 8; i-- > 0;)
        number = number << 8 | at[i];
    return number;
}

#endif
