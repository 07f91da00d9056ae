/*
 * Calls every export of libollskuvan.a from C, at the edges: empty slices, null
 * with length 0, edition 257, budget 0, journals of 15 and 16 bytes, scratch one
 * byte short, buffers one byte short, values one word short, tables of 0, 32 and 33
 * events, traces that end in the middle, backward rings that have gone round and that have not, streams with holes.
 *
 * Every slice is its own block of the heap, of exactly its length, so that
 * valgrind sees any byte read or written outside it.
 */
#include "../include/ollskuvan.h"

#include <stdio.h>
#include <stdlib.h>
#include <string.h>

static int passed, failed;

#define IS(got, due) is(__LINE__, #got, (uint64_t)(got), (uint64_t)(due))
#define OK(condition) is(__LINE__, #condition, (condition) ? 1 : 0, 1)

static void is(int line, const char *what, uint64_t got, uint64_t due)
{
    if (got == due) {
        passed++;
    } else {
        failed++;
        printf("exports.c:%d: %s is %llu where %llu is due\n", line, what, (unsigned long long)got,
            (unsigned long long)due);
    }
}

/* A block of exactly n bytes, each of them 0xc3. */
static uint8_t *block(size_t n)
{
    uint8_t *bytes = malloc(n ? n : 1);
    if (!bytes)
        abort();
    memset(bytes, 0xc3, n ? n : 1);
    return bytes;
}

static uint8_t *block_anew(uint8_t *old, size_t n)
{
    free(old);
    return block(n);
}

static uint8_t *copied(const uint8_t *from, size_t n)
{
    uint8_t *bytes = block(n);
    memcpy(bytes, from, n);
    return bytes;
}

/* All n bytes from there on are as block() left them. */
static int untouched(const uint8_t *bytes, size_t n)
{
    size_t i;
    for (i = 0; i < n; i++)
        if (bytes[i] != 0xc3)
            return 0;
    return 1;
}

static void put16(uint8_t *at, unsigned n)
{
    at[0] = (uint8_t)n;
    at[1] = (uint8_t)(n >> 8);
}

static uint64_t get(const uint8_t *at, int bytes)
{
    uint64_t n = 0;
    while (bytes--)
        n = n << 8 | at[bytes];
    return n;
}

/* A switch out (P6 of document 01), LOST with id 7 and lost 9, COMM "kiln"; the same with stale bytes after its zero. */
static const uint8_t SWITCH[8] = {0x0e, 0, 0, 0, 0, 0x20, 8, 0};
static const uint8_t LOST[24] = {2, 0, 0, 0, 0, 0, 24, 0, 7, 0, 0, 0, 0, 0, 0, 0, 9, 0, 0, 0, 0, 0, 0, 0};
static const uint8_t COMM[24] = {3, 0, 0, 0, 0, 0x20, 24, 0, 1, 0, 0, 0, 2, 0, 0, 0, 'k', 'i', 'l', 'n', 0, 0, 0, 0};
static const uint8_t DIRTY[24] = {3, 0, 0, 0, 0, 0x20, 24, 0, 1, 0, 0, 0, 2, 0, 0, 0, 'k', 'i', 'l', 'n', 0, 1, 2, 3};

/* The attributes: sample type, read format, sample_id_all, user mask, interrupt mask, branch sample type. */
#define NONE 0, 0, 0, 0, 0, 0
/* Those that most tests do not give are 0. */
#define SAMPLED(sample_type) sample_type, 0, 0, 0, 0, 0
#define TRAILED(sample_type) sample_type, 0, 1, 0, 0, 0
#define BRANCHED(sample_type, branch_sample_type) sample_type, 0, 0, 0, 0, branch_sample_type

/* The attributes are empty but for what a test gives. */
static struct ollskuvan_drained drain(const uint8_t *ring, size_t length, uint64_t head, uint64_t tail,
    uint32_t edition, uint64_t budget, uint8_t *scratch, size_t scratch_len, uint8_t *journal, size_t journal_len)
{
    return ollskuvan_drain(ring, length, head, tail, NONE, edition, budget, scratch, scratch_len, journal,
        journal_len);
}

static uint32_t check(const uint8_t *record, size_t length, uint32_t edition)
{
    return ollskuvan_check(record, length, NONE, edition);
}

static void test_drain(void)
{
    uint8_t *ring = block(64), *journal = block(32), *scratch = block(24), *before = block(64);
    struct ollskuvan_drained d;

    /* null with length 0 everywhere */
    d = drain(NULL, 0, 0, 0, 3, 0, NULL, 0, NULL, 0);
    IS(d.stop, OLLSKUVAN_STOP_RING_LENGTH);
    IS(d.taken, 0);
    IS(d.bytes, 0);
    IS(d.tail, 0);
    d = drain(NULL, 0, 24, 5, 3, 1, NULL, 0, NULL, 0);
    IS(d.stop, OLLSKUVAN_STOP_RING_LENGTH);
    IS(d.tail, 5);
    d = drain(ring, 0, 0, 0, 3, 1, scratch, 0, journal, 0);
    IS(d.stop, OLLSKUVAN_STOP_RING_LENGTH);

    memset(ring, 0, 64);
    memcpy(ring, SWITCH, 8);
    memcpy(ring + 8, LOST, 24);
    memcpy(before, ring, 64);

    /* the rows in the order of the table */
    IS(drain(ring, 63, 72, 1, 257, 0, NULL, 0, NULL, 0).stop, OLLSKUVAN_STOP_RING_LENGTH);
    IS(drain(ring, 64, 72, 1, 257, 0, NULL, 0, NULL, 0).stop, OLLSKUVAN_STOP_EDITION);
    IS(drain(ring, 64, 72, 1, 0, 0, NULL, 0, NULL, 0).stop, OLLSKUVAN_STOP_EDITION);
    IS(drain(ring, 64, 72, 1, 5, 0, NULL, 0, NULL, 0).stop, OLLSKUVAN_STOP_EDITION);
    IS(drain(ring, 64, 72, 1, 4, 0, NULL, 0, NULL, 0).stop, OLLSKUVAN_STOP_DISTANCE);
    IS(drain(ring, 64, 72, 1, 0xffffffffu, 0, NULL, 0, NULL, 0).stop, OLLSKUVAN_STOP_EDITION);
    IS(drain(ring, 64, 72, 1, 3, 0, NULL, 0, NULL, 0).stop, OLLSKUVAN_STOP_DISTANCE);
    IS(drain(ring, 64, 72, 0, 3, 0, NULL, 0, NULL, 0).stop, OLLSKUVAN_STOP_DISTANCE);
    IS(drain(ring, 64, 64, 1, 3, 0, NULL, 0, NULL, 0).stop, OLLSKUVAN_STOP_ALIGNMENT);
    IS(drain(ring, 64, 7, 0, 3, 0, NULL, 0, NULL, 0).stop, OLLSKUVAN_STOP_ALIGNMENT);
    IS(drain(ring, 64, 8, 8, 3, 0, NULL, 0, NULL, 0).stop, OLLSKUVAN_STOP_NOTHING);
    IS(drain(ring, 64, 8, 0, 3, 0, NULL, 0, NULL, 0).stop, OLLSKUVAN_STOP_BUDGET);
    IS(drain(ring, 64, 8, 0, 3, 1, NULL, 0, NULL, 0).stop, OLLSKUVAN_STOP_JOURNAL);

    /* a journal of 15 and of 16 bytes */
    d = drain(ring, 64, 32, 0, 3, 9, NULL, 0, journal, 15);
    IS(d.stop, OLLSKUVAN_STOP_JOURNAL);
    IS(d.taken, 0);
    OK(untouched(journal, 32));
    d = drain(ring, 64, 32, 0, 3, 9, NULL, 0, journal, 16);
    IS(d.stop, OLLSKUVAN_STOP_JOURNAL);
    IS(d.taken, 1);
    IS(d.bytes, 8);
    IS(d.tail, 8);
    IS(get(journal + OLLSKUVAN_JOURNAL_LENGTH, 4), OLLSKUVAN_JOURNAL_ENTRY);
    IS(get(journal + OLLSKUVAN_JOURNAL_KIND, 2), OLLSKUVAN_TYPE_SWITCH);
    IS(get(journal + OLLSKUVAN_JOURNAL_ANSWER, 2), OLLSKUVAN_OK);
    IS(get(journal + OLLSKUVAN_JOURNAL_TAIL, 8), 0);
    OK(untouched(journal + 16, 16));

    /* budget 0, 1 and just enough; the end of the ring is reached before the budget */
    memset(journal, 0xc3, 32);
    d = drain(ring, 64, 32, 0, 3, 0, NULL, 0, journal, 32);
    IS(d.stop, OLLSKUVAN_STOP_BUDGET);
    OK(untouched(journal, 32));
    d = drain(ring, 64, 32, 0, 3, 1, NULL, 0, journal, 32);
    IS(d.stop, OLLSKUVAN_STOP_BUDGET);
    IS(d.taken, 1);
    d = drain(ring, 64, 32, 0, 1, 2, NULL, 0, journal, 32);
    IS(d.stop, OLLSKUVAN_STOP_NOTHING);
    IS(d.taken, 2);
    IS(d.bytes, 32);
    IS(d.tail, 32);
    IS(get(journal + OLLSKUVAN_JOURNAL_ANSWER, 2), OLLSKUVAN_REFUSED_TYPE);
    IS(get(journal + 16 + OLLSKUVAN_JOURNAL_KIND, 2), OLLSKUVAN_TYPE_LOST);
    IS(get(journal + 16 + OLLSKUVAN_JOURNAL_ANSWER, 2), OLLSKUVAN_OK);
    IS(get(journal + 16 + OLLSKUVAN_JOURNAL_TAIL, 8), 8);

    /* the ring is only read */
    OK(memcmp(ring, before, 64) == 0);

    /* P3: LOST across the end at tail 2^64 - 8; scratch one byte short, then just long enough */
    memcpy(ring + 56, LOST, 8);
    memcpy(ring, LOST + 8, 16);
    memset(journal, 0xc3, 32);
    d = drain(ring, 64, 16, UINT64_MAX - 7, 3, 9, scratch, 23, journal, 32);
    IS(d.stop, OLLSKUVAN_STOP_SCRATCH);
    IS(d.taken, 0);
    IS(d.tail, UINT64_MAX - 7);
    OK(untouched(scratch, 24));
    OK(untouched(journal, 32));
    d = drain(ring, 64, 16, UINT64_MAX - 7, 3, 9, NULL, 0, journal, 32);
    IS(d.stop, OLLSKUVAN_STOP_SCRATCH);
    d = drain(ring, 64, 16, UINT64_MAX - 7, 3, 9, scratch, 24, journal, 32);
    IS(d.stop, OLLSKUVAN_STOP_NOTHING);
    IS(d.taken, 1);
    IS(d.bytes, 24);
    IS(d.tail, 16);
    OK(memcmp(scratch, LOST, 24) == 0);
    IS(get(journal + OLLSKUVAN_JOURNAL_TAIL, 8), UINT64_MAX - 7);
    OK(untouched(journal + 16, 16));

    /* sizes that stop, and a size above the distance */
    memcpy(ring, LOST, 24);
    put16(ring + 6, 0);
    IS(drain(ring, 64, 24, 0, 3, 9, NULL, 0, journal, 32).stop, OLLSKUVAN_STOP_SIZE);
    put16(ring + 6, 12);
    IS(drain(ring, 64, 24, 0, 3, 9, NULL, 0, journal, 32).stop, OLLSKUVAN_STOP_SIZE);
    put16(ring + 6, 32);
    IS(drain(ring, 64, 24, 0, 3, 9, NULL, 0, journal, 32).stop, OLLSKUVAN_STOP_PAST_HEAD);

    free(ring);
    free(journal);
    free(scratch);
    free(before);
}

static void test_check(void)
{
    uint8_t *comm = copied(COMM, 24), *lost = copied(LOST, 24), *five = copied(LOST, 5);

    IS(check(NULL, 0, 3), OLLSKUVAN_REFUSED_LENGTH);
    IS(check(NULL, 0, 257), OLLSKUVAN_REFUSED_EDITION);
    IS(check(comm, 0, 3), OLLSKUVAN_REFUSED_LENGTH);
    IS(check(five, 5, 3), OLLSKUVAN_REFUSED_LENGTH);
    IS(check(comm, 24, 0), OLLSKUVAN_REFUSED_EDITION);
    IS(check(comm, 24, 257), OLLSKUVAN_REFUSED_EDITION);
    IS(check(comm, 24, 1), OLLSKUVAN_OK);
    IS(check(comm, 16, 1), OLLSKUVAN_REFUSED_LENGTH);
    put16(comm + 6, 12);
    IS(check(comm, 24, 1), OLLSKUVAN_REFUSED_SIZE);
    put16(comm + 6, 16);
    IS(check(comm, 16, 1), OLLSKUVAN_REFUSED_NAME);
    IS(check(lost, 24, 2), OLLSKUVAN_OK);
    put16(lost, 22);
    IS(check(lost, 24, 4), OLLSKUVAN_REFUSED_TYPE);
    put16(lost, OLLSKUVAN_TYPE_LOST);
    /* sample_id_all is any 32-bit number but 0 */
    IS(ollskuvan_check(lost, 24, SAMPLED(OLLSKUVAN_BIT_TIME), 3), OLLSKUVAN_OK);
    IS(ollskuvan_check(lost, 24, TRAILED(OLLSKUVAN_BIT_TIME), 3), OLLSKUVAN_REFUSED_SHORT);
    IS(ollskuvan_check(lost, 24, OLLSKUVAN_BIT_TIME, 0, 256, 0, 0, 0, 3), OLLSKUVAN_REFUSED_SHORT);
    IS(ollskuvan_check(lost, 24, UINT64_C(1) << 40, 0, 0x80000000u, 0, 0, 0, 3), OLLSKUVAN_REFUSED_SAMPLE_TYPE);
    put16(lost, OLLSKUVAN_TYPE_SAMPLE);
    IS(ollskuvan_check(lost, 24, SAMPLED(OLLSKUVAN_BIT_IP), 3), OLLSKUVAN_REFUSED_LEFT_OVER);
    IS(ollskuvan_check(lost, 24, SAMPLED(OLLSKUVAN_BIT_IP | OLLSKUVAN_BIT_TID), 3), OLLSKUVAN_OK);
    IS(ollskuvan_check(lost, 24, OLLSKUVAN_BIT_READ, UINT64_C(1) << 63, 0, 0, 0, 0, 4), OLLSKUVAN_REFUSED_READ_FORMAT);
    IS(ollskuvan_check(lost, 24, SAMPLED(OLLSKUVAN_BIT_WEIGHT | OLLSKUVAN_BIT_WEIGHT_STRUCT), 3),
        OLLSKUVAN_REFUSED_WEIGHTS);
    IS(ollskuvan_check(lost, 24, SAMPLED(OLLSKUVAN_BIT_USER_STACK), 3), OLLSKUVAN_REFUSED_INNER);
    IS(ollskuvan_check(lost, 24, OLLSKUVAN_BIT_USER_REGISTERS, 0, 0, UINT64_MAX, 0, 0, 3), OLLSKUVAN_REFUSED_SHORT);
    IS(ollskuvan_check(lost, 24, OLLSKUVAN_BIT_USER_REGISTERS, 0, 0, UINT64_C(1) << 63, 0, 0, 3), OLLSKUVAN_OK);
    IS(ollskuvan_check(lost, 24, OLLSKUVAN_BIT_INTERRUPT_REGISTERS, 0, 0, 0, 0x10, 0, 3), OLLSKUVAN_OK);
    put16(lost, OLLSKUVAN_TYPE_MMAP2);
    put16(lost + 4, OLLSKUVAN_MISC_MMAP_BUILD_ID);
    IS(check(lost, 24, 2), OLLSKUVAN_REFUSED_BUILD_ID);
    IS(check(lost, 24, 3), OLLSKUVAN_REFUSED_SHORT);

    free(comm);
    free(lost);
    free(five);
}

/* A SAMPLE with one branch: count, hardware index, from, to, flags. */
static const uint8_t BRANCHES[48] = {9, 0, 0, 0, 1, 0, 48, 0, 1, 0, 0, 0, 0, 0, 0, 0, 0xff, 0xff, 0xff, 0xff, 0xff, 0xff, 0xff,
    0xff, 0x11, 0, 0, 0, 0, 0, 0, 0, 0x22, 0, 0, 0, 0, 0, 0, 0, 0x33, 0, 0, 0, 0, 0, 0, 0};

/* The hardware index and 25, in record check and drain. */
static void test_branches(void)
{
    const uint64_t bit = OLLSKUVAN_BIT_BRANCHES, index = OLLSKUVAN_BRANCH_HW_INDEX, odd = UINT64_C(1) << 19;
    const uint64_t weights = OLLSKUVAN_BIT_WEIGHT | OLLSKUVAN_BIT_WEIGHT_STRUCT;
    uint8_t *record = copied(BRANCHES, 48), *ring = block(64), *journal = block(16), *scratch = block(48);
    struct ollskuvan_drained d;

    IS(ollskuvan_check(record, 48, BRANCHED(bit, index), 1), OLLSKUVAN_REFUSED_BRANCH_TYPE);
    IS(ollskuvan_check(record, 48, BRANCHED(bit, index), 2), OLLSKUVAN_REFUSED_BRANCH_TYPE);
    IS(ollskuvan_check(record, 48, BRANCHED(bit, index), 3), OLLSKUVAN_OK);
    IS(ollskuvan_check(record, 48, BRANCHED(bit, index | UINT64_C(0x5ffff)), 3), OLLSKUVAN_OK);
    /* without bit 17 the index is no word of its own; bits 0 to 16 and 18 change nothing */
    IS(ollskuvan_check(record, 48, BRANCHED(bit, 0), 3), OLLSKUVAN_REFUSED_LEFT_OVER);
    IS(ollskuvan_check(record, 48, BRANCHED(bit, UINT64_C(0x5ffff)), 1), OLLSKUVAN_REFUSED_LEFT_OVER);
    /* a bit from 19 up is refused by all, and narrowed by none */
    IS(ollskuvan_check(record, 48, BRANCHED(bit, odd), 3), OLLSKUVAN_REFUSED_BRANCH_TYPE);
    IS(ollskuvan_check(record, 48, BRANCHED(bit, odd), 1), OLLSKUVAN_REFUSED_BRANCH_TYPE);
    IS(ollskuvan_check(record, 48, BRANCHED(bit, UINT64_C(1) << 63), 3), OLLSKUVAN_REFUSED_BRANCH_TYPE);
    IS(ollskuvan_check(record, 48, BRANCHED(bit, UINT64_C(1) << 32), 2), OLLSKUVAN_REFUSED_BRANCH_TYPE);
    /* 21 and 22 before it, 24 after it */
    IS(ollskuvan_check(record, 48, BRANCHED(bit | UINT64_C(1) << 30, odd), 3), OLLSKUVAN_REFUSED_SAMPLE_TYPE);
    IS(ollskuvan_check(record, 48, bit | OLLSKUVAN_BIT_READ, 16, 0, 0, 0, odd, 3), OLLSKUVAN_REFUSED_READ_FORMAT);
    IS(ollskuvan_check(record, 48, BRANCHED(bit | weights, odd), 3), OLLSKUVAN_REFUSED_BRANCH_TYPE);
    IS(ollskuvan_check(record, 48, BRANCHED(bit | weights, index), 3), OLLSKUVAN_REFUSED_WEIGHTS);
    /* no sample bit 11, or no SAMPLE: never 25 */
    IS(ollskuvan_check(record, 48, BRANCHED(weights, UINT64_MAX), 3), OLLSKUVAN_REFUSED_WEIGHTS);
    IS(ollskuvan_check(record, 48, BRANCHED(0, UINT64_MAX), 1), OLLSKUVAN_REFUSED_LEFT_OVER);
    IS(ollskuvan_check(LOST, 24, BRANCHED(bit, UINT64_MAX), 1), OLLSKUVAN_OK);
    IS(ollskuvan_check(LOST, 24, bit, 0, 1, 0, 0, UINT64_MAX, 1), OLLSKUVAN_OK);

    /* the index with a count of 0; what a kernel writes that has no branch stack is a word short */
    memset(record + 8, 0, 8);
    put16(record + 6, 24);
    IS(ollskuvan_check(record, 24, BRANCHED(bit, index), 3), OLLSKUVAN_OK);
    put16(record + 6, 16);
    IS(ollskuvan_check(record, 16, BRANCHED(bit, index), 3), OLLSKUVAN_REFUSED_SHORT);
    IS(ollskuvan_check(record, 16, BRANCHED(bit, 0), 3), OLLSKUVAN_OK);
    put16(record + 6, 8);
    IS(ollskuvan_check(record, 8, BRANCHED(bit, index), 3), OLLSKUVAN_REFUSED_SHORT);

    /* a drain: across the ring's end, editions 3 and 2 */
    memcpy(ring + 40, BRANCHES, 24);
    memcpy(ring, BRANCHES + 24, 24);
    d = ollskuvan_drain(ring, 64, 88, 40, BRANCHED(bit, index), 3, 9, scratch, 48, journal, 16);
    IS(d.taken, 1);
    IS(d.stop, OLLSKUVAN_STOP_NOTHING);
    IS(get(journal + OLLSKUVAN_JOURNAL_ANSWER, 2), OLLSKUVAN_OK);
    OK(memcmp(scratch, BRANCHES, 48) == 0);
    d = ollskuvan_drain(ring, 64, 88, 40, BRANCHED(bit, index), 2, 9, scratch, 48, journal, 16);
    IS(d.taken, 1);
    IS(get(journal + OLLSKUVAN_JOURNAL_ANSWER, 2), OLLSKUVAN_REFUSED_BRANCH_TYPE);
    d = ollskuvan_drain(ring, 64, 88, 40, BRANCHED(bit, odd | index), 3, 9, scratch, 48, journal, 16);
    IS(get(journal + OLLSKUVAN_JOURNAL_ANSWER, 2), OLLSKUVAN_REFUSED_BRANCH_TYPE);

    free(record);
    free(ring);
    free(journal);
    free(scratch);
}

/* READ: pid, tid; n = 1; value, id and lost count of the one counter. */
static const uint8_t GROUP[48] = {8, 0, 0, 0, 0, 0, 48, 0, 1, 0, 0, 0, 2, 0, 0, 0, 1, 0, 0, 0, 0, 0, 0, 0, 0x11, 0, 0, 0, 0, 0, 0,
    0, 0x22, 0, 0, 0, 0, 0, 0, 0, 0x33, 0, 0, 0, 0, 0, 0, 0};

#define FORMAT(read_format) 0, read_format, 0, 0, 0, 0

/* Edition 4: lost counts, type 21, and 22 from bit 5 on. */
static void test_edition_4(void)
{
    const uint64_t lost = OLLSKUVAN_READ_FORMAT_LOST, id = OLLSKUVAN_READ_FORMAT_ID, group = OLLSKUVAN_READ_FORMAT_GROUP;
    uint8_t *record = copied(GROUP, 48), *ring = block(64), *journal = block(16), *scratch = block(48), *buffer = block(48);
    uint64_t fields[OLLSKUVAN_FIELDS];
    struct ollskuvan_drained d;
    uint32_t edition;

    IS(ollskuvan_check(record, 48, FORMAT(group | id | lost), 4), OLLSKUVAN_OK);
    IS(ollskuvan_check(record, 48, FORMAT(group | lost), 4), OLLSKUVAN_REFUSED_LEFT_OVER);
    IS(ollskuvan_check(record, 48, FORMAT(group | id), 4), OLLSKUVAN_REFUSED_LEFT_OVER);
    IS(ollskuvan_check(record, 48, FORMAT(group | id | lost | 32), 4), OLLSKUVAN_REFUSED_READ_FORMAT);
    IS(ollskuvan_check(record, 48, FORMAT(UINT64_C(1) << 36), 4), OLLSKUVAN_REFUSED_READ_FORMAT);
    for (edition = 1; edition < 4; edition++)
        IS(ollskuvan_check(record, 48, FORMAT(group | id | lost), edition), OLLSKUVAN_REFUSED_READ_FORMAT);
    /* the entry's place, and no lost count outside of it */
    IS(ollskuvan_read(record, 48, FORMAT(group | id | lost), 4, fields, OLLSKUVAN_FIELDS), OLLSKUVAN_OK);
    IS(fields[OLLSKUVAN_READ_VALUES_COUNT], 1);
    IS(fields[OLLSKUVAN_READ_VALUES], 24);
    IS(fields[OLLSKUVAN_READ_LOST], 0);
    IS(ollskuvan_write(fields, OLLSKUVAN_FIELDS, record, 48, FORMAT(group | id | lost), 4, buffer, 48), OLLSKUVAN_OK);
    OK(memcmp(buffer, GROUP, 48) == 0);
    IS(ollskuvan_write(fields, OLLSKUVAN_FIELDS, record, 47, FORMAT(group | id | lost), 4, buffer, 48), OLLSKUVAN_REFUSED_PLACE);
    /* without a group the lost count is the last of the read values */
    IS(ollskuvan_read(record, 48, FORMAT(id | lost | 3), 4, fields, OLLSKUVAN_FIELDS), OLLSKUVAN_REFUSED_SHORT);
    IS(ollskuvan_read(record, 48, FORMAT(id | lost | 1), 4, fields, OLLSKUVAN_FIELDS), OLLSKUVAN_OK);
    IS(fields[OLLSKUVAN_READ_VALUE], 1);
    IS(fields[OLLSKUVAN_READ_ENABLED], 0x11);
    IS(fields[OLLSKUVAN_READ_ID], 0x22);
    IS(fields[OLLSKUVAN_READ_LOST], 0x33);

    /* a drain: across the ring's end, editions 4 and 3 */
    memcpy(ring + 40, GROUP, 24);
    memcpy(ring, GROUP + 24, 24);
    d = ollskuvan_drain(ring, 64, 88, 40, FORMAT(group | id | lost), 4, 9, scratch, 48, journal, 16);
    IS(d.taken, 1);
    IS(get(journal + OLLSKUVAN_JOURNAL_ANSWER, 2), OLLSKUVAN_OK);
    d = ollskuvan_drain(ring, 64, 88, 40, FORMAT(group | id | lost), 3, 9, scratch, 48, journal, 16);
    IS(d.taken, 1);
    IS(get(journal + OLLSKUVAN_JOURNAL_ANSWER, 2), OLLSKUVAN_REFUSED_READ_FORMAT);

    /* type 21: one hardware id */
    put16(record, OLLSKUVAN_TYPE_AUX_OUTPUT_HW_ID);
    put16(record + 6, 16);
    IS(check(record, 16, 4), OLLSKUVAN_OK);
    IS(check(record, 16, 3), OLLSKUVAN_REFUSED_TYPE);
    IS(ollskuvan_check(record, 16, TRAILED(OLLSKUVAN_BIT_TIME), 4), OLLSKUVAN_REFUSED_SHORT);
    IS(ollskuvan_read(record, 16, NONE, 4, fields, OLLSKUVAN_FIELDS), OLLSKUVAN_OK);
    IS(fields[OLLSKUVAN_AUX_OUTPUT_HW_ID_HW_ID], UINT64_C(0x200000001));
    memcpy(ring, record, 16);
    d = ollskuvan_drain(ring, 64, 16, 0, NONE, 4, 9, NULL, 0, journal, 16);
    IS(get(journal + OLLSKUVAN_JOURNAL_KIND, 2), 21);
    IS(get(journal + OLLSKUVAN_JOURNAL_ANSWER, 2), OLLSKUVAN_OK);

    free(record);
    free(ring);
    free(journal);
    free(scratch);
    free(buffer);
}

static void test_misc_meaning(void)
{
    const uint64_t both = OLLSKUVAN_MISC_MMAP_DATA | OLLSKUVAN_MISC_EXACT_IP, above = UINT64_C(1) << 32;
    const uint32_t out = OLLSKUVAN_MEANS_SWITCHED_OUT | OLLSKUVAN_MEANS_PREEMPTED;
    uint64_t type;

    IS(ollskuvan_misc_meaning(OLLSKUVAN_TYPE_MMAP, both), OLLSKUVAN_MEANS_DATA_MAPPING);
    IS(ollskuvan_misc_meaning(OLLSKUVAN_TYPE_COMM, both), OLLSKUVAN_MEANS_EXEC);
    IS(ollskuvan_misc_meaning(OLLSKUVAN_TYPE_SAMPLE, both), OLLSKUVAN_MEANS_EXACT_ADDRESS);
    IS(ollskuvan_misc_meaning(OLLSKUVAN_TYPE_MMAP2, both), OLLSKUVAN_MEANS_DATA_MAPPING | OLLSKUVAN_MEANS_BUILD_ID);
    IS(ollskuvan_misc_meaning(OLLSKUVAN_TYPE_SWITCH, both), out);
    IS(ollskuvan_misc_meaning(OLLSKUVAN_TYPE_SWITCH_CPU_WIDE, both), out);
    /* each bit alone */
    IS(ollskuvan_misc_meaning(OLLSKUVAN_TYPE_SWITCH, 0x2000), OLLSKUVAN_MEANS_SWITCHED_OUT);
    IS(ollskuvan_misc_meaning(OLLSKUVAN_TYPE_SWITCH, 0x4000), OLLSKUVAN_MEANS_PREEMPTED);
    IS(ollskuvan_misc_meaning(OLLSKUVAN_TYPE_SWITCH, 0x9ff8), 0);
    /* every other type has the CPU mode alone, also one whose low 32 bits are known */
    for (type = 0; type < 70; type++) {
        IS(ollskuvan_misc_meaning(type + above, both | 5), 5);
        IS(ollskuvan_misc_meaning(type, 6), 6);
    }
    IS(ollskuvan_misc_meaning(OLLSKUVAN_TYPE_AUX, both | 7), 7);
    IS(ollskuvan_misc_meaning(OLLSKUVAN_TYPE_AUX_OUTPUT_HW_ID, both), 0);
    IS(ollskuvan_misc_meaning(22, both), 0);
    IS(ollskuvan_misc_meaning(UINT64_MAX, UINT64_MAX), 7);
    /* bits of misc from 16 up mean nothing */
    IS(ollskuvan_misc_meaning(OLLSKUVAN_TYPE_SWITCH, both << 16 | both << 32 | both << 48), 0);
    IS(ollskuvan_misc_meaning(OLLSKUVAN_TYPE_SWITCH, UINT64_MAX), out | 7);
}

static void test_copy_name(void)
{
    uint8_t *record = copied(DIRTY, 24), *buffer = block(8);

    IS(ollskuvan_copy_name(NULL, 0, 0, 0, NULL, 0), OLLSKUVAN_REFUSED_NAME_ROOM);
    IS(ollskuvan_copy_name(NULL, 0, 1, 0, NULL, 0), OLLSKUVAN_REFUSED_PLACE);
    IS(ollskuvan_copy_name(record, 24, 16, 4, NULL, 0), OLLSKUVAN_REFUSED_NAME_ROOM);
    IS(ollskuvan_copy_name(record, 24, 16, 4, buffer, 4), OLLSKUVAN_REFUSED_NAME_ROOM);
    IS(ollskuvan_copy_name(record, 24, 25, 0, buffer, 8), OLLSKUVAN_REFUSED_PLACE);
    IS(ollskuvan_copy_name(record, 24, 24, 1, buffer, 8), OLLSKUVAN_REFUSED_PLACE);
    IS(ollskuvan_copy_name(record, 24, UINT64_MAX, 1, buffer, 8), OLLSKUVAN_REFUSED_PLACE);
    IS(ollskuvan_copy_name(record, 24, 1, UINT64_MAX, buffer, 8), OLLSKUVAN_REFUSED_PLACE);
    IS(ollskuvan_copy_name(record, 24, UINT64_MAX, UINT64_MAX, NULL, 0), OLLSKUVAN_REFUSED_PLACE);
    OK(untouched(buffer, 8));
    IS(ollskuvan_copy_name(record, 24, 16, 4, buffer, 5), OLLSKUVAN_OK);
    OK(memcmp(buffer, "kiln", 5) == 0 && untouched(buffer + 5, 3));
    memset(buffer, 0xc3, 8);
    IS(ollskuvan_copy_name(record, 24, 24, 0, buffer, 1), OLLSKUVAN_OK);
    OK(buffer[0] == 0 && untouched(buffer + 1, 7));
    memset(buffer, 0xc3, 8);
    IS(ollskuvan_copy_name(NULL, 0, 0, 0, buffer, 8), OLLSKUVAN_OK);
    OK(buffer[0] == 0 && untouched(buffer + 1, 7));
    /* zeros inside are copied as they are */
    IS(ollskuvan_copy_name(record, 24, 18, 6, buffer, 8), OLLSKUVAN_OK);
    OK(memcmp(buffer, "ln\0\1\2\3\0", 7) == 0 && buffer[7] == 0xc3);
    OK(memcmp(record, DIRTY, 24) == 0);

    free(record);
    free(buffer);
}

/* The types that have a name: type, misc, where the name starts, the word of its flag. */
static const struct named {
    unsigned type, misc, start, flag;
} NAMED[] = {
    {OLLSKUVAN_TYPE_MMAP, 0, 40, OLLSKUVAN_MMAP_NAME_FLAG},
    {OLLSKUVAN_TYPE_COMM, OLLSKUVAN_MISC_COMM_EXEC, 16, OLLSKUVAN_COMM_NAME_FLAG},
    {OLLSKUVAN_TYPE_MMAP2, 0, 72, OLLSKUVAN_MMAP2_NAME_FLAG},
    {OLLSKUVAN_TYPE_MMAP2, OLLSKUVAN_MISC_MMAP_BUILD_ID, 72, OLLSKUVAN_MMAP2_NAME_FLAG},
    {OLLSKUVAN_TYPE_KSYMBOL, 0, 24, OLLSKUVAN_KSYMBOL_NAME_FLAG},
    {OLLSKUVAN_TYPE_CGROUP, 0, 16, OLLSKUVAN_CGROUP_NAME_FLAG},
};
enum { NAMED_TYPES = sizeof NAMED / sizeof NAMED[0] };

/* The record of such a type in a block of its own: zeros, "kiln", its zero and these three; then a trailer's eight bytes
 * that are not zero, if it has one. */
static uint8_t *named_record(const struct named *n, const uint8_t stale[3], int trailed, size_t *length)
{
    uint8_t *record;

    *length = n->start + 8 + (trailed ? 8 : 0);
    record = block(*length);
    memset(record, 0, n->start);
    put16(record, n->type);
    put16(record + 4, n->misc);
    put16(record + 6, (unsigned)*length);
    memcpy(record + n->start, "kiln", 5);
    memcpy(record + n->start + 5, stale, 3);
    return record;
}

static const uint8_t STALE[][3] = {{0, 0, 0}, {1, 0, 0}, {0, 0x80, 0}, {0, 0, 1}, {255, 255, 255}};
enum { STALES = sizeof STALE / sizeof STALE[0] };

/* 44: record check alone, for each type that has a name, without and before a trailer. */
static void test_dirty_names(void)
{
    uint8_t *ring = block(128), *journal = block(16), *other;
    struct ollskuvan_drained d;
    size_t i, j, length;

    for (i = 0; i < NAMED_TYPES; i++)
        for (j = 0; j < STALES; j++) {
            const uint32_t due = j ? OLLSKUVAN_DIRTY_NAME : OLLSKUVAN_OK;
            uint8_t *record = named_record(&NAMED[i], STALE[j], 0, &length);
            uint8_t *trailed;

            IS(check(record, length, 3), due);
            memset(ring, 0xc3, 128);
            memcpy(ring, record, length);
            d = drain(ring, 128, length, 0, 3, 9, NULL, 0, journal, 16);
            IS(d.taken, 1);
            IS(d.stop, OLLSKUVAN_STOP_NOTHING);
            IS(get(journal + OLLSKUVAN_JOURNAL_ANSWER, 2), OLLSKUVAN_OK);
            free(record);
            trailed = named_record(&NAMED[i], STALE[j], 1, &length);
            IS(ollskuvan_check(trailed, length, TRAILED(OLLSKUVAN_BIT_TIME), 3), due);
            free(trailed);
        }

    /* every refusal goes before it, and each edition says it */
    IS(check(DIRTY, 24, 1), OLLSKUVAN_DIRTY_NAME);
    IS(check(DIRTY, 24, 2), OLLSKUVAN_DIRTY_NAME);
    IS(check(DIRTY, 24, 5), OLLSKUVAN_REFUSED_EDITION);
    IS(ollskuvan_check(DIRTY, 24, TRAILED(UINT64_C(1) << 40), 3), OLLSKUVAN_REFUSED_SAMPLE_TYPE);
    IS(ollskuvan_check(DIRTY, 24, TRAILED(OLLSKUVAN_BIT_TIME), 3), OLLSKUVAN_REFUSED_NAME);
    /* text padding, a build id's ignored bytes and res raise no flag */
    other = block(80);
    put16(other, OLLSKUVAN_TYPE_TEXT_POKE);
    memset(other + 2, 0, 4);
    put16(other + 6, 24);
    put16(other + 16, 1);
    put16(other + 18, 1);
    IS(check(other, 24, 3), OLLSKUVAN_OK);
    put16(other, OLLSKUVAN_TYPE_MMAP2);
    put16(other + 4, OLLSKUVAN_MISC_MMAP_BUILD_ID);
    put16(other + 6, 80);
    other[40] = 4;
    memcpy(other + 72, "kiln\0\0\0", 8);
    IS(check(other, 80, 3), OLLSKUVAN_OK);
    other[79] = 1;
    IS(check(other, 80, 3), OLLSKUVAN_DIRTY_NAME);
    put16(other, OLLSKUVAN_TYPE_SAMPLE);
    put16(other + 6, 16);
    IS(ollskuvan_check(other, 16, SAMPLED(OLLSKUVAN_BIT_CPU), 3), OLLSKUVAN_OK);

    free(ring);
    free(journal);
    free(other);
}

/* A table of one event, 5, with sample bits 2 and 16; then that of two, 5 and 0. */
static const struct ollskuvan_event EVENTS[2] = {
    {5, OLLSKUVAN_BIT_IDENTIFIER | OLLSKUVAN_BIT_TIME, 0, 0, 0, 0, 1},
    {0, OLLSKUVAN_BIT_IDENTIFIER, 0, 0, 0, 0, UINT64_C(1) << 63},
};

/* So many events in a block of their own. */
static struct ollskuvan_event *events(size_t count)
{
    struct ollskuvan_event *table = malloc(count * sizeof *table + 1);
    size_t i;
    if (!table)
        abort();
    for (i = 0; i < count; i++) {
        table[i] = EVENTS[0];
        table[i].identifier = 5 + i;
    }
    return table;
}

/* A switch out of event 5 at 0, a SAMPLE of event 5 at 24 that ends with 0, a switch of event 0 at 48. */
static void lay_events(uint8_t *ring)
{
    memset(ring, 0, 64);
    memcpy(ring, SWITCH, 8);
    put16(ring + 6, 24);
    put16(ring + 16, 5);
    put16(ring + 24, OLLSKUVAN_TYPE_SAMPLE);
    put16(ring + 30, 24);
    put16(ring + 32, 5);
    memcpy(ring + 48, SWITCH, 8);
    put16(ring + 54, 16);
}

/* The entries' answers, as digits. */
static uint64_t answers(const uint8_t *journal, uint64_t taken)
{
    uint64_t all = 0;
    for (; taken; taken--, journal += 16)
        all = 100 * all + get(journal + OLLSKUVAN_JOURNAL_ANSWER, 2);
    return all;
}

/* The flag's word, read and written: 43 where it is not 0. */
static void test_dirty_values(void)
{
    uint8_t *ring = block(128), *buffer = block(80);
    uint64_t *fields = malloc(OLLSKUVAN_FIELDS * sizeof *fields);
    struct ollskuvan_one one;
    size_t i, j, length;

    if (!fields)
        abort();
    for (i = 0; i < NAMED_TYPES; i++)
        for (j = 0; j < STALES; j++) {
            const unsigned flag = NAMED[i].flag;
            uint8_t *record = named_record(&NAMED[i], STALE[j], 0, &length);

            IS(ollskuvan_read(record, length, NONE, 3, fields, OLLSKUVAN_FIELDS), OLLSKUVAN_OK);
            IS(fields[flag], j ? 1 : 0);
            IS(ollskuvan_read(record, length, NONE, 3, fields, 55), OLLSKUVAN_REFUSED_ROOM);
            memset(ring, 0xc3, 128);
            memcpy(ring, record, length);
            fields[flag] = 99;
            one = ollskuvan_read_one(ring, 128, length, 0, NONE, 3, NULL, 0, fields, OLLSKUVAN_FIELDS);
            IS(one.answer, OLLSKUVAN_OK);
            IS(one.size, length);
            IS(fields[flag], j ? 1 : 0);

            /* any number but 0: after 2, too few words and 20 to 25, before 41, 42 and 40 */
            fields[flag] = j % 2 ? UINT64_C(1) << 32 : 1;
            memset(buffer, 0xc3, 80);
            IS(ollskuvan_write(fields, 56, record, length, NONE, 3, buffer, length), OLLSKUVAN_REFUSED_DIRTY_VALUE);
            IS(ollskuvan_write(fields, 56, NULL, 0, NONE, 3, NULL, 0), OLLSKUVAN_REFUSED_DIRTY_VALUE);
            IS(ollskuvan_write(fields, 56, record, length, NONE, 0, buffer, 80), OLLSKUVAN_REFUSED_EDITION);
            IS(ollskuvan_write(fields, 55, record, length, NONE, 3, buffer, 80), OLLSKUVAN_REFUSED_VALUE);
            IS(ollskuvan_write(fields, 56, record, length, TRAILED(UINT64_C(1) << 40), 3, buffer, 80),
                OLLSKUVAN_REFUSED_SAMPLE_TYPE);
            fields[OLLSKUVAN_SIZE] = 12;
            IS(ollskuvan_write(fields, 56, record, length, NONE, 3, buffer, 80), OLLSKUVAN_REFUSED_DIRTY_VALUE);
            OK(untouched(buffer, 80));

            /* without the flag it is written, with zeros after the name */
            fields[OLLSKUVAN_SIZE] = length;
            fields[flag] = 0;
            IS(ollskuvan_write(fields, 56, record, length, NONE, 3, buffer, length), OLLSKUVAN_OK);
            OK(memcmp(buffer, record, length - 3) == 0 && get(buffer + length - 3, 3) == 0);
            IS(check(buffer, length, 3), OLLSKUVAN_OK);
            free(record);
        }

    /* a type without a name has no such word: 42 */
    IS(ollskuvan_read(LOST, 24, NONE, 3, fields, OLLSKUVAN_FIELDS), OLLSKUVAN_OK);
    for (i = 0; i < NAMED_TYPES; i++) {
        IS(fields[NAMED[i].flag], 0);
        fields[NAMED[i].flag] = 1;
        IS(ollskuvan_write(fields, 56, NULL, 0, NONE, 3, buffer, 80), OLLSKUVAN_REFUSED_VALUE);
        fields[NAMED[i].flag] = 0;
    }

    free(ring);
    free(buffer);
    free(fields);
}

static void test_read_write(void)
{
    uint8_t *record = copied(COMM, 24), *buffer = block(32), *source = copied((const uint8_t *)"-kiln", 5);
    uint64_t *fields = malloc(57 * sizeof *fields), *exact = malloc(OLLSKUVAN_FIELDS * sizeof *exact);
    uint64_t *few = malloc(55 * sizeof *few);
    int i;

    if (!fields || !exact || !few)
        abort();
    for (i = 0; i < 57; i++)
        fields[i] = 99;
    memcpy(few, fields, 55 * sizeof *few);

    /* read: 40 comes after what check answers */
    IS(ollskuvan_read(NULL, 0, NONE, 3, NULL, 0), OLLSKUVAN_REFUSED_LENGTH);
    IS(ollskuvan_read(record, 24, NONE, 257, NULL, 0), OLLSKUVAN_REFUSED_EDITION);
    IS(ollskuvan_read(record, 24, NONE, 3, NULL, 0), OLLSKUVAN_REFUSED_ROOM);
    IS(ollskuvan_read(record, 24, NONE, 3, few, 55), OLLSKUVAN_REFUSED_ROOM);
    IS(few[0], 99);
    IS(few[54], 99);
    IS(ollskuvan_read(record, 16, NONE, 3, fields, 57), OLLSKUVAN_REFUSED_LENGTH);
    IS(fields[0], 99);
    IS(ollskuvan_read(record, 24, NONE, 3, fields, 57), OLLSKUVAN_OK);
    IS(fields[56], 99);
    IS(ollskuvan_read(record, 24, NONE, 3, exact, OLLSKUVAN_FIELDS), OLLSKUVAN_OK);
    OK(memcmp(fields, exact, OLLSKUVAN_FIELDS * sizeof *exact) == 0);
    IS(exact[OLLSKUVAN_TYPE], OLLSKUVAN_TYPE_COMM);
    IS(exact[OLLSKUVAN_MISC], OLLSKUVAN_MISC_COMM_EXEC);
    IS(exact[OLLSKUVAN_SIZE], 24);
    IS(exact[OLLSKUVAN_COMM_PID], 1);
    IS(exact[OLLSKUVAN_COMM_TID], 2);
    IS(exact[OLLSKUVAN_COMM_NAME], 16);
    IS(exact[OLLSKUVAN_COMM_NAME_COUNT], 4);
    for (i = 7; i < (int)OLLSKUVAN_FIELDS; i++)
        IS(exact[i], 0);

    /* write: 2 before all else, then 42 for too few words, whatever type stands in them */
    IS(ollskuvan_write(NULL, 0, NULL, 0, NONE, 257, NULL, 0), OLLSKUVAN_REFUSED_EDITION);
    IS(ollskuvan_write(few, 55, record, 24, NONE, 257, NULL, 0), OLLSKUVAN_REFUSED_EDITION);
    IS(ollskuvan_write(few, 55, record, 24, NONE, 0, NULL, 0), OLLSKUVAN_REFUSED_EDITION);
    IS(ollskuvan_write(NULL, 0, NULL, 0, NONE, 3, NULL, 0), OLLSKUVAN_REFUSED_VALUE);
    IS(ollskuvan_write(few, 55, record, 24, NONE, 3, buffer, 32), OLLSKUVAN_REFUSED_VALUE);
    IS(ollskuvan_write(exact, 56, record, 24, NONE, 257, NULL, 0), OLLSKUVAN_REFUSED_EDITION);
    IS(ollskuvan_write(exact, 56, NULL, 0, NONE, 3, buffer, 32), OLLSKUVAN_REFUSED_PLACE);
    IS(ollskuvan_write(exact, 56, record, 19, NONE, 3, buffer, 32), OLLSKUVAN_REFUSED_PLACE);
    IS(ollskuvan_write(exact, 56, record, 20, NONE, 3, buffer, 23), OLLSKUVAN_REFUSED_ROOM);
    IS(ollskuvan_write(exact, 56, record, 20, NONE, 3, NULL, 0), OLLSKUVAN_REFUSED_ROOM);
    OK(untouched(buffer, 32));
    IS(ollskuvan_write(exact, 56, record, 20, NONE, 3, buffer, 24), OLLSKUVAN_OK);
    OK(memcmp(buffer, COMM, 20) == 0 && get(buffer + 20, 4) == 0 && untouched(buffer + 24, 8));

    /* the name from another place; further words are not looked at */
    memset(buffer, 0xc3, 32);
    fields[OLLSKUVAN_COMM_NAME] = 1;
    IS(ollskuvan_write(fields, 57, source, 5, NONE, 1, buffer, 32), OLLSKUVAN_OK);
    OK(memcmp(buffer, COMM, 20) == 0 && get(buffer + 20, 4) == 0 && untouched(buffer + 24, 8));
    IS(ollskuvan_write(fields, 57, source, 4, NONE, 1, buffer, 32), OLLSKUVAN_REFUSED_PLACE);
    fields[OLLSKUVAN_COMM_NAME] = UINT64_MAX;
    IS(ollskuvan_write(fields, 57, source, 5, NONE, 1, buffer, 32), OLLSKUVAN_REFUSED_PLACE);

    /* 20 by the whole word; 42 for a word that the type does not have, a number too wide, a wrong size */
    memcpy(fields, exact, OLLSKUVAN_FIELDS * sizeof *exact);
    fields[OLLSKUVAN_TYPE] |= UINT64_C(1) << 32;
    IS(ollskuvan_write(fields, 56, record, 24, NONE, 3, buffer, 32), OLLSKUVAN_REFUSED_TYPE);
    memcpy(fields, exact, OLLSKUVAN_FIELDS * sizeof *exact);
    fields[OLLSKUVAN_COMM_NAME_FLAG + 1] = 1;
    IS(ollskuvan_write(fields, 56, record, 24, NONE, 3, buffer, 32), OLLSKUVAN_REFUSED_VALUE);
    memcpy(fields, exact, OLLSKUVAN_FIELDS * sizeof *exact);
    fields[OLLSKUVAN_COMM_TID] = UINT64_C(1) << 32;
    IS(ollskuvan_write(fields, 56, record, 24, NONE, 3, buffer, 32), OLLSKUVAN_REFUSED_VALUE);
    memcpy(fields, exact, OLLSKUVAN_FIELDS * sizeof *exact);
    fields[OLLSKUVAN_SIZE] = 32;
    IS(ollskuvan_write(fields, 56, record, 24, NONE, 3, buffer, 32), OLLSKUVAN_REFUSED_VALUE);

    /* a value with no list needs no source; the trailer's word */
    memset(exact, 0, OLLSKUVAN_FIELDS * sizeof *exact);
    exact[OLLSKUVAN_TYPE] = OLLSKUVAN_TYPE_SWITCH;
    exact[OLLSKUVAN_MISC] = OLLSKUVAN_MISC_SWITCH_OUT;
    exact[OLLSKUVAN_SIZE] = 8;
    memset(buffer, 0xc3, 32);
    IS(ollskuvan_write(exact, 56, NULL, 0, NONE, 2, buffer, 8), OLLSKUVAN_OK);
    OK(memcmp(buffer, SWITCH, 8) == 0 && untouched(buffer + 8, 24));
    exact[OLLSKUVAN_SIZE] = 16;
    exact[OLLSKUVAN_TRAILER_TIME] = 0x1122334455667788u;
    IS(ollskuvan_write(exact, 56, NULL, 0, SAMPLED(OLLSKUVAN_BIT_TIME), 2, buffer, 16), OLLSKUVAN_REFUSED_VALUE);
    IS(ollskuvan_write(exact, 56, NULL, 0, TRAILED(OLLSKUVAN_BIT_TIME), 2, buffer, 15), OLLSKUVAN_REFUSED_ROOM);
    IS(ollskuvan_write(exact, 56, NULL, 0, TRAILED(OLLSKUVAN_BIT_TIME), 2, buffer, 16), OLLSKUVAN_OK);
    IS(get(buffer + 8, 8), 0x1122334455667788u);
    OK(untouched(buffer + 16, 16));

    free(record);
    free(buffer);
    free(source);
    free(fields);
    free(exact);
    free(few);
}

/* The word of the index: read, written, read by its tail. */
static void test_index_word(void)
{
    const uint64_t bit = OLLSKUVAN_BIT_BRANCHES, index = OLLSKUVAN_BRANCH_HW_INDEX;
    uint8_t *record = copied(BRANCHES, 48), *buffer = block(48), *ring = block(64);
    uint64_t *fields = malloc(OLLSKUVAN_FIELDS * sizeof *fields);
    struct ollskuvan_one one;

    if (!fields)
        abort();
    IS(ollskuvan_read(record, 48, BRANCHED(bit, index), 2, fields, OLLSKUVAN_FIELDS), OLLSKUVAN_REFUSED_BRANCH_TYPE);
    IS(ollskuvan_read(record, 48, BRANCHED(bit, index), 3, fields, OLLSKUVAN_FIELDS), OLLSKUVAN_OK);
    IS(fields[OLLSKUVAN_SAMPLE_BRANCHES_COUNT], 1);
    IS(fields[OLLSKUVAN_SAMPLE_HW_INDEX], UINT64_MAX);
    IS(fields[OLLSKUVAN_SAMPLE_BRANCHES], 24);
    IS(ollskuvan_write(fields, 56, record, 48, BRANCHED(bit, index), 3, buffer, 48), OLLSKUVAN_OK);
    OK(memcmp(buffer, BRANCHES, 48) == 0);
    memset(buffer, 0xc3, 48);
    /* 25 before 41, 42 and 40; the word is 42 where it is not selected */
    IS(ollskuvan_write(fields, 56, NULL, 0, BRANCHED(bit, index), 1, NULL, 0), OLLSKUVAN_REFUSED_BRANCH_TYPE);
    IS(ollskuvan_write(fields, 56, NULL, 0, BRANCHED(bit, UINT64_C(1) << 19), 3, NULL, 0), OLLSKUVAN_REFUSED_BRANCH_TYPE);
    IS(ollskuvan_write(fields, 56, NULL, 0, BRANCHED(bit, index), 3, buffer, 48), OLLSKUVAN_REFUSED_PLACE);
    fields[OLLSKUVAN_SIZE] = 40;
    IS(ollskuvan_write(fields, 56, record, 48, BRANCHED(bit, index), 3, buffer, 48), OLLSKUVAN_REFUSED_VALUE);
    IS(ollskuvan_write(fields, 56, record, 48, BRANCHED(bit, 0), 3, buffer, 48), OLLSKUVAN_REFUSED_VALUE);
    OK(untouched(buffer, 48));
    fields[OLLSKUVAN_SAMPLE_HW_INDEX] = 0;
    IS(ollskuvan_write(fields, 56, record, 48, BRANCHED(bit, 0), 3, buffer, 48), OLLSKUVAN_OK);
    OK(get(buffer + 8, 8) == 1 && get(buffer + 16, 8) == 0x11 && untouched(buffer + 40, 8));

    memcpy(ring + 8, BRANCHES, 48);
    one = ollskuvan_read_one(ring, 64, 56, 8, BRANCHED(bit, index), 3, NULL, 0, fields, OLLSKUVAN_FIELDS);
    IS(one.size, 48);
    IS(one.answer, OLLSKUVAN_OK);
    IS(fields[OLLSKUVAN_SAMPLE_HW_INDEX], UINT64_MAX);
    one = ollskuvan_read_one(ring, 64, 56, 8, BRANCHED(bit, index), 2, NULL, 0, fields, OLLSKUVAN_FIELDS);
    IS(one.size, 48);
    IS(one.answer, OLLSKUVAN_REFUSED_BRANCH_TYPE);
    one = ollskuvan_read_one(ring, 64, 56, 8, BRANCHED(bit, UINT64_MAX), 3, NULL, 0, NULL, 0);
    IS(one.answer, OLLSKUVAN_REFUSED_BRANCH_TYPE);

    free(record);
    free(buffer);
    free(ring);
    free(fields);
}

/* The reader of one record, and all that is lent to it. */
static uint8_t *one_ring, *one_scratch;
static uint64_t *one_words;

static struct ollskuvan_one read_one(uint64_t head, uint64_t tail, uint32_t edition, size_t scratch_len, size_t words)
{
    size_t i;

    memset(one_scratch, 0xc3, 32);
    for (i = 0; i < 57; i++)
        one_words[i] = 99;
    return ollskuvan_read_one(one_ring, 64, head, tail, NONE, edition, scratch_len ? one_scratch : NULL,
        scratch_len, words ? one_words : NULL, words);
}

static int words_kept(size_t from)
{
    for (; from < 57; from++)
        if (one_words[from] != 99)
            return 0;
    return 1;
}

/* A stop: its number, the tail as given, and nothing else. */
static void is_stop(int line, struct ollskuvan_one one, uint32_t stop, uint64_t tail)
{
    is(line, "stop", one.stop, stop);
    is(line, "tail", one.tail, tail);
    is(line, "place, size, in_scratch, answer and inspected",
        one.place | one.size | one.in_scratch | one.answer | one.inspected, 0);
    is(line, "words and scratch kept", words_kept(0) && untouched(one_scratch, 32), 1);
}

static void is_taken(int line, struct ollskuvan_one one, uint64_t place, uint64_t tail, uint32_t answer, uint32_t inspected)
{
    is(line, "place", one.place, place);
    is(line, "size", one.size, 24);
    is(line, "tail", one.tail, tail);
    is(line, "answer", one.answer, answer);
    is(line, "stop", one.stop, 0);
    is(line, "inspected", one.inspected, inspected);
    is(line, "words kept", words_kept(answer ? 0 : OLLSKUVAN_FIELDS), 1);
}

#define STOPS(one, stop, tail) is_stop(__LINE__, one, stop, tail)
#define TAKES(one, place, tail, answer) is_taken(__LINE__, one, place, tail, answer, 0)
/* with a table: how many of its events were inspected */
#define TAKES_BY(one, place, tail, answer, inspected) is_taken(__LINE__, one, place, tail, answer, inspected)

static void test_read_one(void)
{
    struct ollskuvan_one one;

    one_ring = block(64);
    one_scratch = block(32);
    one_words = malloc(57 * sizeof *one_words);
    if (!one_words)
        abort();

    /* null with length 0 everywhere; the rows in the order of the table */
    one = ollskuvan_read_one(NULL, 0, 24, 5, NONE, 257, NULL, 0, NULL, 0);
    IS(one.stop, OLLSKUVAN_STOP_RING_LENGTH);
    IS(one.tail, 5);
    STOPS(read_one(72, 1, 257, 24, 56), OLLSKUVAN_STOP_EDITION, 1);
    STOPS(read_one(72, 1, 3, 24, 56), OLLSKUVAN_STOP_DISTANCE, 1);
    STOPS(read_one(64, 1, 3, 24, 56), OLLSKUVAN_STOP_ALIGNMENT, 1);
    STOPS(read_one(8, 8, 3, 24, 56), OLLSKUVAN_STOP_NOTHING, 8);
    memcpy(one_ring + 8, LOST, 24);
    put16(one_ring + 14, 12);
    STOPS(read_one(72, 8, 3, 24, 56), OLLSKUVAN_STOP_SIZE, 8);
    put16(one_ring + 14, 32);
    STOPS(read_one(32, 8, 3, 24, 56), OLLSKUVAN_STOP_PAST_HEAD, 8);

    /* accepted: with 0, 55, 56 and 57 words; no scratch is needed where the record lies whole */
    put16(one_ring + 14, 24);
    TAKES(read_one(40, 8, 3, 0, 0), 8, 32, OLLSKUVAN_REFUSED_ROOM);
    TAKES(read_one(40, 8, 3, 0, 55), 8, 32, OLLSKUVAN_REFUSED_ROOM);
    TAKES(read_one(40, 8, 3, 0, 56), 8, 32, OLLSKUVAN_OK);
    IS(one_words[OLLSKUVAN_LOST_ID], 7);
    IS(one_words[OLLSKUVAN_LOST_LOST], 9);
    one = read_one(40, 8, 3, 32, 57);
    TAKES(one, 8, 32, OLLSKUVAN_OK);
    IS(one.in_scratch, 0);
    OK(untouched(one_scratch, 32));
    IS(one_words[OLLSKUVAN_TYPE], OLLSKUVAN_TYPE_LOST);

    /* refused: shown, and the tail moves all the same; 20 comes before 40 */
    put16(one_ring + 8, OLLSKUVAN_TYPE_COMM);
    memset(one_ring + 24, 'x', 8);
    TAKES(read_one(40, 8, 3, 0, 56), 8, 32, OLLSKUVAN_REFUSED_NAME);
    put16(one_ring + 8, OLLSKUVAN_TYPE_SWITCH);
    TAKES(read_one(40, 8, 1, 0, 0), 8, 32, OLLSKUVAN_REFUSED_TYPE);

    /* across the end at tail 2^64 - 8: scratch one byte short, just long enough, longer */
    memcpy(one_ring + 56, LOST, 8);
    memcpy(one_ring, LOST + 8, 16);
    STOPS(read_one(16, UINT64_MAX - 7, 3, 0, 56), OLLSKUVAN_STOP_SCRATCH, UINT64_MAX - 7);
    STOPS(read_one(16, UINT64_MAX - 7, 3, 23, 56), OLLSKUVAN_STOP_SCRATCH, UINT64_MAX - 7);
    one = read_one(16, UINT64_MAX - 7, 3, 24, 56);
    TAKES(one, 0, 16, OLLSKUVAN_OK);
    IS(one.in_scratch, 1);
    OK(memcmp(one_scratch, LOST, 24) == 0 && untouched(one_scratch + 24, 8));
    one = read_one(16, UINT64_MAX - 7, 3, 32, 0);
    TAKES(one, 0, 16, OLLSKUVAN_REFUSED_ROOM);
    IS(one.in_scratch, 1);
    OK(memcmp(one_scratch, LOST, 24) == 0 && untouched(one_scratch + 24, 8));

    /* ending just at the ring's end is not crossing it */
    memcpy(one_ring + 40, LOST, 24);
    one = read_one(64, 40, 3, 0, 56);
    TAKES(one, 40, 64, OLLSKUVAN_OK);
    IS(one.in_scratch, 0);

    free(one_ring);
    free(one_scratch);
    free(one_words);
}


static struct ollskuvan_one read_one_events(uint64_t head, uint64_t tail, const struct ollskuvan_event *table,
    size_t count, uint32_t edition, size_t scratch_len, size_t words)
{
    size_t i;

    memset(one_scratch, 0xc3, 32);
    for (i = 0; i < 57; i++)
        one_words[i] = 99;
    return ollskuvan_read_one_events(one_ring, 64, head, tail, table, count, edition, scratch_len ? one_scratch : NULL,
        scratch_len, words ? one_words : NULL, words);
}

static void test_read_one_events(void)
{
    struct ollskuvan_event *two = events(2);
    struct ollskuvan_one one;

    two[1] = EVENTS[1];
    one_ring = block(64);
    one_scratch = block(32);
    one_words = malloc(57 * sizeof *one_words);
    if (!one_words)
        abort();

    /* null with length 0 everywhere; the rows in the order of the table */
    one = ollskuvan_read_one_events(NULL, 0, 24, 5, NULL, 0, 257, NULL, 0, NULL, 0);
    IS(one.stop, OLLSKUVAN_STOP_RING_LENGTH);
    IS(one.tail, 5);
    STOPS(read_one_events(72, 1, NULL, 0, 257, 24, 56), OLLSKUVAN_STOP_EDITION, 1);
    STOPS(read_one_events(72, 1, NULL, 0, 3, 24, 56), OLLSKUVAN_STOP_DISTANCE, 1);
    STOPS(read_one_events(64, 1, NULL, 0, 3, 24, 56), OLLSKUVAN_STOP_ALIGNMENT, 1);
    STOPS(read_one_events(8, 8, NULL, 0, 3, 24, 56), OLLSKUVAN_STOP_TABLE, 8);
    STOPS(read_one_events(8, 8, two, 2, 3, 24, 56), OLLSKUVAN_STOP_NOTHING, 8);

    lay_events(one_ring);
    put16(one_ring + 30, 12);
    STOPS(read_one_events(64, 24, two, 2, 3, 24, 56), OLLSKUVAN_STOP_SIZE, 24);
    put16(one_ring + 30, 48);
    STOPS(read_one_events(64, 24, two, 2, 3, 24, 56), OLLSKUVAN_STOP_PAST_HEAD, 24);
    put16(one_ring + 30, 24);

    /* each with its own event's words; 26 and 27 come before 40, and the tail moves all the same */
    TAKES_BY(read_one_events(64, 0, two, 2, 3, 0, 56), 0, 24, OLLSKUVAN_OK, 1);
    IS(one_words[OLLSKUVAN_TRAILER_IDENTIFIER], 5);
    IS(one_words[OLLSKUVAN_TRAILER_TIME], 0);
    put16(one_ring + 40, 77);
    TAKES_BY(read_one_events(64, 24, two, 2, 3, 0, 57), 24, 48, OLLSKUVAN_OK, 1);
    IS(one_words[OLLSKUVAN_SAMPLE_IDENTIFIER], 5);
    IS(one_words[OLLSKUVAN_SAMPLE_TIME], 77);
    TAKES_BY(read_one_events(64, 24, two, 2, 3, 0, 55), 24, 48, OLLSKUVAN_REFUSED_ROOM, 1);
    TAKES_BY(read_one_events(64, 24, two + 1, 1, 3, 0, 0), 24, 48, OLLSKUVAN_REFUSED_IDENTIFIER, 1);
    /* the second event: two were inspected; without it one for 26 */
    IS(read_one_events(64, 48, two, 2, 3, 0, 56).inspected, 2);
    IS(read_one_events(64, 48, two, 1, 3, 0, 56).inspected, 1);
    two[0].sample_type |= OLLSKUVAN_BIT_BRANCHES;
    two[0].branch_sample_type = UINT64_C(1) << 63;
    TAKES_BY(read_one_events(64, 24, two, 2, 3, 0, 0), 24, 48, OLLSKUVAN_REFUSED_BRANCH_TYPE, 1);
    two[0] = EVENTS[0];
    TAKES(read_one_events(64, 24, two, 2, 1, 0, 56), 24, 48, OLLSKUVAN_REFUSED_SAMPLE_TYPE);
    one = read_one_events(64, 48, two, 2, 3, 0, 56);
    IS(one.answer, OLLSKUVAN_OK);
    IS(one_words[OLLSKUVAN_TRAILER_TIME], 0);
    put16(one_ring + 54, 8);
    one = read_one_events(64, 48, two, 2, 3, 0, 0);
    IS(one.answer, OLLSKUVAN_REFUSED_NO_IDENTIFIER);
    IS(one.inspected, 0);
    IS(one.size, 8);

    /* across the end */
    memcpy(one_ring + 56, SWITCH, 8);
    put16(one_ring + 62, 24);
    memset(one_ring, 0, 16);
    put16(one_ring + 8, 5);
    STOPS(read_one_events(16, UINT64_MAX - 7, two, 2, 3, 23, 56), OLLSKUVAN_STOP_SCRATCH, UINT64_MAX - 7);
    one = read_one_events(16, UINT64_MAX - 7, two, 2, 3, 24, 56);
    TAKES_BY(one, 0, 16, OLLSKUVAN_OK, 1);
    IS(one.in_scratch, 1);
    OK(memcmp(one_scratch + 8, one_ring, 16) == 0 && untouched(one_scratch + 24, 8));

    free(two);
    free(one_ring);
    free(one_scratch);
    free(one_words);
}

static void test_drain_events(void)
{
    uint8_t *ring = block(64), *journal = block(48), *scratch = block(24), *before = block(64);
    enum { MOST = OLLSKUVAN_EVENTS_MAX };
    struct ollskuvan_event *one = events(1), *two = events(2), *most = events(MOST), *more = events(MOST + 1);
    struct ollskuvan_drained d;

    two[1] = EVENTS[1];
    lay_events(ring);
    memcpy(before, ring, 64);

    /* null with length 0 everywhere; 11 after 1, 2, 4 and 5, and before 0, 8 and 9 */
    d = ollskuvan_drain_events(NULL, 0, 24, 5, NULL, 0, 257, 0, NULL, 0, NULL, 0);
    IS(d.stop, OLLSKUVAN_STOP_RING_LENGTH);
    IS(d.taken | d.bytes, 0);
    IS(d.tail, 5);
    IS(ollskuvan_drain_events(ring, 64, 72, 1, NULL, 0, 257, 0, NULL, 0, NULL, 0).stop, OLLSKUVAN_STOP_EDITION);
    IS(ollskuvan_drain_events(ring, 64, 72, 1, NULL, 0, 3, 0, NULL, 0, NULL, 0).stop, OLLSKUVAN_STOP_DISTANCE);
    IS(ollskuvan_drain_events(ring, 64, 64, 1, NULL, 0, 3, 0, NULL, 0, NULL, 0).stop, OLLSKUVAN_STOP_ALIGNMENT);
    IS(ollskuvan_drain_events(ring, 64, 8, 8, NULL, 0, 3, 0, NULL, 0, NULL, 0).stop, OLLSKUVAN_STOP_TABLE);
    IS(ollskuvan_drain_events(ring, 64, 8, 8, one, 0, 3, 0, NULL, 0, NULL, 0).stop, OLLSKUVAN_STOP_TABLE);
    IS(ollskuvan_drain_events(ring, 64, 8, 8, one, 1, 3, 0, NULL, 0, NULL, 0).stop, OLLSKUVAN_STOP_NOTHING);
    IS(ollskuvan_drain_events(ring, 64, 8, 0, one, 1, 3, 0, NULL, 0, NULL, 0).stop, OLLSKUVAN_STOP_BUDGET);
    IS(ollskuvan_drain_events(ring, 64, 8, 0, one, 1, 3, 1, NULL, 0, NULL, 0).stop, OLLSKUVAN_STOP_JOURNAL);

    /* 1,024 events and 1,025; equal identifiers; no bit 16; no sample_id_all, which is any of its 64 bits */
    IS(ollskuvan_drain_events(ring, 64, 8, 8, most, 33, 3, 1, NULL, 0, NULL, 0).stop, OLLSKUVAN_STOP_NOTHING);
    IS(ollskuvan_drain_events(ring, 64, 8, 8, most, MOST, 3, 1, NULL, 0, NULL, 0).stop, OLLSKUVAN_STOP_NOTHING);
    IS(ollskuvan_drain_events(ring, 64, 8, 8, more, MOST + 1, 3, 1, NULL, 0, NULL, 0).stop, OLLSKUVAN_STOP_TABLE);
    IS(ollskuvan_drain_events(ring, 64, 8, 8, more, MOST, 3, 1, NULL, 0, NULL, 0).stop, OLLSKUVAN_STOP_NOTHING);
    most[MOST - 1].identifier = 5;
    d = ollskuvan_drain_events(ring, 64, 64, 0, most, MOST, 3, 9, scratch, 24, journal, 48);
    IS(d.stop, OLLSKUVAN_STOP_TABLE);
    IS(d.taken | d.bytes | d.tail, 0);
    OK(untouched(journal, 48) && untouched(scratch, 24));
    IS(ollskuvan_drain_events(ring, 64, 8, 8, most, MOST - 1, 3, 1, NULL, 0, NULL, 0).stop, OLLSKUVAN_STOP_NOTHING);
    one[0].sample_type = ~OLLSKUVAN_BIT_IDENTIFIER;
    IS(ollskuvan_drain_events(ring, 64, 8, 8, one, 1, 1, 1, NULL, 0, NULL, 0).stop, OLLSKUVAN_STOP_TABLE);
    one[0] = EVENTS[0];
    one[0].sample_id_all = 0;
    IS(ollskuvan_drain_events(ring, 64, 8, 8, one, 1, 3, 1, NULL, 0, NULL, 0).stop, OLLSKUVAN_STOP_TABLE);
    one[0].sample_id_all = UINT64_C(1) << 32;
    IS(ollskuvan_drain_events(ring, 64, 8, 8, one, 1, 3, 1, NULL, 0, NULL, 0).stop, OLLSKUVAN_STOP_NOTHING);

    /* the identifier of a SAMPLE is its first word, of a switch its last */
    d = ollskuvan_drain_events(ring, 64, 64, 0, two, 2, 3, 9, NULL, 0, journal, 48);
    IS(d.stop, OLLSKUVAN_STOP_NOTHING);
    IS(d.taken, 3);
    IS(answers(journal, 3), 0);
    IS(get(journal + 32 + OLLSKUVAN_JOURNAL_TAIL, 8), 48);
    ollskuvan_drain_events(ring, 64, 64, 0, two, 1, 3, 9, NULL, 0, journal, 48);
    IS(answers(journal, 3), OLLSKUVAN_REFUSED_IDENTIFIER);
    ollskuvan_drain_events(ring, 64, 64, 0, two + 1, 1, 3, 9, NULL, 0, journal, 48);
    IS(answers(journal, 3), 262600);
    /* edition 1: 20 to a switch, 21 to the rest; edition 2 reads all of them */
    ollskuvan_drain_events(ring, 64, 64, 0, two, 2, 1, 9, NULL, 0, journal, 48);
    IS(answers(journal, 3), 202120);
    ollskuvan_drain_events(ring, 64, 64, 0, two, 2, 2, 9, NULL, 0, journal, 48);
    IS(answers(journal, 3), 0);
    /* the event's own: a bit that the edition doesn't know, for its records alone */
    two[1].sample_type |= OLLSKUVAN_BIT_CGROUP;
    ollskuvan_drain_events(ring, 64, 64, 0, two, 2, 2, 9, NULL, 0, journal, 48);
    IS(answers(journal, 3), OLLSKUVAN_REFUSED_SAMPLE_TYPE);
    two[1] = EVENTS[1];
    /* and its branch sample type: the index is a word more in edition 3, 25 in edition 2; bit 19 is 25; another's is not looked at */
    two[0].sample_type = OLLSKUVAN_BIT_IDENTIFIER | OLLSKUVAN_BIT_BRANCHES;
    two[1].branch_sample_type = UINT64_MAX;
    ollskuvan_drain_events(ring, 64, 48, 24, two, 2, 3, 9, NULL, 0, journal, 48);
    IS(answers(journal, 1), 0);
    two[0].branch_sample_type = OLLSKUVAN_BRANCH_HW_INDEX;
    ollskuvan_drain_events(ring, 64, 48, 24, two, 2, 3, 9, NULL, 0, journal, 48);
    IS(answers(journal, 1), OLLSKUVAN_REFUSED_SHORT);
    ollskuvan_drain_events(ring, 64, 48, 24, two, 2, 2, 9, NULL, 0, journal, 48);
    IS(answers(journal, 1), OLLSKUVAN_REFUSED_BRANCH_TYPE);
    two[0].branch_sample_type = UINT64_C(1) << 19;
    ollskuvan_drain_events(ring, 64, 48, 24, two, 2, 3, 9, NULL, 0, journal, 48);
    IS(answers(journal, 1), OLLSKUVAN_REFUSED_BRANCH_TYPE);
    two[0] = EVENTS[0];
    two[1] = EVENTS[1];
    OK(memcmp(ring, before, 64) == 0);

    /* a size of 8 is 27, after 20 and edition 1's 21; one of 16 is looked up */
    memcpy(ring + 48, SWITCH, 8);
    memcpy(ring + 56, SWITCH, 8);
    IS(ollskuvan_drain_events(ring, 64, 64, 48, two, 2, 3, 9, NULL, 0, journal, 48).taken, 2);
    IS(answers(journal, 2), 2727);
    ollskuvan_drain_events(ring, 64, 64, 48, two, 2, 1, 9, NULL, 0, journal, 48);
    IS(answers(journal, 2), 2020);
    put16(ring + 48, OLLSKUVAN_TYPE_COMM);
    ollskuvan_drain_events(ring, 64, 64, 48, two, 2, 1, 9, NULL, 0, journal, 48);
    IS(answers(journal, 2), 2120);
    put16(ring + 48, OLLSKUVAN_TYPE_SAMPLE);
    put16(ring + 54, 16);
    memset(ring + 56, 0, 8);
    ollskuvan_drain_events(ring, 64, 64, 48, two, 2, 3, 9, NULL, 0, journal, 48);
    IS(answers(journal, 1), 0);
    put16(ring + 56, 5);
    ollskuvan_drain_events(ring, 64, 64, 48, two, 2, 3, 9, NULL, 0, journal, 48);
    IS(answers(journal, 1), OLLSKUVAN_REFUSED_SHORT);

    /* across the end at tail 2^64 - 8: scratch one byte short, then just long enough; the identifier lies in the scratch */
    memcpy(ring + 56, SWITCH, 8);
    put16(ring + 62, 24);
    memset(ring, 0, 16);
    put16(ring + 8, 5);
    memset(journal, 0xc3, 48);
    d = ollskuvan_drain_events(ring, 64, 16, UINT64_MAX - 7, two, 2, 3, 9, scratch, 23, journal, 48);
    IS(d.stop, OLLSKUVAN_STOP_SCRATCH);
    OK(untouched(scratch, 24) && untouched(journal, 48));
    d = ollskuvan_drain_events(ring, 64, 16, UINT64_MAX - 7, two, 2, 3, 9, scratch, 24, journal, 48);
    IS(d.stop, OLLSKUVAN_STOP_NOTHING);
    IS(d.taken, 1);
    IS(answers(journal, 1), 0);
    OK(memcmp(scratch, ring + 56, 8) == 0 && memcmp(scratch + 8, ring, 16) == 0);
    OK(untouched(journal + 16, 32));

    free(ring);
    free(journal);
    free(scratch);
    free(before);
    free(one);
    free(two);
    free(most);
    free(more);
}

static void test_find_event(void)
{
    struct ollskuvan_event *table = events(40);

    IS(ollskuvan_find_event(NULL, 0, 0), 0);
    IS(ollskuvan_find_event(NULL, 0, UINT64_MAX), 0);
    IS(ollskuvan_find_event(table, 40, 5), 0);
    IS(ollskuvan_find_event(table, 40, 44), 39);
    IS(ollskuvan_find_event(table, 40, 45), 40);
    IS(ollskuvan_find_event(table, 39, 44), 39);
    IS(ollskuvan_find_event(table, 40, 5 + (UINT64_C(1) << 32)), 40);
    /* the first of equal ones; what else an event has is not looked at */
    table[39].identifier = 9;
    table[4].sample_type = table[4].sample_id_all = 0;
    IS(ollskuvan_find_event(table, 40, 9), 4);
    IS(ollskuvan_find_event(table + 5, 35, 9), 34);

    free(table);
}

/* Two readers of one ring: the tail for the kernel, or the refusal and no tail. */
static void publishes(int line, uint64_t length, uint64_t head, uint64_t first, uint64_t second, uint64_t tail, uint32_t answer)
{
    struct ollskuvan_published p = ollskuvan_publish(length, head, first, second);
    is(line, "the published tail", p.tail, tail);
    is(line, "the answer beside it", p.answer, answer);
}
#define PUBLISHES(length, head, first, second, tail, answer) publishes(__LINE__, length, head, first, second, tail, answer)

static void test_publish(void)
{
    const uint64_t before = UINT64_MAX - 7; /* 2^64 - 8 */
    uint64_t length;

    IS(sizeof(struct ollskuvan_published), 16);
    /* the one that is further from head, whichever it is; one count twice; a reader that has taken all */
    PUBLISHES(64, 64, 8, 16, 8, OLLSKUVAN_OK);
    PUBLISHES(64, 64, 16, 8, 8, OLLSKUVAN_OK);
    PUBLISHES(64, 64, 24, 24, 24, OLLSKUVAN_OK);
    PUBLISHES(64, 64, 64, 0, 0, OLLSKUVAN_OK);
    PUBLISHES(64, 0, 0, 0, 0, OLLSKUVAN_OK);
    /* across 2^64 the larger number is further from head */
    PUBLISHES(64, 16, before, 8, before, OLLSKUVAN_OK);
    PUBLISHES(64, 16, 8, before, before, OLLSKUVAN_OK);
    PUBLISHES(64, before, before - 8, before, before - 8, OLLSKUVAN_OK);
    /* 1: every length but the powers of two from 64 to 1,048,576; one whose low 32 bits are such a length too */
    for (length = 0; length < 200; length++)
        PUBLISHES(length, 64, 56, 48, length == 64 || length == 128 ? 48 : 0,
            length == 64 || length == 128 ? OLLSKUVAN_OK : OLLSKUVAN_STOP_RING_LENGTH);
    PUBLISHES(OLLSKUVAN_RING_MAX, 64, 56, 48, 48, OLLSKUVAN_OK);
    PUBLISHES(2 * (uint64_t)OLLSKUVAN_RING_MAX, 64, 56, 48, 0, OLLSKUVAN_STOP_RING_LENGTH);
    PUBLISHES((UINT64_C(1) << 32) + 64, 64, 56, 48, 0, OLLSKUVAN_STOP_RING_LENGTH);
    /* 4: just a ring length is none */
    PUBLISHES(64, 72, 8, 8, 8, OLLSKUVAN_OK);
    PUBLISHES(64, 72, 0, 8, 0, OLLSKUVAN_STOP_DISTANCE);
    PUBLISHES(64, 72, 8, 0, 0, OLLSKUVAN_STOP_DISTANCE);
    PUBLISHES(64, 72, 80, 8, 0, OLLSKUVAN_STOP_DISTANCE);
    /* 5: head, then either tail */
    PUBLISHES(64, 63, 8, 16, 0, OLLSKUVAN_STOP_ALIGNMENT);
    PUBLISHES(64, 64, 9, 16, 0, OLLSKUVAN_STOP_ALIGNMENT);
    PUBLISHES(64, 64, 8, 17, 0, OLLSKUVAN_STOP_ALIGNMENT);
    /* the first reader's whole answer before the second's */
    PUBLISHES(64, 72, 9, 0, 0, OLLSKUVAN_STOP_ALIGNMENT);
    PUBLISHES(64, 72, 0, 9, 0, OLLSKUVAN_STOP_DISTANCE);
    PUBLISHES(65, 72, 0, 9, 0, OLLSKUVAN_STOP_RING_LENGTH);
}

/* A switch and a LOST of the event 7, whose trailer is the identifier alone. */
static const uint8_t OFFERED[16] = {14, 0, 0, 0, 0, 0, 16, 0, 7};
static const uint8_t OFFERED_LOST[32] = {2, 0, 0, 0, 0, 0, 32, 0, 5, 0, 0, 0, 0, 0, 0, 0, 6, 0, 0, 0, 0, 0, 0, 0, 7};

/* The trace that is laid, and the last replay: its slices, of exactly the lengths that were lent. */
static uint8_t trace[512];
static size_t trace_len;
static uint8_t *rooms, *replay_journal;
static size_t rooms_len, replay_journal_len;

static void lay_entry(unsigned kind, const void *body, size_t length)
{
    trace[trace_len] = (uint8_t)(6 + length);
    trace[trace_len + 1] = trace[trace_len + 2] = trace[trace_len + 3] = 0;
    put16(trace + trace_len + 4, kind);
    if (length)
        memcpy(trace + trace_len + 6, body, length);
    trace_len += 6 + length;
}

static void lay_offer(const uint8_t *record, size_t length)
{
    lay_entry(OLLSKUVAN_KIND_OFFER, record, length);
}

static void lay_drain(uint32_t budget)
{
    const uint8_t body[4] = {(uint8_t)budget, (uint8_t)(budget >> 8), (uint8_t)(budget >> 16), (uint8_t)(budget >> 24)};
    lay_entry(OLLSKUVAN_KIND_DRAIN, body, 4);
}

/* A table of so many events, 7 and those after it, whose trailer is the identifier alone; and that it stayed so. */
static struct ollskuvan_event *events_from_7(size_t events)
{
    struct ollskuvan_event *table = malloc(sizeof *table * (events ? events : 1));
    size_t i;
    if (!table)
        abort();
    for (i = 0; i < events; i++) {
        const struct ollskuvan_event one = {7 + i, OLLSKUVAN_BIT_IDENTIFIER, 0, 0, 0, 0, 1};
        table[i] = one;
    }
    return table;
}

static void free_from_7(struct ollskuvan_event *table, size_t events)
{
    size_t i;
    for (i = 0; i < events; i++)
        OK(table[i].identifier == 7 + i && table[i].sample_type == OLLSKUVAN_BIT_IDENTIFIER && table[i].sample_id_all == 1);
    free(table);
}

static struct ollskuvan_replayed replay(uint64_t start, size_t events, uint32_t edition, size_t rooms_of, size_t journal_of)
{
    uint8_t *lent = copied(trace, trace_len);
    struct ollskuvan_event *table = events_from_7(events);
    struct ollskuvan_replayed told;
    rooms = block_anew(rooms, rooms_of);
    replay_journal = block_anew(replay_journal, journal_of);
    rooms_len = rooms_of;
    replay_journal_len = journal_of;
    told = ollskuvan_replay(lent, trace_len, start, table, events, edition, rooms, rooms_of, replay_journal, journal_of);
    OK(memcmp(lent, trace, trace_len) == 0);
    free(lent);
    free_from_7(table, events);
    return told;
}

/* What is told, counts from the start on; the sums; and that nothing is written behind the journal's entries. */
static void is_replayed(int line, struct ollskuvan_replayed told, uint64_t start, uint64_t entries, uint64_t offered, uint64_t drained,
    uint64_t dropped, uint64_t taken, uint64_t drops, uint32_t answer)
{
    is(line, "entries", told.entries, entries);
    is(line, "offered_bytes", told.offered_bytes, offered);
    is(line, "drained_bytes", told.drained_bytes, drained);
    is(line, "dropped_bytes", told.dropped_bytes, dropped);
    is(line, "held_bytes", told.held_bytes, offered - drained - dropped);
    is(line, "taken", told.taken, taken);
    is(line, "dropped", told.dropped, drops);
    is(line, "head", told.head, start + offered - dropped);
    is(line, "tail", told.tail, start + drained);
    is(line, "answer", told.answer, answer);
    is(line, "the rest of the journal", (uint64_t)untouched(replay_journal + 16 * taken, replay_journal_len - 16 * (size_t)taken), 1);
}

/* Nothing is told but the number and the start, and nothing was touched. */
static void is_not_replayed(int line, struct ollskuvan_replayed told, uint64_t start, uint32_t answer)
{
    is_replayed(line, told, start, 0, 0, 0, 0, 0, 0, answer);
    is(line, "the rooms", (uint64_t)untouched(rooms, rooms_len), 1);
}

#define PLAYS(told, start, entries, offered, drained, dropped, taken, drops, answer) \
    is_replayed(__LINE__, told, start, entries, offered, drained, dropped, taken, drops, answer)
#define PLAYS_NOTHING(told, start, answer) is_not_replayed(__LINE__, told, start, answer)

static void test_replay(void)
{
    enum { MOST_EVENTS = OLLSKUVAN_EVENTS_MAX };
    const uint64_t start = UINT64_MAX - 7;
    uint8_t bytes[80] = {0};
    size_t i, whole;
    IS(sizeof(struct ollskuvan_replayed), 80);
    /* an empty trace, also by null pointers */
    trace_len = 0;
    PLAYS(replay(start, 1, 4, 128, 0), start, 0, 0, 0, 0, 0, 0, OLLSKUVAN_OK);
    OK(untouched(rooms, 128));
    {
        const struct ollskuvan_event one = {7, OLLSKUVAN_BIT_IDENTIFIER, 0, 0, 0, 0, 1};
        struct ollskuvan_replayed told = ollskuvan_replay(NULL, 0, 16, &one, 1, 4, NULL, 0, NULL, 0);
        IS(told.answer, OLLSKUVAN_STOP_RING_LENGTH);
        IS(told.head, 16);
        IS(told.tail, 16);
    }
    /* across the end of a ring of 64 from 2^64 - 8: 8 bytes at 56, 8 at 0; the LOST behind it; the rest is as it was */
    lay_offer(OFFERED, 16);
    lay_offer(OFFERED_LOST, 32);
    PLAYS(replay(start, 1, 4, 128, 64), start, 2, 48, 0, 0, 0, 0, OLLSKUVAN_OK);
    OK(memcmp(rooms + 56, OFFERED, 8) == 0 && memcmp(rooms, OFFERED + 8, 8) == 0 && memcmp(rooms + 8, OFFERED_LOST, 32) == 0);
    OK(untouched(rooms + 40, 16) && untouched(rooms + 64, 64));
    /* 16 more fill it; one more is dropped and counted; a drain of two copies the first to the scratch */
    lay_offer(OFFERED, 16);
    lay_offer(OFFERED, 16);
    PLAYS(replay(start, 1, 4, 128, 64), start, 4, 80, 0, 16, 0, 1, OLLSKUVAN_OK);
    lay_drain(2);
    PLAYS(replay(start, 1, 4, 128, 64), start, 5, 80, 48, 16, 2, 1, OLLSKUVAN_OK);
    OK(memcmp(rooms + 64, OFFERED, 16) == 0 && untouched(rooms + 80, 48));
    IS(get(replay_journal, 4), 16);
    IS(get(replay_journal + OLLSKUVAN_JOURNAL_KIND, 2), 14);
    IS(get(replay_journal + OLLSKUVAN_JOURNAL_ANSWER, 2), 0);
    IS(get(replay_journal + OLLSKUVAN_JOURNAL_TAIL, 8), start);
    IS(get(replay_journal + 16 + OLLSKUVAN_JOURNAL_TAIL, 8), 8);
    /* a budget of 0 takes nothing; a journal that is full stops that drain alone, and the replay goes on */
    lay_drain(0);
    lay_offer(OFFERED_LOST, 32);
    lay_drain(UINT32_MAX);
    PLAYS(replay(start, 1, 4, 128, 64), start, 8, 112, 96, 16, 4, 1, OLLSKUVAN_OK);
    IS(get(replay_journal + 48 + OLLSKUVAN_JOURNAL_TAIL, 8), 56);
    OK(memcmp(rooms + 64, OFFERED_LOST, 32) == 0 && untouched(rooms + 96, 32));
    PLAYS(replay(start, 1, 4, 128, 63), start, 8, 112, 64, 16, 3, 1, OLLSKUVAN_OK);
    PLAYS(replay(start, 1, 4, 128, 15), start, 8, 112, 0, 48, 0, 2, OLLSKUVAN_OK);
    /* a larger ring, and as many events as there may be */
    PLAYS(replay(start, MOST_EVENTS, 4, 256, 99), start, 8, 112, 112, 0, 5, 0, OLLSKUVAN_OK);
    /* edition 1 answers 20 or 21 to every record, and takes it */
    PLAYS(replay(0, 1, 1, 128, 64), 0, 8, 112, 96, 16, 4, 1, OLLSKUVAN_OK);
    IS(get(replay_journal + OLLSKUVAN_JOURNAL_ANSWER, 2), OLLSKUVAN_REFUSED_TYPE);
    IS(get(replay_journal + 16 + OLLSKUVAN_JOURNAL_ANSWER, 2), OLLSKUVAN_REFUSED_SAMPLE_TYPE);
    /* before any entry: 1, then 2, then 5, then 11 */
    PLAYS_NOTHING(replay(4, 0, 5, 126, 64), 4, OLLSKUVAN_STOP_RING_LENGTH);
    PLAYS_NOTHING(replay(0, 1, 4, 127, 64), 0, OLLSKUVAN_STOP_RING_LENGTH);
    PLAYS_NOTHING(replay(0, 1, 4, 129, 64), 0, OLLSKUVAN_STOP_RING_LENGTH);
    PLAYS_NOTHING(replay(0, 1, 4, 0, 64), 0, OLLSKUVAN_STOP_RING_LENGTH);
    PLAYS_NOTHING(replay(4, 0, 5, 128, 64), 4, OLLSKUVAN_STOP_EDITION);
    PLAYS_NOTHING(replay(0, 1, 257, 128, 64), 0, OLLSKUVAN_STOP_EDITION);
    PLAYS_NOTHING(replay(4, 0, 4, 128, 64), 4, OLLSKUVAN_STOP_ALIGNMENT);
    PLAYS_NOTHING(replay(start, 0, 4, 128, 64), start, OLLSKUVAN_STOP_TABLE);
    PLAYS_NOTHING(replay(start, MOST_EVENTS + 1, 4, 128, 64), start, OLLSKUVAN_STOP_TABLE);
    /* a trace that is cut anywhere: 51, and what stood before the entry that is cut */
    trace_len = 0;
    lay_offer(OFFERED, 16);
    lay_drain(1);
    whole = trace_len;
    for (i = 0; i <= whole; i++) {
        struct ollskuvan_replayed told;
        trace_len = i;
        told = replay(start, 1, 4, 128, 64);
        if (i < 22)
            PLAYS(told, start, 0, 0, 0, 0, 0, 0, i == 0 ? OLLSKUVAN_OK : OLLSKUVAN_REFUSED_ENTRY);
        else if (i < whole)
            PLAYS(told, start, 1, 16, 0, 0, 0, 0, i == 22 ? OLLSKUVAN_OK : OLLSKUVAN_REFUSED_ENTRY);
        else
            PLAYS(told, start, 2, 16, 16, 0, 1, 0, OLLSKUVAN_OK);
    }
    /* every kind of body of every length: 51, 52 and 53, and the state before */
    for (i = 0; i < 60; i++) {
        unsigned kind;
        for (kind = 0; kind < 40; kind++) {
            uint32_t due = OLLSKUVAN_REFUSED_ENTRY;
            if ((kind == 1 && i == 2) || (kind == 2 && (i == 49 || i == 50)) || (kind == 3 && i == 13))
                due = OLLSKUVAN_REFUSED_DEPARTURE;
            if (kind == OLLSKUVAN_KIND_OFFER)
                due = OLLSKUVAN_REFUSED_OFFER; /* zeros: a size of 0 */
            if (kind == OLLSKUVAN_KIND_DRAIN && i == 4)
                continue;
            trace_len = 0;
            lay_offer(OFFERED, 16);
            lay_entry(kind, bytes, i);
            PLAYS(replay(start, 1, 4, 128, 64), start, 1, 16, 0, 0, 0, 0, due);
        }
    }
    /* 53: a size that is no multiple of 8, or not the body's; it comes before dropping */
    trace_len = 0;
    lay_offer(OFFERED_LOST, 24);
    PLAYS(replay(0, 1, 4, 128, 0), 0, 0, 0, 0, 0, 0, 0, OLLSKUVAN_REFUSED_OFFER);
    put16(bytes + 6, 72);
    trace_len = 0;
    lay_offer(bytes, 72);
    lay_offer(bytes, 80);
    PLAYS(replay(0, 1, 4, 128, 0), 0, 1, 72, 0, 72, 0, 1, OLLSKUVAN_REFUSED_OFFER);
    put16(bytes + 6, 12);
    trace_len = 0;
    lay_offer(bytes, 12);
    PLAYS(replay(0, 1, 4, 128, 0), 0, 0, 0, 0, 0, 0, 0, OLLSKUVAN_REFUSED_OFFER);
    free(rooms);
    free(replay_journal);
    rooms = replay_journal = NULL;
}

/* ---- the backward ring ---- */

/* A walk with empty attributes, in edition 3. */
static struct ollskuvan_walked walk(const uint8_t *ring, size_t length, uint64_t head, uint64_t budget, uint8_t *scratch,
    size_t scratch_len, uint8_t *journal, size_t journal_len)
{
    return ollskuvan_walk_back(ring, length, head, NONE, 3, budget, scratch, scratch_len, journal, journal_len);
}

static void walked(int line, struct ollskuvan_walked w, uint64_t taken, uint64_t bytes, uint32_t stop)
{
    is(line, "records of the walk", w.taken, taken);
    is(line, "bytes of the walk", w.bytes, bytes);
    is(line, "the end of the walk", w.stop, stop);
}
#define WALKED(w, taken, bytes, stop) walked(__LINE__, w, taken, bytes, stop)

/* Bytes at a count of a ring of 64. */
static void lay_at(uint8_t *ring, uint64_t count, const uint8_t *bytes, size_t n)
{
    size_t i;
    for (i = 0; i < n; i++)
        ring[(count + i) % 64] = bytes[i];
}

/* One that has not gone round: LOST at 2^64 - 32, a switch at 2^64 - 8, zeros from 0 on. */
static void test_walk_short(void)
{
    uint8_t *ring = block(64), *journal = block(48), *before = block(64);
    const uint64_t head = UINT64_MAX - 31; /* 2^64 - 32 */

    memset(ring, 0, 64);
    lay_at(ring, head, LOST, 24);
    lay_at(ring, head + 24, SWITCH, 8);
    memcpy(before, ring, 64);
    WALKED(walk(ring, 64, head, 9, NULL, 0, journal, 48), 2, 32, OLLSKUVAN_STOP_NOTHING);
    OK(memcmp(ring, before, 64) == 0);
    IS(get(journal + OLLSKUVAN_JOURNAL_LENGTH, 4), 16);
    IS(get(journal + OLLSKUVAN_JOURNAL_KIND, 2), OLLSKUVAN_TYPE_LOST);
    IS(get(journal + OLLSKUVAN_JOURNAL_ANSWER, 2), OLLSKUVAN_OK);
    IS(get(journal + OLLSKUVAN_JOURNAL_TAIL, 8), head);
    IS(get(journal + 16 + OLLSKUVAN_JOURNAL_KIND, 2), OLLSKUVAN_TYPE_SWITCH);
    IS(get(journal + 16 + OLLSKUVAN_JOURNAL_TAIL, 8), head + 24);
    OK(untouched(journal + 32, 16));
    /* a size of 0 ends it with 0, whatever else stands in that header, and with the budget used up or no journal room */
    memset(ring, 0xff, 6);
    WALKED(walk(ring, 64, head, 2, NULL, 0, journal, 48), 2, 32, OLLSKUVAN_STOP_NOTHING);
    WALKED(walk(ring, 64, head, 9, NULL, 0, journal, 32), 2, 32, OLLSKUVAN_STOP_NOTHING);
    WALKED(walk(ring, 64, 0, 0, NULL, 0, NULL, 0), 0, 0, OLLSKUVAN_STOP_NOTHING);
    /* the others in their order: 8, 9 */
    WALKED(walk(ring, 64, head, 1, NULL, 0, journal, 31), 1, 24, OLLSKUVAN_STOP_BUDGET);
    WALKED(walk(ring, 64, head, 2, NULL, 0, journal, 31), 1, 24, OLLSKUVAN_STOP_JOURNAL);
    WALKED(walk(ring, 64, head, 0, NULL, 0, NULL, 0), 0, 0, OLLSKUVAN_STOP_BUDGET);
    /* 6 before 13, 8 and 9: sizes that are not 0 */
    put16(ring + 6, 4);
    WALKED(walk(ring, 64, head, 2, NULL, 0, journal, 32), 2, 32, OLLSKUVAN_STOP_SIZE);
    put16(ring + 6, 12);
    WALKED(walk(ring, 64, head, 2, NULL, 0, journal, 32), 2, 32, OLLSKUVAN_STOP_SIZE);
    put16(ring + 6, 65535);
    WALKED(walk(ring, 64, head, 2, NULL, 0, journal, 32), 2, 32, OLLSKUVAN_STOP_SIZE);
    /* 13: past the length by eight bytes; just the length is none; before 8 and 9 */
    put16(ring + 6, 40);
    WALKED(walk(ring, 64, head, 2, NULL, 0, journal, 32), 2, 32, OLLSKUVAN_STOP_OVERWRITTEN);
    put16(ring + 6, 65528);
    WALKED(walk(ring, 64, head, 0, NULL, 0, NULL, 0), 0, 0, OLLSKUVAN_STOP_BUDGET);
    WALKED(walk(ring, 64, 0, 0, NULL, 0, NULL, 0), 0, 0, OLLSKUVAN_STOP_OVERWRITTEN);
    put16(ring + 6, 32);
    WALKED(walk(ring, 64, head, 2, NULL, 0, journal, 48), 2, 32, OLLSKUVAN_STOP_BUDGET);
    WALKED(walk(ring, 64, head, 3, NULL, 0, journal, 48), 3, 64, OLLSKUVAN_STOP_NOTHING);
    IS(get(journal + 32 + OLLSKUVAN_JOURNAL_ANSWER, 2), OLLSKUVAN_REFUSED_TYPE);
    IS(get(journal + 32 + OLLSKUVAN_JOURNAL_TAIL, 8), 0);
    free(ring);
    free(journal);
    free(before);
}

/* One that has gone round, head at place 56: a LOST across the ring's end, a COMM, and a LOST of which eight bytes are left. */
static void test_walk_round(void)
{
    uint8_t *ring = block(64), *journal = block(64), *scratch = block(32);
    const uint64_t head = UINT64_MAX - 64 * 1000 - 7; /* 2^64 - 64 * 1000 - 8 */

    lay_at(ring, head, LOST, 24);
    lay_at(ring, head + 24, COMM, 24);
    lay_at(ring, head + 48, SWITCH, 8);
    lay_at(ring, head + 56, LOST, 8);
    WALKED(walk(ring, 64, head, 9, scratch, 32, journal, 64), 3, 56, OLLSKUVAN_STOP_OVERWRITTEN);
    OK(memcmp(scratch, LOST, 24) == 0 && untouched(scratch + 24, 8));
    IS(get(journal + 32 + OLLSKUVAN_JOURNAL_TAIL, 8), head + 48);
    OK(untouched(journal + 48, 16));
    /* a scratch one byte short: 3, after 8 and 9, and nothing is written */
    memset(scratch, 0xc3, 32);
    memset(journal, 0xc3, 64);
    WALKED(walk(ring, 64, head, 9, scratch, 23, journal, 64), 0, 0, OLLSKUVAN_STOP_SCRATCH);
    WALKED(walk(ring, 64, head, 0, scratch, 23, journal, 64), 0, 0, OLLSKUVAN_STOP_BUDGET);
    WALKED(walk(ring, 64, head, 1, scratch, 23, journal, 15), 0, 0, OLLSKUVAN_STOP_JOURNAL);
    OK(untouched(scratch, 32) && untouched(journal, 64));
    /* its oldest record ends just at the length */
    lay_at(ring, head + 56, SWITCH, 8);
    WALKED(walk(ring, 64, head, 4, scratch, 24, journal, 64), 4, 64, OLLSKUVAN_STOP_NOTHING);
    WALKED(walk(ring, 64, head, 3, scratch, 24, journal, 64), 3, 56, OLLSKUVAN_STOP_BUDGET);
    /* from an entry to its record: the head is as far as the walk came */
    {
        uint64_t fields[OLLSKUVAN_FIELDS];
        struct ollskuvan_one one = ollskuvan_read_one(ring, 64, head + 64, get(journal + 16 + OLLSKUVAN_JOURNAL_TAIL, 8), NONE, 3,
            scratch, 32, fields, OLLSKUVAN_FIELDS);
        IS(one.size, 24);
        IS(one.in_scratch, 0);
        IS(fields[OLLSKUVAN_TYPE], OLLSKUVAN_TYPE_COMM);
        IS(fields[OLLSKUVAN_COMM_NAME_COUNT], 4);
    }
    free(ring);
    free(journal);
    free(scratch);
}

/* The calls' own refusals, null with length 0, and a table. */
static void test_walk_calls(void)
{
    uint8_t *ring = block(64), *journal = block(48);
    enum { MOST = OLLSKUVAN_EVENTS_MAX };
    struct ollskuvan_event *one = events(1), *two = events(2), *most = events(MOST), *more = events(MOST + 1);

    two[1] = EVENTS[1];
    lay_events(ring); /* three records, 64 bytes */
    WALKED(ollskuvan_walk_back(NULL, 0, 3, NONE, 257, 0, NULL, 0, NULL, 0), 0, 0, OLLSKUVAN_STOP_RING_LENGTH);
    WALKED(ollskuvan_walk_back(ring, 63, 3, NONE, 257, 0, NULL, 0, NULL, 0), 0, 0, OLLSKUVAN_STOP_RING_LENGTH);
    WALKED(ollskuvan_walk_back(ring, 64, 3, NONE, 257, 0, NULL, 0, NULL, 0), 0, 0, OLLSKUVAN_STOP_EDITION);
    WALKED(ollskuvan_walk_back(ring, 64, 3, NONE, 4, 0, NULL, 0, NULL, 0), 0, 0, OLLSKUVAN_STOP_ALIGNMENT);
    WALKED(ollskuvan_walk_back_events(NULL, 0, 3, NULL, 0, 257, 0, NULL, 0, NULL, 0), 0, 0, OLLSKUVAN_STOP_RING_LENGTH);
    WALKED(ollskuvan_walk_back_events(ring, 64, 3, NULL, 0, 0, 0, NULL, 0, NULL, 0), 0, 0, OLLSKUVAN_STOP_EDITION);
    WALKED(ollskuvan_walk_back_events(ring, 64, 3, NULL, 0, 4, 0, NULL, 0, NULL, 0), 0, 0, OLLSKUVAN_STOP_ALIGNMENT);
    WALKED(ollskuvan_walk_back_events(ring, 64, 0, NULL, 0, 4, 0, NULL, 0, NULL, 0), 0, 0, OLLSKUVAN_STOP_TABLE);
    WALKED(ollskuvan_walk_back_events(ring, 64, 0, more, MOST + 1, 4, 9, NULL, 0, journal, 48), 0, 0, OLLSKUVAN_STOP_TABLE);
    OK(untouched(journal, 48));
    WALKED(ollskuvan_walk_back_events(ring, 64, 0, most, MOST, 4, 0, NULL, 0, NULL, 0), 0, 0, OLLSKUVAN_STOP_BUDGET);
    most[MOST - 1].identifier = most[0].identifier;
    WALKED(ollskuvan_walk_back_events(ring, 64, 0, most, MOST, 4, 0, NULL, 0, NULL, 0), 0, 0, OLLSKUVAN_STOP_TABLE);
    one[0].sample_id_all = 0;
    WALKED(ollskuvan_walk_back_events(ring, 64, 0, one, 1, 4, 0, NULL, 0, NULL, 0), 0, 0, OLLSKUVAN_STOP_TABLE);
    /* each record with its event; without the second event two of the three are 26, as in a drain; edition 1 reads none */
    WALKED(ollskuvan_walk_back_events(ring, 64, 0, two, 2, 4, 9, NULL, 0, journal, 48), 3, 64, OLLSKUVAN_STOP_NOTHING);
    IS(answers(journal, 3), 0);
    IS(get(journal + 32 + OLLSKUVAN_JOURNAL_TAIL, 8), 48);
    WALKED(ollskuvan_walk_back_events(ring, 64, 0, two, 1, 4, 9, NULL, 0, journal, 48), 3, 64, OLLSKUVAN_STOP_NOTHING);
    IS(answers(journal, 3), OLLSKUVAN_REFUSED_IDENTIFIER);
    WALKED(ollskuvan_walk_back_events(ring, 64, 0, two, 2, 1, 9, NULL, 0, journal, 48), 3, 64, OLLSKUVAN_STOP_NOTHING);
    IS(answers(journal, 3), 202120);
    memset(ring, 0, 8); /* an empty ring is asked for its table first */
    WALKED(ollskuvan_walk_back_events(ring, 64, 0, two, 2, 4, 0, NULL, 0, NULL, 0), 0, 0, OLLSKUVAN_STOP_NOTHING);
    WALKED(ollskuvan_walk_back_events(ring, 64, 0, two, 0, 4, 0, NULL, 0, NULL, 0), 0, 0, OLLSKUVAN_STOP_TABLE);
    free(ring);
    free(journal);
    free(one);
    free(two);
    free(most);
    free(more);
}

/* A switch and a LOST of the event 7, whose trailer is the identifier alone; "kiln" with stale bytes behind its zero. */
static const uint8_t OF_7[16] = {14, 0, 0, 0, 0, 0, 16, 0, 7};
static const uint8_t LOST_OF_7[32] = {2, 0, 0, 0, 0, 0, 32, 0, 5, 0, 0, 0, 0, 0, 0, 0, 6, 0, 0, 0, 0, 0, 0, 0, 7};
static const uint8_t DIRTY_OF_7[32] = {3, 0, 0, 0, 0, 0, 32, 0, 1, 0, 0, 0, 2, 0, 0, 0, 'k', 'i', 'l', 'n', 0, 1, 2, 3, 7};

/* The last salvage: its buffers, of exactly the lengths that were lent. */
static uint8_t *kept, *changes;
static size_t kept_len, changes_len;

static struct ollskuvan_salvaged salvage(const uint8_t *bytes, size_t length, size_t events, uint32_t edition, size_t out,
    size_t list)
{
    uint8_t *stream = copied(bytes, length);
    struct ollskuvan_event *table = events_from_7(events);
    struct ollskuvan_salvaged told;
    kept = block_anew(kept, out);
    changes = block_anew(changes, list);
    kept_len = out;
    changes_len = list;
    told = ollskuvan_salvage(stream, length, table, events, edition, kept, out, changes, list);
    OK(length == 0 || memcmp(stream, bytes, length) == 0);
    free(stream);
    free_from_7(table, events);
    return told;
}

static void is_salvaged(int line, struct ollskuvan_salvaged told, uint64_t bytes, uint64_t dropped, uint64_t holes)
{
    is(line, "answer", told.answer, OLLSKUVAN_OK);
    is(line, "kept", told.kept, bytes);
    is(line, "dropped", told.dropped, dropped);
    is(line, "changes", told.changes, OLLSKUVAN_CHANGE_ENTRY * holes);
    is(line, "the rest of out", (uint64_t)untouched(kept + told.kept, kept_len - (size_t)told.kept), 1);
    is(line, "the rest of the list", (uint64_t)untouched(changes + told.changes, changes_len - (size_t)told.changes), 1);
}

/* Nothing is told but the number, and nothing was touched. */
static void is_not_salvaged(int line, struct ollskuvan_salvaged told, uint32_t answer)
{
    is(line, "answer", told.answer, answer);
    is(line, "kept, dropped and changes", told.kept | told.dropped | told.changes, 0);
    is(line, "out", (uint64_t)untouched(kept, kept_len), 1);
    is(line, "the list", (uint64_t)untouched(changes, changes_len), 1);
}

static void is_hole(int line, size_t number, uint64_t start, uint64_t bytes)
{
    const uint8_t *entry = changes + OLLSKUVAN_CHANGE_ENTRY * number;
    is(line, "the entry's length", get(entry + OLLSKUVAN_CHANGE_LENGTH, 4), OLLSKUVAN_CHANGE_ENTRY);
    is(line, "its kind", get(entry + OLLSKUVAN_CHANGE_KIND, 2), OLLSKUVAN_KIND_DROPPED);
    is(line, "the hole's start", get(entry + OLLSKUVAN_CHANGE_START, 8), start);
    is(line, "its bytes", get(entry + OLLSKUVAN_CHANGE_BYTES, 8), bytes);
}

#define KEEPS(told, bytes, dropped, holes) is_salvaged(__LINE__, told, bytes, dropped, holes)
#define REFUSES(told, answer) is_not_salvaged(__LINE__, told, answer)
#define HOLE(number, start, bytes) is_hole(__LINE__, number, start, bytes)

static void test_salvage(void)
{
    enum { MOST_EVENTS = OLLSKUVAN_EVENTS_MAX };
    uint8_t stream[256] = {0};
    size_t room, list;
    IS(sizeof(struct ollskuvan_salvaged), 32);
    /* nothing at all, also by null pointers */
    KEEPS(salvage(stream, 0, 1, 4, 0, 0), 0, 0, 0);
    {
        const struct ollskuvan_event one = {7, OLLSKUVAN_BIT_IDENTIFIER, 0, 0, 0, 0, 1};
        struct ollskuvan_salvaged told = ollskuvan_salvage(NULL, 0, &one, 1, 4, NULL, 0, NULL, 0);
        IS(told.answer | told.kept | told.dropped | told.changes, 0);
    }
    /* sound records come back byte for byte, the dirty name as it is, into exactly their room, and again */
    memcpy(stream, OF_7, 16);
    memcpy(stream + 16, LOST_OF_7, 32);
    memcpy(stream + 48, DIRTY_OF_7, 32);
    KEEPS(salvage(stream, 80, 1, 4, 80, 0), 80, 0, 0);
    OK(memcmp(kept, stream, 80) == 0);
    KEEPS(salvage(stream, 80, 1, 2, 99, 99), 80, 0, 0);
    OK(memcmp(kept, stream, 80) == 0);
    /* a switch, 16 zeros, a LOST, 3 bytes: two holes, their starts counted in the stream */
    memset(stream, 0, sizeof stream);
    memcpy(stream, OF_7, 16);
    memcpy(stream + 32, LOST_OF_7, 32);
    KEEPS(salvage(stream, 67, 1, 4, 48, 44), 48, 19, 2);
    OK(memcmp(kept, OF_7, 16) == 0 && memcmp(kept + 16, LOST_OF_7, 32) == 0);
    HOLE(0, 16, 16);
    HOLE(1, 64, 3);
    /* 54: either room too short by one byte, or none at all; then neither is touched */
    for (room = 0; room <= 48; room += 4)
        for (list = 0; list <= 44; list += 11) {
            struct ollskuvan_salvaged told = salvage(stream, 67, 1, 4, room, list);
            if (room == 48 && list == 44)
                KEEPS(told, 48, 19, 2);
            else
                REFUSES(told, OLLSKUVAN_REFUSED_SALVAGE_ROOM);
        }
    REFUSES(salvage(stream, 67, 1, 4, 47, 44), OLLSKUVAN_REFUSED_SALVAGE_ROOM);
    REFUSES(salvage(stream, 67, 1, 4, 48, 43), OLLSKUVAN_REFUSED_SALVAGE_ROOM);
    /* 2, then 11, then 54; the edition is not narrowed */
    REFUSES(salvage(stream, 67, 0, 5, 0, 0), OLLSKUVAN_REFUSED_EDITION);
    REFUSES(salvage(stream, 67, 1, 0, 48, 44), OLLSKUVAN_REFUSED_EDITION);
    REFUSES(salvage(stream, 67, 1, 257, 48, 44), OLLSKUVAN_REFUSED_EDITION);
    REFUSES(salvage(stream, 67, 0, 4, 0, 0), OLLSKUVAN_STOP_TABLE);
    REFUSES(salvage(stream, 67, MOST_EVENTS + 1, 4, 48, 44), OLLSKUVAN_STOP_TABLE);
    KEEPS(salvage(stream, 67, MOST_EVENTS, 4, 48, 44), 48, 19, 2);
    /* a table that is refused is 11 for an empty stream too */
    REFUSES(salvage(stream, 0, 0, 4, 0, 0), OLLSKUVAN_STOP_TABLE);
    /* edition 1 knows no identifiers: one hole */
    KEEPS(salvage(stream, 67, 1, 1, 0, 22), 0, 67, 1);
    HOLE(0, 0, 67);
    /* fewer than 8 bytes are dropped at once; 12 zeros lose the LOST behind them */
    KEEPS(salvage(stream + 64, 7, 1, 4, 0, 22), 0, 7, 1);
    HOLE(0, 0, 7);
    memset(stream, 0, 12);
    memcpy(stream + 12, LOST_OF_7, 32);
    KEEPS(salvage(stream, 44, 1, 4, 0, 22), 0, 44, 1);
    HOLE(0, 0, 44);
    /* a record inside another that no edition knows: it is found, and the search goes on behind it */
    memset(stream, 0, sizeof stream);
    stream[0] = 22;
    put16(stream + 6, 40);
    memcpy(stream + 8, OF_7, 16);
    KEEPS(salvage(stream, 40, 1, 4, 16, 44), 16, 24, 2);
    OK(memcmp(kept, OF_7, 16) == 0);
    HOLE(0, 0, 8);
    HOLE(1, 24, 16);
    /* 7 against the bytes left: a size above them is no record, the greatest one too */
    put16(stream + 6, 48);
    KEEPS(salvage(stream, 40, 1, 4, 16, 44), 16, 24, 2);
    put16(stream + 6, 65528);
    KEEPS(salvage(stream, 40, 1, 4, 16, 44), 16, 24, 2);
    memcpy(stream, LOST_OF_7, 32);
    KEEPS(salvage(stream, 31, 1, 4, 0, 22), 0, 31, 1);
    KEEPS(salvage(stream, 32, 1, 4, 32, 0), 32, 0, 0);
    free(kept);
    free(changes);
    kept = changes = NULL;
}

/* MMAP2 of event 7: pid 1, tid 2, addr 3, len 4, pgoff 5, the numbers of a file, prot 5, flags 1, name "a". */
static const uint8_t MMAP2_OF_7[88] = {10, 0, 0, 0, 0, 0, 88, 0, 1, 0, 0, 0, 2, 0, 0, 0, 3, 0, 0, 0, 0, 0, 0, 0, 4, 0, 0, 0, 0, 0,
    0, 0, 5, 0, 0, 0, 0, 0, 0, 0, 9, 0, 0, 0, 8, 0, 0, 0, 7, 0, 0, 0, 0, 0, 0, 0, 6, 0, 0, 0, 0, 0, 0, 0, 5, 0, 0, 0, 1, 0, 0,
    0, 'a', 0, 0, 0, 0, 0, 0, 0, 7};

/* A ring with its pointers, and its scratch as the last comparison left it: exactly the bytes that are lent. */
struct side {
    uint8_t *ring, *scratch;
    size_t ring_len, scratch_len;
    uint64_t head, tail;
};

static struct side side(size_t length, uint64_t tail, size_t scratch)
{
    struct side s = {block(length), block(scratch), length, scratch, tail, tail};
    memset(s.ring, 0, length);
    return s;
}

static void side_record(struct side *s, const uint8_t *record, size_t size)
{
    size_t i;
    for (i = 0; i < size; i++)
        s->ring[(s->head + i) % s->ring_len] = record[i];
    s->head += size;
}

static struct ollskuvan_compared compared(const struct side *left, const struct side *right, size_t events, uint32_t edition)
{
    const struct ollskuvan_event table[2] = {{7, OLLSKUVAN_BIT_IDENTIFIER, 0, 0, 0, 0, 1},
        {8, OLLSKUVAN_BIT_IDENTIFIER | OLLSKUVAN_BIT_CPU, 0, 0, 0, 0, 1}};
    return ollskuvan_compare(left->ring, left->ring_len, left->head, left->tail, left->scratch, left->scratch_len, right->ring,
        right->ring_len, right->head, right->tail, right->scratch, right->scratch_len, table, events, edition);
}

static void is_told(int line, struct ollskuvan_compared told, uint64_t records, uint32_t what, uint32_t field, uint32_t stop)
{
    is(line, "records", told.records, records);
    is(line, "what", told.what, what);
    is(line, "field", told.field, field);
    is(line, "stop", told.stop, stop);
}

#define TELLS(told, records, what, field, stop) is_told(__LINE__, told, records, what, field, stop)

static void test_compare(void)
{
    struct side left = side(128, 0, 128), right = side(256, 8 * 31, 256);
    uint8_t record[88];
    IS(sizeof(struct ollskuvan_compared), 24);
    /* nothing on either side; no table, no edition */
    TELLS(compared(&left, &right, 2, 4), 0, OLLSKUVAN_COMPARED_ALIKE, 0, 0);
    TELLS(compared(&left, &right, 0, 4), 0, OLLSKUVAN_COMPARED_LEFT_STOPPED, 0, OLLSKUVAN_STOP_TABLE);
    TELLS(compared(&left, &right, 0, 5), 0, OLLSKUVAN_COMPARED_LEFT_STOPPED, 0, OLLSKUVAN_STOP_EDITION);
    /* a switch: it crosses the right ring's end, and goes to the scratch only if the left has one too */
    side_record(&right, OF_7, 16);
    TELLS(compared(&left, &right, 2, 4), 0, OLLSKUVAN_COMPARED_LEFT_ENDED, 0, 0);
    TELLS(compared(&right, &left, 2, 4), 0, OLLSKUVAN_COMPARED_RIGHT_ENDED, 0, 0);
    OK(untouched(right.scratch, 256));
    side_record(&left, OF_7, 16);
    TELLS(compared(&left, &right, 2, 4), 1, OLLSKUVAN_COMPARED_ALIKE, 0, 0);
    OK(memcmp(right.scratch, OF_7, 16) == 0 && untouched(right.scratch + 16, 240) && untouched(left.scratch, 128));
    right.scratch_len = 15;
    TELLS(compared(&left, &right, 2, 4), 0, OLLSKUVAN_COMPARED_RIGHT_STOPPED, 0, OLLSKUVAN_STOP_SCRATCH);
    right.scratch_len = 256;
    /* MMAP2: prot is field 14; with a build id 11, and then what lies behind the id does not count */
    side_record(&left, MMAP2_OF_7, 88);
    memcpy(record, MMAP2_OF_7, 88);
    record[64] = 7;
    side_record(&right, record, 88);
    TELLS(compared(&left, &right, 2, 4), 1, OLLSKUVAN_COMPARED_FIELD, 14, 0);
    TELLS(compared(&right, &left, 2, 4), 1, OLLSKUVAN_COMPARED_FIELD, 14, 0);
    left.ring[16 + 5] = 64;
    right.ring[8 + 5] = 64;
    TELLS(compared(&left, &right, 2, 4), 1, OLLSKUVAN_COMPARED_FIELD, 11, 0);
    right.ring[8 + 64] = 5;
    TELLS(compared(&left, &right, 2, 4), 2, OLLSKUVAN_COMPARED_ALIKE, 0, 0);
    right.ring[8 + 40 + 23] = 1;
    TELLS(compared(&left, &right, 2, 4), 2, OLLSKUVAN_COMPARED_ALIKE, 0, 0);
    right.ring[8 + 40] = 8;
    TELLS(compared(&left, &right, 2, 4), 1, OLLSKUVAN_COMPARED_FIELD, 10, 0);
    right.ring[8 + 40] = 9;
    /* the flag is the last field: "a", its zero, and a stale byte on one side, on both */
    right.ring[8 + 74] = 1;
    TELLS(compared(&left, &right, 2, 4), 1, OLLSKUVAN_COMPARED_FIELD, 14, 0);
    left.ring[16 + 79] = 2;
    TELLS(compared(&left, &right, 2, 4), 2, OLLSKUVAN_COMPARED_ALIKE, 0, 0);
    /* edition 1 refuses both alike: by their bytes, field 1; an unknown identifier on one side: field 0 */
    TELLS(compared(&left, &right, 2, 1), 1, OLLSKUVAN_COMPARED_FIELD, 1, 0);
    right.ring[8 + 80] = 9;
    TELLS(compared(&left, &right, 2, 4), 1, OLLSKUVAN_COMPARED_FIELD, 0, 0);
    /* a stop at the same record goes first, the left one if both stop */
    right.ring[8 + 6] = 4;
    TELLS(compared(&left, &right, 2, 4), 1, OLLSKUVAN_COMPARED_RIGHT_STOPPED, 0, OLLSKUVAN_STOP_SIZE);
    left.ring[16 + 6] = 96;
    TELLS(compared(&left, &right, 2, 4), 1, OLLSKUVAN_COMPARED_LEFT_STOPPED, 0, OLLSKUVAN_STOP_PAST_HEAD);
    TELLS(compared(&right, &left, 2, 4), 1, OLLSKUVAN_COMPARED_LEFT_STOPPED, 0, OLLSKUVAN_STOP_SIZE);
    right.ring_len = 255;
    TELLS(compared(&left, &right, 2, 4), 0, OLLSKUVAN_COMPARED_RIGHT_STOPPED, 0, OLLSKUVAN_STOP_RING_LENGTH);
    free(left.ring);
    free(left.scratch);
    free(right.ring);
    free(right.scratch);
}

static void is_judged(int line, struct ollskuvan_judged told, uint32_t answer, uint32_t inspected)
{
    is(line, "answer", told.answer, answer);
    is(line, "inspected", told.inspected, inspected);
}
#define JUDGED(told, answer, inspected) is_judged(__LINE__, told, answer, inspected)

/* Record check with a table: the answers in their order, and the number inspected with each. */
static void test_check_events(void)
{
    enum { MOST = OLLSKUVAN_EVENTS_MAX };
    struct ollskuvan_event *most = events(MOST), *more = events(MOST + 1);
    uint8_t *record = copied(DIRTY_OF_7, 32), *eight = copied(SWITCH, 8);

    IS(sizeof(struct ollskuvan_judged), 8);
    most[2].sample_type = OLLSKUVAN_BIT_IDENTIFIER; /* the third is event 7, whose trailer is the identifier alone */
    JUDGED(ollskuvan_check_events(NULL, 0, NULL, 0, 257), OLLSKUVAN_REFUSED_EDITION, 0);
    JUDGED(ollskuvan_check_events(NULL, 0, NULL, 0, 4), OLLSKUVAN_REFUSED_TABLE, 0);
    JUDGED(ollskuvan_check_events(record, 32, more, MOST + 1, 4), OLLSKUVAN_REFUSED_TABLE, 0);
    JUDGED(ollskuvan_check_events(NULL, 0, most, MOST, 4), OLLSKUVAN_REFUSED_LENGTH, 0);
    JUDGED(ollskuvan_check_events(record, 7, most, MOST, 4), OLLSKUVAN_REFUSED_LENGTH, 0);
    JUDGED(ollskuvan_check_events(record, 24, most, MOST, 4), OLLSKUVAN_REFUSED_LENGTH, 0);
    put16(record + 6, 12);
    JUDGED(ollskuvan_check_events(record, 32, most, MOST, 4), OLLSKUVAN_REFUSED_SIZE, 0);
    put16(record + 6, 32);
    JUDGED(ollskuvan_check_events(record, 32, most, MOST, 1), OLLSKUVAN_REFUSED_SAMPLE_TYPE, 0);
    JUDGED(ollskuvan_check_events(record, 32, most, MOST, 4), OLLSKUVAN_DIRTY_NAME, 3);
    JUDGED(ollskuvan_check_events(record, 32, most + 2, 1, 2), OLLSKUVAN_DIRTY_NAME, 1);
    JUDGED(ollskuvan_check_events(record, 32, most, 2, 4), OLLSKUVAN_REFUSED_IDENTIFIER, 2);
    JUDGED(ollskuvan_check_events(record, 32, most + 3, MOST - 3, 4), OLLSKUVAN_REFUSED_IDENTIFIER, MOST - 3);
    JUDGED(ollskuvan_check_events(eight, 8, most, MOST, 4), OLLSKUVAN_REFUSED_NO_IDENTIFIER, 0);
    memset(record + 21, 0, 3);
    JUDGED(ollskuvan_check_events(record, 32, most, MOST, 4), OLLSKUVAN_OK, 3);
    most[2].sample_type |= UINT64_C(1) << 25; /* the event's own 21, behind the lookup */
    JUDGED(ollskuvan_check_events(record, 32, most, MOST, 4), OLLSKUVAN_REFUSED_SAMPLE_TYPE, 3);
    put16(record, 22);
    JUDGED(ollskuvan_check_events(record, 32, most, MOST, 4), OLLSKUVAN_REFUSED_TYPE, 0);
    /* the last of as many as there may be; one behind it */
    put16(record, OLLSKUVAN_TYPE_COMM);
    most[MOST - 1].sample_type = OLLSKUVAN_BIT_IDENTIFIER;
    put16(record + 24, 5 + MOST - 1);
    JUDGED(ollskuvan_check_events(record, 32, most, MOST, 4), OLLSKUVAN_OK, MOST);
    put16(record + 24, 5 + MOST);
    JUDGED(ollskuvan_check_events(record, 32, most, MOST, 4), OLLSKUVAN_REFUSED_IDENTIFIER, MOST);
    /* two equal identifiers, far from each other */
    most[MOST - 1].identifier = most[1].identifier;
    JUDGED(ollskuvan_check_events(record, 32, most, MOST, 4), OLLSKUVAN_REFUSED_TABLE, 0);

    free(most);
    free(more);
    free(record);
    free(eight);
}

/* Stores of both versions, laid out by hand; written, version 2; into exactly their room and one byte less. */
static size_t lay_store(uint8_t *store, unsigned version, unsigned count)
{
    static const uint8_t rest[19] = {19, 0, 0, 0, 3, 0, 0, 1, 0, 0, 0, 0, 0, 0, 4, 7};
    size_t at = 8, i;

    memset(store, 0, 8);
    store[0] = 8;
    store[4] = 1;
    store[6] = (uint8_t)version;
    for (i = 0; i < count; i++, at += 54 + version) {
        uint8_t *words = store + at + 6 + version;
        memset(store + at, 0, 54 + version);
        store[at] = (uint8_t)(54 + version);
        store[at + 4] = 2;
        store[at + 6] = (uint8_t)i;
        if (version == 2)
            store[at + 7] = (uint8_t)(i >> 8);
        put16(words, 5 + (unsigned)i);
        words[8] = 4;  /* sample bit 2 */
        words[10] = 1; /* sample bit 16 */
    }
    memcpy(store + at, rest, 19);
    return at + 19;
}

static void test_stores(void)
{
    enum { MOST = OLLSKUVAN_EVENTS_MAX, OLD = OLLSKUVAN_STORE_OLD_EVENTS };
    uint8_t *store = block(OLLSKUVAN_STORE_BYTES(MOST + 1)), *written = block(OLLSKUVAN_STORE_BYTES(MOST) + 8);
    struct ollskuvan_event *table = events(MOST + 1), *rows = events(MOST);
    struct ollskuvan_settings s;
    struct ollskuvan_stored w;
    const unsigned counts[] = {1, OLD, OLD + 1, 256, 257, MOST};
    size_t i, length;

    for (i = 0; i < sizeof counts / sizeof *counts; i++) {
        const unsigned count = counts[i];
        const uint32_t old = count <= OLD ? OLLSKUVAN_OK : count <= 256 ? OLLSKUVAN_REFUSED_TABLE : OLLSKUVAN_REFUSED_DEPARTURE;
        length = lay_store(store, 1, count);
        IS(length, OLLSKUVAN_STORE_BYTES_1(count));
        s = ollskuvan_read_store(store, length, rows, MOST);
        IS(s.answer, old);
        IS(s.events, old ? 0 : count);
        length = lay_store(store, 2, count);
        IS(length, OLLSKUVAN_STORE_BYTES(count));
        memset(rows, 0xc3, MOST * sizeof *rows);
        IS(ollskuvan_read_store(store, length, rows, count - 1).answer, OLLSKUVAN_REFUSED_ROOM);
        OK(untouched((const uint8_t *)rows, MOST * sizeof *rows));
        s = ollskuvan_read_store(store, length, rows, count);
        IS(s.answer, OLLSKUVAN_OK);
        IS(s.events, count);
        IS(s.ring_length, 256);
        IS(s.edition, 4);
        IS(s.budget, 7);
        OK(memcmp(rows, table, count * sizeof *rows) == 0);
        memset(written, 0xc3, OLLSKUVAN_STORE_BYTES(MOST) + 8);
        w = ollskuvan_write_store(table, count, 256, 4, 7, written, length - 1);
        IS(w.answer, OLLSKUVAN_REFUSED_ROOM);
        OK(untouched(written, length));
        w = ollskuvan_write_store(table, count, 256, 4, 7, written, length);
        IS(w.answer, OLLSKUVAN_OK);
        IS(w.bytes, length);
        OK(memcmp(written, store, length) == 0 && untouched(written + length, 8));
    }
    /* one event too many; a version that is not known; a row of the other version's length */
    length = lay_store(store, 2, MOST + 1);
    IS(ollskuvan_read_store(store, length, rows, MOST).answer, OLLSKUVAN_REFUSED_TABLE);
    IS(ollskuvan_write_store(table, MOST + 1, 256, 4, 7, written, length).answer, OLLSKUVAN_REFUSED_TABLE);
    store[6] = 3;
    IS(ollskuvan_read_store(store, length, rows, MOST).answer, OLLSKUVAN_REFUSED_VERSION);
    store[6] = 1;
    IS(ollskuvan_read_store(store, length, rows, MOST).answer, OLLSKUVAN_REFUSED_ENTRY);

    free(store);
    free(written);
    free(table);
    free(rows);
}

/* The reader with a table: as record check but for 44, and 40 with the number all the same. */
static void test_read_events(void)
{
    struct ollskuvan_event *table = events(4);
    uint8_t *record = copied(DIRTY_OF_7, 32);
    uint64_t *words = malloc(57 * sizeof *words);
    size_t i;

    if (!words)
        abort();
    for (i = 0; i < 57; i++)
        words[i] = 99;
    table[2].sample_type = OLLSKUVAN_BIT_IDENTIFIER;
    JUDGED(ollskuvan_read_events(NULL, 0, NULL, 0, 257, NULL, 0), OLLSKUVAN_REFUSED_EDITION, 0);
    JUDGED(ollskuvan_read_events(NULL, 0, NULL, 0, 4, NULL, 0), OLLSKUVAN_REFUSED_TABLE, 0);
    JUDGED(ollskuvan_read_events(NULL, 0, table, 4, 4, NULL, 0), OLLSKUVAN_REFUSED_LENGTH, 0);
    JUDGED(ollskuvan_read_events(record, 32, table, 2, 4, NULL, 0), OLLSKUVAN_REFUSED_IDENTIFIER, 2);
    JUDGED(ollskuvan_read_events(record, 32, table, 4, 4, NULL, 0), OLLSKUVAN_REFUSED_ROOM, 3);
    JUDGED(ollskuvan_read_events(record, 32, table, 4, 4, words, 55), OLLSKUVAN_REFUSED_ROOM, 3);
    JUDGED(ollskuvan_read_events(record, 32, table, 4, 1, words, 57), OLLSKUVAN_REFUSED_SAMPLE_TYPE, 0);
    for (i = 0; i < 57; i++)
        IS(words[i], 99);
    JUDGED(ollskuvan_read_events(record, 32, table, 4, 4, words, 57), OLLSKUVAN_OK, 3);
    IS(words[OLLSKUVAN_COMM_PID], 1);
    IS(words[OLLSKUVAN_COMM_NAME_FLAG], 1);
    IS(words[OLLSKUVAN_TRAILER_IDENTIFIER], 7);
    IS(words[OLLSKUVAN_TRAILER_TIME], 0);
    IS(words[56], 99);

    free(table);
    free(record);
    free(words);
}

int main(void)
{
    IS(OLLSKUVAN_TRAILER_BITS, 66246);
    IS(OLLSKUVAN_FIELDS, 56);
    IS(sizeof(struct ollskuvan_drained), 32);
    IS(sizeof(struct ollskuvan_one), 40);
    IS(sizeof(struct ollskuvan_event), 56);
    IS(sizeof(struct ollskuvan_walked), 24);
    test_drain();
    test_drain_events();
    test_find_event();
    test_check_events();
    test_stores();
    test_check();
    test_branches();
    test_misc_meaning();
    test_copy_name();
    test_dirty_names();
    test_publish();
    test_replay();
    test_walk_short();
    test_walk_round();
    test_walk_calls();
    test_salvage();
    test_compare();
    test_dirty_values();
    test_read_write();
    test_edition_4();
    test_index_word();
    test_read_one();
    test_read_one_events();
    test_read_events();
    printf("exports from C: %d calls and bytes as due, %d not\n", passed, failed);
    return failed ? 1 : 0;
}
