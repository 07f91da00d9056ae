/*
 * The reader of one record in careful C: record check as careful_check.c has it, then the 56 words, each straight into
 * its place. Record check has found every byte and every count, so nothing is asked again. Its pieces are compiled once
 * more here, so that record check's own code stays as it is.
 */
#define careful_drain_not_used careful_drain_not_read
#define careful_once_drain_not_used careful_once_drain_not_read
#define careful_drain_events_not_used careful_drain_events_not_read
#define careful_check checked_first
#include "careful_check.c"
#undef careful_check

#include "values.h"

enum { WORDS = 56, TRAILER_AT = 48 };

/* Where the fill stands: the next byte of the record, and the record's words. */
struct pen {
    const uint8_t *record, *at;
    uint64_t *out;
};

/* By vectors: of a memset of this length gcc makes one `rep stos`, which is slow to start. */
static inline void zero_words(uint64_t *out)
{
#if defined(__SSE2__)
#pragma GCC unroll 28
    for (unsigned k = 0; k < WORDS; k += 2)
        _mm_storeu_si128((__m128i *)(out + k), _mm_setzero_si128());
#else
    memset(out, 0, WORDS * sizeof *out);
#endif
}

static inline void put64(struct pen *p, unsigned word)
{
    p->out[word] = load64(p->at);
    p->at += 8;
}

static inline void put32(struct pen *p, unsigned word)
{
    p->out[word] = load32(p->at);
    p->at += 4;
}

static inline void put16(struct pen *p, unsigned word)
{
    p->out[word] = load16(p->at);
    p->at += 2;
}

/* A list of so many bytes: its place. */
static inline void put_list(struct pen *p, unsigned word, uint64_t bytes)
{
    p->out[word] = (uint64_t)(p->at - p->record);
    p->at += bytes;
}

/* A name up to the fields' end: its place, its length, and whether bytes are left after its zero, which lies in the room's
 * last word. */
static inline void put_name(struct pen *p, unsigned word, const uint8_t *end, bool dirty)
{
    uint64_t last = load64(end - 8);
    uint64_t zeros = (last - UINT64_C(0x0101010101010101)) & ~last & UINT64_C(0x8080808080808080);
    p->out[word] = (uint64_t)(p->at - p->record);
    p->out[word + 1] = (uint64_t)(end - 8 + __builtin_ctzll(zeros) / 8 - p->at);
    p->out[word + 2] = dirty;
}

static uint64_t entry_bytes(uint64_t format)
{
    return 8 + (bit(format, 2) ? 8 : 0) + (bit(format, 4) ? 8 : 0);
}

/* The read values of READ and of SAMPLE, from this word on: value, n, both times, id, lost count, the entries. */
static inline void put_values(struct pen *p, unsigned word, uint64_t format)
{
    bool group = bit(format, 3);
    put64(p, group ? word + 1 : word);
    if (bit(format, 0))
        put64(p, word + 2);
    if (bit(format, 1))
        put64(p, word + 3);
    if (group) {
        put_list(p, word + 6, p->out[word + 1] * entry_bytes(format));
        return;
    }
    if (bit(format, 2))
        put64(p, word + 4);
    if (bit(format, 4))
        put64(p, word + 5);
}

/* Registers: the abi, and where that is not 0 as many words as the mask has ones; their place and number. */
static inline void put_registers(struct pen *p, unsigned word, uint64_t mask)
{
    put64(p, word);
    uint64_t count = p->out[word] == 0 ? 0 : (uint64_t)__builtin_popcountll(mask);
    put_list(p, word + 1, 8 * count);
    p->out[word + 2] = count;
}

static void put_lists(struct pen *p, uint64_t bits, uint64_t user_mask, uint64_t branch_sample_type)
{
    if (bit(bits, 5)) {
        put64(p, 20);
        put_list(p, 21, p->out[20] * 8);
    }
    if (bit(bits, 10)) {
        put32(p, 22);
        put_list(p, 23, p->out[22]);
    }
    if (bit(bits, 11)) {
        put64(p, 24);
        if (bit(branch_sample_type, INDEX_BIT))
            put64(p, 25);
        put_list(p, 26, p->out[24] * 24);
    }
    if (bit(bits, 12))
        put_registers(p, 27, user_mask);
    if (bit(bits, 13)) {
        put64(p, 30);
        put_list(p, 31, p->out[30]);
        if (p->out[30] != 0)
            put64(p, 32);
    }
}

static void put_sample(struct pen *p, uint64_t bits, uint64_t format, uint64_t user_mask, uint64_t interrupt_mask,
    uint64_t branch_sample_type)
{
    if (bit(bits, 16))
        put64(p, 3);
    if (bit(bits, 0))
        put64(p, 4);
    if (bit(bits, 1)) {
        put32(p, 5);
        put32(p, 6);
    }
    if (bit(bits, 2))
        put64(p, 7);
    if (bit(bits, 3))
        put64(p, 8);
    if (bit(bits, 6))
        put64(p, 9);
    if (bit(bits, 9))
        put64(p, 10);
    if (bit(bits, 7)) {
        put32(p, 11);
        p->at += 4;
    }
    if (bit(bits, 8))
        put64(p, 12);
    if (bit(bits, 4))
        put_values(p, 13, format);
    if ((bits & UINT64_C(0x3c20)) != 0)
        put_lists(p, bits, user_mask, branch_sample_type);
    if ((bits & (UINT64_C(1) << 14 | UINT64_C(1) << 24)) != 0)
        put64(p, 33);
    if (bit(bits, 15))
        put64(p, 34);
    if (bit(bits, 17))
        put64(p, 35);
    if (bit(bits, 18))
        put_registers(p, 36, interrupt_mask);
    if (bit(bits, 19))
        put64(p, 39);
    if (bit(bits, 21))
        put64(p, 40);
    if (bit(bits, 22))
        put64(p, 41);
    if (bit(bits, 23))
        put64(p, 42);
    if (bit(bits, 20)) {
        put64(p, 43);
        put_list(p, 44, p->out[43]);
    }
}

static void put_mmap2(struct pen *p, unsigned misc, const uint8_t *end, bool dirty)
{
    put32(p, 3);
    put32(p, 4);
    put64(p, 5);
    put64(p, 6);
    put64(p, 7);
    if (bit(misc, 14)) {
        p->out[12] = *p->at;
        p->at += 4;
        put_list(p, 13, 20);
    } else {
        put32(p, 8);
        put32(p, 9);
        put64(p, 10);
        put64(p, 11);
    }
    put32(p, 14);
    put32(p, 15);
    put_name(p, 16, end, dirty);
}

static void put_trailer(struct pen *p, uint64_t bits)
{
    if (bit(bits, 1)) {
        put32(p, TRAILER_AT);
        put32(p, TRAILER_AT + 1);
    }
    if (bit(bits, 2))
        put64(p, TRAILER_AT + 2);
    if (bit(bits, 6))
        put64(p, TRAILER_AT + 3);
    if (bit(bits, 9))
        put64(p, TRAILER_AT + 4);
    if (bit(bits, 7)) {
        put32(p, TRAILER_AT + 5);
        p->at += 4;
    }
    if (bit(bits, 16))
        put64(p, TRAILER_AT + 6);
}

/* The types whose layout no attribute changes. */
static void put_plain(struct pen *p, uint32_t type, const uint8_t *end, bool dirty)
{
    switch (type) {
    case 1:
        put32(p, 3), put32(p, 4), put64(p, 5), put64(p, 6), put64(p, 7);
        put_name(p, 8, end, dirty);
        break;
    case 2:
        put64(p, 3), put64(p, 4);
        break;
    case 3:
        put32(p, 3), put32(p, 4);
        put_name(p, 5, end, dirty);
        break;
    case 4:
    case 7:
        put32(p, 3), put32(p, 4), put32(p, 5), put32(p, 6), put64(p, 7);
        break;
    case 5:
    case 6:
    case 11:
        put64(p, 3), put64(p, 4), put64(p, 5);
        break;
    case 12:
    case 15:
        put32(p, 3), put32(p, 4);
        break;
    case 13:
    case 21:
        put64(p, 3);
        break;
    case 16:
        put32(p, 3), put32(p, 4), put64(p, 5);
        put_list(p, 6, 0);
        break;
    case 17:
        put64(p, 3), put32(p, 4), put16(p, 5), put16(p, 6);
        put_name(p, 7, end, dirty);
        break;
    case 18:
        put16(p, 3), put16(p, 4), put32(p, 5);
        put_list(p, 6, 8);
        p->out[7] = 8;
        break;
    case 19:
        put64(p, 3);
        put_name(p, 4, end, dirty);
        break;
    case 20:
        put64(p, 3), put16(p, 4), put16(p, 5);
        put_list(p, 6, p->out[4]);
        put_list(p, 7, 0);
        break;
    }
}

uint32_t careful_read(const uint8_t *record, size_t record_len, uint64_t sample_type, uint64_t read_format,
    uint32_t sample_id_all, uint64_t user_mask, uint64_t interrupt_mask, uint64_t branch_sample_type, uint32_t edition,
    uint64_t *out, size_t out_len)
{
    uint32_t why = checked_first(record, record_len, sample_type, read_format, sample_id_all, user_mask, interrupt_mask,
        branch_sample_type, edition);
    if (why != 0 && why != 44) /* 44: accepted, with the flag */
        return why;
    if (out_len < WORDS)
        return 40;
    zero_words(out);
    uint32_t type = load32(record), misc = load16(record + 4);
    out[0] = type;
    out[1] = misc;
    out[2] = load16(record + 6);
    struct pen p = { record, record + HEADER, out };
    if (type == 9) {
        put_sample(&p, sample_type, read_format, user_mask, interrupt_mask, branch_sample_type);
        return 0;
    }
    const uint8_t *end = record + record_len - (sample_id_all != 0 ? words(sample_type & OLLSKUVAN_TRAILER_BITS) : 0);
    if (type == 8) {
        put32(&p, 3), put32(&p, 4);
        put_values(&p, 5, read_format);
    } else if (type == 10) {
        put_mmap2(&p, misc, end, why == 44);
    } else {
        put_plain(&p, type, end, why == 44);
    }
    if (sample_id_all != 0) {
        p.at = end;
        put_trailer(&p, sample_type);
    }
    return 0;
}
