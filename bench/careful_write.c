/*
 * The writer of one record in careful C. One pass over the type's items adds up the size and remembers what was wrong, 41 or 42; a second one, where
 * nothing was, puts the bytes.
 */
#include <stdbool.h>
#include <stddef.h>
#include <stdint.h>
#include <string.h>

#include "../include/ollskuvan.h"
#include "bytes.h"
#include "writes.h"

enum { WORDS = 56, TRAILER_AT = 48, FREE_WORD = 55, MOST = 65535 };

static const uint8_t last_type[5] = { 0, 9, 15, 20, 21 };
static const uint8_t last_bit[5] = { 0, 15, 18, 24, 24 };
static const uint8_t last_format[5] = { 0, 3, 3, 3, 4 };

static inline bool has(uint64_t bits, unsigned n)
{
    return (bits >> n & 1) != 0;
}

struct given {
    const uint64_t *w;
    const uint8_t *source;
    uint64_t source_len, bits, format, user, interrupt, branch;
};

/* ---- the size ---- */

/* wrong: what must be 0, one over the other. */
struct sum {
    uint64_t at, wrong;
    bool beyond, unfit;
};

static inline void fit(const struct given *g, struct sum *s, unsigned word, unsigned bytes)
{
    if (bytes < 8)
        s->wrong |= g->w[word] >> 8 * bytes;
    s->at += bytes;
}

static inline void none(const struct given *g, struct sum *s, unsigned word)
{
    s->wrong |= g->w[word];
}

static inline void fit_if(const struct given *g, struct sum *s, bool on, unsigned word, unsigned bytes)
{
    if (on)
        fit(g, s, word, bytes);
    else
        none(g, s, word);
}

/* So many elements at the place in this word. */
static inline void fit_list(const struct given *g, struct sum *s, unsigned word, uint64_t count, uint64_t unit)
{
    uint64_t place = g->w[word];
    if (place > g->source_len || count > (g->source_len - place) / unit) {
        s->beyond = true;
        return;
    }
    if (count > MOST)
        s->unfit = true;
    else
        s->at += count * unit;
}

static inline void fit_name(const struct given *g, struct sum *s, unsigned word)
{
    uint64_t place = g->w[word], count = g->w[word + 1];
    if (place > g->source_len || count > g->source_len - place) {
        s->beyond = true;
        return;
    }
    if (count > MOST || memchr(g->source + place, 0, (size_t)count) != NULL)
        s->unfit = true;
    else
        s->at += count + 1;
    s->at = (s->at + 7) & ~UINT64_C(7);
}

static uint64_t entry_bytes(uint64_t format)
{
    return 8 + (has(format, 2) ? 8 : 0) + (has(format, 4) ? 8 : 0);
}

static inline void fit_values(const struct given *g, struct sum *s, unsigned word, bool on)
{
    bool group = has(g->format, 3);
    fit_if(g, s, on && !group, word, 8);
    fit_if(g, s, on && group, word + 1, 8);
    fit_if(g, s, on && has(g->format, 0), word + 2, 8);
    fit_if(g, s, on && has(g->format, 1), word + 3, 8);
    fit_if(g, s, on && !group && has(g->format, 2), word + 4, 8);
    fit_if(g, s, on && !group && has(g->format, 4), word + 5, 8);
    if (on && group)
        fit_list(g, s, word + 6, g->w[word + 1], entry_bytes(g->format));
}

static inline void fit_registers(const struct given *g, struct sum *s, unsigned word, bool on, uint64_t mask)
{
    if (!on) {
        none(g, s, word);
        none(g, s, word + 2);
        return;
    }
    fit(g, s, word, 8);
    s->wrong |= g->w[word + 2] ^ (g->w[word] == 0 ? 0 : (uint64_t)__builtin_popcountll(mask));
    fit_list(g, s, word + 1, g->w[word + 2], 8);
}

/* A size word, and so many bytes: with the word's own bytes a multiple of 8. */
static inline void fit_sized(const struct given *g, struct sum *s, unsigned word, bool on, unsigned bytes)
{
    if (!on) {
        none(g, s, word);
        return;
    }
    fit(g, s, word, bytes);
    s->wrong |= (g->w[word] + bytes) % 8;
    fit_list(g, s, word + 1, g->w[word], 1);
}

static inline void fit_counted(const struct given *g, struct sum *s, unsigned word, bool on, unsigned list, uint64_t unit)
{
    fit_if(g, s, on, word, 8);
    if (on)
        fit_list(g, s, list, g->w[word], unit);
}

static void fit_sample(const struct given *g, struct sum *s)
{
    uint64_t x = g->bits;
    fit_if(g, s, has(x, 16), 3, 8);
    fit_if(g, s, has(x, 0), 4, 8);
    fit_if(g, s, has(x, 1), 5, 4);
    fit_if(g, s, has(x, 1), 6, 4);
    fit_if(g, s, has(x, 2), 7, 8);
    fit_if(g, s, has(x, 3), 8, 8);
    fit_if(g, s, has(x, 6), 9, 8);
    fit_if(g, s, has(x, 9), 10, 8);
    fit_if(g, s, has(x, 7), 11, 4);
    s->at += has(x, 7) ? 4 : 0;
    fit_if(g, s, has(x, 8), 12, 8);
    fit_values(g, s, 13, has(x, 4));
    fit_counted(g, s, 20, has(x, 5), 21, 8);
    fit_sized(g, s, 22, has(x, 10), 4);
    fit_if(g, s, has(x, 11) && has(g->branch, 17), 25, 8);
    fit_counted(g, s, 24, has(x, 11), 26, 24);
    fit_registers(g, s, 27, has(x, 12), g->user);
    fit_sized(g, s, 30, has(x, 13), 8);
    if (has(x, 13)) {
        s->unfit |= g->w[32] > g->w[30];
        s->at += g->w[30] != 0 ? 8 : 0;
    } else {
        none(g, s, 32);
    }
    fit_if(g, s, has(x, 14) || has(x, 24), 33, 8);
    fit_if(g, s, has(x, 15), 34, 8);
    fit_if(g, s, has(x, 17), 35, 8);
    fit_registers(g, s, 36, has(x, 18), g->interrupt);
    fit_if(g, s, has(x, 19), 39, 8);
    fit_if(g, s, has(x, 21), 40, 8);
    fit_if(g, s, has(x, 22), 41, 8);
    fit_if(g, s, has(x, 23), 42, 8);
    fit_sized(g, s, 43, has(x, 20), 8);
}

static void fit_trailer(const struct given *g, struct sum *s, uint64_t x)
{
    fit_if(g, s, has(x, 1), 48, 4);
    fit_if(g, s, has(x, 1), 49, 4);
    fit_if(g, s, has(x, 2), 50, 8);
    fit_if(g, s, has(x, 6), 51, 8);
    fit_if(g, s, has(x, 9), 52, 8);
    fit_if(g, s, has(x, 7), 53, 4);
    s->at += has(x, 7) ? 4 : 0;
    fit_if(g, s, has(x, 16), 54, 8);
}

static void fit_mmap2(const struct given *g, struct sum *s, bool build)
{
    fit(g, s, 3, 4), fit(g, s, 4, 4), fit(g, s, 5, 8), fit(g, s, 6, 8), fit(g, s, 7, 8);
    fit_if(g, s, !build, 8, 4);
    fit_if(g, s, !build, 9, 4);
    fit_if(g, s, !build, 10, 8);
    fit_if(g, s, !build, 11, 8);
    if (build) {
        uint64_t before = s->at;
        s->unfit |= g->w[12] > 20;
        fit_list(g, s, 13, g->w[12], 1);
        s->at = before + 24;
    } else {
        none(g, s, 12);
    }
    fit(g, s, 14, 4), fit(g, s, 15, 4);
    fit_name(g, s, 16);
}

/* The fields of a type; the words before the end of its own. */
static unsigned fit_fields(const struct given *g, struct sum *s, uint64_t type, uint64_t misc)
{
    switch (type) {
    case 1:
        fit(g, s, 3, 4), fit(g, s, 4, 4), fit(g, s, 5, 8), fit(g, s, 6, 8), fit(g, s, 7, 8);
        fit_name(g, s, 8);
        return 11;
    case 2:
        fit(g, s, 3, 8), fit(g, s, 4, 8);
        return 5;
    case 3:
        fit(g, s, 3, 4), fit(g, s, 4, 4);
        fit_name(g, s, 5);
        return 8;
    case 4:
    case 7:
        fit(g, s, 3, 4), fit(g, s, 4, 4), fit(g, s, 5, 4), fit(g, s, 6, 4), fit(g, s, 7, 8);
        return 8;
    case 5:
    case 6:
    case 11:
        fit(g, s, 3, 8), fit(g, s, 4, 8), fit(g, s, 5, 8);
        return 6;
    case 8:
        fit(g, s, 3, 4), fit(g, s, 4, 4);
        fit_values(g, s, 5, true);
        return 12;
    case 9:
        fit_sample(g, s);
        return 45;
    case 10:
        fit_mmap2(g, s, has(misc, 14));
        return 19;
    case 12:
    case 15:
        fit(g, s, 3, 4), fit(g, s, 4, 4);
        return 5;
    case 13:
    case 21:
        fit(g, s, 3, 8);
        return 4;
    case 16:
        fit(g, s, 3, 4), fit(g, s, 4, 4), fit(g, s, 5, 8);
        fit_list(g, s, 6, g->w[5], 16);
        return 7;
    case 17:
        fit(g, s, 3, 8), fit(g, s, 4, 4), fit(g, s, 5, 2), fit(g, s, 6, 2);
        fit_name(g, s, 7);
        return 10;
    case 18:
        fit(g, s, 3, 2), fit(g, s, 4, 2), fit(g, s, 5, 4);
        s->wrong |= g->w[7] ^ 8;
        fit_list(g, s, 6, g->w[7], 1);
        return 8;
    case 19:
        fit(g, s, 3, 8);
        fit_name(g, s, 4);
        return 7;
    case 20:
        fit(g, s, 3, 8), fit(g, s, 4, 2), fit(g, s, 5, 2);
        fit_list(g, s, 6, g->w[4], 1);
        fit_list(g, s, 7, g->w[5], 1);
        s->at = (s->at + 7) & ~UINT64_C(7);
        return 8;
    }
    return 3;
}

/* ---- the bytes ---- */

static inline uint8_t *put(const struct given *g, uint8_t *at, bool on, unsigned word, unsigned bytes)
{
    if (!on)
        return at;
    memcpy(at, &g->w[word], bytes);
    return at + bytes;
}

static inline uint8_t *put_list(const struct given *g, uint8_t *at, unsigned word, uint64_t bytes)
{
    memcpy(at, g->source + g->w[word], (size_t)bytes);
    return at + bytes;
}

static inline uint8_t *put_zeros(uint8_t *at, uint64_t bytes)
{
    memset(at, 0, (size_t)bytes);
    return at + bytes;
}

static inline uint8_t *put_name(const struct given *g, uint8_t *at, unsigned word, const uint8_t *start)
{
    at = put_list(g, at, word, g->w[word + 1]);
    return put_zeros(at, 8 - (uint64_t)(at - start) % 8);
}

static inline uint8_t *put_values(const struct given *g, uint8_t *at, unsigned word)
{
    bool group = has(g->format, 3);
    at = put(g, at, !group, word, 8);
    at = put(g, at, group, word + 1, 8);
    at = put(g, at, has(g->format, 0), word + 2, 8);
    at = put(g, at, has(g->format, 1), word + 3, 8);
    if (group)
        return put_list(g, at, word + 6, g->w[word + 1] * entry_bytes(g->format));
    at = put(g, at, has(g->format, 2), word + 4, 8);
    return put(g, at, has(g->format, 4), word + 5, 8);
}

static uint8_t *put_cpu(const struct given *g, uint8_t *at, bool on, unsigned word)
{
    at = put(g, at, on, word, 4);
    return on ? put_zeros(at, 4) : at;
}

static uint8_t *put_sample(const struct given *g, uint8_t *at)
{
    uint64_t x = g->bits;
    at = put(g, at, has(x, 16), 3, 8);
    at = put(g, at, has(x, 0), 4, 8);
    at = put(g, at, has(x, 1), 5, 4);
    at = put(g, at, has(x, 1), 6, 4);
    at = put(g, at, has(x, 2), 7, 8);
    at = put(g, at, has(x, 3), 8, 8);
    at = put(g, at, has(x, 6), 9, 8);
    at = put(g, at, has(x, 9), 10, 8);
    at = put_cpu(g, at, has(x, 7), 11);
    at = put(g, at, has(x, 8), 12, 8);
    if (has(x, 4))
        at = put_values(g, at, 13);
    if (has(x, 5)) {
        at = put(g, at, true, 20, 8);
        at = put_list(g, at, 21, g->w[20] * 8);
    }
    if (has(x, 10)) {
        at = put(g, at, true, 22, 4);
        at = put_list(g, at, 23, g->w[22]);
    }
    if (has(x, 11)) {
        at = put(g, at, true, 24, 8);
        at = put(g, at, has(g->branch, 17), 25, 8);
        at = put_list(g, at, 26, g->w[24] * 24);
    }
    if (has(x, 12)) {
        at = put(g, at, true, 27, 8);
        at = put_list(g, at, 28, g->w[29] * 8);
    }
    if (has(x, 13)) {
        at = put(g, at, true, 30, 8);
        at = put_list(g, at, 31, g->w[30]);
        at = put(g, at, g->w[30] != 0, 32, 8);
    }
    at = put(g, at, has(x, 14) || has(x, 24), 33, 8);
    at = put(g, at, has(x, 15), 34, 8);
    at = put(g, at, has(x, 17), 35, 8);
    if (has(x, 18)) {
        at = put(g, at, true, 36, 8);
        at = put_list(g, at, 37, g->w[38] * 8);
    }
    at = put(g, at, has(x, 19), 39, 8);
    at = put(g, at, has(x, 21), 40, 8);
    at = put(g, at, has(x, 22), 41, 8);
    at = put(g, at, has(x, 23), 42, 8);
    if (has(x, 20)) {
        at = put(g, at, true, 43, 8);
        at = put_list(g, at, 44, g->w[43]);
    }
    return at;
}

static void put_trailer(const struct given *g, uint8_t *at, uint64_t x)
{
    at = put(g, at, has(x, 1), 48, 4);
    at = put(g, at, has(x, 1), 49, 4);
    at = put(g, at, has(x, 2), 50, 8);
    at = put(g, at, has(x, 6), 51, 8);
    at = put(g, at, has(x, 9), 52, 8);
    at = put_cpu(g, at, has(x, 7), 53);
    put(g, at, has(x, 16), 54, 8);
}

static uint8_t *put_mmap2(const struct given *g, uint8_t *at, bool build, const uint8_t *start)
{
    at = put(g, at, true, 3, 4), at = put(g, at, true, 4, 4);
    at = put(g, at, true, 5, 8), at = put(g, at, true, 6, 8), at = put(g, at, true, 7, 8);
    if (build) {
        at = put(g, at, true, 12, 1);
        at = put_zeros(at, 3);
        at = put_list(g, at, 13, g->w[12]);
        at = put_zeros(at, 20 - g->w[12]);
    } else {
        at = put(g, at, true, 8, 4), at = put(g, at, true, 9, 4);
        at = put(g, at, true, 10, 8), at = put(g, at, true, 11, 8);
    }
    at = put(g, at, true, 14, 4), at = put(g, at, true, 15, 4);
    return put_name(g, at, 16, start);
}

static uint8_t *put_fields(const struct given *g, uint8_t *at, uint64_t type, uint64_t misc, const uint8_t *start)
{
    switch (type) {
    case 1:
        at = put(g, at, true, 3, 4), at = put(g, at, true, 4, 4), at = put(g, at, true, 5, 8), at = put(g, at, true, 6, 8), at = put(g, at, true, 7, 8);
        return put_name(g, at, 8, start);
    case 2:
        at = put(g, at, true, 3, 8), at = put(g, at, true, 4, 8);
        return at;
    case 3:
        at = put(g, at, true, 3, 4), at = put(g, at, true, 4, 4);
        return put_name(g, at, 5, start);
    case 4:
    case 7:
        at = put(g, at, true, 3, 4), at = put(g, at, true, 4, 4), at = put(g, at, true, 5, 4), at = put(g, at, true, 6, 4), at = put(g, at, true, 7, 8);
        return at;
    case 5:
    case 6:
    case 11:
        at = put(g, at, true, 3, 8), at = put(g, at, true, 4, 8), at = put(g, at, true, 5, 8);
        return at;
    case 8:
        at = put(g, at, true, 3, 4), at = put(g, at, true, 4, 4);
        return put_values(g, at, 5);
    case 9:
        return put_sample(g, at);
    case 10:
        return put_mmap2(g, at, has(misc, 14), start);
    case 12:
    case 15:
        at = put(g, at, true, 3, 4), at = put(g, at, true, 4, 4);
        return at;
    case 13:
    case 21:
        at = put(g, at, true, 3, 8);
        return at;
    case 16:
        at = put(g, at, true, 3, 4), at = put(g, at, true, 4, 4), at = put(g, at, true, 5, 8);
        return put_list(g, at, 6, g->w[5] * 16);
    case 17:
        at = put(g, at, true, 3, 8), at = put(g, at, true, 4, 4), at = put(g, at, true, 5, 2), at = put(g, at, true, 6, 2);
        return put_name(g, at, 7, start);
    case 18:
        at = put(g, at, true, 3, 2), at = put(g, at, true, 4, 2), at = put(g, at, true, 5, 4);
        return put_list(g, at, 6, 8);
    case 19:
        at = put(g, at, true, 3, 8);
        return put_name(g, at, 4, start);
    case 20:
        at = put(g, at, true, 3, 8), at = put(g, at, true, 4, 2), at = put(g, at, true, 5, 2);
        at = put_list(g, at, 6, g->w[4]);
        at = put_list(g, at, 7, g->w[5]);
        return put_zeros(at, (8 - (uint64_t)(at - start) % 8) % 8);
    }
    return at;
}

/* ---- the writer ---- */

static uint32_t unread(uint64_t type, uint64_t misc, uint32_t edition, uint64_t sample_type, uint64_t read_format, bool id_all,
    uint64_t branch_sample_type)
{
    if (type == 0 || type > last_type[edition])
        return 20;
    if (sample_type >> (last_bit[edition] + 1) != 0 && (type == 9 || id_all))
        return 21;
    if (read_format >> (last_format[edition] + 1) != 0 && (type == 8 || (type == 9 && has(sample_type, 4))))
        return 22;
    if (type == 10 && has(misc, 14) && edition < 3)
        return 23;
    if (type == 9 && has(sample_type, 11) && (branch_sample_type >> 19 != 0 || (edition < 3 && has(branch_sample_type, 17))))
        return 25;
    if (type == 9 && has(sample_type, 14) && has(sample_type, 24))
        return 24;
    return 0;
}

static bool flagged(const uint64_t *w)
{
    switch (w[0]) {
    case 1:
        return w[10] != 0;
    case 3:
        return w[7] != 0;
    case 10:
        return w[18] != 0;
    case 17:
        return w[9] != 0;
    case 19:
        return w[6] != 0;
    }
    return false;
}

uint32_t careful_write(const uint64_t *fields, size_t fields_len, const uint8_t *source, size_t source_len,
    uint64_t sample_type, uint64_t read_format, uint32_t sample_id_all, uint64_t user_mask, uint64_t interrupt_mask,
    uint64_t branch_sample_type, uint32_t edition, uint8_t *buffer, size_t buffer_len)
{
    if (edition - 1 > 3)
        return 2;
    if (fields_len < WORDS)
        return 42;
    uint64_t type = fields[0], misc = fields[1], size = fields[2];
    uint32_t why = unread(type, misc, edition, sample_type, read_format, sample_id_all != 0, branch_sample_type);
    if (why != 0)
        return why;
    if (flagged(fields))
        return 43;
    struct given g = { fields, source, source_len, sample_type, read_format, user_mask, interrupt_mask, branch_sample_type };
    struct sum s = { 8, 0, false, false };
    unsigned own = fit_fields(&g, &s, type, misc);
    if (s.beyond)
        return 41;
    uint64_t trailer = sample_id_all != 0 && type != 9 ? sample_type : 0;
    if (trailer != 0)
        fit_trailer(&g, &s, trailer);
    else
        for (unsigned k = TRAILER_AT; k < FREE_WORD; k++)
            s.wrong |= fields[k];
    uint64_t spare = s.wrong | fields[FREE_WORD];
    for (unsigned k = own; k < TRAILER_AT; k++)
        spare |= fields[k];
    if (s.unfit || spare != 0 || misc > 65535 || size != s.at || size > MOST || size % 8 != 0)
        return 42;
    if (buffer_len < size)
        return 40;
    uint32_t kind = (uint32_t)type;
    uint16_t two[2] = { (uint16_t)misc, (uint16_t)size };
    memcpy(buffer, &kind, 4);
    memcpy(buffer + 4, two, 4);
    uint8_t *end = put_fields(&g, buffer + 8, type, misc, buffer);
    if (trailer != 0)
        put_trailer(&g, end, trailer);
    return 0;
}
