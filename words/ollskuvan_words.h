/*
 * The table of a value's words, for the program and the tests in this tree. It
 * is not installed: callers use ollskuvan_word_name of ollskuvan.h.
 *
 * One row for each constant OLLSKUVAN_<TYPE>_<FIELD> of ollskuvan.h.
 */
#ifndef OLLSKUVAN_WORDS_H
#define OLLSKUVAN_WORDS_H

#include <stddef.h>
#include <stdint.h>

/* How a word is shown. */
enum ollskuvan_form {
    /* a number */
    OLLSKUVAN_FORM_DECIMAL,
    OLLSKUVAN_FORM_HEX,
    OLLSKUVAN_FORM_THREAD, /* a pid or tid: 2^32 - 1 is -1 */
    OLLSKUVAN_FORM_ABI,
    OLLSKUVAN_FORM_FLAG, /* of a name, whose place and count are the two words before: 1 where stale bytes follow it */
    /* told beside something else, or not at all */
    OLLSKUVAN_FORM_HEADER, /* in the record's first line */
    OLLSKUVAN_FORM_COUNT,  /* with its list */
    /* the place of a list; its row names the word of its count */
    OLLSKUVAN_FORM_NAME,
    OLLSKUVAN_FORM_BYTES,
    OLLSKUVAN_FORM_DIGITS, /* a few bytes, as one run of hex digits */
    OLLSKUVAN_FORM_ADDRESSES,
    OLLSKUVAN_FORM_USER_REGISTERS,
    OLLSKUVAN_FORM_INTERRUPT_REGISTERS,
    OLLSKUVAN_FORM_READ_VALUES, /* value, then id and lost count where read-format bits 2 and 4 are set */
    OLLSKUVAN_FORM_BRANCHES,    /* from, to, flags */
    OLLSKUVAN_FORM_NAMESPACES   /* dev, inode */
};

/* When a word's field stands in the record: all of these hold. Zero asks nothing. */
struct ollskuvan_when {
    uint64_t sample;       /* one of these bits of the sample type is set */
    uint64_t format_set;   /* all of these bits of the read format are set */
    uint64_t format_clear; /* none of these is set */
    uint64_t branch;       /* all of these bits of the branch sample type are set */
    uint16_t misc_set;
    uint16_t misc_clear;
    uint8_t not_zero; /* this word of the value is not 0 */
};

struct ollskuvan_word {
    uint32_t type; /* 0: every type; for the trailer's words, every type but SAMPLE */
    uint32_t word;
    const char *name;
    uint8_t width; /* bytes of the field; 0: a place, or a count that has no field of its own */
    uint8_t form;
    uint8_t count; /* of a list: the word of its count */
    struct ollskuvan_when when;
};

extern const struct ollskuvan_word ollskuvan_words[];
extern const size_t ollskuvan_words_count;

/* A value of this known type has the row's word. */
int ollskuvan_word_is_of(const struct ollskuvan_word *row, uint64_t type);

/* The attributes of the event that wrote a record, and the record's value as the library read it. */
struct ollskuvan_written {
    uint64_t sample_type, read_format, branch_sample_type;
    int sample_id_all;
    const uint64_t *fields;
};

/* The row's field stands in that record. */
int ollskuvan_word_is_present(const struct ollskuvan_word *row, const struct ollskuvan_written *written);

/* The row of the field with this number, as ollskuvan_compare counts them, 1 and on; of 4 that of the identifier. A null
 * pointer for 0, which has no word, and where the record has no such field. */
const struct ollskuvan_word *ollskuvan_field_row(const struct ollskuvan_written *written, uint32_t number);

/* The texts of an answer as they stand in the table: a null pointer for none. */
struct ollskuvan_answer {
    uint32_t number;
    const char *stop;    /* why a drain stopped */
    const char *refusal; /* the answer to a record, a name or a value */
};

extern const struct ollskuvan_answer ollskuvan_answers[];
extern const size_t ollskuvan_answers_count;

#endif
