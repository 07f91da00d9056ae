/*
 * Values as text: numbers, lists and bytes, a field a line.
 */
#ifndef TOOL_SHOW_H
#define TOOL_SHOW_H

#include <stdbool.h>
#include <stddef.h>
#include <stdint.h>

#include "image.h"
#include "ollskuvan_words.h"

/* One record that ollskuvan_read accepted. */
struct value {
    struct ring_attributes of; /* of the event that wrote it */
    const uint8_t *record;
    const uint64_t *fields;
    bool whole; /* lists are not shortened */
};

/* The row's field stands in this record. */
bool is_selected(const struct value *value, const struct ollskuvan_word *row);

/* The bytes of one element of a list. */
uint64_t element_bytes(const struct value *value, const struct ollskuvan_word *list);

/* Every field that is selected, by its name. */
void show_fields(const struct value *value);

/* A journal entry as 32 hex digits, and a newline. */
void show_entry(const uint8_t *entry);

/* "0x2002 (user, exec)" */
void show_misc(uint64_t type, uint64_t misc);

/* "0x86 (pid and tid, time, cpu)" */
void show_sample_type(uint64_t sample_type);
void show_read_format(uint64_t read_format);
void show_branch_type(uint64_t branch_sample_type);

/* The attributes of an event, four lines. */
void show_attributes(uint64_t sample_type, uint64_t read_format, uint64_t user_mask, uint64_t interrupt_mask,
    uint64_t branch_sample_type);

/* A name in quotes. */
void show_name(const uint8_t *name, uint64_t count);

/* Sixteen bytes a line; a few of them unless the whole is wanted. */
void show_bytes(const uint8_t *bytes, size_t count, bool whole);

#endif
