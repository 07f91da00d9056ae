/*
 * Values built from nothing by the rules that ollskuvan.h states: widths, sizes,
 * entries, places, ignored bytes. Each is written by ollskuvan_write and read
 * back; then it is spoiled in every way that the header names.
 *
 *   values check            tries the header's sentences; prints what is wrong
 *   values made FOLDER      writes images that hold every record type, for dump
 *   values indexed FOLDER   writes images with a branch sample type
 *   values dirty FOLDER     writes an image of records with stale bytes after their names
 */
#include <inttypes.h>
#include <stdio.h>
#include <stdlib.h>
#include <string.h>

#include "bytes.h"
#include "image.h"
#include "show.h"

enum { SOURCE = 4096, ROUNDS = 400, TYPES = 21 };

static unsigned wrongs;
static uint64_t tried;
static uint8_t source[SOURCE], record[OLLSKUVAN_RECORD_MAX];

static uint64_t some(uint64_t below)
{
    static uint64_t state = 88172645463325252u;
    state ^= state << 13;
    state ^= state >> 7;
    state ^= state << 17;
    return below == 0 ? state : state % below;
}

static void is(const char *what, uint64_t type, const struct ollskuvan_word *row, uint64_t got, uint64_t due)
{
    tried++;
    if (got == due)
        return;
    wrongs++;
    printf("WRONG: %s of %s: %s: %" PRIu64 " where %" PRIu64 " is due\n", row != NULL ? row->name : "all",
        ollskuvan_type_name(type), what, got, due);
}

/* ---- a value, by the table and the header's rules ---- */

struct made {
    struct ring_attributes of;
    uint64_t fields[OLLSKUVAN_FIELDS];
    bool plain; /* numbers that are easily read, instead of any that fit */
};

static struct value view(const struct made *made)
{
    const struct value value = { made->of, record, made->fields, false };
    return value;
}

static bool here(const struct made *made, const struct ollskuvan_word *row)
{
    const struct value value = view(made);
    return ollskuvan_word_is_of(row, made->fields[OLLSKUVAN_TYPE]) && is_selected(&value, row);
}

static bool is_list(const struct ollskuvan_word *row)
{
    return row->count != 0;
}

static bool is_number(const struct ollskuvan_word *row)
{
    return row->width != 0 && row->form != OLLSKUVAN_FORM_COUNT && row->form != OLLSKUVAN_FORM_HEADER;
}

static uint64_t greatest(const struct ollskuvan_word *row)
{
    return row->width == 8 ? UINT64_MAX : (UINT64_C(1) << 8 * row->width) - 1;
}

static uint64_t ones(uint64_t mask)
{
    uint64_t count = 0;
    for (; mask != 0; mask &= mask - 1)
        count++;
    return count;
}

/* Raw size plus 4, stack and aux size are multiples of 8. */
static uint64_t bytes_in(const struct ollskuvan_word *list, uint64_t few)
{
    if (list->type == OLLSKUVAN_TYPE_SAMPLE)
        return list->word == OLLSKUVAN_SAMPLE_RAW ? few * 8 + 4 : few * 8;
    return few * 3;
}

static uint64_t elements_of(const struct made *made, const struct ollskuvan_word *list)
{
    uint64_t few = made->plain ? 5 : some(8);
    switch (list->form) {
    case OLLSKUVAN_FORM_USER_REGISTERS:
        return made->fields[OLLSKUVAN_SAMPLE_USER_ABI] != 0 ? ones(made->of.user_mask) : 0;
    case OLLSKUVAN_FORM_INTERRUPT_REGISTERS:
        return made->fields[OLLSKUVAN_SAMPLE_INTERRUPT_ABI] != 0 ? ones(made->of.interrupt_mask) : 0;
    case OLLSKUVAN_FORM_DIGITS:
        return list->type == OLLSKUVAN_TYPE_BPF_EVENT ? 8 : made->plain ? 20 : some(21);
    case OLLSKUVAN_FORM_NAME:
        return made->plain ? 4 : some(30);
    case OLLSKUVAN_FORM_BYTES:
        return bytes_in(list, few);
    default:
        return few;
    }
}

static uint64_t bytes_of(const struct made *made, const struct ollskuvan_word *list)
{
    const struct value value = view(made);
    return made->fields[list->count] * element_bytes(&value, list);
}

static uint64_t number_for(const struct made *made, const struct ollskuvan_word *row)
{
    if (row->form == OLLSKUVAN_FORM_ABI)
        return made->plain ? 2 : some(3);
    if (row->word == OLLSKUVAN_SAMPLE_STACK_FILLED && row->type == OLLSKUVAN_TYPE_SAMPLE)
        return made->plain ? 24 : some(made->fields[OLLSKUVAN_SAMPLE_STACK_COUNT] + 1);
    if (made->plain)
        return row->form == OLLSKUVAN_FORM_THREAD && row->word == OLLSKUVAN_TRAILER_TID ? UINT32_MAX : 1000 + row->word;
    return some(0) & greatest(row);
}

static void fill(struct made *made, uint64_t type, uint64_t misc)
{
    memset(made->fields, 0, sizeof made->fields);
    made->fields[OLLSKUVAN_TYPE] = type;
    made->fields[OLLSKUVAN_MISC] = misc;
    for (size_t i = 0; i < ollskuvan_words_count; i++) {
        const struct ollskuvan_word *row = &ollskuvan_words[i];
        if (!here(made, row))
            continue;
        if (is_number(row))
            made->fields[row->word] = number_for(made, row);
        if (is_list(row)) {
            made->fields[row->count] = elements_of(made, row);
            made->fields[row->word] = made->plain ? row->word * 8 : some(SOURCE + 1 - bytes_of(made, row));
        }
    }
}

/* The header's rule. Registers' abi, counts and sizes are fields with a width. */
static uint64_t size_of(const struct made *made)
{
    uint64_t body = 0, type = made->fields[OLLSKUVAN_TYPE];
    uint64_t trailer = 8 * ones(made->of.sample_type & OLLSKUVAN_TRAILER_BITS);
    for (size_t i = 0; i < ollskuvan_words_count; i++) {
        const struct ollskuvan_word *row = &ollskuvan_words[i];
        if (!here(made, row) || row->form == OLLSKUVAN_FORM_HEADER || row->word >= OLLSKUVAN_TRAILER_PID)
            continue;
        if (row->form == OLLSKUVAN_FORM_DIGITS && row->type == OLLSKUVAN_TYPE_MMAP2)
            body += 23; /* a build id takes 24 with its size */
        else if (is_list(row))
            body += bytes_of(made, row) + (row->form == OLLSKUVAN_FORM_NAME);
        else
            body += row->width + (type == OLLSKUVAN_TYPE_SAMPLE && row->word == OLLSKUVAN_SAMPLE_CPU ? 4u : 0u);
    }
    return 8 + (body + 7) / 8 * 8 + (type != OLLSKUVAN_TYPE_SAMPLE && made->of.sample_id_all != 0 ? trailer : 0);
}

static uint32_t write_to(const struct made *made, uint8_t *buffer, size_t room)
{
    const struct ring_attributes *a = &made->of;
    return ollskuvan_write(made->fields, OLLSKUVAN_FIELDS, source, SOURCE, a->sample_type, a->read_format,
        a->sample_id_all, a->user_mask, a->interrupt_mask, a->branch_sample_type, a->edition,
        buffer, room);
}

static uint32_t write_made(const struct made *made)
{
    return write_to(made, record, sizeof record);
}

static uint32_t read_made(const struct made *made, uint64_t *fields)
{
    const struct ring_attributes *a = &made->of;
    return ollskuvan_read(record, (size_t)made->fields[OLLSKUVAN_SIZE], a->sample_type, a->read_format,
        a->sample_id_all, a->user_mask, a->interrupt_mask, a->branch_sample_type, a->edition,
        fields, OLLSKUVAN_FIELDS);
}

/* ---- the header's sentences ---- */

/* The word read back is the one written; of a list, the bytes at the places are the same. */
static bool same_word(const struct made *made, const struct ollskuvan_word *row, const uint64_t *back)
{
    if (!is_list(row))
        return back[row->word] == made->fields[row->word];
    if (!here(made, row))
        return back[row->word] == 0;
    return memcmp(record + back[row->word], source + made->fields[row->word], (size_t)bytes_of(made, row)) == 0;
}

static void check_round_trip(const struct made *made)
{
    uint64_t type = made->fields[OLLSKUVAN_TYPE], back[OLLSKUVAN_FIELDS];
    is("writing", type, NULL, write_made(made), OLLSKUVAN_OK);
    is("reading", type, NULL, read_made(made, back), OLLSKUVAN_OK);
    for (size_t i = 0; i < ollskuvan_words_count; i++)
        if (ollskuvan_word_is_of(&ollskuvan_words[i], type))
            is("read back", type, &ollskuvan_words[i], same_word(made, &ollskuvan_words[i], back), 1);
}

/* But for a name's flag, which is told apart. */
static bool reads_the_same(const struct made *made, bool *flagged)
{
    uint64_t back[OLLSKUVAN_FIELDS];
    *flagged = false;
    if (read_made(made, back) != OLLSKUVAN_OK || back[OLLSKUVAN_TYPE] != made->fields[OLLSKUVAN_TYPE])
        return false;
    for (size_t i = 0; i < ollskuvan_words_count; i++) {
        const struct ollskuvan_word *row = &ollskuvan_words[i];
        if (!ollskuvan_word_is_of(row, back[OLLSKUVAN_TYPE]))
            continue;
        if (row->form == OLLSKUVAN_FORM_FLAG)
            *flagged = back[row->word] != 0;
        else if (!same_word(made, row, back))
            return false;
    }
    return true;
}

/* How many bytes follow the zero of a name. */
static uint64_t stale_room(const struct made *made)
{
    uint64_t count = 0;
    for (size_t i = 0; i < ollskuvan_words_count; i++)
        if (here(made, &ollskuvan_words[i]) && ollskuvan_words[i].form == OLLSKUVAN_FORM_NAME)
            count += 7 - made->fields[ollskuvan_words[i].count] % 8;
    return count;
}

/* How many bytes the header says are ignored. */
static uint64_t ignored_bytes(const struct made *made)
{
    const uint64_t *f = made->fields, type = f[OLLSKUVAN_TYPE];
    uint64_t count = stale_room(made);
    for (size_t i = 0; i < ollskuvan_words_count; i++) {
        const struct ollskuvan_word *row = &ollskuvan_words[i];
        if (!here(made, row))
            continue;
        if (row->word == OLLSKUVAN_TRAILER_CPU || (type == OLLSKUVAN_TYPE_SAMPLE && row->word == OLLSKUVAN_SAMPLE_CPU))
            count += 4;
        if (type == OLLSKUVAN_TYPE_MMAP2 && row->word == OLLSKUVAN_MMAP2_BUILD_ID)
            count += 3 + 20 - f[row->count];
    }
    if (type == OLLSKUVAN_TYPE_TEXT_POKE)
        count += (8 - (20 + f[OLLSKUVAN_TEXT_POKE_OLD_COUNT] + f[OLLSKUVAN_TEXT_POKE_NEW_COUNT]) % 8) % 8;
    return count;
}

static uint32_t check_made(const struct made *made)
{
    const struct ring_attributes *a = &made->of;
    return ollskuvan_check(record, (size_t)made->fields[OLLSKUVAN_SIZE], a->sample_type, a->read_format,
        a->sample_id_all, a->user_mask, a->interrupt_mask, a->branch_sample_type, a->edition);
}

/* A byte is ignored if another one in its place reads as the same value, but for a name's flag: it was written as 0.
 * Those after a name's zero raise the flag, and no other does; record check says 44 then, and only then. */
static void check_ignored(const struct made *made)
{
    uint64_t type = made->fields[OLLSKUVAN_TYPE], ignored = 0, raising = 0;
    bool flagged;
    write_made(made);
    for (size_t i = 0; i < made->fields[OLLSKUVAN_SIZE]; i++) {
        uint8_t before = record[i];
        record[i] ^= 0xff;
        if (i != 6 && i != 7 && reads_the_same(made, &flagged)) { /* not the size */
            ignored++;
            raising += flagged;
            is("an ignored byte as written", type, NULL, before, 0);
            is("record check of stale bytes", type, NULL, check_made(made), flagged ? OLLSKUVAN_DIRTY_NAME : OLLSKUVAN_OK);
        }
        record[i] = before;
    }
    is("the number of ignored bytes", type, NULL, ignored, ignored_bytes(made));
    is("the number of bytes that raise the flag", type, NULL, raising, stale_room(made));
}

/* A selected list has the place where its bytes stand or would stand, which is never before the body. */
static void check_places(const struct made *made)
{
    uint64_t type = made->fields[OLLSKUVAN_TYPE], back[OLLSKUVAN_FIELDS];
    write_made(made);
    read_made(made, back);
    for (size_t i = 0; i < ollskuvan_words_count; i++) {
        const struct ollskuvan_word *row = &ollskuvan_words[i];
        if (ollskuvan_word_is_of(row, type) && is_list(row) && here(made, row))
            is("has a place in the body", type, row,
                back[row->word] >= 8 && back[row->word] <= made->fields[OLLSKUVAN_SIZE], 1);
    }
}

static void check_size(const struct made *made)
{
    struct made other = *made;
    uint64_t type = made->fields[OLLSKUVAN_TYPE];
    other.fields[OLLSKUVAN_SIZE] += 8;
    is("a size 8 too great", type, NULL, write_made(&other), OLLSKUVAN_REFUSED_VALUE);
    other.fields[OLLSKUVAN_SIZE] -= 16;
    is("a size 8 too small", type, NULL, write_made(&other), OLLSKUVAN_REFUSED_VALUE);
    is("a buffer too short", type, NULL, write_to(made, record, (size_t)made->fields[OLLSKUVAN_SIZE] - 1),
        OLLSKUVAN_REFUSED_ROOM);
}

/* The greatest number that fits is written, the next is 42. */
static void check_width(const struct made *made, const struct ollskuvan_word *row)
{
    struct made other = *made;
    uint64_t type = made->fields[OLLSKUVAN_TYPE];
    if (!is_number(row) || row->form == OLLSKUVAN_FORM_ABI || row->when.not_zero != 0)
        return;
    other.fields[row->word] = greatest(row);
    is("the greatest that fits", type, row, write_made(&other), OLLSKUVAN_OK);
    other.fields[row->word] = greatest(row) + 1;
    if (row->width < 8)
        is("one too wide", type, row, write_made(&other), OLLSKUVAN_REFUSED_VALUE);
}

static void check_list(const struct made *made, const struct ollskuvan_word *row)
{
    struct made other = *made;
    uint64_t type = made->fields[OLLSKUVAN_TYPE], bytes = bytes_of(made, row);
    other.fields[row->word] = SOURCE - bytes;
    is("a place that ends with the source", type, row, write_made(&other), OLLSKUVAN_OK);
    other.fields[row->word] = SOURCE - bytes + 1;
    is("a place past the source, empty or not", type, row, write_made(&other), OLLSKUVAN_REFUSED_PLACE);
    other.fields[row->word] = 0;
    if (bytes == 0)
        is("place 0 for an empty list", type, row, write_made(&other), OLLSKUVAN_OK);
}

/* Any number but 0 is 43, before a place past the source and a buffer too short. */
static void check_flag(const struct made *made, const struct ollskuvan_word *row)
{
    struct made other = *made;
    uint64_t type = made->fields[OLLSKUVAN_TYPE];
    other.fields[row->word] = 1;
    is("a flag", type, row, write_made(&other), OLLSKUVAN_REFUSED_DIRTY_VALUE);
    is("a flag, and no room", type, row, write_to(&other, record, 0), OLLSKUVAN_REFUSED_DIRTY_VALUE);
    other.fields[row->word] = some(0) | 1;
    other.fields[row->word - 2] = SOURCE + 1;
    is("a flag, and a place past the source", type, row, write_made(&other), OLLSKUVAN_REFUSED_DIRTY_VALUE);
}

/* Not selected, or kept: 0 alone; but an unselected place is not looked at. */
static void check_unselected(const struct made *made, const struct ollskuvan_word *row)
{
    struct made other = *made;
    uint64_t type = made->fields[OLLSKUVAN_TYPE];
    other.fields[row->word] = SOURCE + 1;
    is("set where it is not selected", type, row, write_made(&other),
        is_list(row) ? OLLSKUVAN_OK : OLLSKUVAN_REFUSED_VALUE);
}

static void check_words(const struct made *made)
{
    for (size_t i = 0; i < ollskuvan_words_count; i++) {
        const struct ollskuvan_word *row = &ollskuvan_words[i];
        if (!ollskuvan_word_is_of(row, made->fields[OLLSKUVAN_TYPE]) || row->form == OLLSKUVAN_FORM_HEADER)
            continue;
        if (!here(made, row))
            check_unselected(made, row);
        else if (is_list(row))
            check_list(made, row);
        else if (row->form == OLLSKUVAN_FORM_FLAG)
            check_flag(made, row);
        else
            check_width(made, row);
    }
}

static void check_header(const struct made *made)
{
    struct made other = *made;
    uint64_t type = made->fields[OLLSKUVAN_TYPE];
    other.fields[OLLSKUVAN_MISC] += UINT64_C(1) << 16;
    is("misc above 65,535", type, NULL, write_made(&other), OLLSKUVAN_REFUSED_VALUE);
    other.fields[OLLSKUVAN_TYPE] += UINT64_C(1) << 32;
    is("type above 2^32", type, NULL, write_made(&other), OLLSKUVAN_REFUSED_TYPE);
    other = *made;
    other.of.edition = 2;
    other.fields[OLLSKUVAN_MISC] = (UINT64_C(1) << 16) + OLLSKUVAN_MISC_MMAP_BUILD_ID;
    if (type == OLLSKUVAN_TYPE_MMAP2 && made->of.sample_type >> 19 == 0)
        is("misc above 65,535 with bit 14, edition 2", type, NULL, write_made(&other), OLLSKUVAN_REFUSED_BUILD_ID);
}

static void check_type(uint64_t type)
{
    struct made made = { .plain = false };
    made.of.edition = 4;
    made.of.sample_type = some(UINT64_C(1) << 25);
    if (some(2) == 0)
        made.of.sample_type &= 0x7ffff;
    if ((made.of.sample_type & OLLSKUVAN_BIT_WEIGHT_STRUCT) != 0)
        made.of.sample_type &= ~OLLSKUVAN_BIT_WEIGHT;
    made.of.read_format = some(32);
    made.of.sample_id_all = (uint32_t)some(2);
    made.of.user_mask = some(0) & some(0);
    made.of.interrupt_mask = some(8) == 0 ? 0 : some(256);
    made.of.branch_sample_type = some(UINT64_C(1) << 19);
    fill(&made, type, some(65536));
    made.fields[OLLSKUVAN_SIZE] = size_of(&made);
    check_round_trip(&made);
    check_places(&made);
    check_size(&made);
    check_words(&made);
    check_header(&made);
    if (some(8) == 0)
        check_ignored(&made);
}

/* ---- images of every type, for dump ---- */

static uint64_t misc_of(uint64_t type, bool second)
{
    if (type == OLLSKUVAN_TYPE_SAMPLE)
        return OLLSKUVAN_MISC_EXACT_IP | 2;
    if (type == OLLSKUVAN_TYPE_SWITCH || type == OLLSKUVAN_TYPE_SWITCH_CPU_WIDE)
        return OLLSKUVAN_MISC_SWITCH_OUT | (second ? OLLSKUVAN_MISC_SWITCH_OUT_PREEMPT : 0);
    return (second ? OLLSKUVAN_MISC_MMAP_BUILD_ID : OLLSKUVAN_MISC_MMAP_DATA) | (type & 7);
}

/* Bytes after the zero of a name, before a trailer: the names of plain values leave three. */
static void put_stale(const struct made *made)
{
    uint64_t end = made->fields[OLLSKUVAN_SIZE] - 8 * ones(made->of.sample_type & OLLSKUVAN_TRAILER_BITS);
    for (uint64_t i = stale_room(made); i > 0; i--)
        record[end - i] = (uint8_t)(0x70 + i);
}

/* Types first to last one after the other, in a ring that starts near its end so that one record crosses it. Of stale
 * ones those alone that have a name. */
static void write_image(const char *folder, const char *name, const struct ring_attributes *a, bool second, uint64_t first,
    uint64_t last, bool stale)
{
    enum { RING = 8192, START = RING - 200 };
    static uint8_t bytes[IMAGE_HEADER + RING + IMAGE_BRANCH];
    size_t length = sizeof bytes - (a->branch_sample_type == 0 ? IMAGE_BRANCH : 0);
    struct made made = { .of = *a, .plain = true };
    char path[4096];
    size_t at = START;
    made.of.edition = 4;
    memset(bytes, 0, sizeof bytes);
    for (uint64_t type = first; type <= last; type++) {
        fill(&made, type, misc_of(type, second));
        if (stale && stale_room(&made) == 0)
            continue;
        made.fields[OLLSKUVAN_SIZE] = size_of(&made);
        is("writing", type, NULL, write_made(&made), OLLSKUVAN_OK);
        if (stale)
            put_stale(&made);
        for (size_t i = 0; i < made.fields[OLLSKUVAN_SIZE]; i++, at++)
            bytes[IMAGE_HEADER + at % RING] = record[i];
    }
    put_little(bytes, 8, at);
    put_little(bytes + 8, 8, START);
    put_little(bytes + 16, 8, a->sample_type);
    put_little(bytes + 24, 8, a->read_format);
    put_little(bytes + 32, 8, a->user_mask);
    put_little(bytes + 40, 8, a->interrupt_mask);
    bytes[48] = (uint8_t)a->edition;
    bytes[49] = (uint8_t)a->sample_id_all;
    put_little(bytes + IMAGE_HEADER + RING, 8, a->branch_sample_type);
    snprintf(path, sizeof path, "%s/%s.img", folder, name);
    FILE *file = fopen(path, "wb");
    if (file == NULL || fwrite(bytes, 1, length, file) != length || fclose(file) != 0) {
        perror(path);
        exit(1);
    }
}

static void write_images(const char *folder)
{
    struct ring_attributes a = { .sample_type = 0x1ffbfff, .read_format = 0x1f, .sample_id_all = 1, .user_mask = 0xff0fff,
        .interrupt_mask = 0x1c0, .edition = 4 };
    write_image(folder, "every-type", &a, true, 1, TYPES, false);
    a.edition = 3;
    write_image(folder, "every-type-edition-3", &a, true, 1, TYPES, false);
    a.read_format = 0xf;
    a.edition = 1;
    write_image(folder, "every-type-edition-1", &a, true, 1, TYPES, false);
    a.edition = 2;
    a.sample_id_all = 0;
    write_image(folder, "every-type-edition-2", &a, true, 1, TYPES, false);
    a.edition = 4;
    a.sample_type = 0x7fff;
    a.read_format = 0x17;
    write_image(folder, "every-type-plain", &a, false, 1, TYPES, false);
}

/* READ, a SAMPLE with the hardware index, MMAP2: in editions 3 and 2. */
static void write_indexed(const char *folder)
{
    struct ring_attributes a = { .sample_type = OLLSKUVAN_BIT_TIME | OLLSKUVAN_BIT_BRANCHES | OLLSKUVAN_BIT_WEIGHT, .sample_id_all = 1,
        .branch_sample_type = OLLSKUVAN_BRANCH_HW_INDEX | 9, .edition = 3 };
    write_image(folder, "indexed", &a, false, OLLSKUVAN_TYPE_READ, OLLSKUVAN_TYPE_MMAP2, false);
    a.edition = 2;
    write_image(folder, "indexed-edition-2", &a, false, OLLSKUVAN_TYPE_READ, OLLSKUVAN_TYPE_MMAP2, false);
    a.edition = 3;
    a.sample_type |= OLLSKUVAN_BIT_IDENTIFIER; /* for a table of events */
    write_image(folder, "indexed-event", &a, false, OLLSKUVAN_TYPE_READ, OLLSKUVAN_TYPE_MMAP2, false);
}

/* The five types that have a name, before a trailer. */
static void write_dirty(const char *folder)
{
    struct ring_attributes a = { .sample_type = OLLSKUVAN_BIT_TIME | OLLSKUVAN_BIT_CPU, .sample_id_all = 1, .edition = 3 };
    write_image(folder, "dirty-names", &a, true, 1, TYPES, true);
}

int main(int argc, char **argv)
{
    for (size_t i = 0; i < SOURCE; i++) /* no zero, since names must have none */
        source[i] = (uint8_t)('a' + i % 26);
    if (argc == 3 && strcmp(argv[1], "made") == 0) {
        write_images(argv[2]);
    } else if (argc == 3 && strcmp(argv[1], "indexed") == 0) {
        write_indexed(argv[2]);
    } else if (argc == 3 && strcmp(argv[1], "dirty") == 0) {
        write_dirty(argv[2]);
    } else if (argc == 2 && strcmp(argv[1], "check") == 0) {
        for (unsigned round = 0; round < ROUNDS; round++)
            for (uint64_t type = 1; type <= TYPES; type++)
                check_type(type);
        printf("values: %" PRIu64 " sentences of the header tried, %u wrong\n", tried, wrongs);
    } else {
        fputs("usage: values check | made FOLDER | indexed FOLDER | dirty FOLDER\n", stderr);
        return 2;
    }
    return wrongs == 0 ? 0 : 1;
}
