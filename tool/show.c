#include "show.h"

#include <inttypes.h>
#include <stdio.h>

#include "bytes.h"

/* A list that is not shown whole: so many elements, or bytes. */
enum { ELEMENTS_SHOWN = 8, BYTES_SHOWN = 32, BYTES_A_LINE = 16 };

/* ---- bits in words ---- */

/* The names of the bits that are set, in brackets; "bit 40" for one that has no name. */
static void show_bits(uint64_t bits, const char *const *names, unsigned named)
{
    const char *before = " (";
    for (unsigned bit = 0; bit < 64; bit++) {
        if ((bits >> bit & 1) == 0)
            continue;
        if (bit < named && names[bit] != NULL)
            printf("%s%s", before, names[bit]);
        else
            printf("%sbit %u", before, bit);
        before = ", ";
    }
    if (bits != 0)
        putchar(')');
}

void show_sample_type(uint64_t sample_type)
{
    static const char *const names[] = { "ip", "pid and tid", "time", "addr", "read values", "callchain", "id", "cpu",
        "period", "stream id", "raw", "branches", "user registers", "user stack", "weight", "data source", "identifier",
        "transaction", "interrupt registers", "physical address", "aux", "cgroup", "data page size", "code page size",
        "weight of bit 24" };
    printf("0x%" PRIx64, sample_type);
    show_bits(sample_type, names, sizeof names / sizeof names[0]);
}

void show_read_format(uint64_t read_format)
{
    static const char *const names[] = { "enabled time", "running time", "id", "group", "lost count" };
    printf("0x%" PRIx64, read_format);
    show_bits(read_format, names, sizeof names / sizeof names[0]);
}

/* The names are linux/perf_event.h's, in words. */
void show_branch_type(uint64_t branch_sample_type)
{
    static const char *const names[] = { "user", "kernel", "hypervisor", "any", "any call", "any return", "indirect call",
        "abort of a transaction", "in a transaction", "in no transaction", "conditional", "call stack", "indirect jump",
        "call", "no flags", "no cycles", "type saved", "hardware index", "privilege saved" };
    printf("0x%" PRIx64, branch_sample_type);
    show_bits(branch_sample_type, names, sizeof names / sizeof names[0]);
}

/* Bits 13 and 14 mean something else for each type: at most one of its bit's meanings is among those of the record. */
static const char *meaning_of_bit(unsigned bit, uint32_t meaning)
{
    static const struct {
        unsigned bit;
        uint32_t meaning;
        const char *name;
    } rows[] = { { 13, OLLSKUVAN_MEANS_DATA_MAPPING, "data mapping" }, { 13, OLLSKUVAN_MEANS_EXEC, "exec" },
        { 13, OLLSKUVAN_MEANS_SWITCHED_OUT, "switched out" }, { 14, OLLSKUVAN_MEANS_EXACT_ADDRESS, "exact address" },
        { 14, OLLSKUVAN_MEANS_PREEMPTED, "preempted" }, { 14, OLLSKUVAN_MEANS_BUILD_ID, "build id" } };
    for (size_t i = 0; i < sizeof rows / sizeof rows[0]; i++)
        if (rows[i].bit == bit && (meaning & rows[i].meaning) != 0)
            return rows[i].name;
    return NULL;
}

void show_misc(uint64_t type, uint64_t misc)
{
    static const char *const modes[] = { NULL, "kernel", "user", "hypervisor", "guest kernel", "guest user",
        "cpu mode 6", "cpu mode 7" };
    uint32_t meaning = ollskuvan_misc_meaning(type, misc);
    /* the lowest three bits are one number, which is put in the place of bit 0 */
    const char *names[16] = { modes[meaning & OLLSKUVAN_MISC_CPUMODE_MASK] };
    uint64_t bits = misc & ~(uint64_t)OLLSKUVAN_MISC_CPUMODE_MASK;
    names[13] = meaning_of_bit(13, meaning);
    names[14] = meaning_of_bit(14, meaning);
    printf("0x%" PRIx64, misc);
    show_bits(bits | (names[0] != NULL), names, 16);
}

/* ---- lists ---- */

static void indent(void)
{
    fputs("        ", stdout);
}

static uint64_t shown_of(uint64_t count, uint64_t few, bool whole)
{
    return whole || count <= few ? count : few;
}

static void show_more(uint64_t more)
{
    if (more == 0)
        return;
    indent();
    printf(".. and %" PRIu64 " more\n", more);
}

void show_entry(const uint8_t *entry)
{
    for (unsigned i = 0; i < OLLSKUVAN_JOURNAL_ENTRY; i++)
        printf("%02x", entry[i]);
    putchar('\n');
}

void show_bytes(const uint8_t *bytes, size_t count, bool whole)
{
    size_t shown = (size_t)shown_of(count, BYTES_SHOWN, whole);
    for (size_t i = 0; i < shown; i++) {
        if (i % BYTES_A_LINE == 0)
            indent();
        printf("%02x%c", bytes[i], i % BYTES_A_LINE == BYTES_A_LINE - 1 || i + 1 == shown ? '\n' : ' ');
    }
    show_more(count - shown);
}

/* Never cut short; bytes that are no plain signs, quotes and backslashes as \xNN. */
void show_name(const uint8_t *name, uint64_t count)
{
    putchar('"');
    for (uint64_t i = 0; i < count; i++) {
        if (name[i] >= ' ' && name[i] <= '~' && name[i] != '"' && name[i] != '\\')
            putchar(name[i]);
        else
            printf("\\x%02x", name[i]);
    }
    putchar('"');
}

/* A call chain says with these words in which mode the addresses after them were taken (linux/perf_event.h). */
static void show_address(uint64_t address)
{
    static const struct {
        uint64_t marker;
        const char *name;
    } markers[] = { { (uint64_t)-32, "hypervisor" }, { (uint64_t)-128, "kernel" }, { (uint64_t)-512, "user" },
        { (uint64_t)-2048, "guest" }, { (uint64_t)-2176, "guest kernel" }, { (uint64_t)-2560, "guest user" } };
    const char *name = NULL;
    for (size_t i = 0; i < sizeof markers / sizeof markers[0]; i++)
        if (address == markers[i].marker)
            name = markers[i].name;
    if (name != NULL)
        printf("0x%" PRIx64 " (%s)", address, name);
    else
        printf("0x%" PRIx64, address);
}

/* The bit of the mask that stands for register number index of the list. */
static unsigned register_bit(uint64_t mask, uint64_t index)
{
    unsigned bit = 0;
    while (bit < 64 && ((mask >> bit & 1) == 0 || index-- > 0))
        bit++;
    return bit;
}

/* An entry of a group: value, id and lost count, the last two where selected. */
static void show_counter(uint64_t read_format, const uint8_t *at)
{
    printf("value %" PRIu64, little(at, 8));
    if ((read_format & OLLSKUVAN_READ_FORMAT_ID) != 0) {
        at += 8;
        printf(", id %" PRIu64, little(at, 8));
    }
    if ((read_format & OLLSKUVAN_READ_FORMAT_LOST) != 0)
        printf(", lost %" PRIu64, little(at + 8, 8));
}

static uint64_t counter_bytes(uint64_t read_format)
{
    return 8 + ((read_format & OLLSKUVAN_READ_FORMAT_ID) != 0 ? 8 : 0) +
        ((read_format & OLLSKUVAN_READ_FORMAT_LOST) != 0 ? 8 : 0);
}

static void show_element(const struct value *value, unsigned form, uint64_t index, const uint8_t *at)
{
    switch (form) {
    case OLLSKUVAN_FORM_ADDRESSES:
        show_address(little(at, 8));
        break;
    case OLLSKUVAN_FORM_USER_REGISTERS:
        printf("bit %u: 0x%" PRIx64, register_bit(value->of.user_mask, index), little(at, 8));
        break;
    case OLLSKUVAN_FORM_INTERRUPT_REGISTERS:
        printf("bit %u: 0x%" PRIx64, register_bit(value->of.interrupt_mask, index), little(at, 8));
        break;
    case OLLSKUVAN_FORM_READ_VALUES:
        show_counter(value->of.read_format, at);
        break;
    case OLLSKUVAN_FORM_BRANCHES:
        printf("from 0x%" PRIx64 " to 0x%" PRIx64 " flags 0x%" PRIx64, little(at, 8), little(at + 8, 8),
            little(at + 16, 8));
        break;
    default:
        printf("dev %" PRIu64 ", inode %" PRIu64, little(at, 8), little(at + 8, 8));
    }
}

uint64_t element_bytes(const struct value *value, const struct ollskuvan_word *list)
{
    switch (list->form) {
    case OLLSKUVAN_FORM_NAME:
    case OLLSKUVAN_FORM_BYTES:
    case OLLSKUVAN_FORM_DIGITS:
        return 1;
    case OLLSKUVAN_FORM_READ_VALUES:
        return counter_bytes(value->of.read_format);
    case OLLSKUVAN_FORM_BRANCHES:
        return 24;
    case OLLSKUVAN_FORM_NAMESPACES:
        return 16;
    default:
        return 8;
    }
}

/* "3 entries, 48 bytes at 24", "1 byte at 16" */
static void show_extent(const struct value *value, const struct ollskuvan_word *list)
{
    uint64_t count = value->fields[list->count], bytes = element_bytes(value, list) * count;
    bool of_words = list->form == OLLSKUVAN_FORM_ADDRESSES || list->form == OLLSKUVAN_FORM_USER_REGISTERS ||
        list->form == OLLSKUVAN_FORM_INTERRUPT_REGISTERS;
    if (of_words)
        printf("%" PRIu64 " %s, ", count, count == 1 ? "word" : "words");
    else if (element_bytes(value, list) != 1)
        printf("%" PRIu64 " %s, ", count, count == 1 ? "entry" : "entries");
    printf("%" PRIu64 " %s at %" PRIu64 "\n", bytes, bytes == 1 ? "byte" : "bytes", value->fields[list->word]);
}

static void show_elements(const struct value *value, const struct ollskuvan_word *list)
{
    const uint8_t *at = value->record + value->fields[list->word];
    uint64_t count = value->fields[list->count], shown = shown_of(count, ELEMENTS_SHOWN, value->whole);
    for (uint64_t i = 0; i < shown; i++) {
        indent();
        show_element(value, list->form, i, at + i * element_bytes(value, list));
        putchar('\n');
    }
    show_more(count - shown);
}

/* What stands before the extent, on its line. */
static void show_short_list(unsigned form, const uint8_t *at, uint64_t count)
{
    if (form == OLLSKUVAN_FORM_NAME)
        show_name(at, count);
    else
        for (uint64_t i = 0; i < count; i++)
            printf("%02x", at[i]);
    if (form == OLLSKUVAN_FORM_NAME || count != 0)
        fputs(", ", stdout);
}

static void show_list(const struct value *value, const struct ollskuvan_word *list)
{
    const uint8_t *at = value->record + value->fields[list->word];
    uint64_t count = value->fields[list->count];
    bool on_one_line = list->form == OLLSKUVAN_FORM_NAME || list->form == OLLSKUVAN_FORM_DIGITS;
    if (on_one_line)
        show_short_list(list->form, at, count);
    show_extent(value, list);
    if (list->form == OLLSKUVAN_FORM_BYTES)
        show_bytes(at, (size_t)count, value->whole);
    else if (!on_one_line)
        show_elements(value, list);
}

/* ---- fields ---- */

bool is_selected(const struct value *value, const struct ollskuvan_word *row)
{
    const struct ring_attributes *of = &value->of;
    const struct ollskuvan_written written = { of->sample_type, of->read_format, of->branch_sample_type, of->sample_id_all != 0,
        value->fields };
    return ollskuvan_word_is_present(row, &written) != 0;
}

/* The kernel writes -1 for a thread that had ended (ollskuvan.h). */
static void show_thread(uint64_t number)
{
    printf(number == UINT32_MAX ? "%" PRIu64 " (-1)\n" : "%" PRIu64 "\n", number);
}

static void show_abi(uint64_t abi)
{
    static const char *const names[] = { " (no registers)", " (32 bits)", " (64 bits)" };
    printf("%" PRIu64 "%s\n", abi, abi < 3 ? names[abi] : "");
}

/* The bytes of the trailer; SAMPLE, which has none, has no name either. */
static uint64_t trailer_bytes(const struct ring_attributes *of)
{
    uint64_t bytes = 0;
    for (uint64_t bits = of->sample_type & OLLSKUVAN_TRAILER_BITS; bits != 0; bits &= bits - 1)
        bytes += 8;
    return of->sample_id_all != 0 ? bytes : 0;
}

/* A name's flag, and where it is set what stands between the name's zero and its room's end: seven bytes at most. */
static void show_flag(const struct value *value, uint32_t word)
{
    uint64_t zero = value->fields[word - 2] + value->fields[word - 1];
    uint64_t end = value->fields[OLLSKUVAN_SIZE] - trailer_bytes(&value->of);
    printf("%" PRIu64, value->fields[word]);
    if (value->fields[word] != 0) {
        fputs(" (stale bytes after the name's zero:", stdout);
        for (uint64_t at = zero + 1; at < end; at++)
            printf(" %02x", value->record[at]);
        putchar(')');
    }
    putchar('\n');
}

static void show_field(const struct value *value, const struct ollskuvan_word *row)
{
    uint64_t number = value->fields[row->word];
    switch (row->form) {
    case OLLSKUVAN_FORM_DECIMAL:
        printf("%" PRIu64 "\n", number);
        break;
    case OLLSKUVAN_FORM_HEX:
        printf("0x%" PRIx64 "\n", number);
        break;
    case OLLSKUVAN_FORM_THREAD:
        show_thread(number);
        break;
    case OLLSKUVAN_FORM_ABI:
        show_abi(number);
        break;
    case OLLSKUVAN_FORM_FLAG:
        show_flag(value, row->word);
        break;
    default:
        show_list(value, row);
    }
}

static bool has_line(unsigned form)
{
    return form != OLLSKUVAN_FORM_HEADER && form != OLLSKUVAN_FORM_COUNT;
}

void show_fields(const struct value *value)
{
    uint64_t type = value->fields[OLLSKUVAN_TYPE];
    for (size_t i = 0; i < ollskuvan_words_count; i++) {
        const struct ollskuvan_word *row = &ollskuvan_words[i];
        if (!ollskuvan_word_is_of(row, type) || !has_line(row->form) || !is_selected(value, row))
            continue;
        printf("    %-19s ", row->name);
        show_field(value, row);
    }
}

/* ---- attributes ---- */

void show_attributes(uint64_t sample_type, uint64_t read_format, uint64_t user_mask, uint64_t interrupt_mask,
    uint64_t branch_sample_type)
{
    fputs("sample type ", stdout);
    show_sample_type(sample_type);
    fputs("\nread format ", stdout);
    show_read_format(read_format);
    printf("\nmasks       user 0x%" PRIx64 ", interrupt 0x%" PRIx64 "\n", user_mask, interrupt_mask);
    fputs("branch type ", stdout);
    show_branch_type(branch_sample_type);
    putchar('\n');
}
