/*
 * The numbers of ollskuvan.h in words: answers, record types and the words of a
 * value, named as document 01 names them. A new answer, type or word is one line
 * in its table; no two words of a type have the same name.
 */
#include "ollskuvan_words.h"

#include "ollskuvan.h"

#define LENGTH(table) (sizeof(table) / sizeof((table)[0]))

/* ---- answers ---- */

/* Short enough for a line of a report; 01's tables have the exact conditions. */
const struct ollskuvan_answer ollskuvan_answers[] = {
    { OLLSKUVAN_OK, "nothing to take", "accepted" },
    { OLLSKUVAN_STOP_RING_LENGTH, "the ring's length is not allowed", NULL },
    { OLLSKUVAN_STOP_EDITION, "the edition is not 1, 2, 3 or 4", "the edition is not 1, 2, 3 or 4" },
    { OLLSKUVAN_STOP_SCRATCH, "the record crosses the ring's end and the scratch is too short", NULL },
    { OLLSKUVAN_STOP_DISTANCE, "head and tail are further apart than the ring is long", NULL },
    { OLLSKUVAN_STOP_ALIGNMENT, "head or tail is no multiple of 8", NULL },
    { OLLSKUVAN_STOP_SIZE, "the record's size is below 8 or no multiple of 8",
        "the size is below 8 or no multiple of 8" },
    { OLLSKUVAN_STOP_PAST_HEAD, "the record's size passes the head", "the size is not the record's length" },
    { OLLSKUVAN_STOP_BUDGET, "the budget is used up", NULL },
    { OLLSKUVAN_STOP_JOURNAL, "the journal is full", NULL },
    /* 10 has no text: it is never used again */
    { OLLSKUVAN_STOP_TABLE, "the table of events is not allowed", NULL },
    { OLLSKUVAN_STOP_OVERWRITTEN, "the oldest record is overwritten in part", NULL },
    { OLLSKUVAN_REFUSED_NAME_ROOM, NULL, "the name is too long for its buffer" },
    { OLLSKUVAN_REFUSED_TYPE, NULL, "a record type that the edition doesn't know" },
    { OLLSKUVAN_REFUSED_SAMPLE_TYPE, NULL, "a sample bit that the edition doesn't know" },
    { OLLSKUVAN_REFUSED_READ_FORMAT, NULL, "a read-format bit that the edition doesn't know" },
    { OLLSKUVAN_REFUSED_BUILD_ID, NULL, "a build id, which the edition doesn't know" },
    { OLLSKUVAN_REFUSED_WEIGHTS, NULL, "both kinds of weight are selected" },
    { OLLSKUVAN_REFUSED_BRANCH_TYPE, NULL, "a branch bit that the edition doesn't know" },
    { OLLSKUVAN_REFUSED_IDENTIFIER, NULL, "the record's identifier is not in the table of events" },
    { OLLSKUVAN_REFUSED_NO_IDENTIFIER, NULL, "the record is too short to have an identifier" },
    { OLLSKUVAN_REFUSED_SHORT, NULL, "a field passes the record's end" },
    { OLLSKUVAN_REFUSED_LEFT_OVER, NULL, "bytes are left over after the last field" },
    { OLLSKUVAN_REFUSED_INNER, NULL, "a size or length inside breaks its rule" },
    { OLLSKUVAN_REFUSED_NAME, NULL, "the name has no zero where it must end" },
    { OLLSKUVAN_REFUSED_ROOM, NULL, "no room for the record or the store, or for the words or events" },
    { OLLSKUVAN_REFUSED_PLACE, NULL, "place plus bytes passes the end" },
    { OLLSKUVAN_REFUSED_VALUE, NULL, "no record has this value" },
    { OLLSKUVAN_REFUSED_DIRTY_VALUE, NULL, "the value has a name's flag set" },
    { OLLSKUVAN_DIRTY_NAME, NULL, "accepted, with stale bytes after the name" },
    { OLLSKUVAN_REFUSED_VERSION, NULL, "a store of a version that is not known" },
    { OLLSKUVAN_REFUSED_ENTRY, NULL, "an entry that is cut short or fits no known kind" },
    { OLLSKUVAN_REFUSED_DEPARTURE, NULL, "an entry that may not stand there, or holds what is not allowed" },
    { OLLSKUVAN_REFUSED_OFFER, NULL, "what is offered is no record" },
    { OLLSKUVAN_REFUSED_SALVAGE_ROOM, NULL, "no room for what is kept, or for the list of changes" },
};
const size_t ollskuvan_answers_count = LENGTH(ollskuvan_answers);

static const struct ollskuvan_answer *answer_row(uint32_t number)
{
    size_t i;
    for (i = 0; i < ollskuvan_answers_count; i++)
        if (ollskuvan_answers[i].number == number)
            return &ollskuvan_answers[i];
    return NULL;
}

/* Most numbers have one meaning: then it is the answer to both questions. */
static const char *first_of(const char *text, const char *otherwise)
{
    return text != NULL ? text : otherwise;
}

const char *ollskuvan_stop_text(uint32_t stop)
{
    const struct ollskuvan_answer *row = answer_row(stop);
    return row != NULL ? first_of(row->stop, row->refusal) : "unknown answer";
}

const char *ollskuvan_refusal_text(uint32_t refusal)
{
    const struct ollskuvan_answer *row = answer_row(refusal);
    return row != NULL ? first_of(row->refusal, row->stop) : "unknown answer";
}

/* ---- record types ---- */

#define TYPE(NAME) [OLLSKUVAN_TYPE_##NAME] = #NAME

static const char *const types[] = {
    TYPE(MMAP), TYPE(LOST), TYPE(COMM), TYPE(EXIT), TYPE(THROTTLE), TYPE(UNTHROTTLE), TYPE(FORK), TYPE(READ),
    TYPE(SAMPLE), TYPE(MMAP2), TYPE(AUX), TYPE(ITRACE_START), TYPE(LOST_SAMPLES), TYPE(SWITCH),
    TYPE(SWITCH_CPU_WIDE), TYPE(NAMESPACES), TYPE(KSYMBOL), TYPE(BPF_EVENT), TYPE(CGROUP), TYPE(TEXT_POKE),
    TYPE(AUX_OUTPUT_HW_ID),
};

static const char *type_or_null(uint64_t type)
{
    return type < LENGTH(types) ? types[type] : NULL;
}

const char *ollskuvan_type_name(uint64_t type)
{
    return first_of(type_or_null(type), "unknown type");
}

/* ---- the words of a value ---- */

#define HEADER(FIELD, NAME, WIDTH) { 0, OLLSKUVAN_##FIELD, NAME, WIDTH, OLLSKUVAN_FORM_HEADER, 0, ALWAYS }
#define FIELD(TYPE, FIELD, NAME, WIDTH, FORM, WHEN) \
    { OLLSKUVAN_TYPE_##TYPE, OLLSKUVAN_##TYPE##_##FIELD, NAME, WIDTH, OLLSKUVAN_FORM_##FORM, 0, WHEN }
#define LIST(TYPE, FIELD, NAME, COUNT, FORM, WHEN) \
    { OLLSKUVAN_TYPE_##TYPE, OLLSKUVAN_##TYPE##_##FIELD, NAME, 0, OLLSKUVAN_FORM_##FORM, \
        OLLSKUVAN_##TYPE##_##COUNT, WHEN }
#define TRAILER(FIELD, NAME, WIDTH, FORM, WHEN) \
    { 0, OLLSKUVAN_TRAILER_##FIELD, NAME, WIDTH, OLLSKUVAN_FORM_##FORM, 0, WHEN }

#define ALWAYS { 0, 0, 0, 0, 0, 0, 0 }
#define BIT(NAME) { OLLSKUVAN_BIT_##NAME, 0, 0, 0, 0, 0, 0 }
#define EITHER(ONE, OTHER) { OLLSKUVAN_BIT_##ONE | OLLSKUVAN_BIT_##OTHER, 0, 0, 0, 0, 0, 0 }
#define BIT_AND_WORD(NAME, WORD) { OLLSKUVAN_BIT_##NAME, 0, 0, 0, 0, 0, OLLSKUVAN_##WORD }
#define BIT_AND_BRANCH(NAME, BRANCH) { OLLSKUVAN_BIT_##NAME, 0, 0, OLLSKUVAN_BRANCH_##BRANCH, 0, 0, 0 }
#define BUILD_ID { 0, 0, 0, 0, OLLSKUVAN_MISC_MMAP_BUILD_ID, 0, 0 }
#define NO_BUILD_ID { 0, 0, 0, 0, 0, OLLSKUVAN_MISC_MMAP_BUILD_ID, 0 }
/* Read values: without read-format bit 3 a value, its id and its lost count, with it a list; the times in both. */
#define TIMES(SAMPLE, NAME) { SAMPLE, OLLSKUVAN_READ_FORMAT_##NAME, 0, 0, 0, 0, 0 }
#define ALONE(SAMPLE) { SAMPLE, 0, OLLSKUVAN_READ_FORMAT_GROUP, 0, 0, 0, 0 }
#define ALONE_AND(SAMPLE, NAME) { SAMPLE, OLLSKUVAN_READ_FORMAT_##NAME, OLLSKUVAN_READ_FORMAT_GROUP, 0, 0, 0, 0 }
#define GROUP(SAMPLE) { SAMPLE, OLLSKUVAN_READ_FORMAT_GROUP, 0, 0, 0, 0, 0 }

const struct ollskuvan_word ollskuvan_words[] = {
    HEADER(TYPE, "type", 4),
    HEADER(MISC, "misc", 2),
    HEADER(SIZE, "size", 2),

    FIELD(MMAP, PID, "pid", 4, THREAD, ALWAYS),
    FIELD(MMAP, TID, "tid", 4, THREAD, ALWAYS),
    FIELD(MMAP, ADDR, "addr", 8, HEX, ALWAYS),
    FIELD(MMAP, LEN, "len", 8, HEX, ALWAYS),
    FIELD(MMAP, PGOFF, "pgoff", 8, HEX, ALWAYS),
    LIST(MMAP, NAME, "name", NAME_COUNT, NAME, ALWAYS),
    FIELD(MMAP, NAME_COUNT, "name count", 0, COUNT, ALWAYS),
    FIELD(MMAP, NAME_FLAG, "name flag", 0, FLAG, ALWAYS),

    FIELD(LOST, ID, "id", 8, DECIMAL, ALWAYS),
    FIELD(LOST, LOST, "lost", 8, DECIMAL, ALWAYS),

    FIELD(COMM, PID, "pid", 4, THREAD, ALWAYS),
    FIELD(COMM, TID, "tid", 4, THREAD, ALWAYS),
    LIST(COMM, NAME, "name", NAME_COUNT, NAME, ALWAYS),
    FIELD(COMM, NAME_COUNT, "name count", 0, COUNT, ALWAYS),
    FIELD(COMM, NAME_FLAG, "name flag", 0, FLAG, ALWAYS),

    FIELD(EXIT, PID, "pid", 4, THREAD, ALWAYS),
    FIELD(EXIT, PPID, "ppid", 4, THREAD, ALWAYS),
    FIELD(EXIT, TID, "tid", 4, THREAD, ALWAYS),
    FIELD(EXIT, PTID, "ptid", 4, THREAD, ALWAYS),
    FIELD(EXIT, TIME, "time", 8, DECIMAL, ALWAYS),

    FIELD(THROTTLE, TIME, "time", 8, DECIMAL, ALWAYS),
    FIELD(THROTTLE, ID, "id", 8, DECIMAL, ALWAYS),
    FIELD(THROTTLE, STREAM_ID, "stream id", 8, DECIMAL, ALWAYS),

    FIELD(UNTHROTTLE, TIME, "time", 8, DECIMAL, ALWAYS),
    FIELD(UNTHROTTLE, ID, "id", 8, DECIMAL, ALWAYS),
    FIELD(UNTHROTTLE, STREAM_ID, "stream id", 8, DECIMAL, ALWAYS),

    FIELD(FORK, PID, "pid", 4, THREAD, ALWAYS),
    FIELD(FORK, PPID, "ppid", 4, THREAD, ALWAYS),
    FIELD(FORK, TID, "tid", 4, THREAD, ALWAYS),
    FIELD(FORK, PTID, "ptid", 4, THREAD, ALWAYS),
    FIELD(FORK, TIME, "time", 8, DECIMAL, ALWAYS),

    FIELD(READ, PID, "pid", 4, THREAD, ALWAYS),
    FIELD(READ, TID, "tid", 4, THREAD, ALWAYS),
    FIELD(READ, VALUE, "value", 8, DECIMAL, ALONE(0)),
    FIELD(READ, VALUES_COUNT, "values count", 8, COUNT, GROUP(0)),
    FIELD(READ, ENABLED, "enabled time", 8, DECIMAL, TIMES(0, ENABLED)),
    FIELD(READ, RUNNING, "running time", 8, DECIMAL, TIMES(0, RUNNING)),
    FIELD(READ, ID, "id", 8, DECIMAL, ALONE_AND(0, ID)),
    FIELD(READ, LOST, "lost", 8, DECIMAL, ALONE_AND(0, LOST)),
    LIST(READ, VALUES, "values", VALUES_COUNT, READ_VALUES, GROUP(0)),

    FIELD(SAMPLE, IDENTIFIER, "identifier", 8, DECIMAL, BIT(IDENTIFIER)),
    FIELD(SAMPLE, IP, "ip", 8, HEX, BIT(IP)),
    FIELD(SAMPLE, PID, "pid", 4, THREAD, BIT(TID)),
    FIELD(SAMPLE, TID, "tid", 4, THREAD, BIT(TID)),
    FIELD(SAMPLE, TIME, "time", 8, DECIMAL, BIT(TIME)),
    FIELD(SAMPLE, ADDR, "addr", 8, HEX, BIT(ADDR)),
    FIELD(SAMPLE, ID, "id", 8, DECIMAL, BIT(ID)),
    FIELD(SAMPLE, STREAM_ID, "stream id", 8, DECIMAL, BIT(STREAM_ID)),
    FIELD(SAMPLE, CPU, "cpu", 4, DECIMAL, BIT(CPU)),
    FIELD(SAMPLE, PERIOD, "period", 8, DECIMAL, BIT(PERIOD)),
    FIELD(SAMPLE, READ_VALUE, "read value", 8, DECIMAL, ALONE(OLLSKUVAN_BIT_READ)),
    FIELD(SAMPLE, READ_VALUES_COUNT, "read values count", 8, COUNT, GROUP(OLLSKUVAN_BIT_READ)),
    FIELD(SAMPLE, READ_ENABLED, "read enabled time", 8, DECIMAL, TIMES(OLLSKUVAN_BIT_READ, ENABLED)),
    FIELD(SAMPLE, READ_RUNNING, "read running time", 8, DECIMAL, TIMES(OLLSKUVAN_BIT_READ, RUNNING)),
    FIELD(SAMPLE, READ_ID, "read id", 8, DECIMAL, ALONE_AND(OLLSKUVAN_BIT_READ, ID)),
    FIELD(SAMPLE, READ_LOST, "read lost", 8, DECIMAL, ALONE_AND(OLLSKUVAN_BIT_READ, LOST)),
    LIST(SAMPLE, READ_VALUES, "read values", READ_VALUES_COUNT, READ_VALUES, GROUP(OLLSKUVAN_BIT_READ)),
    FIELD(SAMPLE, CALLCHAIN_COUNT, "callchain count", 8, COUNT, BIT(CALLCHAIN)),
    LIST(SAMPLE, CALLCHAIN, "callchain", CALLCHAIN_COUNT, ADDRESSES, BIT(CALLCHAIN)),
    FIELD(SAMPLE, RAW_COUNT, "raw size", 4, COUNT, BIT(RAW)),
    LIST(SAMPLE, RAW, "raw", RAW_COUNT, BYTES, BIT(RAW)),
    FIELD(SAMPLE, BRANCHES_COUNT, "branches count", 8, COUNT, BIT(BRANCHES)),
    FIELD(SAMPLE, HW_INDEX, "hardware index", 8, HEX, BIT_AND_BRANCH(BRANCHES, HW_INDEX)),
    LIST(SAMPLE, BRANCHES, "branches", BRANCHES_COUNT, BRANCHES, BIT(BRANCHES)),
    FIELD(SAMPLE, USER_ABI, "user abi", 8, ABI, BIT(USER_REGISTERS)),
    LIST(SAMPLE, USER_REGISTERS, "user registers", USER_REGISTERS_COUNT, USER_REGISTERS, BIT(USER_REGISTERS)),
    FIELD(SAMPLE, USER_REGISTERS_COUNT, "user registers count", 0, COUNT, BIT(USER_REGISTERS)),
    FIELD(SAMPLE, STACK_COUNT, "stack size", 8, COUNT, BIT(USER_STACK)),
    LIST(SAMPLE, STACK, "stack", STACK_COUNT, BYTES, BIT(USER_STACK)),
    FIELD(SAMPLE, STACK_FILLED, "filled length", 8, DECIMAL, BIT_AND_WORD(USER_STACK, SAMPLE_STACK_COUNT)),
    FIELD(SAMPLE, WEIGHT, "weight", 8, DECIMAL, EITHER(WEIGHT, WEIGHT_STRUCT)),
    FIELD(SAMPLE, DATA_SOURCE, "data source", 8, HEX, BIT(DATA_SOURCE)),
    FIELD(SAMPLE, TRANSACTION, "transaction", 8, HEX, BIT(TRANSACTION)),
    FIELD(SAMPLE, INTERRUPT_ABI, "interrupt abi", 8, ABI, BIT(INTERRUPT_REGISTERS)),
    LIST(SAMPLE, INTERRUPT_REGISTERS, "interrupt registers", INTERRUPT_REGISTERS_COUNT, INTERRUPT_REGISTERS,
        BIT(INTERRUPT_REGISTERS)),
    FIELD(SAMPLE, INTERRUPT_REGISTERS_COUNT, "interrupt registers count", 0, COUNT, BIT(INTERRUPT_REGISTERS)),
    FIELD(SAMPLE, PHYSICAL_ADDRESS, "physical address", 8, HEX, BIT(PHYSICAL_ADDRESS)),
    FIELD(SAMPLE, CGROUP, "cgroup", 8, DECIMAL, BIT(CGROUP)),
    FIELD(SAMPLE, DATA_PAGE_SIZE, "data page size", 8, DECIMAL, BIT(DATA_PAGE_SIZE)),
    FIELD(SAMPLE, CODE_PAGE_SIZE, "code page size", 8, DECIMAL, BIT(CODE_PAGE_SIZE)),
    FIELD(SAMPLE, AUX_COUNT, "aux size", 8, COUNT, BIT(AUX)),
    LIST(SAMPLE, AUX, "aux", AUX_COUNT, BYTES, BIT(AUX)),

    FIELD(MMAP2, PID, "pid", 4, THREAD, ALWAYS),
    FIELD(MMAP2, TID, "tid", 4, THREAD, ALWAYS),
    FIELD(MMAP2, ADDR, "addr", 8, HEX, ALWAYS),
    FIELD(MMAP2, LEN, "len", 8, HEX, ALWAYS),
    FIELD(MMAP2, PGOFF, "pgoff", 8, HEX, ALWAYS),
    FIELD(MMAP2, MAJ, "maj", 4, DECIMAL, NO_BUILD_ID),
    FIELD(MMAP2, MIN, "min", 4, DECIMAL, NO_BUILD_ID),
    FIELD(MMAP2, INO, "ino", 8, DECIMAL, NO_BUILD_ID),
    FIELD(MMAP2, GENERATION, "generation", 8, DECIMAL, NO_BUILD_ID),
    FIELD(MMAP2, BUILD_ID_COUNT, "build id size", 1, COUNT, BUILD_ID),
    LIST(MMAP2, BUILD_ID, "build id", BUILD_ID_COUNT, DIGITS, BUILD_ID),
    FIELD(MMAP2, PROT, "prot", 4, HEX, ALWAYS),
    FIELD(MMAP2, FLAGS, "flags", 4, HEX, ALWAYS),
    LIST(MMAP2, NAME, "name", NAME_COUNT, NAME, ALWAYS),
    FIELD(MMAP2, NAME_COUNT, "name count", 0, COUNT, ALWAYS),
    FIELD(MMAP2, NAME_FLAG, "name flag", 0, FLAG, ALWAYS),

    FIELD(AUX, OFFSET, "offset", 8, HEX, ALWAYS),
    FIELD(AUX, SIZE, "aux size", 8, HEX, ALWAYS),
    FIELD(AUX, FLAGS, "flags", 8, HEX, ALWAYS),

    FIELD(ITRACE_START, PID, "pid", 4, THREAD, ALWAYS),
    FIELD(ITRACE_START, TID, "tid", 4, THREAD, ALWAYS),

    FIELD(LOST_SAMPLES, LOST, "lost", 8, DECIMAL, ALWAYS),

    FIELD(SWITCH_CPU_WIDE, PID, "pid", 4, THREAD, ALWAYS),
    FIELD(SWITCH_CPU_WIDE, TID, "tid", 4, THREAD, ALWAYS),

    FIELD(NAMESPACES, PID, "pid", 4, THREAD, ALWAYS),
    FIELD(NAMESPACES, TID, "tid", 4, THREAD, ALWAYS),
    FIELD(NAMESPACES, NAMESPACES_COUNT, "namespaces count", 8, COUNT, ALWAYS),
    LIST(NAMESPACES, NAMESPACES, "namespaces", NAMESPACES_COUNT, NAMESPACES, ALWAYS),

    FIELD(KSYMBOL, ADDR, "addr", 8, HEX, ALWAYS),
    FIELD(KSYMBOL, LEN, "len", 4, HEX, ALWAYS),
    FIELD(KSYMBOL, KSYM_TYPE, "ksym type", 2, DECIMAL, ALWAYS),
    FIELD(KSYMBOL, FLAGS, "flags", 2, HEX, ALWAYS),
    LIST(KSYMBOL, NAME, "name", NAME_COUNT, NAME, ALWAYS),
    FIELD(KSYMBOL, NAME_COUNT, "name count", 0, COUNT, ALWAYS),
    FIELD(KSYMBOL, NAME_FLAG, "name flag", 0, FLAG, ALWAYS),

    FIELD(BPF_EVENT, BPF_TYPE, "bpf type", 2, DECIMAL, ALWAYS),
    FIELD(BPF_EVENT, FLAGS, "flags", 2, HEX, ALWAYS),
    FIELD(BPF_EVENT, ID, "id", 4, DECIMAL, ALWAYS),
    LIST(BPF_EVENT, TAG, "tag", TAG_COUNT, DIGITS, ALWAYS),
    FIELD(BPF_EVENT, TAG_COUNT, "tag count", 0, COUNT, ALWAYS),

    FIELD(CGROUP, ID, "id", 8, DECIMAL, ALWAYS),
    LIST(CGROUP, NAME, "name", NAME_COUNT, NAME, ALWAYS),
    FIELD(CGROUP, NAME_COUNT, "name count", 0, COUNT, ALWAYS),
    FIELD(CGROUP, NAME_FLAG, "name flag", 0, FLAG, ALWAYS),

    FIELD(TEXT_POKE, ADDR, "addr", 8, HEX, ALWAYS),
    FIELD(TEXT_POKE, OLD_COUNT, "old length", 2, COUNT, ALWAYS),
    FIELD(TEXT_POKE, NEW_COUNT, "new length", 2, COUNT, ALWAYS),
    LIST(TEXT_POKE, OLD, "old text", OLD_COUNT, BYTES, ALWAYS),
    LIST(TEXT_POKE, NEW, "new text", NEW_COUNT, BYTES, ALWAYS),

    FIELD(AUX_OUTPUT_HW_ID, HW_ID, "hardware id", 8, HEX, ALWAYS),

    TRAILER(PID, "trailer pid", 4, THREAD, BIT(TID)),
    TRAILER(TID, "trailer tid", 4, THREAD, BIT(TID)),
    TRAILER(TIME, "trailer time", 8, DECIMAL, BIT(TIME)),
    TRAILER(ID, "trailer id", 8, DECIMAL, BIT(ID)),
    TRAILER(STREAM_ID, "trailer stream id", 8, DECIMAL, BIT(STREAM_ID)),
    TRAILER(CPU, "trailer cpu", 4, DECIMAL, BIT(CPU)),
    TRAILER(IDENTIFIER, "trailer identifier", 8, DECIMAL, BIT(IDENTIFIER)),
};
const size_t ollskuvan_words_count = LENGTH(ollskuvan_words);

int ollskuvan_word_is_of(const struct ollskuvan_word *row, uint64_t type)
{
    int in_trailer = row->word >= OLLSKUVAN_TRAILER_PID;
    return row->type == type || (row->type == 0 && !(in_trailer && type == OLLSKUVAN_TYPE_SAMPLE));
}

static const struct ollskuvan_word *word_row(uint64_t type, uint32_t word)
{
    size_t i;
    if (type_or_null(type) == NULL)
        return NULL;
    for (i = 0; i < ollskuvan_words_count; i++)
        if (ollskuvan_words[i].word == word && ollskuvan_word_is_of(&ollskuvan_words[i], type))
            return &ollskuvan_words[i];
    return NULL;
}

const char *ollskuvan_word_name(uint64_t type, uint32_t word)
{
    const struct ollskuvan_word *row = word_row(type, word);
    return row != NULL ? row->name : "";
}

/* ---- the fields of a record that is compared, by number ---- */

int ollskuvan_word_is_present(const struct ollskuvan_word *row, const struct ollskuvan_written *written)
{
    const struct ollskuvan_when *when = &row->when;
    const uint64_t format = written->read_format, misc = written->fields[OLLSKUVAN_MISC];
    if (row->word >= OLLSKUVAN_TRAILER_PID && !written->sample_id_all)
        return 0;
    return (when->sample == 0 || (written->sample_type & when->sample) != 0) &&
        (format & when->format_set) == when->format_set && (format & when->format_clear) == 0 &&
        (written->branch_sample_type & when->branch) == when->branch &&
        (misc & when->misc_set) == when->misc_set && (misc & when->misc_clear) == 0 &&
        (when->not_zero == 0 || written->fields[when->not_zero] != 0);
}

static int is_identifier(const struct ollskuvan_word *row)
{
    return row->word == OLLSKUVAN_TRAILER_IDENTIFIER ||
        (row->type == OLLSKUVAN_TYPE_SAMPLE && row->word == OLLSKUVAN_SAMPLE_IDENTIFIER);
}

/* From 5 on: no header, no count, not the identifier; no registers after abi 0. The flag is told last. */
static int has_number(const struct ollskuvan_word *row, const struct ollskuvan_written *written)
{
    switch (row->form) {
    case OLLSKUVAN_FORM_HEADER:
    case OLLSKUVAN_FORM_COUNT:
    case OLLSKUVAN_FORM_FLAG:
        return 0;
    case OLLSKUVAN_FORM_USER_REGISTERS:
        return written->fields[OLLSKUVAN_SAMPLE_USER_ABI] != 0;
    case OLLSKUVAN_FORM_INTERRUPT_REGISTERS:
        return written->fields[OLLSKUVAN_SAMPLE_INTERRUPT_ABI] != 0;
    default:
        return !is_identifier(row);
    }
}

const struct ollskuvan_word *ollskuvan_field_row(const struct ollskuvan_written *written, uint32_t number)
{
    const uint64_t type = written->fields[OLLSKUVAN_TYPE];
    const struct ollskuvan_word *flag = NULL;
    uint32_t next = 5;
    size_t i;
    if (number >= 1 && number <= 3)
        return word_row(type, number - 1 + OLLSKUVAN_TYPE);
    if (number == 4)
        return word_row(type, type == OLLSKUVAN_TYPE_SAMPLE ? OLLSKUVAN_SAMPLE_IDENTIFIER : OLLSKUVAN_TRAILER_IDENTIFIER);
    for (i = 0; i < ollskuvan_words_count; i++) {
        const struct ollskuvan_word *row = &ollskuvan_words[i];
        if (!ollskuvan_word_is_of(row, type) || !ollskuvan_word_is_present(row, written))
            continue;
        if (row->form == OLLSKUVAN_FORM_FLAG)
            flag = row;
        else if (has_number(row, written) && next++ == number)
            return row;
    }
    return next == number ? flag : NULL;
}

const char *ollskuvan_field_name(const uint64_t *fields, const struct ollskuvan_event *event, uint32_t number)
{
    const struct ollskuvan_written written = { event->sample_type, event->read_format, event->branch_sample_type,
        event->sample_id_all != 0, fields };
    const struct ollskuvan_word *row = ollskuvan_field_row(&written, number);
    if (number == 0)
        return "answer";
    return row == NULL ? "" : number == 4 ? "identifier" : row->name;
}
