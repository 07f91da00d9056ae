/*
 * The kinds of rings: each is full of one record. Every type sound, each sample
 * bit alone, all of them, each read format, the hardware index, dirty names, each
 * refusal of each type. A controller lives by its slowest kind, so the list must be
 * whole: after it is made, `missing` asks the careful reader which answers came up
 * for which type, and the bench fails if one of the table below did not.
 *
 * With a table of events they are the same kinds, each with sample bit 16 and
 * sample_id_all besides.
 */
#include "bench.h"

#include <stdlib.h>
#include <string.h>

#include "kinds.h"

enum { KINDS_MAX = 480, RECORD_ROOM = 8192, RING = 65536 };

struct kind {
    char name[48];
    struct made_attributes attributes;
    uint32_t edition;
    size_t size;
    uint8_t record[RECORD_ROOM];
};

static struct kind *kinds;
static size_t kind_count;
static bool tabled;

enum { EVENTS = 11, OWN = 5, IDENTIFIER = 100 };

/* What an event of a table must select. */
static struct made_attributes marked(const struct made_attributes *a)
{
    struct made_attributes own = *a;
    if (tabled) {
        own.sample_type |= UINT64_C(1) << 16;
        own.sample_id_all = 1;
    }
    return own;
}

static const uint64_t trailer = UINT64_C(0x10086);

static void put16(uint8_t *at, uint64_t x)
{
    at[0] = (uint8_t)x, at[1] = (uint8_t)(x >> 8);
}

static void put64(uint8_t *at, uint64_t x)
{
    for (unsigned i = 0; i < 8; i++)
        at[i] = (uint8_t)(x >> 8 * i);
}

/* A sound record of a type under these attributes, and where its counts lie. */
static struct kind *add(const char *name, unsigned number, const struct made_attributes *a, unsigned type, bool build_id,
    struct made_aims *aims)
{
    struct made_random r = { 1000 + kind_count };
    struct kind *k = &kinds[kind_count];
    if (kind_count + 1 >= KINDS_MAX)
        abort();
    memset(k, 0, sizeof *k);
    snprintf(k->name, sizeof k->name, "%s-%u", name, number);
    k->attributes = marked(a);
    k->edition = 4;
    do {
        uint8_t *big = grab(MADE_RECORD_MAX);
        k->size = made_record(&r, &k->attributes, type, 400, big, aims);
        memcpy(k->record, big, k->size < RECORD_ROOM ? k->size : RECORD_ROOM);
        free(big);
    } while (k->size > 2048 || (type == 10 && ((k->record[5] >> 6 & 1) != 0) != build_id));
    kind_count++;
    return k;
}

/* The same with its size changed by so many bytes. */
static void resized(const char *name, const struct made_attributes *a, unsigned type, int by)
{
    struct made_aims aims;
    struct kind *k = add(name, type, a, type, false, &aims);
    if ((long)k->size + by < 8) { /* a header alone cannot be shorter */
        kind_count--;
        return;
    }
    k->size = (size_t)((long)k->size + by);
    put16(k->record + 6, k->size);
}

static const unsigned named[] = { 1, 3, 10, 17, 19 };

static void types(void)
{
    struct made_aims aims;
    struct made_attributes with = { .sample_type = trailer, .sample_id_all = 1 }, without = { .sample_type = trailer };
    for (unsigned type = 1; type <= 21; type++) {
        add("sound", type, &with, type, false, &aims);
        add("no-trailer", type, &without, type, false, &aims);
        resized("short", &with, type, -8);
        resized("long", &with, type, 8);
        struct made_attributes unknown = with;
        unknown.sample_type |= UINT64_C(1) << 30;
        struct kind *k = add("unknown-bit", type, &with, type, false, &aims);
        k->attributes = unknown; /* 21: the edition does not know the bit */
        k = add("edition-1", type, &with, type, false, &aims);
        k->edition = 1; /* 20 from type 10 on */
        k->attributes.sample_type = trailer & 0xffff;
        k = add("edition-3", type, &with, type, false, &aims);
        k->edition = 3; /* 20 for type 21 */
    }
    static const uint32_t strange[] = { 0, 22, 31, 32, 65535, 65536, UINT32_MAX };
    for (unsigned i = 0; i < sizeof strange / sizeof strange[0]; i++) {
        struct kind *k = add("strange", i, &with, 14, false, &aims);
        for (unsigned b = 0; b < 4; b++)
            k->record[b] = (uint8_t)(strange[i] >> 8 * b);
    }
}

static void names(void)
{
    struct made_aims aims;
    struct made_attributes with = { .sample_type = trailer, .sample_id_all = 1 };
    size_t tail = 8 * (size_t)__builtin_popcountll(trailer & OLLSKUVAN_TRAILER_BITS);
    for (unsigned i = 0; i < sizeof named / sizeof named[0]; i++) {
        struct kind *k = add("no-zero", named[i], &with, named[i], false, &aims);
        memset(k->record + k->size - tail - 8, 'x', 8); /* 33 */
        k = add("early-zero", named[i], &with, named[i], false, &aims);
        k->record[k->size - tail - 9] = 0;
        k = add("before-name", named[i], &with, named[i], false, &aims);
        k->size = 8 + tail; /* 30: it ends before its name starts */
        put16(k->record + 6, k->size);
    }
    struct kind *k = add("build-id", 10, &with, 10, true, &aims);
    k->record[40] = 20;
    k = add("build-id-long", 10, &with, 10, true, &aims);
    k->record[40] = 21; /* 32 */
    k = add("build-id-old", 10, &with, 10, true, &aims);
    k->edition = 2; /* 23 */
    k->attributes.sample_type = trailer;
}

static void read_formats(void)
{
    struct made_aims aims;
    for (unsigned format = 0; format < 32; format++) { /* from 16 on with lost counts */
        struct made_attributes a = { .sample_type = trailer | 16, .read_format = format, .sample_id_all = 1 };
        add("read-format", format, &a, 8, false, &aims);
        add("sample-format", format, &a, 9, false, &aims);
        if ((format & 8) != 0) {
            struct kind *k = add("group-over", format, &a, 9, false, &aims);
            put64(k->record + aims.list[0].at, UINT64_MAX / 8); /* 30 */
            k = add("read-over", format, &a, 8, false, &aims);
            put64(k->record + aims.list[0].at, UINT64_MAX / 8);
        }
    }
    for (unsigned type = 8; type <= 9; type++) { /* 22: bit 4 in edition 3, bit 5 in edition 4 */
        struct made_attributes a = { .sample_type = trailer | 16, .read_format = 16, .sample_id_all = 1 };
        struct kind *k = add("format-16", type, &a, type, false, &aims);
        k->edition = 3;
        a.read_format = 32;
        add("format-32", type, &a, type, false, &aims);
    }
}

static void sample_bits(void)
{
    struct made_aims aims;
    for (unsigned bit = 0; bit < 25; bit++) {
        struct made_attributes a = { .sample_type = UINT64_C(1) << bit, .user_mask = 0xffff, .interrupt_mask = 0xff };
        add("bit", bit, &a, 9, false, &aims);
        resized("bit-short", &a, 9, -8);
        resized("bit-long", &a, 9, 8);
        static const unsigned counted[] = { 5, 10, 11, 13, 20 };
        for (unsigned i = 0; i < sizeof counted / sizeof counted[0]; i++)
            if (counted[i] == bit) {
                struct kind *k = add("bit-odd", bit, &a, 9, false, &aims);
                put16(k->record + aims.list[0].at, 9); /* 30, or 32 where the size must be even */
                k = add("bit-over", bit, &a, 9, false, &aims);
                put16(k->record + aims.list[0].at, bit == 10 ? 65532 : 65528);
            }
    }
    struct made_attributes all = { .sample_type = UINT64_C(0xffffff), .user_mask = 0xffff, .interrupt_mask = 0xff };
    add("all-bits", 9, &all, 9, false, &aims);
    all.sample_type |= UINT64_C(1) << 24;
    add("two-weights", 9, &all, 9, false, &aims); /* 24 */
    struct made_attributes stack = { .sample_type = UINT64_C(1) << 13 };
    struct kind *k = add("stack-filled", 13, &stack, 9, false, &aims);
    size_t first = tabled ? 16 : 8; /* behind the identifier */
    put64(k->record + first, 16), put64(k->record + first + 24, 17); /* 32: more filled than there is */
    k->size = first + 32;
    put16(k->record + 6, k->size);
}

/* Branch stacks with the hardware index, and 25. */
static void branches(void)
{
    struct made_aims aims;
    const uint64_t index = OLLSKUVAN_BRANCH_HW_INDEX;
    size_t first = tabled ? 16 : 8; /* behind the identifier */
    struct made_attributes a = { .sample_type = OLLSKUVAN_BIT_BRANCHES, .branch_sample_type = index };
    struct made_attributes all = { .sample_type = UINT64_C(0xffffff), .user_mask = 0xffff, .interrupt_mask = 0xff,
        .branch_sample_type = index };
    struct kind *k = add("index", 11, &a, 9, false, &aims);
    resized("index-short", &a, 9, -8);
    resized("index-long", &a, 9, 8);
    k = add("index-over", 11, &a, 9, false, &aims);
    put64(k->record + aims.list[0].at, UINT64_MAX / 24 + 1); /* 30 */
    k = add("index-alone", 11, &a, 9, false, &aims);
    put64(k->record + first, 0), k->size = first + 16; /* no branch, and the index all the same */
    put16(k->record + 6, k->size);
    k = add("index-missing", 11, &a, 9, false, &aims);
    put64(k->record + first, 0), k->size = first + 8; /* 30: as a kernel writes it that has no branch stack */
    put16(k->record + 6, k->size);
    add("index-all-bits", 9, &all, 9, false, &aims);
    for (uint32_t edition = 1; edition <= 4; edition++) { /* 25, 25, accepted, accepted */
        k = add("index-edition", edition, &a, 9, false, &aims);
        k->edition = edition;
    }
    a.branch_sample_type = UINT64_C(0x5ffff); /* all that changes nothing */
    add("branch-bits", 11, &a, 9, false, &aims);
    for (unsigned bit = 19; bit < 64; bit += 22) { /* 25: bits 19, 41, 63 */
        a.branch_sample_type = UINT64_C(1) << bit;
        add("branch-bit", bit, &a, 9, false, &aims);
    }
    a.sample_type |= OLLSKUVAN_BIT_WEIGHT | OLLSKUVAN_BIT_WEIGHT_STRUCT;
    add("branch-and-weights", 9, &a, 9, false, &aims); /* 25 before 24 */
    struct made_attributes without = { .sample_type = 1, .branch_sample_type = UINT64_MAX };
    add("branch-unselected", 9, &without, 9, false, &aims); /* accepted: no sample bit 11 */
    struct made_attributes other = { .sample_type = trailer | OLLSKUVAN_BIT_BRANCHES, .sample_id_all = 1,
        .branch_sample_type = UINT64_MAX };
    add("branch-other-type", 8, &other, 8, false, &aims); /* accepted: no SAMPLE */
}

/* Names with stale bytes after their zero, before a trailer: record check says 44, the drains 0. */
static void dirty_names(void)
{
    static const struct {
        const char *name;
        const uint8_t last[8]; /* of the name's room */
    } stale[] = { { "dirty", { 'k', 'i', 'l', 'n', 0, 1 } }, { "dirty-last", { 'k', 'i', 'l', 'n', [7] = 0x80 } },
        { "dirty-empty", { [7] = 'x' } } };
    struct made_aims aims;
    struct made_attributes with = { .sample_type = trailer, .sample_id_all = 1 };
    size_t tail = 8 * (size_t)__builtin_popcountll(trailer & OLLSKUVAN_TRAILER_BITS);
    for (unsigned i = 0; i < sizeof named / sizeof named[0]; i++)
        for (unsigned j = 0; j < sizeof stale / sizeof stale[0]; j++) {
            struct kind *k = add(stale[j].name, named[i], &with, named[i], false, &aims);
            memcpy(k->record + k->size - tail - 8, stale[j].last, 8);
        }
}

static void make(bool with_table)
{
    if (kinds != NULL && tabled == with_table)
        return;
    free(kinds);
    kinds = grab(KINDS_MAX * sizeof *kinds);
    kind_count = 0;
    tabled = with_table;
    types();
    names();
    read_formats();
    sample_bits();
    branches();
    dirty_names();
}

/* A ring full of the kind's record. */
static void fill(const struct kind *k, struct made_ring *ring)
{
    ring->attributes = k->attributes;
    ring->edition = k->edition;
    ring->length = RING;
    ring->tail = ring->head = 0;
    ring->budget = UINT64_MAX;
    ring->scratch_length = RING;
    ring->journal_length = 16 * (RING / 8 + 1);
    for (; ring->head + k->size <= RING; ring->head += k->size) {
        uint8_t *record = ring->bytes + ring->head;
        memcpy(record, k->record, k->size);
        if (tabled && k->size >= 16)
            put64(k->record[0] == 9 && k->record[1] == 0 ? record + 8 : record + k->size - 8, IDENTIFIER + OWN);
    }
}

/* A table of which the kind is one event, and the others sample. */
static void fill_table(const struct kind *k, struct made_ring *ring)
{
    struct made_attributes own = marked(&k->attributes);
    ring->event_count = EVENTS;
    for (unsigned i = 0; i < EVENTS; i++)
        ring->events[i] = (struct ollskuvan_event){ IDENTIFIER + i, 0x10187, 0, 0, 0, 0, 1 };
    ring->events[OWN] = (struct ollskuvan_event){ IDENTIFIER + OWN, own.sample_type, own.read_format, own.user_mask,
        own.interrupt_mask, own.branch_sample_type, 1 };
}

static uint32_t answer_of(const uint8_t *journal)
{
    return (uint32_t)journal[6] | (uint32_t)journal[7] << 8;
}

/* What must have come up, by type: the answers that documents 01 and 02 give it. */
static int missing(bool seen[22][64])
{
    int failed = 0;
    for (unsigned type = 1; type <= 21; type++) {
        bool want[64] = { [0] = true, [21] = true, [31] = true };
        want[20] = type > 9;
        want[30] = true;
        want[22] = type == 8 || type == 9;
        want[23] = type == 10;
        want[24] = type == 9;
        want[25] = type == 9;
        want[32] = type == 9 || type == 10;
        for (unsigned i = 0; i < sizeof named / sizeof named[0]; i++)
            if (named[i] == type)
                want[33] = want[44] = true, want[31] = false; /* bytes after a name are its room */
        for (unsigned x = 0; x < 64; x++)
            if (want[x] && !seen[type][x]) {
                printf("kinds: no ring of type %u with answer %u\n", type, x);
                failed = 1;
            }
    }
    return failed;
}

typedef uint32_t check_function(const uint8_t *record, size_t record_len, uint64_t sample_type, uint64_t read_format,
    uint32_t sample_id_all, uint64_t user_mask, uint64_t interrupt_mask, uint64_t branch_sample_type, uint32_t edition);

static uint32_t run_check(check_function *check, const uint8_t *record, size_t size, const struct made_attributes *a, uint32_t edition)
{
    return check(record, size, a->sample_type, a->read_format, a->sample_id_all, a->user_mask, a->interrupt_mask,
        a->branch_sample_type, edition);
}

int run_checks(const char *whose, enum made_workload which)
{
    struct made_ring ring = { .bytes = grab(MADE_RING_MAX) };
    check_function *check = strcmp(whose, "ours") == 0 ? ollskuvan_check : careful_check;
    size_t records = 0, accepted = 0;
    made_fill(which, 65536, &ring);
    /* the first record crosses the ring's end: it is left out */
    uint64_t at = ring.tail + (ring.bytes[(ring.tail + 6) % 65536] | (uint64_t)ring.bytes[(ring.tail + 7) % 65536] << 8);
    for (size_t size; at < ring.head; at += size, records++) {
        const uint8_t *record = ring.bytes + at % 65536;
        size = (size_t)(record[6] | record[7] << 8);
        accepted += run_check(check, record, size, &ring.attributes, ring.edition) == 0;
    }
    printf("records %zu accepted %zu\n", records, accepted);
    free(ring.bytes);
    return 0;
}

/* Both record checks of a kind's record: the drains' answer, or 44 where it is 0. */
static bool checks_agree(const struct kind *k, uint32_t drained, uint32_t *answer)
{
    uint32_t mine = run_check(ollskuvan_check, k->record, k->size, &k->attributes, k->edition);
    *answer = run_check(careful_check, k->record, k->size, &k->attributes, k->edition);
    return mine == *answer && (*answer == OLLSKUVAN_DIRTY_NAME ? OLLSKUVAN_OK : *answer) == drained;
}

/* Both drains on every kind: the same journal, and no answer of the table is missing. */
int compare_kinds(void)
{
    static bool seen[22][64];
    struct made_ring ring = { .bytes = grab(MADE_RING_MAX) };
    uint8_t *scratch = grab(RING), *mine = grab(16 * (RING / 8 + 1)), *theirs = grab(16 * (RING / 8 + 1));
    int failed = 0;
    make(false);
    for (size_t i = 0; i < kind_count; i++) {
        fill(&kinds[i], &ring);
        struct ollskuvan_drained a = run_drain(contenders[CAREFUL].drain, &ring, scratch, theirs);
        struct ollskuvan_drained b = run_drain(contenders[OURS].drain, &ring, scratch, mine);
        uint32_t type = kinds[i].record[0], checked;
        if (!checks_agree(&kinds[i], answer_of(theirs), &checked)) {
            printf("kinds: a record check differs on %s\n", kinds[i].name);
            failed = 1;
        }
        if (a.taken != b.taken || a.stop != b.stop || memcmp(mine, theirs, 16 * a.taken) != 0) {
            printf("kinds: the drains differ on %s\n", kinds[i].name);
            failed = 1;
        }
        if (type <= 21 && kinds[i].record[1] == 0 && kinds[i].record[2] == 0 && answer_of(theirs) < 64)
            seen[type][answer_of(theirs)] = seen[type][checked % 64] = true;
    }
    failed |= missing(seen);
    printf("kinds of rings: %zu, %s\n", kind_count, failed ? "FAILED" : "the drains agree on all, and none is missing");
    free(ring.bytes), free(scratch), free(mine), free(theirs);
    return failed;
}

int compare_table_kinds(void)
{
    struct made_ring ring = { .bytes = grab(MADE_RING_MAX), .events = grab(EVENTS * sizeof *ring.events) };
    uint8_t *scratch = grab(RING), *mine = grab(16 * (RING / 8 + 1)), *theirs = grab(16 * (RING / 8 + 1));
    int failed = 0;
    make(true);
    for (size_t i = 0; i < kind_count; i++) {
        fill(&kinds[i], &ring);
        fill_table(&kinds[i], &ring);
        struct ollskuvan_drained a = run_events(contenders[CAREFUL].events, &ring, scratch, theirs);
        struct ollskuvan_drained b = run_events(contenders[OURS].events, &ring, scratch, mine);
        if (a.taken == 0 || a.taken != b.taken || a.stop != b.stop || memcmp(mine, theirs, 16 * a.taken) != 0) {
            printf("kinds: the drains with a table differ on %s\n", kinds[i].name);
            failed = 1;
        }
    }
    printf("kinds of rings with a table: %zu, %s\n", kind_count, failed ? "FAILED" : "the drains agree on all");
    free(ring.bytes), free(ring.events), free(scratch), free(mine), free(theirs);
    return failed;
}

static void run_kind(const struct contender *who, const struct made_ring *ring, uint8_t *scratch, uint8_t *journal)
{
    if (tabled)
        run_events(who->events, ring, scratch, journal);
    else
        run_drain(who->drain, ring, scratch, journal);
}

/* Two drains of each kind, with budgets 8 and 40: their difference is 32 records. For callgrind, which dumps after each. */
int run_kinds(const char *drain, bool table)
{
    struct made_ring ring = { .bytes = grab(MADE_RING_MAX), .events = grab(EVENTS * sizeof *ring.events) };
    uint8_t *scratch = grab(RING), *journal = grab(16 * (RING / 8 + 1));
    make(table);
    for (size_t k = 0; k < contender_count; k++)
        if (strcmp(drain, contenders[k].name) == 0)
            for (size_t i = 0; i < kind_count; i++) {
                fill(&kinds[i], &ring);
                fill_table(&kinds[i], &ring);
                ring.budget = 8;
                run_kind(&contenders[k], &ring, scratch, journal);
                printf("kind %s answer %u\n", kinds[i].name, answer_of(journal));
                ring.budget = 40;
                run_kind(&contenders[k], &ring, scratch, journal);
            }
    free(ring.bytes), free(ring.events), free(scratch), free(journal);
    return 0;
}
