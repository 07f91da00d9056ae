#include "settings.h"

#include <inttypes.h>
#include <stdio.h>
#include <stdlib.h>
#include <string.h>

#include "bytes.h"
#include "file.h"
#include "why.h"

/* An entry: a length that covers itself, a kind, a body. */
enum { LENGTH_BYTES = 4, KIND_BYTES = 2, HEAD = LENGTH_BYTES + KIND_BYTES };
/* No store that can be read, and no fault in a row, lies further on. */
enum { FILE_MOST = 1 << 22 };

/* What a version decides; a later one is a row more. */
static const struct version {
    uint32_t number;
    size_t index; /* bytes of an event's index */
    size_t most;  /* events */
} versions[] = {
    { OLLSKUVAN_STORE_OLD_VERSION, 1, OLLSKUVAN_STORE_OLD_EVENTS },
    { OLLSKUVAN_STORE_VERSION, 2, OLLSKUVAN_EVENTS_MAX },
};
enum { VERSIONS = sizeof versions / sizeof versions[0], WORDS_STORED = 6 };

/* ---- what is wrong with a store, in words ---- */

/* The library tells the number. Which entry it is, and what is wrong there, is found here, entry by entry. */
struct walk {
    const uint8_t *bytes;
    size_t length, place;         /* of the entry that is looked at */
    const struct version *version; /* NULL before the first entry has told it */
    size_t events;
    char words[WHY_ROOM / 2];
};

static size_t event_length(const struct version *version)
{
    return HEAD + version->index + WORDS_STORED * 8;
}

static bool fits_kind(const struct walk *w, uint64_t length, uint64_t kind)
{
    bool event = false;
    for (size_t i = 0; i < VERSIONS; i++)
        if (w->version == NULL || w->version == &versions[i])
            event = event || length == event_length(&versions[i]);
    switch (kind) {
    case OLLSKUVAN_KIND_VERSION:
        return length == HEAD + 2;
    case OLLSKUVAN_KIND_EVENT:
        return event;
    case OLLSKUVAN_KIND_RING:
        return length == HEAD + 13;
    default:
        return false;
    }
}

/* True: it is whole and fits its kind. */
static bool is_entry(struct walk *w)
{
    size_t left = w->length - w->place;
    if (left < LENGTH_BYTES) {
        snprintf(w->words, sizeof w->words, "%zu %s left, and an entry has 6 at least", left, left == 1 ? "byte is" : "bytes are");
        return false;
    }
    uint64_t length = little(w->bytes + w->place, LENGTH_BYTES);
    if (length < HEAD || length > left) {
        snprintf(w->words, sizeof w->words, "an entry of %" PRIu64 " bytes, where 6 to %zu are possible", length, left);
        return false;
    }
    uint64_t kind = little(w->bytes + w->place + LENGTH_BYTES, KIND_BYTES);
    if (!fits_kind(w, length, kind)) {
        snprintf(w->words, sizeof w->words, "an entry of kind %" PRIu64 " and %" PRIu64 " bytes, which fits no known kind", kind, length);
        return false;
    }
    return true;
}

static bool look_at_version(struct walk *w)
{
    if (w->length >= HEAD + 2 && little(w->bytes, LENGTH_BYTES) == HEAD + 2 &&
        little(w->bytes + LENGTH_BYTES, KIND_BYTES) == OLLSKUVAN_KIND_VERSION) {
        uint64_t number = little(w->bytes + HEAD, 2);
        for (size_t i = 0; i < VERSIONS; i++)
            if (versions[i].number == number)
                w->version = &versions[i];
        snprintf(w->words, sizeof w->words, "version %" PRIu64, number);
    } else if (w->length == 0) {
        snprintf(w->words, sizeof w->words, "it is empty");
    } else if (is_entry(w)) {
        snprintf(w->words, sizeof w->words, "the first entry does not tell the version");
    }
    return w->version != NULL;
}

static bool look_at_event(struct walk *w, const uint8_t *body)
{
    uint64_t index = little(body, w->version->index);
    if (index == w->events++)
        return true;
    snprintf(w->words, sizeof w->words, "index %" PRIu64 ", where %zu is due", index, w->events - 1);
    return false;
}

/* True: nothing is wrong with it. */
static bool look_at_ring(struct walk *w, const uint8_t *body)
{
    uint64_t length = little(body, 8), edition = body[8];
    if (length < OLLSKUVAN_RING_MIN || length > OLLSKUVAN_RING_MAX || (length & (length - 1)) != 0)
        snprintf(w->words, sizeof w->words, "a ring of %" PRIu64 " bytes, which is not allowed", length);
    else if (edition < OLLSKUVAN_EDITION_1 || edition > OLLSKUVAN_EDITION_4)
        snprintf(w->words, sizeof w->words, "edition %" PRIu64 ", which this build does not know", edition);
    else
        return true;
    return false;
}

/* What follows the last entry: nothing is wrong if there is nothing. */
static bool look_behind(struct walk *w)
{
    if (w->place == w->length)
        return true;
    if (is_entry(w))
        snprintf(w->words, sizeof w->words, "an entry behind the last one");
    return false;
}

/* True: no entry is faulty. False: the place and words are of the first that is. */
static bool walk_entries(struct walk *w)
{
    if (!look_at_version(w))
        return false;
    for (w->place = HEAD + 2; w->place < w->length;) {
        if (!is_entry(w))
            return false;
        const uint8_t *body = w->bytes + w->place + HEAD;
        uint64_t kind = little(w->bytes + w->place + LENGTH_BYTES, KIND_BYTES);
        if (kind == OLLSKUVAN_KIND_VERSION) {
            snprintf(w->words, sizeof w->words, "a version for the second time");
            return false;
        }
        if (kind == OLLSKUVAN_KIND_EVENT ? !look_at_event(w, body) : !look_at_ring(w, body))
            return false;
        w->place += little(w->bytes + w->place, LENGTH_BYTES);
        if (kind == OLLSKUVAN_KIND_RING)
            return look_behind(w);
    }
    snprintf(w->words, sizeof w->words, "it ends before the ring's length");
    return false;
}

/* The first event for which the table is not allowed. */
static void find_in_table(struct walk *w)
{
    size_t length = event_length(w->version);
    const uint8_t *first = w->bytes + HEAD + 2 + HEAD + w->version->index;
    if (w->events == 0 || w->events > w->version->most) {
        snprintf(w->words, sizeof w->words, "%zu events, where 1 to %zu are allowed", w->events, w->version->most);
        return;
    }
    for (size_t i = 0; i < w->events; i++) {
        uint64_t identifier = little(first + i * length, 8);
        w->place = HEAD + 2 + i * length;
        if ((little(first + i * length + 8, 8) & OLLSKUVAN_BIT_IDENTIFIER) == 0) {
            snprintf(w->words, sizeof w->words, "event %zu lacks sample bit 16", i);
            return;
        }
        for (size_t k = 0; k < i; k++)
            if (little(first + k * length, 8) == identifier) {
                snprintf(w->words, sizeof w->words, "events %zu and %zu have the identifier %" PRIu64, k, i, identifier);
                return;
            }
    }
}

static bool refuse_store(char why[WHY_ROOM], uint32_t answer, const uint8_t *bytes, size_t length)
{
    struct walk w = { .bytes = bytes, .length = length };
    if (walk_entries(&w))
        find_in_table(&w);
    return refuse(why, "no settings: refused with %" PRIu32 " at byte %zu: %s", answer, w.place,
        w.words[0] != '\0' ? w.words : ollskuvan_refusal_text(answer));
}

/* ---- reading ---- */

static bool read_bytes(const uint8_t *bytes, size_t length, struct settings *settings, char why[WHY_ROOM])
{
    struct ollskuvan_settings s = ollskuvan_read_store(bytes, length, settings->events, OLLSKUVAN_EVENTS_MAX);
    if (s.answer != OLLSKUVAN_OK)
        return refuse_store(why, s.answer, bytes, length);
    settings->count = (size_t)s.events;
    settings->ring_length = s.ring_length;
    settings->edition = s.edition;
    settings->budget = s.budget;
    settings->version = (uint32_t)little(bytes + HEAD, 2);
    settings->bytes = length;
    return true;
}

enum settings_answer settings_load(const char *path, struct settings *settings, char why[WHY_ROOM])
{
    struct file file;
    memset(settings, 0, sizeof *settings);
    if (!file_read(&file, path, FILE_MOST + 1, why))
        return file.missing ? SETTINGS_MISSING : SETTINGS_BAD;
    bool read = file.length <= FILE_MOST ? read_bytes(file.bytes, file.length, settings, why)
        : refuse(why, "no settings: it has more than %d bytes", FILE_MOST);
    free(file.bytes);
    return read ? SETTINGS_READ : SETTINGS_BAD;
}

bool settings_equal(const struct settings *one, const struct settings *other)
{
    return one->count == other->count && one->ring_length == other->ring_length && one->edition == other->edition &&
        one->budget == other->budget && memcmp(one->events, other->events, one->count * sizeof one->events[0]) == 0;
}

/* ---- writing ---- */

bool settings_save(const char *path, const struct settings *settings, char why[WHY_ROOM])
{
    static uint8_t bytes[OLLSKUVAN_STORE_BYTES(OLLSKUVAN_EVENTS_MAX)];
    struct ollskuvan_stored stored = ollskuvan_write_store(settings->events, settings->count, settings->ring_length,
        settings->edition, settings->budget, bytes, sizeof bytes);
    if (stored.answer != OLLSKUVAN_OK)
        return refuse(why, "these settings cannot be kept: %" PRIu32 ", %s", stored.answer, ollskuvan_refusal_text(stored.answer));
    if (file_is_other(path))
        return refuse(why, "it is no file, and is not replaced");
    return file_replace(path, bytes, (size_t)stored.bytes, why);
}
