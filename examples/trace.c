#include "trace.h"

#include <errno.h>
#include <string.h>

#include "bytes.h"
#include "events.h"
#include "why.h"

enum { ENTRY_HEAD = 6, RECORD_HEAD = 8 };

static bool refuse_error(char why[WHY_ROOM], const char *what)
{
    return refuse(why, "%s: %s", what, strerror(errno));
}

bool trace_begin(struct trace *t, const char *path, const struct perf_ring *ring, char why[WHY_ROOM])
{
    char beside[TRACE_PATH_ROOM];
    *t = (struct trace){ .start = perf_ring_tail(ring), .seen = perf_ring_tail(ring) };
    if (snprintf(t->path, sizeof t->path, "%s", path) >= (int)sizeof t->path - (int)sizeof ".journal") {
        errno = ENAMETOOLONG;
        return refuse_error(why, "the trace");
    }
    if (!event_table_save(&ring->table, path, why))
        return false;
    t->file = fopen(path, "wb");
    if (t->file == NULL)
        return refuse_error(why, "the trace");
    snprintf(beside, sizeof beside, "%.*s.journal", TRACE_PATH_ROOM - 16, path);
    t->journal = fopen(beside, "w");
    return t->journal != NULL || refuse_error(why, "its journal");
}

/* ---- entries ---- */

/* A length that covers itself, a kind; the body follows. */
static void put_head(struct trace *t, unsigned kind, size_t body)
{
    uint8_t head[ENTRY_HEAD];
    put_little(head, 4, ENTRY_HEAD + body);
    put_little(head + 4, 2, kind);
    fwrite(head, 1, sizeof head, t->file);
}

/* The bytes of the ring at a count, round its end. */
static void put_part(struct trace *t, const struct perf_ring *ring, uint64_t count, size_t bytes)
{
    size_t place = (size_t)(count % ring->length), first = ring->length - place;
    first = first < bytes ? first : bytes;
    fwrite(ring->bytes + place, 1, first, t->file);
    fwrite(ring->bytes, 1, bytes - first, t->file);
}

/* The record that is seen next. False: what stands there is none that could be offered. */
static bool put_offer(struct trace *t, const struct perf_ring *ring, uint64_t head)
{
    const uint8_t *at = ring->bytes + t->seen % ring->length;
    uint64_t size = little(at + 6, 2); /* a header never crosses the ring's end */
    if (size < RECORD_HEAD || size % 8 != 0 || size > head - t->seen)
        return false;
    put_head(t, OLLSKUVAN_KIND_OFFER, (size_t)size);
    put_part(t, ring, t->seen, (size_t)size);
    t->seen += size;
    t->records++;
    return true;
}

static void put_drain(struct trace *t, uint64_t budget)
{
    uint8_t body[4];
    put_little(body, sizeof body, budget);
    put_head(t, OLLSKUVAN_KIND_DRAIN, sizeof body);
    fwrite(body, 1, sizeof body, t->file);
    t->drains++;
}

static void put_line(FILE *file, const uint8_t *entry)
{
    for (unsigned i = 0; i < OLLSKUVAN_JOURNAL_ENTRY; i++)
        fprintf(file, "%02x", entry[i]);
    fputc('\n', file);
}

void trace_follow(struct trace *t, const struct perf_ring *ring, uint64_t head, uint64_t budget,
    const struct ollskuvan_drained *done, const uint8_t *journal)
{
    if (t->ended || head % 8 != 0 || head - t->seen > ring->length) {
        t->ended = true;
        return;
    }
    while (t->seen != head && !t->ended)
        t->ended = !put_offer(t, ring, head);
    put_drain(t, budget);
    for (uint64_t i = 0; i < done->taken; i++)
        put_line(t->journal, journal + i * OLLSKUVAN_JOURNAL_ENTRY);
}

static bool close_file(FILE **file, char why[WHY_ROOM], const char *what)
{
    if (*file == NULL)
        return true;
    bool failed = ferror(*file) != 0; /* some earlier writing did, and why is not known any more */
    errno = 0;
    bool closed = fclose(*file) == 0;
    *file = NULL;
    if (closed && !failed)
        return true;
    return errno != 0 ? refuse_error(why, what) : refuse(why, "%s: it cannot be written", what);
}

bool trace_close(struct trace *t, char why[WHY_ROOM])
{
    bool file = close_file(&t->file, why, "the trace"), journal = close_file(&t->journal, why, "its journal");
    return file && journal;
}
