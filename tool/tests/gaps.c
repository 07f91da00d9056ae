/*
 * What the controller gives up at a stop that no later call gets past: a gap is
 * counted at each, its bytes at 5, 6 and 7, and none at 4, where head and tail are
 * no two counts of one ring. The tail goes on at the head.
 */
#include "../../examples/record_command.c"

static int wrongs;

static void due(const char *what, uint32_t stop, uint64_t is, uint64_t wanted)
{
    if (is == wanted)
        return;
    fprintf(stderr, "WRONG: gaps: stop %u: %s %llu, not %llu\n", (unsigned)stop, what, (unsigned long long)is, (unsigned long long)wanted);
    wrongs++;
}

int main(void)
{
    static const struct {
        uint32_t stop;
        uint64_t head, tail, gaps, bytes, next;
        bool broken;
    } rows[] = {
        { OLLSKUVAN_STOP_NOTHING, 96, 96, 0, 0, 96, false },
        { OLLSKUVAN_STOP_BUDGET, 96, 32, 0, 0, 32, false },
        { OLLSKUVAN_STOP_JOURNAL, 96, 32, 0, 0, 32, false },
        { OLLSKUVAN_STOP_DISTANCE, UINT64_C(1) << 40, 8, 1, 0, UINT64_C(1) << 40, false },
        { OLLSKUVAN_STOP_DISTANCE, 8, 16, 1, 0, 8, false }, /* head behind tail: nearly 2^64 bytes if they were counted */
        { OLLSKUVAN_STOP_ALIGNMENT, 36, 32, 1, 4, 36, false },
        { OLLSKUVAN_STOP_SIZE, 96, 32, 1, 64, 96, false },
        { OLLSKUVAN_STOP_PAST_HEAD, 96, 88, 1, 8, 96, false },
        { OLLSKUVAN_STOP_TABLE, 96, 32, 0, 0, 32, true },
    };
    struct controller *c = must(calloc(1, sizeof *c));
    struct perf_ring *ring = must(calloc(1, sizeof *ring));
    char text[GAP_TEXT];
    called_as("gaps");
    for (size_t i = 0; i < sizeof rows / sizeof rows[0]; i++) {
        const struct ollskuvan_drained done = { .stop = rows[i].stop, .tail = rows[i].tail };
        c->gaps = c->skipped = 0;
        c->broken = false;
        due("tail", done.stop, tail_after(c, ring, rows[i].head, &done), rows[i].next);
        due("gaps", done.stop, c->gaps, rows[i].gaps);
        due("bytes", done.stop, c->skipped, rows[i].bytes);
        due("broken", done.stop, c->broken, rows[i].broken);
    }
    due("digits in the text", OLLSKUVAN_STOP_DISTANCE, strpbrk(gap_text(OLLSKUVAN_STOP_DISTANCE, 24, text), "0123456789") != NULL, 0);
    due("text", OLLSKUVAN_STOP_SIZE, strcmp(gap_text(OLLSKUVAN_STOP_SIZE, 24, text), "24 bytes") != 0, 0);
    free(ring);
    free(c);
    return wrongs != 0;
}
