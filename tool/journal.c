/*
 * ollskuvan journal: the lines that the proved program ringdump prints, for the
 * rings that it takes and for longer ones.
 */
#include <inttypes.h>
#include <stdio.h>
#include <stdlib.h>

#include "command.h"
#include "image.h"
#include "show.h"

static const struct takes takes = {
    "usage: ollskuvan journal IMAGE\n"
    "Drains the ring and prints what ringdump prints: for each record its journal entry as 32 hex\n"
    "digits (16, kind, answer, tail count), then why the drain stopped and at which tail.\n",
    NULL, 1, 1,
};

/* Of fewer than 50 bytes: an empty ring and tail 0, which is 01's stop 1 tail 0. */
static int print_journal(const struct image *image)
{
    struct ollskuvan_drained done;
    uint8_t *journal = image_drain(image, &done);
    if (journal == NULL)
        return STATUS_FAILED;
    for (uint64_t i = 0; i < done.taken && !ferror(stdout); i++)
        show_entry(journal + i * OLLSKUVAN_JOURNAL_ENTRY);
    printf("stop %" PRIu32 " tail %" PRIu64 "\n", done.stop, done.tail);
    free(journal);
    return image_is_none(image) ? STATUS_FAILED : image_end(image, &done);
}

int journal_command(int argc, char **argv)
{
    return image_command(argc, argv, &takes, print_journal);
}
