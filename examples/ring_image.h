/*
 * What the bytes of a ring image mean: perf_ring.h says it. For the examples, which
 * refuse what is no image, and for the program, which says what is wrong with it.
 */
#ifndef EXAMPLES_RING_IMAGE_H
#define EXAMPLES_RING_IMAGE_H

#include "bytes.h"
#include "perf_ring.h"

static inline bool ring_length_allowed(size_t length)
{
    return length >= OLLSKUVAN_RING_MIN && length <= OLLSKUVAN_RING_MAX && (length & (length - 1)) == 0;
}

/* So many bytes behind the header: a ring and the branch sample type, or a ring. */
static inline bool ring_has_branch(size_t behind)
{
    return behind >= IMAGE_BRANCH && ring_length_allowed(behind - IMAGE_BRANCH);
}

/* Of at least IMAGE_HEADER bytes; the ring stays where it is, behind them. */
static inline struct ring_image ring_image_of(uint8_t *all, size_t length)
{
    struct ring_image image = {
        .head = little(all, 8), .tail = little(all + 8, 8),
        .attributes = { .sample_type = little(all + 16, 8), .read_format = little(all + 24, 8), .user_mask = little(all + 32, 8),
            .interrupt_mask = little(all + 40, 8), .edition = all[48], .sample_id_all = all[49] },
        .bytes = all + IMAGE_HEADER, .length = length - IMAGE_HEADER,
    };
    if (ring_has_branch(image.length)) {
        image.length -= IMAGE_BRANCH;
        image.attributes.branch_sample_type = little(image.bytes + image.length, 8);
    }
    return image;
}

#endif
