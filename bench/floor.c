/*
 * The floor: a drain that trusts every size and looks at no body. Nobody may
 * run it on a ring that it does not trust: a size of 0 keeps it in place until
 * the budget is used up. It shows what the journal alone costs.
 */
#include <string.h>

#include "drains.h"

struct ollskuvan_drained floor_drain(const uint8_t *ring, size_t ring_len, uint64_t head, uint64_t tail,
    uint64_t sample_type, uint64_t read_format, uint32_t sample_id_all, uint64_t user_mask, uint64_t interrupt_mask,
    uint64_t branch_sample_type, uint32_t edition, uint64_t budget, uint8_t *scratch, size_t scratch_len,
    uint8_t *journal, size_t journal_len)
{
    (void)sample_type, (void)read_format, (void)sample_id_all, (void)user_mask, (void)interrupt_mask,
        (void)branch_sample_type;
    (void)edition, (void)scratch, (void)scratch_len;
    const uint64_t start = tail, mask = ring_len - 1, room = journal_len / 16;
    uint64_t taken = 0;
    while (tail != head && taken < budget && taken < room) {
        uint64_t header;
        memcpy(&header, ring + (tail & mask), sizeof header);
        const uint64_t entry[2] = { 16 | (header & 0xffff) << 32, tail };
        memcpy(journal + 16 * taken, entry, sizeof entry);
        tail += header >> 48;
        taken++;
    }
    return (struct ollskuvan_drained){ .taken = taken, .bytes = tail - start, .tail = tail, .stop = 0 };
}
