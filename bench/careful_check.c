/*
 * Record check in careful C: the frame, then 20 to 25 and the sums of this
 * record's type alone; last, whether bytes are left after a name's zero (44). The pieces are careful.c's; they are compiled once more
 * here, so that the drain's own code stays as it is.
 */
#define careful_drain careful_drain_not_used
#define careful_once_drain careful_once_drain_not_used
#define careful_drain_events careful_drain_events_not_used
#include "careful.c"

#include "kinds.h"

static uint32_t refused(uint32_t type, uint32_t edition, uint64_t sample_type, uint64_t read_format, bool id_all,
    uint64_t branch_sample_type)
{
    if (type == 0 || type > last_type[edition])
        return 20;
    if (sample_type >> (last_bit[edition] + 1) != 0 && (type == 9 || id_all))
        return 21;
    if (read_format >> (last_format[edition] + 1) != 0 && (type == 8 || (type == 9 && bit(sample_type, 4))))
        return 22;
    if (type == 9 && bit(sample_type, 11) && new_branches(edition, branch_sample_type))
        return 25;
    if (type == 9 && bit(sample_type, 14) && bit(sample_type, 24))
        return 24;
    return 0;
}

static uint32_t sized(uint64_t size, uint64_t want)
{
    return size == want ? 0 : size < want ? 30 : 31;
}

/* Of a name that was accepted: its zero is in the room's last word, the lowest that is found there. */
static uint32_t dirty_name(const uint8_t *end)
{
    uint64_t last = load64(end - 8);
    uint64_t zeros = (last - UINT64_C(0x0101010101010101)) & ~last & UINT64_C(0x8080808080808080);
    return last >> (__builtin_ctzll(zeros) & 56) != 0 ? 44 : 0;
}

uint32_t careful_check(const uint8_t *record, size_t record_len, uint64_t sample_type, uint64_t read_format,
    uint32_t sample_id_all, uint64_t user_mask, uint64_t interrupt_mask, uint64_t branch_sample_type, uint32_t edition)
{
    if (edition - 1 > 3)
        return 2;
    if (record_len < HEADER)
        return 7;
    uint64_t size = load16(record + 6);
    if (size < HEADER || size % 8 != 0)
        return 6;
    if (size != record_len)
        return 7;
    uint32_t type = load32(record);
    uint32_t why = refused(type, edition, sample_type, read_format, sample_id_all != 0, branch_sample_type);
    if (why != 0)
        return why;
    struct plan p;
    if (type == 9) {
        if (bit(sample_type, 4))
            read_sums(&p, read_format);
        else
            p.read_entry = p.read_words = 0;
        p.branch_words = branch_words(branch_sample_type);
        p.user = bit(sample_type, 12) ? words(user_mask) : 0;
        p.interrupt = bit(sample_type, 18) ? words(interrupt_mask) : 0;
        make_sample(&p, sample_type, read_format);
        return p.form[9] == FORM_FIXED ? sized(size, p.want[9]) : judge_sample(&p, record, size);
    }
    p.trailer = sample_id_all != 0 ? words(sample_type & OLLSKUVAN_TRAILER_BITS) : 0;
    if (fixed_size[type] != 0)
        return sized(size, fixed_size[type] + p.trailer);
    if (name_start[type] != 0) {
        p.form[type] = type == 10 ? FORM_MMAP2 : FORM_NAME;
        p.from[type] = name_start[type];
        p.build_id_known = edition >= 3;
        why = judge(&p, record, type, load16(record + 4), size);
        return why == 0 ? dirty_name(record + size - p.trailer) : why;
    }
    p.form[type] = type == 16 ? FORM_NAMESPACES : FORM_TEXT_POKE;
    if (type == 8) {
        read_sums(&p, read_format);
        if (p.read_entry == 0)
            return sized(size, HEADER + 8 + p.read_words + p.trailer);
        p.form[8] = FORM_READ;
    }
    return judge_seldom(&p, record, type, size);
}
