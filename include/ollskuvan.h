/*
 * ollskuvan.h: the C face of Ollskuvan, a proved reader of the Linux perf ring.
 *
 * Link with libollskuvan.a (and libollskuvan_words.a for the texts at the end);
 * pkg-config --cflags --libs ollskuvan tells both. C99; the header may also be
 * included from C++. All numbers in rings, records and journals are
 * little-endian. The library is for x86-64, aarch64, riscv64 and 32-bit ARM with
 * hard float (docs/BOARDS.md).
 *
 * What the library does not do: it opens no event, maps no memory, issues no
 * memory barrier, allocates nothing, keeps nothing between two calls and reads
 * no byte outside the slices it is lent. Every call answers for every input:
 * there is no input that is not allowed beyond what is owed here.
 *
 * Threads: the library has no data of its own that is ever written, and takes
 * no lock. Any number of threads may call at the same time, also from a signal
 * handler, as long as no slice that one call writes is lent to another. Two
 * that drain a ring from one tail take the same records; two readers of one ring
 * keep a tail each, and ollskuvan_publish tells which one the kernel gets.
 *
 * Stack: a call that is lent no table of events and no store needs at most 2,560
 * bytes, any other at most 11,264, but for ollskuvan_read_store (16,640), and
 * ollskuvan_drain_events and ollskuvan_walk_back_events (90,112, whatever the
 * table's length): a call's return address and what it calls included (measured on
 * a painted stack, on x86-64). Besides its own code a call needs the C library's
 * memcpy and memset alone; elsewhere than on x86-64 it may take memmove too, and on
 * 32-bit ARM it needs the compiler's division of 64-bit numbers. No function calls
 * itself, so no input makes it more.
 *
 * What the caller owes:
 *
 *  - A slice is a pointer and a length in elements. The pointer must be good
 *    for that many elements for the time of the call, for writing too where it
 *    is not const, and the u64 slices must be aligned to 8 bytes. A slice of
 *    length 0 may have any pointer, also a null pointer.
 *  - A slice that is written (scratch, journal, buffer, fields, the table of
 *    read_store, rooms, out, changes) must not overlap any other slice of the same call. Slices that
 *    are only read may overlap each other.
 *  - Nobody else may write to a lent slice during the call. For a live ring
 *    this means: read data_head, then issue your own read barrier, then call;
 *    after the call issue your own full barrier and only then store the new
 *    tail in data_tail. The bytes between tail and head are the reader's until
 *    that store.
 *  - ring is the data area alone (data_offset, data_size), not the metadata
 *    page before it. head and tail are the 64-bit counts as the kernel and the
 *    caller keep them, not reduced by the ring's length. A kernel of 32 bits keeps
 *    32 of head's: widen it first (docs/BOARDS.md).
 *  - One attribute set serves a whole ring: sample_type, read_format,
 *    sample_id_all, user_mask (sample_regs_user), interrupt_mask
 *    (sample_regs_intr) and branch_sample_type are those the event was opened
 *    with. sample_id_all is set if it is not zero; it and the edition are not
 *    narrowed (edition 257 is not edition 1). A ring with several events is read
 *    with a table of them: struct ollskuvan_event, below.
 */
#ifndef OLLSKUVAN_H
#define OLLSKUVAN_H

#include <stddef.h>
#include <stdint.h>

#ifdef __cplusplus
extern "C" {
#endif

/* The version of this header and its library: 4.1.0 is 40100. */
#define OLLSKUVAN_VERSION "4.1.0"
#define OLLSKUVAN_VERSION_NUMBER 40100

/* ------------------------------------------------------------------------
 * Editions: what is known of sample bits and record types.
 *   1: sample bits 0 to 15, types 1 to 9
 *   2: sample bits 0 to 18, types 1 to 15
 *   3: sample bits 0 to 24, types 1 to 20, the build-id form of MMAP2, and the
 *      hardware index of a branch stack (branch bit 17)
 *   4: as 3, and type 21 and read-format bit 4 (lost counts)
 * All know read-format bits 0 to 3, and branch bits 0 to 16 and 18.
 *
 * Which one to give: the newest, unless the answers must be those of an older
 * reader. A ring is cut into the same records in every edition, and what an
 * older one knows it reads as the newer ones do; the rest it refuses with 20,
 * 21, 22, 23 or 25. Nothing in the ring tells the edition: it is not the kernel's
 * version, and a newer edition reads an older kernel's ring.
 */
#define OLLSKUVAN_EDITION_1 1u
#define OLLSKUVAN_EDITION_2 2u
#define OLLSKUVAN_EDITION_3 3u
#define OLLSKUVAN_EDITION_4 4u

/* The ring's length: a power of two between these two. */
#define OLLSKUVAN_RING_MIN 64u
#define OLLSKUVAN_RING_MAX 1048576u

/* The greatest size of a record: the greatest u16 that is a multiple of 8. */
#define OLLSKUVAN_RECORD_MAX 65528u

/* The most events of a table; the fewest is 1. */
#define OLLSKUVAN_EVENTS_MAX 1024u

/* The store of settings (ollskuvan_write_store): the version that is written, the
 * one before it, which is read too, the most events that one has, the kinds of the
 * entries, and the bytes that a store of so many events takes, by version: 8 for
 * the version, 55 or 56 an event, 19 for the rest. OLLSKUVAN_STORE_BYTES is for the
 * version that is written: a buffer of so many bytes is long enough. */
#define OLLSKUVAN_STORE_VERSION 2u   /* an index of two bytes; 1 to OLLSKUVAN_EVENTS_MAX events */
#define OLLSKUVAN_STORE_OLD_VERSION 1u /* an index of one byte; 1 to OLLSKUVAN_STORE_OLD_EVENTS events */
#define OLLSKUVAN_STORE_OLD_EVENTS 32u
#define OLLSKUVAN_KIND_VERSION 1u /* the first entry: the store's version */
#define OLLSKUVAN_KIND_EVENT 2u   /* an event: its index, identifier and attributes */
#define OLLSKUVAN_KIND_RING 3u    /* the last entry: ring length, edition, budget */
#define OLLSKUVAN_STORE_BYTES_1(events) (27u + 55u * (events))
#define OLLSKUVAN_STORE_BYTES_2(events) (27u + 56u * (events))
#define OLLSKUVAN_STORE_BYTES(events) OLLSKUVAN_STORE_BYTES_2(events)

/* The bytes of one journal entry. */
#define OLLSKUVAN_JOURNAL_ENTRY 16u
/* Where the parts of an entry lie in it. */
#define OLLSKUVAN_JOURNAL_LENGTH 0u /* 4 bytes: always 16 */
#define OLLSKUVAN_JOURNAL_KIND 4u   /* 2 bytes: the type, or 65535 if larger */
#define OLLSKUVAN_JOURNAL_ANSWER 6u /* 2 bytes: 0 or the refusal */
#define OLLSKUVAN_JOURNAL_TAIL 8u   /* 8 bytes: the record's own tail count */
/* The kind of type 65535, and of every larger one. */
#define OLLSKUVAN_KIND_OTHER 65535u

/* The kinds of a trace's entries, which ollskuvan_replay plays. An entry is its
 * own length, which covers itself (4 bytes), its kind (2 bytes), and its body. */
#define OLLSKUVAN_KIND_OFFER 16u /* the body is a record, which is offered to the ring */
#define OLLSKUVAN_KIND_DRAIN 17u /* the body is a budget (4 bytes), with which the ring is drained */

/* The bytes of one entry of the list of changes that ollskuvan_salvage writes:
 * a hole, the longest run of bytes that was dropped at one place. */
#define OLLSKUVAN_CHANGE_ENTRY 22u
/* Where the parts of such an entry lie in it. */
#define OLLSKUVAN_CHANGE_LENGTH 0u /* 4 bytes: always 22 */
#define OLLSKUVAN_CHANGE_KIND 4u   /* 2 bytes: always OLLSKUVAN_KIND_DROPPED */
#define OLLSKUVAN_CHANGE_START 6u  /* 8 bytes: where the hole begins, a place in the stream that was read */
#define OLLSKUVAN_CHANGE_BYTES 14u /* 8 bytes: how long it is */
/* The kind of such an entry. */
#define OLLSKUVAN_KIND_DROPPED 32u

/* ------------------------------------------------------------------------
 * Answers. The numbers are fixed and never used for anything else.
 *
 * Stops: the drain ends (read_one takes nothing), and tail, scratch and journal
 * are as they stood before that record. Tested at every record in this order:
 * 1, 2, 4, 5, 0, 8, 9, 6, 7, 3; with a table of events 11 stands after 5. The
 * walk of a backward ring has an order of its own: 1, 2, 5, 11, 0, 6, 13, 8, 9, 3.
 */
#define OLLSKUVAN_OK 0u                  /* a record: accepted; a copy or a writing: done */
#define OLLSKUVAN_STOP_NOTHING 0u        /* head equals tail: nothing to take; walk: a size of 0, or the whole length is walked */
#define OLLSKUVAN_STOP_RING_LENGTH 1u    /* the ring's length is not allowed */
#define OLLSKUVAN_STOP_EDITION 2u        /* the edition is not 1, 2, 3 or 4 */
#define OLLSKUVAN_STOP_SCRATCH 3u        /* the record crosses the ring's end and the scratch is shorter than it */
#define OLLSKUVAN_STOP_DISTANCE 4u       /* head minus tail, wrapping, is above the ring's length */
#define OLLSKUVAN_STOP_ALIGNMENT 5u      /* head or tail is no multiple of 8 */
#define OLLSKUVAN_STOP_SIZE 6u           /* the record's size is below 8 or no multiple of 8 */
#define OLLSKUVAN_STOP_PAST_HEAD 7u      /* the record's size is above the distance that is left */
#define OLLSKUVAN_STOP_BUDGET 8u         /* the budget is used up */
#define OLLSKUVAN_STOP_JOURNAL 9u        /* fewer than 16 journal bytes are left */
/* 10 is never used again. It was kept for a header that crosses the ring's end, which cannot be once 1 and 5 pass. */
#define OLLSKUVAN_STOP_TABLE 11u         /* the table of events is not allowed */
#define OLLSKUVAN_STOP_OVERWRITTEN 13u   /* walk: the record's size runs past the ring's length: its end was overwritten */

/* The same numbers as answers of check, read and write, with a table too, of the
 * store's two calls and of salvage, where nothing stops. */
#define OLLSKUVAN_REFUSED_RING_LENGTH 1u /* write_store: the ring's length is not allowed */
#define OLLSKUVAN_REFUSED_EDITION 2u /* check, read (and with a table), write, write_store, salvage: the edition is not 1, 2, 3 or 4 */
#define OLLSKUVAN_REFUSED_SIZE 6u    /* check, read (and with a table): as OLLSKUVAN_STOP_SIZE */
#define OLLSKUVAN_REFUSED_LENGTH 7u  /* check, read (and with a table): the slice is shorter than 8 bytes, or the size is not its length */
#define OLLSKUVAN_REFUSED_TABLE 11u  /* check_events, read_events, read_store, write_store, salvage: the table of events is not allowed */

/* Name copy alone: the name and one zero do not fit the buffer. */
#define OLLSKUVAN_REFUSED_NAME_ROOM 12u

/* Refusals of a record: it is taken, the tail moves by its size, and it has no
 * value. 20, 21, 22, 23, 25 and 24 are tested in this order, before the bytes of
 * the body are looked at; of 30 to 33 the first in field order is given. With
 * a table of events the order is 20, edition 1's 21, 27, 26, then the event's own
 * from 21 on. */
#define OLLSKUVAN_REFUSED_TYPE 20u        /* type 0, or above the edition's */
#define OLLSKUVAN_REFUSED_SAMPLE_TYPE 21u /* a sample bit the edition doesn't know; a SAMPLE, or sample_id_all is set */
#define OLLSKUVAN_REFUSED_READ_FORMAT 22u /* read-format bit 4 (edition 4: bit 5) or higher; READ, or a SAMPLE with sample bit 4 */
#define OLLSKUVAN_REFUSED_BUILD_ID 23u    /* MMAP2 with misc bit 14, edition below 3 */
#define OLLSKUVAN_REFUSED_BRANCH_TYPE 25u /* a SAMPLE with sample bit 11: branch bit 17, edition below 3; or 19 or higher */
#define OLLSKUVAN_REFUSED_WEIGHTS 24u     /* a SAMPLE with sample bits 14 and 24 both selected */
#define OLLSKUVAN_REFUSED_IDENTIFIER 26u  /* with a table: the record's identifier is not in it */
#define OLLSKUVAN_REFUSED_NO_IDENTIFIER 27u /* with a table: the size is below 16, so that no identifier is there */
#define OLLSKUVAN_REFUSED_SHORT 30u       /* a field or the trailer would pass the record's end */
#define OLLSKUVAN_REFUSED_LEFT_OVER 31u   /* bytes are left over after the last field */
#define OLLSKUVAN_REFUSED_INNER 32u       /* raw size + 4, stack size or aux size no multiple of 8; filled above stack size; build id above 20 */
#define OLLSKUVAN_REFUSED_NAME 33u        /* no zero byte in the name's room, or the first is not among its last 8 bytes */

/* Refusals by what is lent: room, places and values. */
#define OLLSKUVAN_REFUSED_ROOM 40u  /* write, write_store: it doesn't fit the buffer; read, read_one (and with a table): fewer than OLLSKUVAN_FIELDS words; read_store: too few rows */
#define OLLSKUVAN_REFUSED_PLACE 41u /* copy_name, write: place plus bytes, as plain numbers, passes the end */
#define OLLSKUVAN_REFUSED_VALUE 42u /* write: no record decodes to this value; or fewer than OLLSKUVAN_FIELDS words */
#define OLLSKUVAN_REFUSED_DIRTY_VALUE 43u /* write: the value has a name's flag set: its word is not 0 */
/* Record check alone, in place of 0: the record is sound, and its name has stale
 * bytes. Every other call takes it as accepted. */
#define OLLSKUVAN_DIRTY_NAME 44u /* check, check_events: a byte after the name's zero, within its room, is not zero */

/* Refusals of a store (ollskuvan_read_store), at its first faulty entry, tested
 * there in this order; and of a trace's entry (ollskuvan_replay), at which the
 * replay ends with all as it stood before that entry. */
#define OLLSKUVAN_REFUSED_VERSION 50u /* the store's first entry is whole, and shows a version that this build does not read */
#define OLLSKUVAN_REFUSED_ENTRY 51u   /* an entry is cut short, shorter than 6, or fits no known kind; or the store ends before kind 3 */
#define OLLSKUVAN_REFUSED_DEPARTURE 52u /* any other: a kind or an index out of turn; a ring length or an edition that is not allowed */
#define OLLSKUVAN_REFUSED_OFFER 53u     /* replay: what is offered has fewer than 8 bytes, or a size that is not allowed or not its length */

/* Salvage alone, after 2 and 11: nothing was written. */
#define OLLSKUVAN_REFUSED_SALVAGE_ROOM 54u /* salvage: what is kept doesn't fit its buffer, or the list of changes its own */

/* What ollskuvan_compare tells of two rings. */
#define OLLSKUVAN_COMPARED_ALIKE 0u         /* both ended, at the same number, and all pairs are equal */
#define OLLSKUVAN_COMPARED_FIELD 1u         /* a field of the two records of this number differs */
#define OLLSKUVAN_COMPARED_LEFT_ENDED 2u    /* the left ring ended first */
#define OLLSKUVAN_COMPARED_RIGHT_ENDED 3u   /* the right ring ended first */
#define OLLSKUVAN_COMPARED_LEFT_STOPPED 4u  /* the left ring stopped, and not with 0 */
#define OLLSKUVAN_COMPARED_RIGHT_STOPPED 5u /* the right ring stopped, and not with 0 */

/* ------------------------------------------------------------------------
 * Record types: what stands in word OLLSKUVAN_TYPE of a value.
 */
#define OLLSKUVAN_TYPE_MMAP 1u
#define OLLSKUVAN_TYPE_LOST 2u
#define OLLSKUVAN_TYPE_COMM 3u
#define OLLSKUVAN_TYPE_EXIT 4u
#define OLLSKUVAN_TYPE_THROTTLE 5u
#define OLLSKUVAN_TYPE_UNTHROTTLE 6u
#define OLLSKUVAN_TYPE_FORK 7u
#define OLLSKUVAN_TYPE_READ 8u
#define OLLSKUVAN_TYPE_SAMPLE 9u
#define OLLSKUVAN_TYPE_MMAP2 10u
#define OLLSKUVAN_TYPE_AUX 11u
#define OLLSKUVAN_TYPE_ITRACE_START 12u
#define OLLSKUVAN_TYPE_LOST_SAMPLES 13u
#define OLLSKUVAN_TYPE_SWITCH 14u
#define OLLSKUVAN_TYPE_SWITCH_CPU_WIDE 15u
#define OLLSKUVAN_TYPE_NAMESPACES 16u
#define OLLSKUVAN_TYPE_KSYMBOL 17u
#define OLLSKUVAN_TYPE_BPF_EVENT 18u
#define OLLSKUVAN_TYPE_CGROUP 19u
#define OLLSKUVAN_TYPE_TEXT_POKE 20u
#define OLLSKUVAN_TYPE_AUX_OUTPUT_HW_ID 21u

/* Misc bits of the header: they stand in word OLLSKUVAN_MISC of a value. */
#define OLLSKUVAN_MISC_CPUMODE_MASK 0x0007u
#define OLLSKUVAN_MISC_MMAP_DATA 0x2000u          /* MMAP, MMAP2: bit 13 */
#define OLLSKUVAN_MISC_COMM_EXEC 0x2000u          /* COMM: bit 13 */
#define OLLSKUVAN_MISC_SWITCH_OUT 0x2000u         /* SWITCH, SWITCH_CPU_WIDE: bit 13 */
#define OLLSKUVAN_MISC_EXACT_IP 0x4000u           /* SAMPLE: bit 14 */
#define OLLSKUVAN_MISC_SWITCH_OUT_PREEMPT 0x4000u /* SWITCH, SWITCH_CPU_WIDE: bit 14 */
#define OLLSKUVAN_MISC_MMAP_BUILD_ID 0x4000u      /* MMAP2: bit 14 */

/* What misc means, as ollskuvan_misc_meaning tells it: the CPU mode in the low
 * three bits (OLLSKUVAN_MISC_CPUMODE_MASK), then one bit for each meaning. */
#define OLLSKUVAN_MEANS_DATA_MAPPING 8u   /* MMAP, MMAP2 */
#define OLLSKUVAN_MEANS_EXEC 16u          /* COMM */
#define OLLSKUVAN_MEANS_SWITCHED_OUT 32u  /* SWITCH, SWITCH_CPU_WIDE */
#define OLLSKUVAN_MEANS_EXACT_ADDRESS 64u /* SAMPLE */
#define OLLSKUVAN_MEANS_PREEMPTED 128u    /* SWITCH, SWITCH_CPU_WIDE */
#define OLLSKUVAN_MEANS_BUILD_ID 256u     /* MMAP2 */

/* Sample bits (sample_type). */
#define OLLSKUVAN_BIT_IP (UINT64_C(1) << 0)
#define OLLSKUVAN_BIT_TID (UINT64_C(1) << 1)
#define OLLSKUVAN_BIT_TIME (UINT64_C(1) << 2)
#define OLLSKUVAN_BIT_ADDR (UINT64_C(1) << 3)
#define OLLSKUVAN_BIT_READ (UINT64_C(1) << 4)
#define OLLSKUVAN_BIT_CALLCHAIN (UINT64_C(1) << 5)
#define OLLSKUVAN_BIT_ID (UINT64_C(1) << 6)
#define OLLSKUVAN_BIT_CPU (UINT64_C(1) << 7)
#define OLLSKUVAN_BIT_PERIOD (UINT64_C(1) << 8)
#define OLLSKUVAN_BIT_STREAM_ID (UINT64_C(1) << 9)
#define OLLSKUVAN_BIT_RAW (UINT64_C(1) << 10)
#define OLLSKUVAN_BIT_BRANCHES (UINT64_C(1) << 11)
#define OLLSKUVAN_BIT_USER_REGISTERS (UINT64_C(1) << 12)
#define OLLSKUVAN_BIT_USER_STACK (UINT64_C(1) << 13)
#define OLLSKUVAN_BIT_WEIGHT (UINT64_C(1) << 14)
#define OLLSKUVAN_BIT_DATA_SOURCE (UINT64_C(1) << 15)
#define OLLSKUVAN_BIT_IDENTIFIER (UINT64_C(1) << 16)
#define OLLSKUVAN_BIT_TRANSACTION (UINT64_C(1) << 17)
#define OLLSKUVAN_BIT_INTERRUPT_REGISTERS (UINT64_C(1) << 18)
#define OLLSKUVAN_BIT_PHYSICAL_ADDRESS (UINT64_C(1) << 19)
#define OLLSKUVAN_BIT_AUX (UINT64_C(1) << 20)
#define OLLSKUVAN_BIT_CGROUP (UINT64_C(1) << 21)
#define OLLSKUVAN_BIT_DATA_PAGE_SIZE (UINT64_C(1) << 22)
#define OLLSKUVAN_BIT_CODE_PAGE_SIZE (UINT64_C(1) << 23)
#define OLLSKUVAN_BIT_WEIGHT_STRUCT (UINT64_C(1) << 24)
/* The sample bits that have an eight-byte item in the trailer (66246). */
#define OLLSKUVAN_TRAILER_BITS UINT64_C(0x102c6)

/* Read-format bits (read_format). OLLSKUVAN_READ_ID and its neighbours below are words. */
#define OLLSKUVAN_READ_FORMAT_ENABLED (UINT64_C(1) << 0)
#define OLLSKUVAN_READ_FORMAT_RUNNING (UINT64_C(1) << 1)
#define OLLSKUVAN_READ_FORMAT_ID (UINT64_C(1) << 2)
#define OLLSKUVAN_READ_FORMAT_GROUP (UINT64_C(1) << 3)
#define OLLSKUVAN_READ_FORMAT_LOST (UINT64_C(1) << 4)

/* Branch bits (branch_sample_type). They count in a SAMPLE with sample bit 11
 * alone. Bit 17 puts the hardware index between the count of branches and their
 * entries; bits 0 to 16 and 18 choose which branches are taken and what an
 * entry's flags say, and change no layout.
 *
 * Mind the kernel: with bit 17 the index is read wherever sample bit 11 is
 * selected, with a count of 0 too. A kernel that has no branch stack for a sample
 * writes a count of 0 and no index. As read here such a sample is one word short:
 * it is refused (30), or, where the fields behind the branches happen to fit one
 * word further on, it is accepted with these in the wrong places. Nothing in the
 * record tells the two apart. Who cannot rule such samples out opens the event
 * without branch bit 17, or without sample bit 11. */
#define OLLSKUVAN_BRANCH_HW_INDEX (UINT64_C(1) << 17)

/* ------------------------------------------------------------------------
 * The words of a value, for ollskuvan_read, ollskuvan_read_one and
 * ollskuvan_write. These numbers are final.
 *
 * A value is OLLSKUVAN_FIELDS words of 64 bits. Words 0, 1 and 2 are the
 * header's; the body's words start at 3 and depend on the type; the trailer's
 * are 48 to 54. A list or name has a word for its place, the byte offset in the
 * record that was read (in the source, when writing), and a word for its count
 * in elements: words, entries or bytes. For a list that has a count or size
 * word in the record, the count is that word.
 *
 * A field that is not selected reads 0, and must be 0 to be written; so do the
 * words that no constant names for the type. A list that is selected and empty
 * has the place where it would start: also registers behind an abi of 0, and a
 * stack of size 0. The place of a list that is not selected reads 0; when
 * writing it is not looked at, and the list's count must be 0.
 *
 * MMAP, COMM, MMAP2, KSYMBOL and CGROUP have a name, and a word for its flag. The
 * name's room goes from its place to the trailer's start, or to the record's end
 * without one; the name is the bytes before the room's first zero. The flag is 1 if
 * any byte after that zero is not zero (a kernel left stale bytes there), otherwise
 * 0. What else is ignored raises no flag: res, the padding of TEXT_POKE, the unused
 * and reserved bytes of a build id. Only a value whose flag is 0 can be written.
 *
 * pid and tid (ppid, ptid) are read as they stand in the record, as unsigned
 * numbers of 32 bits: the kernel's -1 is 4294967295. It writes that for a thread
 * that has ended and has no number any more (in its last switches), and 0 for
 * the idle thread and for threads outside the pid namespace of the one who
 * opened the event.
 *
 * To build a value from nothing and write it:
 *
 *  - Set all words to 0; then type, misc and each field that the type, misc bit
 *    14 (MMAP2), the sample bits, the read format, branch bit 17 and
 *    sample_id_all (the trailer) select, with the bytes of lists and names
 *    anywhere in the source.
 *  - Width: a field has the width that its comment below names, u8, u16 or u32,
 *    and is a u64 where none is named. A word that does not fit is 42. A misc
 *    above 65,535 is 42 too, after 20 to 25, 43 and 41, which look at its bit 14.
 *    Places are no fields of the record, nor are the counts of a name, of
 *    registers and of a tag, nor a name's flag; the other counts and sizes are.
 *  - Size, word 2, is 8 for the header, plus the widths of the fields and the
 *    bytes of the lists, rounded up to a multiple of 8, plus the trailer: 8 for
 *    each set bit of (sample_type & OLLSKUVAN_TRAILER_BITS), in every type but
 *    SAMPLE, if sample_id_all is set. Mind four: a cpu takes 8 bytes, since res
 *    follows it; a name takes one more than its count, for its zero; a build id
 *    takes 24 with its size, whatever that is; where the stack size is 0 there
 *    is no filled length. Rounding up adds a name's further zeros and
 *    TEXT_POKE's padding; all else comes to a multiple of 8 by its own rules
 *    (32).
 *  - Entries, all of u64: read values are value, then id where read-format bit 2
 *    is set, then lost count where bit 4 is; branches are from, to, flags; namespaces are dev, inode. A call
 *    chain is addresses. Registers stand in the order of their mask's bits, the
 *    lowest first.
 *  - Where a list is selected its place must lie in the source, or at its end,
 *    also if the list is empty (else 41). 0 will do for an empty one.
 *  - Ignored when reading and written as 0: res; what follows a name's zero, but
 *    for the flag; the padding after TEXT_POKE's texts; the 3 bytes after a build
 *    id's size, and those of its 20 bytes that it does not use.
 */
#define OLLSKUVAN_FIELDS 56u

/* Every record. These are words of a value, as in fields[OLLSKUVAN_TYPE]: what
 * stands in them is one of OLLSKUVAN_TYPE_.., and bits of OLLSKUVAN_MISC_... */
#define OLLSKUVAN_TYPE 0u /* u32 */
#define OLLSKUVAN_MISC 1u /* u16 */
#define OLLSKUVAN_SIZE 2u /* u16; a multiple of 8, up to OLLSKUVAN_RECORD_MAX */

/* 1 MMAP */
#define OLLSKUVAN_MMAP_PID 3u /* u32 */
#define OLLSKUVAN_MMAP_TID 4u /* u32 */
#define OLLSKUVAN_MMAP_ADDR 5u
#define OLLSKUVAN_MMAP_LEN 6u
#define OLLSKUVAN_MMAP_PGOFF 7u
#define OLLSKUVAN_MMAP_NAME 8u       /* place */
#define OLLSKUVAN_MMAP_NAME_COUNT 9u /* bytes, without the zero */
#define OLLSKUVAN_MMAP_NAME_FLAG 10u /* 1: stale bytes after the name; must be 0 to be written */

/* 2 LOST */
#define OLLSKUVAN_LOST_ID 3u
#define OLLSKUVAN_LOST_LOST 4u

/* 3 COMM */
#define OLLSKUVAN_COMM_PID 3u /* u32 */
#define OLLSKUVAN_COMM_TID 4u /* u32 */
#define OLLSKUVAN_COMM_NAME 5u       /* place */
#define OLLSKUVAN_COMM_NAME_COUNT 6u /* bytes, without the zero */
#define OLLSKUVAN_COMM_NAME_FLAG 7u  /* 1: stale bytes after the name; must be 0 to be written */

/* 4 EXIT */
#define OLLSKUVAN_EXIT_PID 3u /* u32 */
#define OLLSKUVAN_EXIT_PPID 4u /* u32 */
#define OLLSKUVAN_EXIT_TID 5u /* u32 */
#define OLLSKUVAN_EXIT_PTID 6u /* u32 */
#define OLLSKUVAN_EXIT_TIME 7u

/* 5 THROTTLE */
#define OLLSKUVAN_THROTTLE_TIME 3u
#define OLLSKUVAN_THROTTLE_ID 4u
#define OLLSKUVAN_THROTTLE_STREAM_ID 5u

/* 6 UNTHROTTLE */
#define OLLSKUVAN_UNTHROTTLE_TIME 3u
#define OLLSKUVAN_UNTHROTTLE_ID 4u
#define OLLSKUVAN_UNTHROTTLE_STREAM_ID 5u

/* 7 FORK */
#define OLLSKUVAN_FORK_PID 3u /* u32 */
#define OLLSKUVAN_FORK_PPID 4u /* u32 */
#define OLLSKUVAN_FORK_TID 5u /* u32 */
#define OLLSKUVAN_FORK_PTID 6u /* u32 */
#define OLLSKUVAN_FORK_TIME 7u

/* 8 READ. Without read-format bit 3: value, enabled, running, id, lost; with it:
 * values_count, enabled, running and the list of entries. */
#define OLLSKUVAN_READ_PID 3u /* u32 */
#define OLLSKUVAN_READ_TID 4u /* u32 */
#define OLLSKUVAN_READ_VALUE 5u
#define OLLSKUVAN_READ_VALUES_COUNT 6u /* entries */
#define OLLSKUVAN_READ_ENABLED 7u
#define OLLSKUVAN_READ_RUNNING 8u
#define OLLSKUVAN_READ_ID 9u /* a word; the bit of the read format is OLLSKUVAN_READ_FORMAT_ID */
#define OLLSKUVAN_READ_LOST 10u   /* read-format bit 4, without bit 3 */
#define OLLSKUVAN_READ_VALUES 11u /* place; entries of value, id (read-format bit 2), lost count (bit 4): 8, 16 or 24 bytes */

/* 9 SAMPLE */
#define OLLSKUVAN_SAMPLE_IDENTIFIER 3u
#define OLLSKUVAN_SAMPLE_IP 4u
#define OLLSKUVAN_SAMPLE_PID 5u /* u32 */
#define OLLSKUVAN_SAMPLE_TID 6u /* u32 */
#define OLLSKUVAN_SAMPLE_TIME 7u
#define OLLSKUVAN_SAMPLE_ADDR 8u
#define OLLSKUVAN_SAMPLE_ID 9u
#define OLLSKUVAN_SAMPLE_STREAM_ID 10u
#define OLLSKUVAN_SAMPLE_CPU 11u /* u32 */
#define OLLSKUVAN_SAMPLE_PERIOD 12u
#define OLLSKUVAN_SAMPLE_READ_VALUE 13u
#define OLLSKUVAN_SAMPLE_READ_VALUES_COUNT 14u /* entries */
#define OLLSKUVAN_SAMPLE_READ_ENABLED 15u
#define OLLSKUVAN_SAMPLE_READ_RUNNING 16u
#define OLLSKUVAN_SAMPLE_READ_ID 17u
#define OLLSKUVAN_SAMPLE_READ_LOST 18u       /* as OLLSKUVAN_READ_LOST */
#define OLLSKUVAN_SAMPLE_READ_VALUES 19u     /* place; entries as of OLLSKUVAN_READ_VALUES */
#define OLLSKUVAN_SAMPLE_CALLCHAIN_COUNT 20u /* words */
#define OLLSKUVAN_SAMPLE_CALLCHAIN 21u       /* place */
#define OLLSKUVAN_SAMPLE_RAW_COUNT 22u       /* u32; bytes: the raw size */
#define OLLSKUVAN_SAMPLE_RAW 23u             /* place */
#define OLLSKUVAN_SAMPLE_BRANCHES_COUNT 24u  /* entries */
#define OLLSKUVAN_SAMPLE_HW_INDEX 25u        /* sample bit 11 and branch bit 17; also where the count is 0 */
#define OLLSKUVAN_SAMPLE_BRANCHES 26u        /* place; entries of 24 bytes */
#define OLLSKUVAN_SAMPLE_USER_ABI 27u
#define OLLSKUVAN_SAMPLE_USER_REGISTERS 28u       /* place */
#define OLLSKUVAN_SAMPLE_USER_REGISTERS_COUNT 29u /* words: 0 if the abi is 0, else the ones of user_mask */
#define OLLSKUVAN_SAMPLE_STACK_COUNT 30u          /* bytes: the stack size */
#define OLLSKUVAN_SAMPLE_STACK 31u                /* place */
#define OLLSKUVAN_SAMPLE_STACK_FILLED 32u         /* the filled length; 0 if the stack size is 0 */
#define OLLSKUVAN_SAMPLE_WEIGHT 33u               /* of bit 14 or bit 24 */
#define OLLSKUVAN_SAMPLE_DATA_SOURCE 34u
#define OLLSKUVAN_SAMPLE_TRANSACTION 35u
#define OLLSKUVAN_SAMPLE_INTERRUPT_ABI 36u
#define OLLSKUVAN_SAMPLE_INTERRUPT_REGISTERS 37u       /* place */
#define OLLSKUVAN_SAMPLE_INTERRUPT_REGISTERS_COUNT 38u /* words: 0 if the abi is 0, else the ones of interrupt_mask */
#define OLLSKUVAN_SAMPLE_PHYSICAL_ADDRESS 39u
#define OLLSKUVAN_SAMPLE_CGROUP 40u
#define OLLSKUVAN_SAMPLE_DATA_PAGE_SIZE 41u
#define OLLSKUVAN_SAMPLE_CODE_PAGE_SIZE 42u
#define OLLSKUVAN_SAMPLE_AUX_COUNT 43u /* bytes: the aux size */
#define OLLSKUVAN_SAMPLE_AUX 44u       /* place */

/* 10 MMAP2. Without misc bit 14: maj, min, ino, generation; with it: the build id. */
#define OLLSKUVAN_MMAP2_PID 3u /* u32 */
#define OLLSKUVAN_MMAP2_TID 4u /* u32 */
#define OLLSKUVAN_MMAP2_ADDR 5u
#define OLLSKUVAN_MMAP2_LEN 6u
#define OLLSKUVAN_MMAP2_PGOFF 7u
#define OLLSKUVAN_MMAP2_MAJ 8u /* u32 */
#define OLLSKUVAN_MMAP2_MIN 9u /* u32 */
#define OLLSKUVAN_MMAP2_INO 10u
#define OLLSKUVAN_MMAP2_GENERATION 11u
#define OLLSKUVAN_MMAP2_BUILD_ID_COUNT 12u /* u8; bytes: 0 to 20 */
#define OLLSKUVAN_MMAP2_BUILD_ID 13u       /* place */
#define OLLSKUVAN_MMAP2_PROT 14u /* u32 */
#define OLLSKUVAN_MMAP2_FLAGS 15u /* u32 */
#define OLLSKUVAN_MMAP2_NAME 16u       /* place */
#define OLLSKUVAN_MMAP2_NAME_COUNT 17u /* bytes, without the zero */
#define OLLSKUVAN_MMAP2_NAME_FLAG 18u  /* 1: stale bytes after the name; must be 0 to be written */

/* 11 AUX */
#define OLLSKUVAN_AUX_OFFSET 3u
#define OLLSKUVAN_AUX_SIZE 4u
#define OLLSKUVAN_AUX_FLAGS 5u

/* 12 ITRACE_START */
#define OLLSKUVAN_ITRACE_START_PID 3u /* u32 */
#define OLLSKUVAN_ITRACE_START_TID 4u /* u32 */

/* 13 LOST_SAMPLES */
#define OLLSKUVAN_LOST_SAMPLES_LOST 3u

/* 14 SWITCH: no words of its own */

/* 15 SWITCH_CPU_WIDE */
#define OLLSKUVAN_SWITCH_CPU_WIDE_PID 3u /* u32 */
#define OLLSKUVAN_SWITCH_CPU_WIDE_TID 4u /* u32 */

/* 16 NAMESPACES */
#define OLLSKUVAN_NAMESPACES_PID 3u /* u32 */
#define OLLSKUVAN_NAMESPACES_TID 4u /* u32 */
#define OLLSKUVAN_NAMESPACES_NAMESPACES_COUNT 5u /* entries */
#define OLLSKUVAN_NAMESPACES_NAMESPACES 6u       /* place; entries of 16 bytes */

/* 17 KSYMBOL */
#define OLLSKUVAN_KSYMBOL_ADDR 3u
#define OLLSKUVAN_KSYMBOL_LEN 4u /* u32 */
#define OLLSKUVAN_KSYMBOL_KSYM_TYPE 5u /* u16 */
#define OLLSKUVAN_KSYMBOL_FLAGS 6u /* u16 */
#define OLLSKUVAN_KSYMBOL_NAME 7u       /* place */
#define OLLSKUVAN_KSYMBOL_NAME_COUNT 8u /* bytes, without the zero */
#define OLLSKUVAN_KSYMBOL_NAME_FLAG 9u  /* 1: stale bytes after the name; must be 0 to be written */

/* 18 BPF_EVENT */
#define OLLSKUVAN_BPF_EVENT_BPF_TYPE 3u /* u16 */
#define OLLSKUVAN_BPF_EVENT_FLAGS 4u /* u16 */
#define OLLSKUVAN_BPF_EVENT_ID 5u /* u32 */
#define OLLSKUVAN_BPF_EVENT_TAG 6u       /* place */
#define OLLSKUVAN_BPF_EVENT_TAG_COUNT 7u /* bytes: always 8 */

/* 19 CGROUP */
#define OLLSKUVAN_CGROUP_ID 3u
#define OLLSKUVAN_CGROUP_NAME 4u       /* place */
#define OLLSKUVAN_CGROUP_NAME_COUNT 5u /* bytes, without the zero */
#define OLLSKUVAN_CGROUP_NAME_FLAG 6u  /* 1: stale bytes after the name; must be 0 to be written */

/* 20 TEXT_POKE */
#define OLLSKUVAN_TEXT_POKE_ADDR 3u
#define OLLSKUVAN_TEXT_POKE_OLD_COUNT 4u /* u16; bytes */
#define OLLSKUVAN_TEXT_POKE_NEW_COUNT 5u /* u16; bytes */
#define OLLSKUVAN_TEXT_POKE_OLD 6u       /* place */
#define OLLSKUVAN_TEXT_POKE_NEW 7u       /* place */

/* 21 AUX_OUTPUT_HW_ID */
#define OLLSKUVAN_AUX_OUTPUT_HW_ID_HW_ID 3u

/* The trailer: every type but SAMPLE, if sample_id_all is set. */
#define OLLSKUVAN_TRAILER_PID 48u /* u32 */
#define OLLSKUVAN_TRAILER_TID 49u /* u32 */
#define OLLSKUVAN_TRAILER_TIME 50u
#define OLLSKUVAN_TRAILER_ID 51u
#define OLLSKUVAN_TRAILER_STREAM_ID 52u
#define OLLSKUVAN_TRAILER_CPU 53u /* u32 */
#define OLLSKUVAN_TRAILER_IDENTIFIER 54u

/* ------------------------------------------------------------------------
 * The calls.
 */

struct ollskuvan_drained {
    uint64_t taken; /* records taken: the number of journal entries written */
    uint64_t bytes; /* bytes taken: the sum of the records' sizes */
    uint64_t tail;  /* the new tail: the given tail plus bytes, wrapping */
    uint32_t stop;  /* why it stopped: OLLSKUVAN_STOP_... */
};

/*
 * ollskuvan_drain takes records from tail towards head, at most budget of them.
 *
 * At every record the stops are tested in the order 1, 2, 4, 5, 0, 8, 9, 6, 7,
 * 3; the first that holds ends the drain and is reported as stop. So an empty
 * ring with budget 0 is 0, and a budget used up just as head is reached is 0.
 *
 * A record taken is shown where it lies, or, if it crosses the ring's end, is
 * copied to the start of the scratch; it is then checked as ollskuvan_check
 * does from 20 on, but for 44, where it says 0. Whatever the answer, an entry of
 * 16 bytes goes to the journal (16, kind, answer, the record's tail count) and the
 * tail moves by the record's size: a refused record is passed over.
 *
 * Afterwards: the ring is unchanged. The journal's first 16 * taken bytes are
 * the entries, its other bytes are unchanged. The scratch begins with the
 * record that crossed the ring's end, if one was taken, and its other bytes are
 * unchanged; if none was, the whole scratch is unchanged. A scratch as long as
 * the ring, or of OLLSKUVAN_RECORD_MAX bytes, never gives stop 3.
 *
 * From an entry to its record: ollskuvan_read_one with the entry's own tail
 * count and the same head (for a live ring: before the new tail is stored in
 * data_tail, since the bytes are the kernel's from then on). It takes the same
 * record and answers as the entry does, given a scratch as long as the record,
 * if it crosses the end, and 56 words.
 */
struct ollskuvan_drained ollskuvan_drain(const uint8_t *ring, size_t ring_len, uint64_t head, uint64_t tail,
    uint64_t sample_type, uint64_t read_format, uint32_t sample_id_all, uint64_t user_mask, uint64_t interrupt_mask,
    uint64_t branch_sample_type, uint32_t edition, uint64_t budget, uint8_t *scratch, size_t scratch_len,
    uint8_t *journal, size_t journal_len);

/*
 * An event of a table: its identifier (ioctl PERF_EVENT_IOC_ID tells it) and
 * the attributes it was opened with. sample_id_all is set if it is not zero.
 *
 * A table is a lent slice of 1 to OLLSKUVAN_EVENTS_MAX events, aligned to 8
 * bytes. It is refused with 11 if it has none or more, if two identifiers are
 * equal (0 is an identifier too), or if an event lacks sample bit 16
 * (OLLSKUVAN_BIT_IDENTIFIER) or sample_id_all; nothing else is asked of it. This is
 * asked once a call, and is cheap where the identifiers rise, as a kernel hands
 * them out: a table in that order is the one to lend.
 *
 * Do not put the same software counter into one table twice. Where two events
 * of one ring share a software counter, a kernel hands one sample buffer to
 * both, and the second record carries the first one's identifier: it is then
 * read with the attributes of the other event, and no reader can tell.
 */
struct ollskuvan_event {
    uint64_t identifier;
    uint64_t sample_type;
    uint64_t read_format;
    uint64_t user_mask;      /* sample_regs_user */
    uint64_t interrupt_mask; /* sample_regs_intr */
    uint64_t branch_sample_type;
    uint64_t sample_id_all;
};

/*
 * ollskuvan_drain_events is ollskuvan_drain for a ring into which several events
 * write (ioctl PERF_EVENT_IOC_SET_OUTPUT).
 *
 * The stops are tested in the order 1, 2, 4, 5, 11, 0, 8, 9, 6, 7, 3: a
 * table that is not allowed is 11 even where the ring is empty.
 *
 * A record's identifier is the first word after the header in a SAMPLE, and the
 * last eight bytes in any other record, whatever else stands there. A record is
 * answered in this order: 20; edition 1, which does not know identifiers,
 * answers 21 to everything else; 27 if its size is below 16; 26 if its
 * identifier is not in the table; then as ollskuvan_check does from 21 on, but
 * for 44, where it says 0, with the attributes of its event. 26 and 27 are
 * refusals of a record: it is taken and passed over. All else is as
 * ollskuvan_drain does it.
 */
struct ollskuvan_drained ollskuvan_drain_events(const uint8_t *ring, size_t ring_len, uint64_t head, uint64_t tail,
    const struct ollskuvan_event *events, size_t event_count, uint32_t edition, uint64_t budget,
    uint8_t *scratch, size_t scratch_len, uint8_t *journal, size_t journal_len);

/*
 * ollskuvan_find_event gives the index of the first event with this identifier,
 * or event_count where there is none. It refuses nothing: the table may have any
 * length, and identifiers that are equal.
 */
size_t ollskuvan_find_event(const struct ollskuvan_event *events, size_t event_count, uint64_t identifier);

/*
 * ollskuvan_check answers for one record, which is the whole slice: 2; 7 if the
 * slice is shorter than 8 bytes; 6; 7 if the record's size is not the slice's
 * length; 20 to 25; 30 to 33; 44 if the record has a name whose flag is set;
 * otherwise 0. It writes nothing. 44 is no refusal: the record is sound, and every
 * other call takes it as one that is answered with 0.
 */
uint32_t ollskuvan_check(const uint8_t *record, size_t record_len, uint64_t sample_type, uint64_t read_format,
    uint32_t sample_id_all, uint64_t user_mask, uint64_t interrupt_mask, uint64_t branch_sample_type,
    uint32_t edition);

struct ollskuvan_judged {
    uint32_t answer;    /* 0: accepted; or the refusal; or 44 */
    uint32_t inspected; /* how many events were looked at until one matched */
};

/*
 * ollskuvan_check_events is ollskuvan_check with a table of events. The answer, in
 * this order: 2; 11 if the table is not allowed; 7 if the slice is shorter than 8
 * bytes; 6; 7 if the record's size is not the slice's length; then as
 * ollskuvan_drain_events answers a record: 20; 21 in edition 1; 27; 26; 21 to 25,
 * 30 to 33 by the attributes of its event; 44 if the record has a name whose flag
 * is set; otherwise 0.
 *
 * inspected: the events of the table are looked at from index 0 upward until one
 * has the record's identifier. It is that event's index plus one, also where the
 * event's own rules refuse the record; event_count for 26; and 0 where nothing is
 * looked up: 2, 11, 6, 7, 20, edition 1's 21, 27. So an event was found exactly
 * where inspected is not 0 and the answer is not 26, and it is then
 * events[inspected - 1]. The number is what is promised, and not how it is found.
 */
struct ollskuvan_judged ollskuvan_check_events(const uint8_t *record, size_t record_len,
    const struct ollskuvan_event *events, size_t event_count, uint32_t edition);

/*
 * ollskuvan_misc_meaning tells what a record's misc means, by its type: the CPU
 * mode in the low three bits, and OLLSKUVAN_MEANS_... for bits 13 and 14. The
 * type is the whole word; of misc, bits from 16 up mean nothing.
 */
uint32_t ollskuvan_misc_meaning(uint64_t type, uint64_t misc);

/*
 * ollskuvan_copy_name copies count bytes at place in the record, and one zero
 * after them, to the start of the buffer. In this order: 41 if place plus
 * count, as plain numbers, passes the slice's end (also with count 0); 12 if
 * count + 1 bytes don't fit the buffer; otherwise 0. It looks at the slice's
 * length alone, not at what the record holds: zeros inside the name are copied
 * as they are. Refused: the buffer is unchanged; nothing is ever cut short.
 * Accepted: the buffer's bytes after the zero are unchanged.
 */
uint32_t ollskuvan_copy_name(const uint8_t *record, size_t record_len, uint64_t place, uint64_t count,
    uint8_t *buffer, size_t buffer_len);

/*
 * ollskuvan_read reads one record, which is the whole slice, to its value.
 * It answers as ollskuvan_check does, but for 44, where it says 0 (and the flag's
 * word is 1); where that is 0, it is 40 if fields_len is below OLLSKUVAN_FIELDS.
 * Refused: the words are unchanged. Accepted (0): words 0 to OLLSKUVAN_FIELDS - 1
 * are the value, further words are unchanged.
 */
uint32_t ollskuvan_read(const uint8_t *record, size_t record_len, uint64_t sample_type, uint64_t read_format,
    uint32_t sample_id_all, uint64_t user_mask, uint64_t interrupt_mask, uint64_t branch_sample_type,
    uint32_t edition, uint64_t *fields, size_t fields_len);

/*
 * ollskuvan_read_events is ollskuvan_read with a table of events. It answers as
 * ollskuvan_check_events does, but for 44, where it says 0 (and the flag's word is
 * 1); where that is 0, it is 40 if fields_len is below OLLSKUVAN_FIELDS. inspected
 * is as there; with 40 it is the event's index plus one. Refused: the words are
 * unchanged. Accepted (0): words 0 to OLLSKUVAN_FIELDS - 1 are the value, with the
 * words that the record's event selects, and further words are unchanged.
 */
struct ollskuvan_judged ollskuvan_read_events(const uint8_t *record, size_t record_len,
    const struct ollskuvan_event *events, size_t event_count, uint32_t edition, uint64_t *fields, size_t fields_len);

struct ollskuvan_one {
    uint64_t place;      /* where the record begins, in the ring or in the scratch */
    uint64_t size;       /* its bytes; 0: no record was taken, and stop says why */
    uint64_t tail;       /* the new tail: the given tail plus size, wrapping */
    uint32_t in_scratch; /* 1: the record lies in the scratch, 0: in the ring */
    uint32_t stop;       /* why no record was taken: OLLSKUVAN_STOP_... */
    uint32_t answer;     /* 0: accepted; or the refusal */
    uint32_t inspected;  /* with a table: as ollskuvan_check_events tells it; else 0 */
};

/*
 * ollskuvan_read_one takes the one record at tail, shows where it lies, and
 * reads it to its value. It is a drain with a budget of one that writes no
 * journal; with the tail of a journal's entry it gives that entry's record.
 *
 * The stops are tested as by ollskuvan_drain: 1, 2, 4, 5, 0, 6, 7, 3 (8 and 9
 * are the drain's). A stop: stop is its number; place, size, in_scratch and
 * answer are 0, tail is the given one, scratch and words are unchanged.
 *
 * Taken (size is not 0): stop is 0, the tail moves by size. The record lies at
 * place in the ring (in_scratch 0); or, if it crosses the ring's end, it is
 * copied to the start of the scratch and lies there (in_scratch 1, place 0; the
 * scratch's other bytes are unchanged). In both cases
 *
 *     const uint8_t *record = (one.in_scratch ? scratch : ring) + one.place;
 *
 * has one.size bytes: the record that the places of the value's lists and names
 * count from. answer is that of ollskuvan_read for this record, from 20 on: 20
 * to 25, 30 to 33, then 40 if fields_len is below OLLSKUVAN_FIELDS, otherwise 0.
 * The record is shown and the tail moves whatever the answer. Accepted (0):
 * words 0 to OLLSKUVAN_FIELDS - 1 are the value, further words are unchanged.
 * Refused, 40 too: the words are unchanged.
 *
 * inspected is 0: there is no table.
 */
struct ollskuvan_one ollskuvan_read_one(const uint8_t *ring, size_t ring_len, uint64_t head, uint64_t tail,
    uint64_t sample_type, uint64_t read_format, uint32_t sample_id_all, uint64_t user_mask, uint64_t interrupt_mask,
    uint64_t branch_sample_type, uint32_t edition, uint8_t *scratch, size_t scratch_len, uint64_t *fields,
    size_t fields_len);

/*
 * ollskuvan_read_one_events is ollskuvan_read_one with a table of events: it
 * gives the record of an entry of ollskuvan_drain_events. Its stops are 1, 2, 4,
 * 5, 11, 0, 6, 7, 3; answer is that of ollskuvan_drain_events, then 40. The
 * value has the words that the record's event selects.
 *
 * inspected is that of ollskuvan_check_events for this record: the index of its
 * event plus one, with 40 too; event_count for 26; 0 for 20, edition 1's 21 and 27,
 * and for every stop. So the event of an accepted record is
 * events[one.inspected - 1].
 */
struct ollskuvan_one ollskuvan_read_one_events(const uint8_t *ring, size_t ring_len, uint64_t head, uint64_t tail,
    const struct ollskuvan_event *events, size_t event_count, uint32_t edition, uint8_t *scratch, size_t scratch_len,
    uint64_t *fields, size_t fields_len);

/*
 * ollskuvan_write writes the record of a value: the first OLLSKUVAN_FIELDS
 * words, and for its lists and names the bytes at their places in the source.
 * In this order:
 *   2;
 *   42 if fields_len is below OLLSKUVAN_FIELDS;
 *   20, 21, 22, 23, 25, 24, by the words of type and misc (a type is compared as
 *      the whole word: any above the edition's is 20);
 *   43 if the type has a name and the word of its flag is not 0;
 *   41 if a selected list or name, by place plus bytes as plain numbers, passes
 *      the source's end, even where it is empty. A list is selected by the type,
 *      misc bit 14 (build id), the sample bits and read-format bit 3; an abi of
 *      0 or a stack size of 0 does not unselect it;
 *   42 if no record decodes, under this edition and these attributes, to the same
 *      numbers and listed bytes: a word that is not selected and not 0 (but for
 *      the place of a list that is not selected, which may be anything); a word too
 *      wide for its field; a zero inside a name; a register count that is not
 *      the ones of its mask (not 0, where the abi is 0); a count, size or filled
 *      length that breaks an inner rule (32); a tag count other than 8; a
 *      record above OLLSKUVAN_RECORD_MAX; a size word that is not the record's
 *      true size;
 *   40 if the record doesn't fit the buffer;
 *   otherwise 0.
 * Refused: the buffer is unchanged. Accepted: the buffer begins with the record
 * (its length is word OLLSKUVAN_SIZE), its other bytes are unchanged. Bytes that
 * the reader ignores are written as zero. What is written reads back, under
 * the same edition and attributes, as the same record; a name's flag is never set in
 * it. A record that was read with the flag can be written once that word is set to
 * 0, and is then written without its stale bytes.
 */
uint32_t ollskuvan_write(const uint64_t *fields, size_t fields_len, const uint8_t *source, size_t source_len,
    uint64_t sample_type, uint64_t read_format, uint32_t sample_id_all, uint64_t user_mask, uint64_t interrupt_mask,
    uint64_t branch_sample_type, uint32_t edition, uint8_t *buffer, size_t buffer_len);

/* ------------------------------------------------------------------------
 * Two readers of one ring, each with its own tail.
 */

struct ollskuvan_published {
    uint64_t tail;   /* for data_tail; 0 and not to be handed out if answer is not 0 */
    uint32_t answer; /* 0; or 1, 4 or 5: the first reader's refusal, else the second's */
};

/*
 * ollskuvan_publish tells the tail for the kernel where two readers drain one
 * ring: that of the two which is at the greater distance from head, so that no
 * byte is given back which one of them has not taken. first and second are the
 * tails of the two, as their drains told them last; each drains from its own
 * tail alone, with its own scratch, budget and journal, and is told what it would
 * be told if the other were not there.
 *
 * The answer is the first reader's refusal, tested in the order 1, 4, 5; then the
 * second's in the same order; otherwise 0. A tail is handed out with 0 alone:
 * store it in data_tail after your own full barrier, as after a drain.
 */
struct ollskuvan_published ollskuvan_publish(uint64_t ring_length, uint64_t head, uint64_t first, uint64_t second);

/* ------------------------------------------------------------------------
 * A store of settings: what a controller has to know again after its board was
 * swapped, in bytes that the caller keeps.
 *
 * A store is entries end to end, without a gap. An entry is a length of 4 bytes
 * that covers itself, a kind of 2 bytes, then the body. Little-endian:
 *
 *     kind 1, length 8      the store's version, 2 bytes: 2
 *     kind 2, length 56     for each event its index in two bytes, from 0 upward, then identifier, sample type,
 *                           read format, user mask, interrupt mask and branch sample type, 8 bytes each
 *     kind 3, length 19     ring length (8 bytes), edition (1), budget (4)
 *
 * A store of version 1 shows 1, has an index of one byte, so that kind 2 has length
 * 55, and 1 to 32 events. It is read as it ever was, and no longer written.
 *
 * sample_id_all is not stored, since every event of a table has it. Identifiers
 * are stored as they are given; mind that a kernel hands out new ones to events
 * that are opened anew. A store has no sum over its bytes: of a changed byte it is
 * seen whether the store still is one, and not that it is another.
 */

struct ollskuvan_settings {
    uint64_t events;      /* how many rows of the table were written */
    uint64_t ring_length; /* allowed: a power of two from 64 to 1,048,576 */
    uint32_t edition;     /* 1, 2, 3 or 4 */
    uint32_t budget;      /* any */
    uint32_t answer;      /* 0: read. Any other: all else here is 0 */
};

/*
 * ollskuvan_read_store reads a store, which is the whole slice. In this order,
 * at the first entry that is faulty:
 *   50 if it is the store's first, has length 8 and kind 1, and shows a version
 *      that is neither 1 nor 2;
 *   51 if it is cut short (fewer than 4 bytes are left, or fewer than its length
 *      says), its length is below 6, its kind is not 1, 2 or 3, or its length is
 *      not that of its kind in this version (at the store's start: in any version).
 *      A store that ends before kind 3, the empty one too, is 51;
 *   52 otherwise: the first entry is of kind 2 or 3, or a later one of kind 1; an
 *      index is not the number of events before it (so that the 257th event of
 *      version 1 is 52, and the 65,537th of version 2);
 *      a ring length or an edition is not allowed; something follows kind 3 (51, if
 *      it is no entry that fits a known kind).
 * Where no entry is faulty:
 *   11 if there is no event or more than 1,024 (version 1: 32), two identifiers are
 *      equal, or an event lacks sample bit 16;
 *   40 if events_room is below the number of events;
 *   otherwise 0.
 * Refused: the lent table is unchanged. Accepted: its first rows are the events,
 * each with sample_id_all 1, in the order of the store; its other rows are
 * unchanged. A table of OLLSKUVAN_EVENTS_MAX rows is always long enough.
 *
 * An older build answers 52 to an edition that it does not know, and 50 to a
 * version that it does not know.
 */
struct ollskuvan_settings ollskuvan_read_store(const uint8_t *store, size_t store_len, struct ollskuvan_event *events,
    size_t events_room);

struct ollskuvan_stored {
    uint64_t bytes;  /* the store's length: OLLSKUVAN_STORE_BYTES(event_count); 0 if answer is not 0 */
    uint32_t answer; /* 0; or 11, 1, 2 or 40 */
};

/*
 * ollskuvan_write_store writes a store to the start of the buffer. In this order:
 *   11 if the table is not allowed, as for ollskuvan_drain_events;
 *   1 if the ring length is not allowed;
 *   2 if the edition is not 1, 2, 3 or 4;
 *   40 if the buffer is shorter than the store;
 *   otherwise 0.
 * Refused: the buffer is unchanged. Accepted: it begins with the store, its other
 * bytes are unchanged. What is written reads back as the same settings, with
 * sample_id_all 1. A store that reads is the only one of its version that reads
 * as its settings: one of version 2, written again, has the same bytes. Version 2
 * is what is written; a build that knows version 1 alone answers 50 to it.
 */
struct ollskuvan_stored ollskuvan_write_store(const struct ollskuvan_event *events, size_t event_count,
    uint64_t ring_length, uint32_t edition, uint32_t budget, uint8_t *buffer, size_t buffer_len);

/* ------------------------------------------------------------------------
 * Replay of a recorded trace, over a ring that nobody else writes.
 */

struct ollskuvan_replayed {
    uint64_t entries;       /* entries played: all of the trace's, or those before the faulty one */
    uint64_t offered_bytes; /* the sum of the sizes of the records offered: drained, dropped and held together */
    uint64_t drained_bytes; /* of those that the drains took */
    uint64_t dropped_bytes; /* of those that did not fit the free room */
    uint64_t held_bytes;    /* of those that are still in the ring: head minus tail, wrapping */
    uint64_t taken;         /* records that the drains took: the number of journal entries */
    uint64_t dropped;       /* records that did not fit */
    uint64_t head, tail;    /* the counts at the end */
    uint32_t answer;        /* 0: the trace was played to its end; or why it was not */
};

/*
 * ollskuvan_replay plays a trace: entries one after the other, each of which
 * offers a record to a ring, as a kernel does, or drains it, as a reader does.
 *
 * rooms holds the ring, then the scratch, each half of it: the ring's length is
 * rooms_len / 2, and an odd rooms_len is no length. Head and tail begin at start.
 * In this order 1 (the ring's length), 2, 5 (start is no multiple of 8) and 11
 * come before any entry, also of an empty trace. Refused so: the counts are 0,
 * head and tail are start, rooms and journal are unchanged.
 *
 * An entry is a length that covers itself (4 bytes), a kind (2 bytes), a body:
 *   OLLSKUVAN_KIND_OFFER: the body is a record. If its size is at most the free
 *     room, the ring's length minus what is held, it goes in whole at head, round
 *     the ring's end if need be, and head moves on by its size; otherwise it is
 *     dropped and counted, one longer than the ring too. What its body says is
 *     not asked here, but by the drain that takes it.
 *   OLLSKUVAN_KIND_DRAIN, of length 10: a drain with that budget, which is
 *     ollskuvan_drain_events with this ring, table, edition and scratch, and with
 *     what is left of the journal. Its own stop, which is 0, 8 or 9, ends that
 *     drain and not the replay. The journal runs on over all drains.
 * At the first faulty entry the replay ends with all as it stood before it:
 *   51: it is cut short, its length is below 6, or it fits no known kind;
 *   52: it is one of a store of settings (kind 1 of length 8, kind 2 of length
 *     55 or 56, kind 3 of length 19), which have no place in a trace;
 *   53: it offers fewer than 8 bytes, or a record whose size is below 8, no
 *     multiple of 8, or not the length of what is offered.
 *
 * A record that goes in is put at head's place, round the ring's end, and changes
 * no other byte of the ring; a drain changes none. Afterwards: the records held
 * lie where they were put; the scratch begins with the record that was copied
 * last, if one was; the journal's first 16 * taken bytes are the entries. Bytes
 * of ring, scratch and journal that nothing was put over are unchanged. What the
 * ring held before shows in nothing that is told.
 */
struct ollskuvan_replayed ollskuvan_replay(const uint8_t *trace, size_t trace_len, uint64_t start,
    const struct ollskuvan_event *events, size_t event_count, uint32_t edition, uint8_t *rooms, size_t rooms_len,
    uint8_t *journal, size_t journal_len);

/* ------------------------------------------------------------------------
 * The backward ring: a flight recorder.
 *
 * An event that is opened with write_backward, and mapped for reading alone,
 * writes its records from high addresses to low ones and runs over its oldest
 * ones for ever: nobody reads while it records. To look at it the writing is
 * stopped first (ioctl PERF_EVENT_IOC_PAUSE_OUTPUT with 1 on the event whose ring
 * it is), then data_head is read, behind it your own read barrier; data_tail is
 * never written. All events of the ring must have write_backward set.
 */

struct ollskuvan_walked {
    uint64_t taken; /* records taken: the number of journal entries written */
    uint64_t bytes; /* bytes walked: the sum of the records' sizes, at most ring_len */
    uint32_t stop;  /* why it ended: OLLSKUVAN_STOP_... */
};

/*
 * ollskuvan_walk_back takes the records of a backward ring from the newest, which
 * starts at head, to older ones, which follow upward; at most budget of them, over
 * at most one ring length. head is data_head as the kernel keeps it: it begins at 0
 * and falls, so that it soon is near 2^64. It is not reduced by the ring's length.
 *
 * At every record the stops are tested in the order 1, 2, 5 (head alone), 0, 6, 13,
 * 8, 9, 3; the first that holds ends the walk and is reported as stop. 4 and 7 do
 * not occur.
 *   0 has two meanings. bytes equals ring_len: the whole length is walked, and the
 *      ring has no further record. Else a header of size 0 follows, whatever its
 *      other bytes are: nothing was written there yet.
 *   6: the size is not 0, and below 8 or no multiple of 8.
 *   13: the bytes walked plus the size pass ring_len. The end of this record, the
 *      oldest, was overwritten by the newest ones: in a ring that has gone round
 *      this is the usual end, and all that can be read was taken.
 * So 0, 6 and 13 are told even with the budget used up or the journal full.
 *
 * A record taken is shown, copied and checked as ollskuvan_drain does it, and goes
 * to the journal in the same way. The entry's tail count is where the record
 * starts: head plus the bytes walked before it, wrapping. No tail moves. Afterwards
 * ring, journal and scratch are as after a drain; at most one record crosses the
 * ring's end. A scratch as long as the ring, or of OLLSKUVAN_RECORD_MAX bytes, never
 * gives stop 3, a budget of ring_len / 8 never 8, a journal of 2 * ring_len bytes
 * never 9.
 *
 * From an entry to its record: ollskuvan_read_one with head plus walked.bytes as the
 * head, and the entry's own tail count as the tail, given a scratch as long as the
 * record, if it crosses the end, and 56 words. The journal has the newest record
 * first: read its entries from the last one to have the oldest first.
 */
struct ollskuvan_walked ollskuvan_walk_back(const uint8_t *ring, size_t ring_len, uint64_t head,
    uint64_t sample_type, uint64_t read_format, uint32_t sample_id_all, uint64_t user_mask, uint64_t interrupt_mask,
    uint64_t branch_sample_type, uint32_t edition, uint64_t budget, uint8_t *scratch, size_t scratch_len,
    uint8_t *journal, size_t journal_len);

/*
 * ollskuvan_walk_back_events is ollskuvan_walk_back with a table of events. Its
 * stops are tested in the order 1, 2, 5, 11, 0, 6, 13, 8, 9, 3: a table that is not
 * allowed is 11 even where the ring is empty. Records are answered as by
 * ollskuvan_drain_events, and read with ollskuvan_read_one_events.
 */
struct ollskuvan_walked ollskuvan_walk_back_events(const uint8_t *ring, size_t ring_len, uint64_t head,
    const struct ollskuvan_event *events, size_t event_count, uint32_t edition, uint64_t budget,
    uint8_t *scratch, size_t scratch_len, uint8_t *journal, size_t journal_len);

/* ------------------------------------------------------------------------
 * Streams of records that come back with holes.
 */

struct ollskuvan_salvaged {
    uint64_t kept;    /* bytes kept, which are those written to out; 0 if answer is not 0 */
    uint64_t dropped; /* bytes dropped: kept plus dropped is stream_len; 0 if answer is not 0 */
    uint64_t changes; /* bytes of the list of changes, OLLSKUVAN_CHANGE_ENTRY for each hole; 0 if answer is not 0 */
    uint32_t answer;  /* 0; or 2, 11 or 54 */
};

/*
 * ollskuvan_salvage keeps what is sound of a stream: records end to end, as they
 * were taken from rings, with a table of the events that wrote them.
 *
 * From the stream's start on, at each place: a record is kept if its size is 8 or
 * more, a multiple of 8 and not above the bytes that are left, and its body is
 * accepted as ollskuvan_drain_events accepts it (answer 0; so a dirty name is kept
 * as it is). Then the place after it is looked at. Otherwise 8 bytes are dropped,
 * or all that is left if there are fewer, and the place after these is looked at.
 *
 * out gets the records that are kept, one after the other. changes gets an entry
 * of OLLSKUVAN_CHANGE_ENTRY bytes for each longest run of dropped bytes, in the
 * order of the stream: where it begins in the stream, and its length. Between two
 * of them a record was kept. The stream without these runs is what out holds.
 *
 * The answer, in this order: 2; 11 if the table is not allowed; 54 if out_len is
 * below the bytes kept or changes_len below those of the list; otherwise 0.
 * Refused: both buffers are unchanged. Accepted: their bytes behind what is written
 * are unchanged. out of stream_len bytes is always enough, and so is a list of
 * OLLSKUVAN_CHANGE_ENTRY * (stream_len / 24 + 1): two holes of 8 bytes are 16
 * bytes of a record apart, or more.
 *
 * A stream of accepted records from end to end comes back byte for byte with an
 * empty list; so does what is kept, when it is salvaged again.
 *
 * What no reader of such a stream can know: a hole whose length is no multiple of
 * 8 moves all that follows it off the places that are looked at; it is dropped,
 * mostly up to the stream's end. And where a record is refused, the places inside
 * it are looked at in turn, so that bytes of its body which look like a record of
 * the table are kept as one. A record whose numbers are damaged, and whose layout
 * is not, is accepted as any other: records have no sum to check.
 */
struct ollskuvan_salvaged ollskuvan_salvage(const uint8_t *stream, size_t stream_len,
    const struct ollskuvan_event *events, size_t event_count, uint32_t edition, uint8_t *out, size_t out_len,
    uint8_t *changes, size_t changes_len);

struct ollskuvan_compared {
    uint64_t records; /* equal pairs before the place that is told: the number, from 0, of the record there */
    uint32_t what;    /* OLLSKUVAN_COMPARED_..., 0 to 5 */
    uint32_t field;   /* the number of the first field that differs; 0 unless what is 1 */
    uint32_t stop;    /* why the side stopped; 0 unless what is 4 or 5 */
};

/*
 * ollskuvan_compare tells whether two rings say the same: each with its head, tail
 * and scratch, both under one table of events and one edition. Record after record
 * of the left ring is set beside that of the right one. Where the records lie, and
 * the bytes that are ignored (behind a CPU, behind a build id's size, the rest of
 * its 20 bytes, padding), do not count. A name's flag does, and what the name's
 * stale bytes are does not.
 *
 * It ends at the first record number at which one of these holds, in this order:
 * the left side stops with 1, 2, 4, 5, 11, 6, 7 or 3 (as ollskuvan_drain_events
 * does; 8 and 9 do not occur): 4; the right side does: 5; both ended: 0; the left
 * ended: 2; the right ended: 3; a field differs: 1. So a table or an edition that
 * is refused is the left side's stop, with 0 records.
 *
 * The fields of a record by number. Field 0 is its answer, 0 or the refusal. Two
 * records that are refused alike have one more field, 1: all their bytes. Of an
 * accepted record 1 is the type, 2 misc, 3 the size, 4 the identifier, and from 5
 * on come the other fields that are present, in the order in which they lie in the
 * record; last, of MMAP, COMM, MMAP2, KSYMBOL and CGROUP, the name's flag. A list,
 * a name, a build id or a text is one field, together with its count; it stands
 * where its entries stand. Registers are present where the abi before them, a
 * field of its own, is not 0; a filled length where the stack's size is not 0. The
 * identifier is not told again in SAMPLE or trailer. So MMAP2's prot is 14, or 11
 * with a build id: ollskuvan_field_name gives the name of a number.
 *
 * Both rings are only read. A scratch gets the records of its side that cross the
 * ring's end, from its start on, as in a drain; it is written if both sides have a
 * record at that number. After a stop or an end both are as they stood before that
 * record, after a difference as after it. The rings may be the same memory, the
 * scratches may not overlap anything that is lent.
 */
struct ollskuvan_compared ollskuvan_compare(const uint8_t *left, size_t left_len, uint64_t left_head,
    uint64_t left_tail, uint8_t *left_scratch, size_t left_scratch_len, const uint8_t *right, size_t right_len,
    uint64_t right_head, uint64_t right_tail, uint8_t *right_scratch, size_t right_scratch_len,
    const struct ollskuvan_event *events, size_t event_count, uint32_t edition);

/* ------------------------------------------------------------------------
 * The numbers in words, for messages. These five are plain C and stand in
 * libollskuvan_words.a; a program that does not use them links libollskuvan.a
 * alone. None gives a null pointer, and what they give is never freed.
 */

/* Why a drain or a walk stopped; the answer to a record, a name or a value. They
 * differ for 0, 6 and 7. "unknown answer" for a number that is not used. */
const char *ollskuvan_stop_text(uint32_t stop);
const char *ollskuvan_refusal_text(uint32_t refusal);

/* "SAMPLE"; "unknown type" for 0 and for a type that no edition knows. */
const char *ollskuvan_type_name(uint64_t type);

/* "ip" for word OLLSKUVAN_SAMPLE_IP of a SAMPLE, "trailer cpu" for word 53 of
 * any other type. A list's place has the list's name. No two words of a type
 * have the same name; a word that the type does not have has the name "". */
const char *ollskuvan_word_name(uint64_t type, uint32_t word);

/* The name of a field by its number, as ollskuvan_compare counts them: "prot" for
 * 14 of an MMAP2. Which number a field has depends on what is present: fields are
 * the words of an accepted record's value, event is the one that wrote it. The
 * names are those of ollskuvan_word_name, but "answer" for 0 and "identifier" for
 * 4; "" for a number that the record does not have. */
const char *ollskuvan_field_name(const uint64_t *fields, const struct ollskuvan_event *event, uint32_t number);

#ifdef __cplusplus
}
#endif

#endif
