//! The exports of libollskuvan.a, as include/ollskuvan.h declares them.

use crate::backward::Walked;
use crate::compare::Compared;
use crate::events::{Event, Judged};
use crate::replay::Replayed;
use crate::ring::{Drained, One, Published};
use crate::rules::Attributes;
use crate::salvage::Salvaged;

#[repr(C)]
pub struct CDrained {
    pub taken: u64,
    pub bytes: u64,
    pub tail: u64,
    pub stop: u32,
}

#[repr(C)]
pub struct CPublished {
    pub tail: u64,
    pub answer: u32,
}

#[repr(C)]
pub struct CJudged {
    pub answer: u32,
    pub inspected: u32,
}

#[repr(C)]
pub struct CSettings {
    pub events: u64,
    pub ring_length: u64,
    pub edition: u32,
    pub budget: u32,
    pub answer: u32,
}

#[repr(C)]
pub struct CStored {
    pub bytes: u64,
    pub answer: u32,
}

#[repr(C)]
pub struct CSalvaged {
    pub kept: u64,
    pub dropped: u64,
    pub changes: u64,
    pub answer: u32,
}

#[repr(C)]
pub struct CCompared {
    pub records: u64,
    pub what: u32,
    pub field: u32,
    pub stop: u32,
}

extern "C" {
    pub fn ollskuvan_compare(
        left: *const u8, left_len: usize, left_head: u64, left_tail: u64, left_scratch: *mut u8, left_scratch_len: usize,
        right: *const u8, right_len: usize, right_head: u64, right_tail: u64, right_scratch: *mut u8,
        right_scratch_len: usize, events: *const Event, event_count: usize, edition: u32,
    ) -> CCompared;
}

extern "C" {
    pub fn ollskuvan_salvage(
        stream: *const u8, stream_len: usize, events: *const Event, event_count: usize, edition: u32, out: *mut u8,
        out_len: usize, changes: *mut u8, changes_len: usize,
    ) -> CSalvaged;
}

extern "C" {
    pub fn ollskuvan_read_store(store: *const u8, store_len: usize, events: *mut Event, events_room: usize) -> CSettings;
    pub fn ollskuvan_write_store(
        events: *const Event, event_count: usize, ring_length: u64, edition: u32, budget: u32, buffer: *mut u8,
        buffer_len: usize,
    ) -> CStored;
}

extern "C" {
    pub fn ollskuvan_replay(
        trace: *const u8, trace_len: usize, start: u64, events: *const Event, event_count: usize, edition: u32,
        rooms: *mut u8, rooms_len: usize, journal: *mut u8, journal_len: usize,
    ) -> Replayed;
}

#[repr(C)]
pub struct CWalked {
    pub taken: u64,
    pub bytes: u64,
    pub stop: u32,
}

extern "C" {
    pub fn ollskuvan_walk_back(
        ring: *const u8, ring_len: usize, head: u64, sample_type: u64, read_format: u64, sample_id_all: u32, user_mask: u64,
        interrupt_mask: u64, branch_sample_type: u64, edition: u32, budget: u64, scratch: *mut u8, scratch_len: usize,
        journal: *mut u8, journal_len: usize,
    ) -> CWalked;
    pub fn ollskuvan_walk_back_events(
        ring: *const u8, ring_len: usize, head: u64, events: *const Event, event_count: usize, edition: u32, budget: u64,
        scratch: *mut u8, scratch_len: usize, journal: *mut u8, journal_len: usize,
    ) -> CWalked;
    pub fn ollskuvan_publish(ring_length: u64, head: u64, first: u64, second: u64) -> CPublished;
}

extern "C" {
    pub fn ollskuvan_drain_events(
        ring: *const u8, ring_len: usize, head: u64, tail: u64, events: *const Event, event_count: usize, edition: u32,
        budget: u64, scratch: *mut u8, scratch_len: usize, journal: *mut u8, journal_len: usize,
    ) -> CDrained;
    pub fn ollskuvan_find_event(events: *const Event, event_count: usize, identifier: u64) -> usize;
    pub fn ollskuvan_check_events(
        record: *const u8, record_len: usize, events: *const Event, event_count: usize, edition: u32,
    ) -> CJudged;
    pub fn ollskuvan_read_events(
        record: *const u8, record_len: usize, events: *const Event, event_count: usize, edition: u32, fields: *mut u64,
        fields_len: usize,
    ) -> CJudged;
    pub fn ollskuvan_read_one_events(
        ring: *const u8, ring_len: usize, head: u64, tail: u64, events: *const Event, event_count: usize, edition: u32,
        scratch: *mut u8, scratch_len: usize, fields: *mut u64, fields_len: usize,
    ) -> One;
    pub fn ollskuvan_drain(
        ring: *const u8, ring_len: usize, head: u64, tail: u64, sample_type: u64, read_format: u64,
        sample_id_all: u32, user_mask: u64, interrupt_mask: u64, branch_sample_type: u64, edition: u32, budget: u64,
        scratch: *mut u8, scratch_len: usize, journal: *mut u8, journal_len: usize,
    ) -> CDrained;
    pub fn ollskuvan_check(
        record: *const u8, record_len: usize, sample_type: u64, read_format: u64, sample_id_all: u32,
        user_mask: u64, interrupt_mask: u64, branch_sample_type: u64, edition: u32,
    ) -> u32;
    pub fn ollskuvan_misc_meaning(kind: u64, misc: u64) -> u32;
    pub fn ollskuvan_copy_name(
        record: *const u8, record_len: usize, place: u64, count: u64, buffer: *mut u8, buffer_len: usize,
    ) -> u32;
    pub fn ollskuvan_read(
        record: *const u8, record_len: usize, sample_type: u64, read_format: u64, sample_id_all: u32,
        user_mask: u64, interrupt_mask: u64, branch_sample_type: u64, edition: u32, fields: *mut u64, fields_len: usize,
    ) -> u32;
    pub fn ollskuvan_read_one(
        ring: *const u8, ring_len: usize, head: u64, tail: u64, sample_type: u64, read_format: u64,
        sample_id_all: u32, user_mask: u64, interrupt_mask: u64, branch_sample_type: u64, edition: u32, scratch: *mut u8,
        scratch_len: usize, fields: *mut u64, fields_len: usize,
    ) -> One;
    pub fn ollskuvan_write(
        fields: *const u64, fields_len: usize, source: *const u8, source_len: usize, sample_type: u64,
        read_format: u64, sample_id_all: u32, user_mask: u64, interrupt_mask: u64, branch_sample_type: u64, edition: u32,
        buffer: *mut u8, buffer_len: usize,
    ) -> u32;
}

// Safe wrappers: a Rust slice is all that the exports ask of a slice.

#[allow(clippy::too_many_arguments)]
pub fn drain(
    ring: &[u8], head: u64, tail: u64, a: &Attributes, edition: u32, budget: u64, scratch: &mut [u8],
    journal: &mut [u8],
) -> Drained {
    let d = unsafe {
        ollskuvan_drain(
            ring.as_ptr(), ring.len(), head, tail, a.sample_type, a.read_format, a.sample_id_all, a.user_mask,
            a.interrupt_mask, a.branch_sample_type, edition, budget, scratch.as_mut_ptr(), scratch.len(), journal.as_mut_ptr(),
            journal.len(),
        )
    };
    Drained { taken: d.taken, bytes: d.bytes, tail: d.tail, stop: d.stop }
}

#[allow(clippy::too_many_arguments)]
pub fn walk_back(
    ring: &[u8], head: u64, a: &Attributes, edition: u32, budget: u64, scratch: &mut [u8], journal: &mut [u8],
) -> Walked {
    let w = unsafe {
        ollskuvan_walk_back(
            ring.as_ptr(), ring.len(), head, a.sample_type, a.read_format, a.sample_id_all, a.user_mask, a.interrupt_mask,
            a.branch_sample_type, edition, budget, scratch.as_mut_ptr(), scratch.len(), journal.as_mut_ptr(), journal.len(),
        )
    };
    Walked { taken: w.taken, bytes: w.bytes, stop: w.stop }
}

pub fn publish(length: u64, head: u64, first: u64, second: u64) -> Published {
    let p = unsafe { ollskuvan_publish(length, head, first, second) };
    Published { tail: p.tail, answer: p.answer }
}

/// Seven words a row of the lent table.
pub fn read_store(store: &[u8], rows: &mut [u64]) -> CSettings {
    unsafe { ollskuvan_read_store(store.as_ptr(), store.len(), rows.as_mut_ptr().cast(), rows.len() / 7) }
}

pub fn write_store(words: &[u64], ring_length: u64, edition: u32, budget: u32, buffer: &mut [u8]) -> CStored {
    unsafe {
        ollskuvan_write_store(
            words.as_ptr().cast(), words.len() / 7, ring_length, edition, budget, buffer.as_mut_ptr(), buffer.len(),
        )
    }
}

pub fn check(record: &[u8], a: &Attributes, edition: u32) -> u32 {
    unsafe {
        ollskuvan_check(
            record.as_ptr(), record.len(), a.sample_type, a.read_format, a.sample_id_all, a.user_mask,
            a.interrupt_mask, a.branch_sample_type, edition,
        )
    }
}

pub fn misc_meaning(kind: u64, misc: u64) -> u32 {
    unsafe { ollskuvan_misc_meaning(kind, misc) }
}

pub fn copy_name(record: &[u8], place: u64, count: u64, buffer: &mut [u8]) -> u32 {
    unsafe {
        ollskuvan_copy_name(record.as_ptr(), record.len(), place, count, buffer.as_mut_ptr(), buffer.len())
    }
}

pub fn read(record: &[u8], a: &Attributes, edition: u32, fields: &mut [u64]) -> u32 {
    unsafe {
        ollskuvan_read(
            record.as_ptr(), record.len(), a.sample_type, a.read_format, a.sample_id_all, a.user_mask,
            a.interrupt_mask, a.branch_sample_type, edition, fields.as_mut_ptr(), fields.len(),
        )
    }
}

pub fn read_one(
    ring: &[u8], head: u64, tail: u64, a: &Attributes, edition: u32, scratch: &mut [u8], fields: &mut [u64],
) -> One {
    unsafe {
        ollskuvan_read_one(
            ring.as_ptr(), ring.len(), head, tail, a.sample_type, a.read_format, a.sample_id_all, a.user_mask,
            a.interrupt_mask, a.branch_sample_type, edition, scratch.as_mut_ptr(), scratch.len(), fields.as_mut_ptr(),
            fields.len(),
        )
    }
}

// With a table: seven words an event, lent as the events that they are.

pub fn drain_events(
    ring: &[u8], head: u64, tail: u64, words: &[u64], edition: u32, budget: u64, scratch: &mut [u8], journal: &mut [u8],
) -> Drained {
    let d = unsafe {
        ollskuvan_drain_events(
            ring.as_ptr(), ring.len(), head, tail, words.as_ptr().cast(), words.len() / 7, edition, budget,
            scratch.as_mut_ptr(), scratch.len(), journal.as_mut_ptr(), journal.len(),
        )
    };
    Drained { taken: d.taken, bytes: d.bytes, tail: d.tail, stop: d.stop }
}

pub fn walk_back_events(
    ring: &[u8], head: u64, words: &[u64], edition: u32, budget: u64, scratch: &mut [u8], journal: &mut [u8],
) -> Walked {
    let w = unsafe {
        ollskuvan_walk_back_events(
            ring.as_ptr(), ring.len(), head, words.as_ptr().cast(), words.len() / 7, edition, budget, scratch.as_mut_ptr(),
            scratch.len(), journal.as_mut_ptr(), journal.len(),
        )
    };
    Walked { taken: w.taken, bytes: w.bytes, stop: w.stop }
}

pub fn find_event(words: &[u64], identifier: u64) -> usize {
    unsafe { ollskuvan_find_event(words.as_ptr().cast(), words.len() / 7, identifier) }
}

pub fn check_events(record: &[u8], words: &[u64], edition: u32) -> Judged {
    let j = unsafe {
        ollskuvan_check_events(record.as_ptr(), record.len(), words.as_ptr().cast(), words.len() / 7, edition)
    };
    Judged { answer: j.answer, inspected: j.inspected }
}

pub fn read_events(record: &[u8], words: &[u64], edition: u32, fields: &mut [u64]) -> Judged {
    let j = unsafe {
        ollskuvan_read_events(
            record.as_ptr(), record.len(), words.as_ptr().cast(), words.len() / 7, edition, fields.as_mut_ptr(),
            fields.len(),
        )
    };
    Judged { answer: j.answer, inspected: j.inspected }
}

pub fn replay(trace: &[u8], start: u64, words: &[u64], edition: u32, rooms: &mut [u8], journal: &mut [u8]) -> Replayed {
    unsafe {
        ollskuvan_replay(
            trace.as_ptr(), trace.len(), start, words.as_ptr().cast(), words.len() / 7, edition, rooms.as_mut_ptr(),
            rooms.len(), journal.as_mut_ptr(), journal.len(),
        )
    }
}

pub fn salvage(stream: &[u8], words: &[u64], edition: u32, out: &mut [u8], changes: &mut [u8]) -> Salvaged {
    let s = unsafe {
        ollskuvan_salvage(
            stream.as_ptr(), stream.len(), words.as_ptr().cast(), words.len() / 7, edition, out.as_mut_ptr(), out.len(),
            changes.as_mut_ptr(), changes.len(),
        )
    };
    Salvaged { kept: s.kept, dropped: s.dropped, changes: s.changes, answer: s.answer }
}

/// A ring of one side as it is lent: its bytes, head and tail.
pub type LentSide<'r> = (&'r [u8], u64, u64);

pub fn compare(
    left: LentSide, left_scratch: &mut [u8], right: LentSide, right_scratch: &mut [u8], words: &[u64], edition: u32,
) -> Compared {
    let c = unsafe {
        ollskuvan_compare(
            left.0.as_ptr(), left.0.len(), left.1, left.2, left_scratch.as_mut_ptr(), left_scratch.len(), right.0.as_ptr(),
            right.0.len(), right.1, right.2, right_scratch.as_mut_ptr(), right_scratch.len(), words.as_ptr().cast(),
            words.len() / 7, edition,
        )
    };
    Compared { records: c.records, what: c.what, field: c.field, stop: c.stop }
}

pub fn read_one_events(
    ring: &[u8], head: u64, tail: u64, words: &[u64], edition: u32, scratch: &mut [u8], fields: &mut [u64],
) -> One {
    unsafe {
        ollskuvan_read_one_events(
            ring.as_ptr(), ring.len(), head, tail, words.as_ptr().cast(), words.len() / 7, edition,
            scratch.as_mut_ptr(), scratch.len(), fields.as_mut_ptr(), fields.len(),
        )
    }
}

pub fn write(fields: &[u64], source: &[u8], a: &Attributes, edition: u32, buffer: &mut [u8]) -> u32 {
    unsafe {
        ollskuvan_write(
            fields.as_ptr(), fields.len(), source.as_ptr(), source.len(), a.sample_type, a.read_format,
            a.sample_id_all, a.user_mask, a.interrupt_mask, a.branch_sample_type, edition, buffer.as_mut_ptr(), buffer.len(),
        )
    }
}
