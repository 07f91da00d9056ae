//! The exports, answered by the independent reader itself.
//!
//! Under the library's names it is a stand-in for libollskuvan.a, built only to test the test programs
//! (tests/run.sh standin). A comparison with the stand-in compares the independent reader with itself
//! and says nothing about the library. Under names of its own (`own_names`: reader_drain and so on) it
//! stands beside the library in one program: the fuzz target, tests/fuzz.

use crate::abi::{CDrained, CJudged, CPublished, CSettings, CStored, CWalked, CSalvaged, CCompared};
use crate::backward::{self, Walked};
use crate::compare;
use crate::events::{self, Event};
use crate::record;
use crate::replay::{self, Replayed};
use crate::ring::{self, One, Ring};
use crate::rules::{self, Attributes};
use crate::store::{self, Settings};
use crate::salvage;
use crate::words::FIELDS;
use crate::writer;

/// A null pointer is allowed where the length is 0.
pub unsafe fn lent<'s, T>(pointer: *const T, length: usize) -> &'s [T] {
    if length == 0 { &[] } else { std::slice::from_raw_parts(pointer, length) }
}

pub unsafe fn lent_mut<'s, T>(pointer: *mut T, length: usize) -> &'s mut [T] {
    if length == 0 { &mut [] } else { std::slice::from_raw_parts_mut(pointer, length) }
}

#[cfg_attr(own_names, export_name = "reader_drain")]
#[cfg_attr(not(own_names), no_mangle)]
pub unsafe extern "C" fn ollskuvan_drain(
    ring: *const u8, ring_len: usize, head: u64, tail: u64, sample_type: u64, read_format: u64,
    sample_id_all: u32, user_mask: u64, interrupt_mask: u64, branch_sample_type: u64, edition: u32, budget: u64,
    scratch: *mut u8, scratch_len: usize, journal: *mut u8, journal_len: usize,
) -> CDrained {
    let attributes = Attributes { sample_type, read_format, sample_id_all, user_mask, interrupt_mask, branch_sample_type };
    let ring = Ring { bytes: lent(ring, ring_len), head, edition, attributes };
    let d = ring::drain(&ring, tail, budget, lent_mut(scratch, scratch_len), lent_mut(journal, journal_len));
    CDrained { taken: d.taken, bytes: d.bytes, tail: d.tail, stop: d.stop }
}

#[cfg_attr(own_names, export_name = "reader_check")]
#[cfg_attr(not(own_names), no_mangle)]
pub unsafe extern "C" fn ollskuvan_check(
    record: *const u8, record_len: usize, sample_type: u64, read_format: u64, sample_id_all: u32,
    user_mask: u64, interrupt_mask: u64, branch_sample_type: u64, edition: u32,
) -> u32 {
    let a = Attributes { sample_type, read_format, sample_id_all, user_mask, interrupt_mask, branch_sample_type };
    record::check(lent(record, record_len), edition, &a)
}

#[cfg_attr(own_names, export_name = "reader_misc_meaning")]
#[cfg_attr(not(own_names), no_mangle)]
pub extern "C" fn ollskuvan_misc_meaning(kind: u64, misc: u64) -> u32 {
    rules::misc_meaning(kind, misc)
}

#[cfg_attr(own_names, export_name = "reader_copy_name")]
#[cfg_attr(not(own_names), no_mangle)]
pub unsafe extern "C" fn ollskuvan_copy_name(
    record: *const u8, record_len: usize, place: u64, count: u64, buffer: *mut u8, buffer_len: usize,
) -> u32 {
    record::copy_name(lent(record, record_len), place, count, lent_mut(buffer, buffer_len))
}

#[cfg_attr(own_names, export_name = "reader_read")]
#[cfg_attr(not(own_names), no_mangle)]
pub unsafe extern "C" fn ollskuvan_read(
    record: *const u8, record_len: usize, sample_type: u64, read_format: u64, sample_id_all: u32,
    user_mask: u64, interrupt_mask: u64, branch_sample_type: u64, edition: u32, fields: *mut u64, fields_len: usize,
) -> u32 {
    let a = Attributes { sample_type, read_format, sample_id_all, user_mask, interrupt_mask, branch_sample_type };
    match record::read(lent(record, record_len), edition, &a) {
        Err(refusal) => refusal,
        Ok(_) if fields_len < FIELDS => 40,
        Ok(value) => {
            lent_mut(fields, fields_len)[..FIELDS].copy_from_slice(&value);
            0
        }
    }
}

#[cfg_attr(own_names, export_name = "reader_read_one")]
#[cfg_attr(not(own_names), no_mangle)]
pub unsafe extern "C" fn ollskuvan_read_one(
    ring: *const u8, ring_len: usize, head: u64, tail: u64, sample_type: u64, read_format: u64,
    sample_id_all: u32, user_mask: u64, interrupt_mask: u64, branch_sample_type: u64, edition: u32, scratch: *mut u8,
    scratch_len: usize, fields: *mut u64, fields_len: usize,
) -> One {
    let attributes = Attributes { sample_type, read_format, sample_id_all, user_mask, interrupt_mask, branch_sample_type };
    let ring = Ring { bytes: lent(ring, ring_len), head, edition, attributes };
    ring::read_one(&ring, tail, None, lent_mut(scratch, scratch_len), lent_mut(fields, fields_len))
}

#[cfg_attr(own_names, export_name = "reader_drain_events")]
#[cfg_attr(not(own_names), no_mangle)]
pub unsafe extern "C" fn ollskuvan_drain_events(
    ring: *const u8, ring_len: usize, head: u64, tail: u64, table: *const Event, event_count: usize, edition: u32,
    budget: u64, scratch: *mut u8, scratch_len: usize, journal: *mut u8, journal_len: usize,
) -> CDrained {
    let ring = Ring { bytes: lent(ring, ring_len), head, edition, attributes: Attributes::EMPTY };
    let table = Some(lent(table, event_count));
    let d = ring::drain_with(&ring, tail, table, budget, lent_mut(scratch, scratch_len), lent_mut(journal, journal_len));
    CDrained { taken: d.taken, bytes: d.bytes, tail: d.tail, stop: d.stop }
}

#[cfg_attr(own_names, export_name = "reader_find_event")]
#[cfg_attr(not(own_names), no_mangle)]
pub unsafe extern "C" fn ollskuvan_find_event(table: *const Event, event_count: usize, identifier: u64) -> usize {
    events::find(lent(table, event_count), identifier)
}

#[cfg_attr(own_names, export_name = "reader_check_events")]
#[cfg_attr(not(own_names), no_mangle)]
pub unsafe extern "C" fn ollskuvan_check_events(
    record: *const u8, record_len: usize, table: *const Event, event_count: usize, edition: u32,
) -> CJudged {
    let j = events::check(lent(record, record_len), edition, lent(table, event_count));
    CJudged { answer: j.answer, inspected: j.inspected }
}

#[cfg_attr(own_names, export_name = "reader_read_events")]
#[cfg_attr(not(own_names), no_mangle)]
pub unsafe extern "C" fn ollskuvan_read_events(
    record: *const u8, record_len: usize, table: *const Event, event_count: usize, edition: u32, fields: *mut u64,
    fields_len: usize,
) -> CJudged {
    let (record, table) = (lent(record, record_len), lent(table, event_count));
    let j = events::read(record, edition, table, lent_mut(fields, fields_len));
    CJudged { answer: j.answer, inspected: j.inspected }
}

#[cfg_attr(own_names, export_name = "reader_read_one_events")]
#[cfg_attr(not(own_names), no_mangle)]
pub unsafe extern "C" fn ollskuvan_read_one_events(
    ring: *const u8, ring_len: usize, head: u64, tail: u64, table: *const Event, event_count: usize, edition: u32,
    scratch: *mut u8, scratch_len: usize, fields: *mut u64, fields_len: usize,
) -> One {
    let ring = Ring { bytes: lent(ring, ring_len), head, edition, attributes: Attributes::EMPTY };
    let table = Some(lent(table, event_count));
    ring::read_one(&ring, tail, table, lent_mut(scratch, scratch_len), lent_mut(fields, fields_len))
}

#[cfg_attr(own_names, export_name = "reader_write")]
#[cfg_attr(not(own_names), no_mangle)]
pub unsafe extern "C" fn ollskuvan_write(
    fields: *const u64, fields_len: usize, source: *const u8, source_len: usize, sample_type: u64,
    read_format: u64, sample_id_all: u32, user_mask: u64, interrupt_mask: u64, branch_sample_type: u64, edition: u32,
    buffer: *mut u8, buffer_len: usize,
) -> u32 {
    let a = Attributes { sample_type, read_format, sample_id_all, user_mask, interrupt_mask, branch_sample_type };
    writer::write(lent(fields, fields_len), lent(source, source_len), edition, &a, lent_mut(buffer, buffer_len))
}

#[cfg_attr(own_names, export_name = "reader_publish")]
#[cfg_attr(not(own_names), no_mangle)]
pub extern "C" fn ollskuvan_publish(ring_length: u64, head: u64, first: u64, second: u64) -> CPublished {
    let p = ring::publish(ring_length, head, first, second);
    CPublished { tail: p.tail, answer: p.answer }
}

#[cfg_attr(own_names, export_name = "reader_read_store")]
#[cfg_attr(not(own_names), no_mangle)]
pub unsafe extern "C" fn ollskuvan_read_store(
    bytes: *const u8, store_len: usize, events: *mut Event, events_room: usize,
) -> CSettings {
    match store::read(lent(bytes, store_len), events_room) {
        Err(fault) => CSettings { events: 0, ring_length: 0, edition: 0, budget: 0, answer: fault.reason.number() },
        Ok((s, _)) => {
            lent_mut(events, events_room)[..s.events.len()].copy_from_slice(&s.events);
            let events = s.events.len() as u64;
            CSettings { events, ring_length: s.ring_length, edition: s.edition, budget: s.budget, answer: 0 }
        }
    }
}

#[cfg_attr(own_names, export_name = "reader_write_store")]
#[cfg_attr(not(own_names), no_mangle)]
pub unsafe extern "C" fn ollskuvan_write_store(
    events: *const Event, event_count: usize, ring_length: u64, edition: u32, budget: u32, buffer: *mut u8,
    buffer_len: usize,
) -> CStored {
    let settings = Settings { events: lent(events, event_count).to_vec(), ring_length, edition, budget };
    match store::write(&settings, buffer_len) {
        Err(answer) => CStored { bytes: 0, answer },
        Ok(bytes) => {
            lent_mut(buffer, buffer_len)[..bytes.len()].copy_from_slice(&bytes);
            CStored { bytes: bytes.len() as u64, answer: 0 }
        }
    }
}

#[cfg_attr(own_names, export_name = "reader_replay")]
#[cfg_attr(not(own_names), no_mangle)]
pub unsafe extern "C" fn ollskuvan_replay(
    trace: *const u8, trace_len: usize, start: u64, table: *const Event, event_count: usize, edition: u32, rooms: *mut u8,
    rooms_len: usize, journal: *mut u8, journal_len: usize,
) -> Replayed {
    let (trace, table) = (lent(trace, trace_len), lent(table, event_count));
    replay::replay(trace, start, table, edition, lent_mut(rooms, rooms_len), lent_mut(journal, journal_len))
}

fn walked_for_c(w: &Walked) -> CWalked {
    CWalked { taken: w.taken, bytes: w.bytes, stop: w.stop }
}

#[cfg_attr(own_names, export_name = "reader_walk_back")]
#[cfg_attr(not(own_names), no_mangle)]
pub unsafe extern "C" fn ollskuvan_walk_back(
    ring: *const u8, ring_len: usize, head: u64, sample_type: u64, read_format: u64, sample_id_all: u32, user_mask: u64,
    interrupt_mask: u64, branch_sample_type: u64, edition: u32, budget: u64, scratch: *mut u8, scratch_len: usize,
    journal: *mut u8, journal_len: usize,
) -> CWalked {
    let attributes = Attributes { sample_type, read_format, sample_id_all, user_mask, interrupt_mask, branch_sample_type };
    let ring = Ring { bytes: lent(ring, ring_len), head, edition, attributes };
    walked_for_c(&backward::walk(&ring, None, budget, lent_mut(scratch, scratch_len), lent_mut(journal, journal_len)))
}

#[cfg_attr(own_names, export_name = "reader_walk_back_events")]
#[cfg_attr(not(own_names), no_mangle)]
pub unsafe extern "C" fn ollskuvan_walk_back_events(
    ring: *const u8, ring_len: usize, head: u64, table: *const Event, event_count: usize, edition: u32, budget: u64,
    scratch: *mut u8, scratch_len: usize, journal: *mut u8, journal_len: usize,
) -> CWalked {
    let ring = Ring { bytes: lent(ring, ring_len), head, edition, attributes: Attributes::EMPTY };
    let table = Some(lent(table, event_count));
    walked_for_c(&backward::walk(&ring, table, budget, lent_mut(scratch, scratch_len), lent_mut(journal, journal_len)))
}

#[cfg_attr(own_names, export_name = "reader_salvage")]
#[cfg_attr(not(own_names), no_mangle)]
pub unsafe extern "C" fn ollskuvan_salvage(
    stream: *const u8, stream_len: usize, table: *const Event, event_count: usize, edition: u32, out: *mut u8,
    out_len: usize, changes: *mut u8, changes_len: usize,
) -> CSalvaged {
    let (stream, table) = (lent(stream, stream_len), lent(table, event_count));
    let s = salvage::salvage(stream, table, edition, lent_mut(out, out_len), lent_mut(changes, changes_len));
    CSalvaged { kept: s.kept, dropped: s.dropped, changes: s.changes, answer: s.answer }
}

#[allow(clippy::too_many_arguments)]
#[cfg_attr(own_names, export_name = "reader_compare")]
#[cfg_attr(not(own_names), no_mangle)]
pub unsafe extern "C" fn ollskuvan_compare(
    left: *const u8, left_len: usize, left_head: u64, left_tail: u64, left_scratch: *mut u8, left_scratch_len: usize,
    right: *const u8, right_len: usize, right_head: u64, right_tail: u64, right_scratch: *mut u8, right_scratch_len: usize,
    table: *const Event, event_count: usize, edition: u32,
) -> CCompared {
    let attributes = Attributes::EMPTY;
    let left = Ring { bytes: lent(left, left_len), head: left_head, edition, attributes };
    let right = Ring { bytes: lent(right, right_len), head: right_head, edition, attributes };
    let c = compare::compare(
        &left, left_tail, lent_mut(left_scratch, left_scratch_len), &right, right_tail,
        lent_mut(right_scratch, right_scratch_len), lent(table, event_count),
    );
    CCompared { records: c.records, what: c.what, field: c.field, stop: c.stop }
}
