//! Drain, record check and name copy: libollskuvan.a against the independent reader.

use crate::abi;
use crate::events::Event;
use crate::guard::*;
use crate::made::*;
use crate::record::{self, le32};
use crate::ring::{self, Drained, Ring};
use crate::rules::*;
use crate::tally::Tally;

/// What differed, in words; the caller adds seed and case.
pub type Difference = String;

pub fn compare_drain(case: &DrainCase, r: &mut Random, tally: &mut Tally) -> Result<(Drained, Vec<u8>), Difference> {
    compare_drain_with(case, None, r, tally)
}

/// One drain by both, with a table of events or without; all that is lent is compared.
pub fn compare_drain_with(
    case: &DrainCase, table: ring::Table, r: &mut Random, tally: &mut Tally,
) -> Result<(Drained, Vec<u8>), Difference> {
    let mut scratch = vec![0; case.scratch];
    let mut journal = vec![0; case.journal];
    r.fill(&mut scratch);
    r.fill(&mut journal);
    let shift = r.below(8) as usize;
    let mut lent = Lent::new(&case.ring, table, &scratch, &journal, shift);
    let a = &case.attributes;

    let (bytes, out_scratch, out_journal) = (lent.ring.slice(), lent.scratch.slice_mut(), lent.journal.slice_mut());
    let theirs = if table.is_some() {
        let words = lent.table.slice();
        abi::drain_events(bytes, case.head, case.tail, words, case.edition, case.budget, out_scratch, out_journal)
    } else {
        abi::drain(bytes, case.head, case.tail, a, case.edition, case.budget, out_scratch, out_journal)
    };
    let ring = Ring { bytes: &case.ring, head: case.head, edition: case.edition, attributes: *a };
    let ours = ring::drain_with(&ring, case.tail, table, case.budget, &mut scratch, &mut journal);

    let mut wrong = Vec::new();
    if theirs != ours {
        wrong.push(format!("results: library {theirs:?}, independent {ours:?}"));
    }
    lent.told(&case.ring, table, &scratch, &journal, &mut wrong);
    if wrong.is_empty() {
        tally.answer(if table.is_some() { "drain with a table" } else { "drain" }, ours.stop);
        for entry in journal.chunks(16).take(ours.taken as usize) {
            let tail = record::number(&entry[8..16]);
            let place = (tail % case.ring.len() as u64) as usize;
            let kind = le32(&case.ring, place);
            tally.record(case.edition, u64::from(kind), u32::from(record::le16(entry, 6)));
        }
        tally.note("records in journals", ours.taken);
        Ok((ours, journal))
    } else {
        Err(format!("drain differs\n{}\n{}{}", describe(case), describe_table(table), wrong.join("\n")))
    }
}

/// What is lent to a drain or a walk.
pub struct Lent {
    pub ring: Guarded,
    pub scratch: Guarded,
    pub journal: Guarded,
    pub table: GuardedWords,
}

impl Lent {
    pub fn new(ring: &[u8], table: ring::Table, scratch: &[u8], journal: &[u8], shift: usize) -> Lent {
        Lent {
            ring: Guarded::new(ring, shift),
            scratch: Guarded::new(scratch, shift / 2),
            journal: Guarded::new(journal, shift / 3),
            table: GuardedWords::new(&table_words(table)),
        }
    }

    /// What is wrong with it where these are due.
    pub fn told(&self, ring: &[u8], table: ring::Table, scratch: &[u8], journal: &[u8], wrong: &mut Vec<String>) {
        self.journal.told_journal(journal, wrong);
        self.scratch.told("scratch", scratch, wrong);
        self.ring.told("ring", ring, wrong);
        self.table.told("table", &table_words(table), wrong);
    }
}

/// A table as C lends it: seven words an event.
pub fn table_words(table: ring::Table) -> Vec<u64> {
    table.unwrap_or(&[]).iter().flat_map(Event::words).collect()
}

pub fn describe_table(table: ring::Table) -> String {
    match table {
        None => String::new(),
        Some(events) => events.iter().map(|v| format!("  {v:x?}\n")).collect(),
    }
}

pub fn describe(case: &DrainCase) -> String {
    format!(
        "  edition {}  head {:#x}  tail {:#x}  budget {}  scratch {}  journal {}\n  {}\n  ring of {} bytes: {}",
        case.edition,
        case.head,
        case.tail,
        case.budget,
        case.scratch,
        case.journal,
        describe_attributes(&case.attributes),
        case.ring.len(),
        hex(&case.ring)
    )
}

pub fn describe_attributes(a: &Attributes) -> String {
    format!(
        "sample type {:#x}  read format {:#x}  sample_id_all {:#x}  user mask {:#x}  interrupt mask {:#x}  branch {:#x}",
        a.sample_type, a.read_format, a.sample_id_all, a.user_mask, a.interrupt_mask, a.branch_sample_type
    )
}

pub fn compare_check(record: &[u8], a: &Attributes, edition: u32, r: &mut Random, tally: &mut Tally) -> Result<u32, Difference> {
    let lent = Guarded::new(record, r.below(8) as usize);
    let theirs = abi::check(lent.slice(), a, edition);
    let ours = record::check(record, edition, a);
    if theirs != ours || lent.slice() != record || !lent.intact() {
        return Err(format!(
            "check differs: library {theirs}, independent {ours}, record {}\n  edition {edition}  {}\n  record of {} bytes: {}",
            if lent.slice() == record && lent.intact() { "unchanged" } else { "CHANGED" },
            describe_attributes(a),
            record.len(),
            hex(record)
        ));
    }
    tally.answer("check", ours);
    Ok(ours)
}

pub fn compare_copy(
    record: &[u8], place: u64, count: u64, buffer: usize, r: &mut Random, tally: &mut Tally,
) -> Result<u32, Difference> {
    let mut before = vec![0; buffer];
    r.fill(&mut before);
    let lent_record = Guarded::new(record, r.below(8) as usize);
    let mut lent_buffer = Guarded::new(&before, r.below(8) as usize);
    let theirs = abi::copy_name(lent_record.slice(), place, count, lent_buffer.slice_mut());
    let ours = record::copy_name(record, place, count, &mut before);
    let untouched = lent_record.slice() == record && lent_record.intact() && lent_buffer.intact();
    if theirs != ours || lent_buffer.slice() != before || !untouched {
        return Err(format!(
            "name copy differs: library {theirs}, independent {ours}\n  place {place}  count {count}  record of {} bytes: {}\n  \
             buffer, library: {}\n  buffer, independent: {}\n  {}",
            record.len(),
            hex(record),
            hex(lent_buffer.slice()),
            hex(&before),
            if untouched { "record and guards unchanged" } else { "RECORD OR GUARDS CHANGED" }
        ));
    }
    tally.answer("name copy", ours);
    Ok(ours)
}

/// One case: a drain, some checks and some name copies.
pub fn one_case(seed: u64, number: u64, tally: &mut Tally) -> Result<(), Difference> {
    let mut r = Random::new(seed, number);
    let case = drain_case(&mut r);
    compare_drain(&case, &mut r, tally)?;

    let record = lone_record(&mut r, case.edition, &case.attributes);
    compare_check(&record, &case.attributes, case.edition, &mut r, tally)?;
    let shorter = r.below(record.len() as u64 + 1) as usize;
    match r.below(4) {
        0 => {
            compare_check(&record[..shorter], &case.attributes, case.edition, &mut r, tally)?;
        }
        1 => {
            let mut longer = record.clone();
            longer.resize(record.len() + 1 + r.below(16) as usize, 0);
            compare_check(&longer, &case.attributes, case.edition, &mut r, tally)?;
        }
        2 => {
            let mut wrong = record.clone();
            let size = r.pick(&[0u16, 4, 7, 12, record.len() as u16 ^ 4, record.len() as u16 ^ 8]);
            wrong[6..8].copy_from_slice(&size.to_le_bytes());
            compare_check(&wrong, &case.attributes, case.edition, &mut r, tally)?;
        }
        _ => {
            let other = some_edition(&mut r);
            compare_check(&record, &case.attributes, other, &mut r, tally)?;
        }
    }

    let length = record.len() as u64;
    let place = match r.below(6) {
        0 => length,
        1 => length + 1,
        2 => u64::MAX - r.below(3),
        _ => r.below(length + 1),
    };
    let left = length.saturating_sub(place);
    let count = match r.below(6) {
        0 => left,
        1 => left + 1,
        2 => u64::MAX - r.below(length),
        3 => 0,
        _ => r.below(left + 1),
    };
    let small = count.min(70_000) as usize;
    let buffer = match r.below(5) {
        0 => small,
        1 => small + 1,
        2 => 0,
        _ => r.below(small as u64 + 20) as usize,
    };
    compare_copy(&record, place, count, buffer, &mut r, tally)?;
    Ok(())
}

/// Every offset at which a record can cross the end of a small ring, with scratch that is exactly
/// enough, one byte short and larger, at tails near 0 and near 2^64.
pub fn crossings(tally: &mut Tally) -> Result<u64, Difference> {
    let mut cases = 0;
    let mut r = Random::new(0x0c05_5e5, 0);
    for length in [64usize, 128, 256] {
        for size in (8..=length).step_by(8) {
            for start in (0..length as u64).step_by(8) {
                let kind = r.pick(&[3, 1, 14, 9, 19]);
                let a = Attributes { sample_type: r.pick(&[0, 2, 6, 0x10000]), sample_id_all: 1, ..Attributes::EMPTY };
                let record = record_of_size(&mut r, kind, &a, size);
                let base = r.pick(&[0, 0u64.wrapping_sub(length as u64), 1 << 40]);
                let tail = base.wrapping_add(start);
                let mut ring = vec![0xee; length];
                for (i, byte) in record.iter().enumerate() {
                    ring[(start as usize + i) % length] = *byte;
                }
                for scratch in [size - 1, size, size + 3] {
                    let case = DrainCase {
                        ring: ring.clone(),
                        head: tail.wrapping_add(size as u64),
                        tail,
                        attributes: a,
                        edition: 3,
                        budget: 2,
                        scratch,
                        journal: 32,
                    };
                    let (done, _) = compare_drain(&case, &mut r, tally)?;
                    let crosses = start as usize + size > length;
                    let expected = if crosses && scratch < size { 3 } else { 0 };
                    if done.stop != expected {
                        return Err(format!("stop {} where {expected} is due\n{}", done.stop, describe(&case)));
                    }
                    cases += 1;
                }
            }
        }
    }
    Ok(cases)
}

/// A record of exactly this size: named types with a name to fill it.
fn record_of_size(r: &mut Random, kind: u32, a: &Attributes, size: usize) -> Vec<u8> {
    let mut record = vec![b'k'; size];
    let trailer = trailer_length(u64::from(kind), a);
    if size >= 16 + trailer {
        let end = size - trailer;
        record[end - 1 - r.below(8) as usize] = 0;
    }
    record[0..4].copy_from_slice(&kind.to_le_bytes());
    record[4..6].copy_from_slice(&[0, 0]);
    record[6..8].copy_from_slice(&(size as u16).to_le_bytes());
    record
}

pub const MUST: &[(&str, &[u32])] = &[
    ("drain", &[0, 1, 2, 3, 4, 5, 6, 7, 8, 9]),
    ("check", &[0, 2, 6, 7, 20, 21, 22, 23, 24, 25, 30, 31, 32, 33, 44]),
    ("name copy", &[0, 12, 41]),
];

pub const BODY: &[u32] = &[0, 20, 21, 22, 23, 24, 25, 30, 31, 32, 33];

/// Every record of the real rings: the drain as it is, and drains cut short.
pub fn real_ring(name: &str, image: &ring::Image, tally: &mut Tally) -> Result<(), Difference> {
    let mut r = Random::new(0x5ea1, name.len() as u64);
    for (scratch, journal, budget) in
        [(65_528, 1 << 16, u64::MAX), (0, 1 << 16, u64::MAX), (65_528, 100, u64::MAX), (65_528, 1 << 16, 7)]
    {
        for edition in [image.edition, 1, 2, 3, 4] {
            let case = DrainCase {
                ring: image.ring.clone(),
                head: image.head,
                tail: image.tail,
                attributes: image.attributes,
                edition,
                budget,
                scratch,
                journal,
            };
            compare_drain(&case, &mut r, tally).map_err(|d| format!("{name}: {d}"))?;
        }
    }
    Ok(())
}
