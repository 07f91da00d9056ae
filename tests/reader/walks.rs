//! M-109, the backward ring: libollskuvan.a against the independent walk, with one attribute set and with a table of
//! events, over made rings (short ones, and ones that have gone round), damaged ones and those of a live kernel; and what
//! has to hold whatever the independent walk says: a drain over the bytes walked gives the same journal, each entry's
//! record is given by the reader of one record, and every edition ends at the same place.

use crate::abi;
use crate::backward::{self, Walked};
use crate::drains::{describe, describe_table, table_words, Difference, Lent};
use crate::events::Event;
use crate::guard::*;
use crate::images;
use crate::made::*;
use crate::record::{self, le16, le32};
use crate::ring::{Image, Ring, Table};
use crate::rules::*;
use crate::tables::{event_record, read_table, table_case, TableCase};
use crate::tally::Tally;
use crate::words::FIELDS;
use std::path::Path;

/// All that goes into a walk: the tail is not used.
pub struct WalkCase {
    pub case: DrainCase,
    pub events: Option<Vec<Event>>,
}

impl WalkCase {
    fn table(&self) -> Table<'_> {
        self.events.as_deref()
    }

    fn words(&self) -> String {
        format!("a walk: the tail is not used\n{}\n{}", describe(&self.case), describe_table(self.table()))
    }
}

// ---- made rings ----

fn some_record(r: &mut Random, walk: &WalkCase, room: usize) -> Vec<u8> {
    let case = &walk.case;
    match walk.table() {
        Some(events) if !events.is_empty() => {
            let damaged = r.one_in(3);
            event_record(r, case.edition, events, room, damaged)
        }
        _ => fitting_record(r, case.edition, &case.attributes, room),
    }
}

/// Records from `way` on up to the ring's length, as in a ring that has gone round: the last one's end is overwritten, or,
/// at times, it ends just there.
fn go_round(r: &mut Random, walk: &mut WalkCase, mut way: usize) {
    let (length, head) = (walk.case.ring.len(), walk.case.head);
    let ends_there = r.one_in(3);
    while way < length {
        let left = length - way;
        let more = if ends_there { 0 } else { 8 * r.below(40) as usize };
        let room = if r.one_in(2) { left + more } else { (left + more).min(8 * (1 + r.below(30)) as usize) };
        let mut record = some_record(r, walk, room.min(65_528));
        record.truncate(left); // the size stays
        put(&mut walk.case.ring, head.wrapping_add(way as u64), &record);
        way += record.len();
    }
}

fn zeros_from(walk: &mut WalkCase, way: usize) {
    let length = walk.case.ring.len();
    if way < length {
        put(&mut walk.case.ring, walk.case.head.wrapping_add(way as u64), &vec![0; length - way]);
    }
}

/// The records of a drain's case, from its tail on, are those of a walk whose head that tail is.
pub fn walk_case(r: &mut Random, with_table: bool) -> WalkCase {
    let (case, events) = if with_table {
        let TableCase { case, events } = table_case(r);
        (case, Some(events))
    } else {
        (drain_case(r), None)
    };
    let length = case.ring.len();
    let written = (case.head.wrapping_sub(case.tail) as usize).min(length) / 8 * 8;
    let mut walk = WalkCase { case: DrainCase { head: case.tail, ..case }, events };
    let long = length > 16_384 && !r.one_in(8);
    match r.below(4) {
        _ if length < 64 || length % 8 != 0 || long => {}
        0 => {}
        1 => zeros_from(&mut walk, written),
        _ => {
            go_round(r, &mut walk, written);
            if !r.one_in(8) {
                walk.case.journal = 2 * length;
            }
            if !r.one_in(8) {
                walk.case.budget = u64::MAX;
            }
            if r.one_in(2) {
                walk.case.scratch = length.min(65_528);
            }
        }
    }
    if r.one_in(6) && length > 0 {
        damage(r, &mut walk);
    }
    if r.one_in(40) {
        walk.case.head = walk.case.head.wrapping_add(1 + r.below(7));
    }
    walk
}

/// Some bytes of the ring are others; at times one that is the size of a header.
fn damage(r: &mut Random, walk: &mut WalkCase) {
    let length = walk.case.ring.len() as u64;
    for _ in 0..1 + r.below(3) {
        let byte = r.below(length) as usize;
        let at = if r.one_in(2) { (byte / 8 * 8 + 6).min(walk.case.ring.len() - 1) } else { byte };
        walk.case.ring[at] = if r.one_in(2) { r.pick(&[0, 1, 4, 7, 8, 12, 16, 255]) } else { r.next() as u8 };
    }
}

// ---- the comparison ----

fn by_library(walk: &WalkCase, words: &[u64], scratch: &mut [u8], journal: &mut [u8]) -> Walked {
    let c = &walk.case;
    if walk.events.is_some() {
        abi::walk_back_events(&c.ring, c.head, words, c.edition, c.budget, scratch, journal)
    } else {
        abi::walk_back(&c.ring, c.head, &c.attributes, c.edition, c.budget, scratch, journal)
    }
}

/// One walk by both; all that is lent is compared.
pub fn compare_walk(walk: &WalkCase, r: &mut Random, tally: &mut Tally) -> Result<(Walked, Vec<u8>), Difference> {
    let case = &walk.case;
    let (mut scratch, mut journal) = (vec![0; case.scratch], vec![0; case.journal]);
    r.fill(&mut scratch);
    r.fill(&mut journal);
    let shift = r.below(8) as usize;
    let mut lent = Lent::new(&case.ring, walk.table(), &scratch, &journal, shift);
    let (before_scratch, before_journal) = (scratch.clone(), journal.clone());

    let (bytes, out_scratch, out_journal) = (lent.ring.slice(), lent.scratch.slice_mut(), lent.journal.slice_mut());
    let theirs = if walk.events.is_some() {
        let words = lent.table.slice();
        abi::walk_back_events(bytes, case.head, words, case.edition, case.budget, out_scratch, out_journal)
    } else {
        abi::walk_back(bytes, case.head, &case.attributes, case.edition, case.budget, out_scratch, out_journal)
    };
    let ring = Ring { bytes: &case.ring, head: case.head, edition: case.edition, attributes: case.attributes };
    let ours = backward::walk(&ring, walk.table(), case.budget, &mut scratch, &mut journal);

    let mut wrong = Vec::new();
    if theirs != ours {
        wrong.push(format!("results: library {theirs:?}, independent {ours:?}"));
    }
    lent.told(&case.ring, walk.table(), &scratch, &journal, &mut wrong);
    if ours.taken == 0 && (lent.scratch.slice() != before_scratch || lent.journal.slice() != before_journal) {
        wrong.push("nothing was taken, and scratch or journal were written to".to_string());
    }
    if !wrong.is_empty() {
        return Err(format!("walk differs\n{}\n{}", walk.words(), wrong.join("\n")));
    }
    count(walk, &ours, &journal, tally);
    Ok((ours, journal))
}

fn count(walk: &WalkCase, done: &Walked, journal: &[u8], tally: &mut Tally) {
    let case = &walk.case;
    tally.answer(if walk.events.is_some() { "walk with a table" } else { "walk" }, done.stop);
    if done.stop == 0 {
        tally.answer("walk ended with 0: at the length 1, before it 2", if done.bytes as usize == case.ring.len() { 1 } else { 2 });
    }
    if [0, 6, 13].contains(&done.stop) && done.taken == case.budget {
        tally.answer("told with the budget used up", done.stop);
    }
    for entry in journal.chunks(16).take(done.taken as usize) {
        let place = (record::number(&entry[8..16]) % case.ring.len() as u64) as usize;
        tally.record(case.edition, u64::from(le32(&case.ring, place)), u32::from(le16(entry, 6)));
        let size = usize::from(le16(&case.ring, place + 6));
        tally.note("records that cross the ring's end", u64::from(place + size > case.ring.len()));
    }
    tally.note("records in journals", done.taken);
}

/// A drain from head over the bytes that were walked: by the library alone, it tells the same and leaves the same.
fn beside_a_drain(walk: &WalkCase, done: &Walked, r: &mut Random) -> Result<(), Difference> {
    let c = &walk.case;
    if done.taken == 0 {
        return Ok(());
    }
    let (mut scratch, mut journal) = (vec![0; c.scratch], vec![0; 16 * done.taken as usize]);
    r.fill(&mut scratch);
    let (mut of_walk, mut walked) = (scratch.clone(), journal.clone());
    let words = table_words(walk.table());
    let same = DrainCase { budget: done.taken, ..clone_of(c) };
    let again = by_library(&WalkCase { case: same, events: walk.events.clone() }, &words, &mut of_walk, &mut walked);
    let end = c.head.wrapping_add(done.bytes);
    let drained = if walk.events.is_some() {
        abi::drain_events(&c.ring, end, c.head, &words, c.edition, done.taken, &mut scratch, &mut journal)
    } else {
        abi::drain(&c.ring, end, c.head, &c.attributes, c.edition, done.taken, &mut scratch, &mut journal)
    };
    let told = (drained.taken, drained.bytes, drained.tail, drained.stop);
    if told != (done.taken, done.bytes, end, 0) || (again.taken, again.bytes) != (done.taken, done.bytes) {
        return Err(format!("walk {done:?}, again {again:?}, and a drain over its bytes {drained:?}\n{}", walk.words()));
    }
    if journal != walked || scratch != of_walk {
        return Err(format!("a drain over the bytes walked leaves another journal or scratch\n{}", walk.words()));
    }
    Ok(())
}

fn clone_of(c: &DrainCase) -> DrainCase {
    DrainCase { ring: c.ring.clone(), ..*c }
}

/// The record of an entry: with its count, and as far as the walk came for the head, it is given and answered alike.
fn one_of_journal(walk: &WalkCase, done: &Walked, entry: &[u8], r: &mut Random) -> Result<(), Difference> {
    let c = &walk.case;
    let (end, start) = (c.head.wrapping_add(done.bytes), record::number(&entry[8..16]));
    let (mut scratch, mut fields) = (vec![0; c.ring.len().min(65_528)], [0; FIELDS]);
    r.fill(&mut scratch);
    let one = match walk.table() {
        Some(_) => {
            abi::read_one_events(&c.ring, end, start, &table_words(walk.table()), c.edition, &mut scratch, &mut fields)
        }
        None => abi::read_one(&c.ring, end, start, &c.attributes, c.edition, &mut scratch, &mut fields),
    };
    let kind = le32(&c.ring, (start % c.ring.len() as u64) as usize).min(65_535);
    let answered = one.size != 0 && one.answer == u32::from(le16(entry, 6));
    if !answered || kind != u32::from(le16(entry, 4)) || one.answer == 0 && fields[0] != u64::from(kind) {
        return Err(format!("read one gives another record than the journal at {start}: {one:?}\n{}", walk.words()));
    }
    Ok(())
}

/// Demand 3, "end at the same place": every edition walks the same records, and an older one answers as the newer does or
/// with 20 to 23 or 25.
fn every_edition(walk: &WalkCase, r: &mut Random, tally: &mut Tally) -> Result<(), Difference> {
    let mut newer: Option<(Walked, Vec<u8>)> = None;
    for edition in [4, 3, 2, 1] {
        let other = WalkCase { case: DrainCase { edition, ..clone_of(&walk.case) }, events: walk.events.clone() };
        let (done, journal) = compare_walk(&other, r, &mut Tally::default())?;
        tally.note("walks by two editions", 1);
        let entries = &journal[..16 * done.taken as usize];
        if let Some((before, old)) = &newer {
            let fair = |older: &[u8], newer: &[u8]| {
                let alike = older[..6] == newer[..6] && older[8..] == newer[8..];
                alike && (older[6..8] == newer[6..8] || [20, 21, 22, 23, 25].contains(&le16(older, 6)))
            };
            if *before != done || !entries.chunks(16).zip(old.chunks(16)).all(|(o, n)| fair(o, n)) {
                return Err(format!("edition {edition}: {done:?}, the newer one: {before:?}\n{}", walk.words()));
            }
        }
        newer = Some((done, entries.to_vec()));
    }
    Ok(())
}

pub fn one_case(seed: u64, number: u64, tally: &mut Tally) -> Result<(), Difference> {
    let mut r = Random::new(seed ^ 0xbac_4a4d, number);
    let walk = walk_case(&mut r, number % 3 == 2);
    all_of(&walk, &mut r, tally)
}

fn all_of(walk: &WalkCase, r: &mut Random, tally: &mut Tally) -> Result<(), Difference> {
    let (done, journal) = compare_walk(walk, r, tally)?;
    if done.bytes > walk.case.ring.len() as u64 {
        return Err(format!("more than one length was walked: {done:?}\n{}", walk.words()));
    }
    beside_a_drain(walk, &done, r)?;
    let entries: Vec<&[u8]> = journal.chunks(16).take(done.taken as usize).collect();
    for entry in entries.iter().take(3).chain(entries.iter().rev().take(2)) {
        one_of_journal(walk, &done, entry, r)?;
    }
    if r.one_in(8) && walk.case.ring.len() <= 4096 {
        every_edition(walk, r, tally)?;
    }
    Ok(())
}

pub const MUST: &[(&str, &[u32])] = &[
    ("walk", &[0, 1, 2, 3, 5, 6, 8, 9, 13]),
    ("walk with a table", &[0, 1, 2, 3, 5, 6, 8, 9, 11, 13]),
    ("walk ended with 0: at the length 1, before it 2", &[1, 2]),
    ("told with the budget used up", &[0, 6, 13]),
];

pub const BODY: &[u32] = &[0, 20, 21, 22, 23, 24, 25, 26, 27, 30, 31, 32, 33];

/// What a walk never answers: 4 and 7 belong to the drain, 10 to nobody, 11 to a table, 12 to names.
pub fn never(tally: &Tally) -> Vec<String> {
    let calls = [("walk", &[4, 7, 10, 11, 12][..]), ("walk with a table", &[4, 7, 10, 12])];
    let told = |(call, numbers): &(&'static str, &'static [u32])| {
        let call = *call;
        let reached = numbers.iter().filter(|n| tally.answers.contains_key(&(call, **n)));
        reached.map(|n| format!("{call} answered {n}, which it cannot")).collect::<Vec<_>>()
    };
    calls.iter().flat_map(told).collect()
}

// ---- by hand ----

/// A ring of 64 bytes, of which the first record has this size, at every place and near 2^64: what is due is said here.
fn first_sizes(tally: &mut Tally) -> Result<u64, Difference> {
    let mut r = Random::new(0xf125, 0);
    let mut cases = 0;
    for size in (0..=96u16).chain([65_528, 65_535]) {
        for head in (0..64).step_by(8).map(|place| if place % 16 == 0 { place } else { 0u64.wrapping_sub(64 - place) }) {
            for (budget, journal, scratch) in [(9, 160, 64), (0, 160, 64), (9, 15, 64), (0, 0, 0), (9, 160, size as usize / 2)] {
                let mut ring = vec![0; 64];
                put(&mut ring, head, &[14, 0, 0, 0, 0xff, 0xff]);
                put(&mut ring, head.wrapping_add(6), &size.to_le_bytes());
                let crosses = (head % 64) + u64::from(size) > 64;
                let due = match size {
                    0 => Walked { taken: 0, bytes: 0, stop: 0 },
                    n if n < 8 || n % 8 != 0 => Walked { taken: 0, bytes: 0, stop: 6 },
                    n if n > 64 => Walked { taken: 0, bytes: 0, stop: 13 },
                    _ if budget == 0 => Walked { taken: 0, bytes: 0, stop: 8 },
                    _ if journal < 16 => Walked { taken: 0, bytes: 0, stop: 9 },
                    n if crosses && scratch < usize::from(n) => Walked { taken: 0, bytes: 0, stop: 3 },
                    n => Walked { taken: 1, bytes: u64::from(n), stop: 0 }, // then zeros, or the length
                };
                let case = DrainCase { ring, head, tail: 0, attributes: Attributes::EMPTY, edition: 4, budget, scratch, journal };
                due_is(&WalkCase { case, events: None }, &due, &mut r, tally)?;
                cases += 1;
            }
        }
    }
    Ok(cases)
}

fn due_is(walk: &WalkCase, due: &Walked, r: &mut Random, tally: &mut Tally) -> Result<Vec<u8>, Difference> {
    let (told, journal) = compare_walk(walk, r, tally)?;
    if told != *due {
        return Err(format!("{told:?} where {due:?} is due\n{}", walk.words()));
    }
    Ok(journal)
}

/// Rings whose records have these sizes, one after the other from head, the last one's end cut off by the length; and each
/// prefix of the stops' order: 1 before 2 before 5 before 11 before 0.
fn laid_sizes(tally: &mut Tally) -> Result<u64, Difference> {
    let mut r = Random::new(0x1a1d, 0);
    let cases: &[(&[u16], u64, u64, u64, u32)] = &[
        // sizes in a ring of 64 bytes; budget; records, bytes, stop
        (&[], 9, 0, 0, 0),
        (&[8], 9, 1, 8, 0),
        (&[24, 16, 24], 9, 3, 64, 0),
        (&[24, 16, 24], 3, 3, 64, 0), // the length with the budget used up
        (&[24, 16, 24], 2, 2, 40, 8),
        (&[24, 16, 32], 9, 2, 40, 13),
        (&[24, 16, 32], 2, 2, 40, 13), // 13 before 8
        (&[24, 16, 36], 2, 2, 40, 6),  // 6 before 13 and 8
        (&[24, 16, 0], 2, 2, 40, 0),   // 0 before 8
        (&[64], 1, 1, 64, 0),
        (&[72], 1, 0, 0, 13),
        (&[56, 16], 9, 1, 56, 13),
        (&[56, 8], 9, 2, 64, 0),
        (&[8, 8, 8, 8, 8, 8, 8, 8], 9, 8, 64, 0),
        (&[8, 8, 8, 8, 8, 8, 8, 16], 9, 7, 56, 13),
        (&[8, 65_528], 9, 1, 8, 13),
        (&[8, 65_535], 9, 1, 8, 6),
        (&[8, 4], 9, 1, 8, 6),
    ];
    let heads = [0, 8, 40, 56, 0u64.wrapping_sub(8), 0u64.wrapping_sub(40), 1 << 63];
    for (sizes, budget, taken, bytes, stop) in cases {
        for head in heads {
            let mut ring = vec![0; 64];
            let mut way = 0u64;
            for size in *sizes {
                put(&mut ring, head.wrapping_add(way), &[14, 0, 0, 0, 0, 0x20]);
                put(&mut ring, head.wrapping_add(way + 6), &size.to_le_bytes());
                way += u64::from(*size);
            }
            let case = DrainCase {
                ring,
                head,
                tail: 0,
                attributes: Attributes::EMPTY,
                edition: 4,
                budget: *budget,
                scratch: 64,
                journal: 160,
            };
            let due = Walked { taken: *taken, bytes: *bytes, stop: *stop };
            let journal = due_is(&WalkCase { case, events: None }, &due, &mut r, tally)?;
            let mut way = 0u64;
            for (entry, size) in journal.chunks(16).zip(*sizes).take(*taken as usize) {
                let answer = if *size == 8 { 0 } else { 31 };
                let start = head.wrapping_add(way);
                let line = [&16u32.to_le_bytes()[..], &[14, 0, answer, 0], &start.to_le_bytes()].concat();
                if entry != line {
                    return Err(format!("entry {} where {} is due", hex(entry), hex(&line)));
                }
                way += u64::from(*size);
            }
        }
    }
    Ok((cases.len() * heads.len()) as u64)
}

/// 1, 2, 5, 11, 0: each with all that come after it.
fn orders(tally: &mut Tally) -> Result<u64, Difference> {
    let mut r = Random::new(0x02de, 0);
    let cases = [(65, 9, 3, 1), (64, 9, 3, 2), (64, 4, 3, 5), (64, 4, 8, 11), (64, 257, 8, 2), (0, 4, 8, 1), (32, 4, 8, 1)];
    for (length, edition, head, stop) in cases {
        let case = DrainCase {
            ring: vec![0; length],
            head,
            tail: 0,
            attributes: Attributes::EMPTY,
            edition,
            budget: 0,
            scratch: 0,
            journal: 0,
        };
        let due = |stop| Walked { taken: 0, bytes: 0, stop };
        due_is(&WalkCase { case: clone_of(&case), events: Some(vec![]) }, &due(stop), &mut r, tally)?;
        let without = if stop == 11 { 0 } else { stop };
        due_is(&WalkCase { case, events: None }, &due(without), &mut r, tally)?;
    }
    Ok(2 * cases.len() as u64)
}

pub fn by_hand(tally: &mut Tally) -> Result<u64, Difference> {
    Ok(first_sizes(tally)? + laid_sizes(tally)? + orders(tally)?)
}

// ---- rings of a live kernel ----

/// The backward rings of a folder, some with a NAME.table: every record accepted, walked by both in every edition and at
/// the edges, and damaged so many times. Among them must be one that has not gone round, one that ends with 13 and one
/// that ends with 0 at the length.
pub fn rings(folder: &Path, seed: u64, damaged: u64) -> Result<(), String> {
    let (mut tally, mut ends) = (Tally::default(), Tally::default());
    let (mut count, mut records) = (0, 0);
    for (name, bytes) in images::images_of(folder)? {
        let image = Image::parse(&bytes).ok_or(format!("{name}: fewer than 50 bytes"))?;
        let path = folder.join(&name).with_extension("table");
        let events = if path.exists() { Some(read_table(&path)?) } else { None };
        let walk = real_walk(&image, events);
        let told = |d: Difference| format!("{name}: {d}");
        let done = real_ring(&walk, &mut tally, &mut ends).map_err(told)?;
        for number in 0..damaged {
            damaged_ring(&walk, seed, number, &mut tally).map_err(|d| format!("{name}, seed {seed}, case {number}: {d}"))?;
        }
        let end = match done.stop {
            13 => "the oldest is overwritten in part",
            _ if done.bytes as usize == image.ring.len() => "the whole length",
            _ => "it has not gone round",
        };
        println!("{name}: {} records, all accepted, {} bytes of {}, stop {}: {end}", done.taken, done.bytes, image.ring.len(), done.stop);
        count += 1;
        records += done.taken;
    }
    let missing = ends.missing(&[("end", &[0, 1, 13])], &[], false);
    if !missing.is_empty() {
        return Err(format!("{}: {} (1 is 0 at the length)", folder.display(), missing.join(", ")));
    }
    println!(
        "walks: {records} records of {count} real backward rings accepted, walked in every edition and compared; {} damaged rings, \
         no difference",
        damaged * count
    );
    Ok(())
}

fn real_walk(image: &Image, events: Option<Vec<Event>>) -> WalkCase {
    let case = DrainCase {
        ring: image.ring.clone(),
        head: image.head,
        tail: image.tail,
        attributes: image.attributes,
        edition: image.edition,
        budget: u64::MAX,
        scratch: 65_528,
        journal: 2 * image.ring.len(),
    };
    WalkCase { case, events }
}

fn real_ring(walk: &WalkCase, tally: &mut Tally, ends: &mut Tally) -> Result<Walked, Difference> {
    let mut r = Random::new(0x5ea1, walk.case.ring.len() as u64);
    let (done, journal) = compare_walk(walk, &mut r, tally)?;
    for entry in journal.chunks(16).take(done.taken as usize) {
        one_of_journal(walk, &done, entry, &mut r)?;
        if le16(entry, 6) != 0 {
            return Err(format!("the record at {} is answered {}", record::number(&entry[8..16]), le16(entry, 6)));
        }
    }
    if done.taken == 0 || walk.case.tail != 0 {
        return Err(format!("{done:?}, tail {}: no backward ring as the kernel leaves it", walk.case.tail));
    }
    let at_length = done.stop == 0 && done.bytes as usize == walk.case.ring.len();
    ends.answer("end", if at_length { 1 } else { done.stop });
    beside_a_drain(walk, &done, &mut r)?;
    every_edition(walk, &mut r, tally)?;
    for (edition, scratch, journal, budget) in [(5, 64, 64, 9), (4, 0, 1 << 20, u64::MAX), (4, 65_528, 100, u64::MAX), (3, 65_528, 1 << 20, 7)] {
        let other = DrainCase { edition, scratch, journal, budget, ..clone_of(&walk.case) };
        compare_walk(&WalkCase { case: other, events: walk.events.clone() }, &mut r, tally)?;
    }
    Ok(done)
}

/// A real backward ring with damage to bytes, to the attributes or the table, and to head.
fn damaged_ring(walk: &WalkCase, seed: u64, number: u64, tally: &mut Tally) -> Result<(), Difference> {
    let mut r = Random::new(seed ^ 0xda3a_bac, number);
    let mut other = WalkCase { case: clone_of(&walk.case), events: walk.events.clone() };
    damage(&mut r, &mut other);
    match r.below(8) {
        0 => other.case.head = other.case.head.wrapping_add(8 * r.below(64)),
        1 => other.case.head = other.case.head.wrapping_sub(8 * r.below(64)),
        2 => other.case.head = other.case.head.wrapping_add(1 + r.below(7)),
        3 => other.case.budget = r.below(100),
        4 => other.case.journal = r.below(2000) as usize,
        5 => other.case.scratch = r.below(100) as usize,
        6 => other.case.attributes.sample_type ^= 1 << r.below(25),
        _ => other.case.edition = some_edition(&mut r),
    }
    if let Some(events) = other.events.as_mut().filter(|_| r.one_in(4)) {
        let at = r.below(events.len() as u64) as usize;
        match r.below(3) {
            0 => events[at].sample_type ^= 1 << r.below(17),
            1 => events[at].identifier ^= 1,
            _ => drop(events.remove(at)),
        }
    }
    all_of(&other, &mut r, tally)
}
