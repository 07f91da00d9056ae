//! Rings with a table of events (document 02, M-100): the seeded generator, and libollskuvan.a against the independent
//! reader: drain, reader of one record and lookup; and what has to hold whatever the reader says: a table of one event
//! answers as that event's attributes alone.

use crate::abi;
use crate::drains::{compare_drain_with, describe, describe_table, Difference};
use crate::events::{self, Event, MOST};
use crate::guard::GuardedWords;
use crate::images;
use crate::made::*;
use crate::ones::{compare_one_with, some_length};
use crate::record::{self, le16, le32};
use crate::ring::Image;
use crate::rules::{edition, Attributes};
use crate::tally::Tally;
use crate::words::{type_name, FIELDS};
use std::path::Path;

/// A drain with a table; the case's own attributes are not used.
pub struct TableCase {
    pub case: DrainCase,
    pub events: Vec<Event>,
}

// ---- tables ----

fn some_identifier(r: &mut Random) -> u64 {
    match r.below(5) {
        0 => r.below(4),
        1 => r.below(64),
        2 => r.below(8) << 32 | r.below(4), // alike in their low halves
        3 => u64::MAX - r.below(8),
        _ => r.next(),
    }
}

/// As many as a table may have, mostly few; at times more than the 32 of M-100.
fn some_event_count(r: &mut Random) -> usize {
    match r.below(10) {
        0 if r.one_in(10) => r.pick(&[33, 64, 255, 256, 257, MOST - 1, MOST, MOST]),
        0 if r.one_in(10) => 33 + r.below(MOST as u64 - 32) as usize,
        0 => 32,
        1 => 11,
        2 | 3 => 1,
        4 => 1 + r.below(32) as usize,
        _ => 2 + r.below(4) as usize,
    }
}

/// Of a long table: identifiers that rise, in the same order or not, or any; all different.
fn many_identifiers(r: &mut Random, count: usize) -> Vec<u64> {
    let (start, step) = (r.next(), r.pick(&[1, 1, 7, 1 << 13, 1 << 32]));
    let mut identifiers: Vec<u64> = match r.below(4) {
        0 => (0..count as u64).map(|i| start.wrapping_add(i + 1).wrapping_mul(0x9e37_79b9_7f4a_7c15)).collect(),
        _ => (0..count as u64).map(|i| (start >> 24).wrapping_add(i * step)).collect(),
    };
    if r.one_in(2) {
        for at in 0..count {
            identifiers.swap(at, r.below(count as u64) as usize);
        }
    }
    identifiers
}

/// A sound table; what its events select beyond bit 16 is anything.
pub fn sound_table(r: &mut Random, edition_number: u32) -> Vec<Event> {
    let mut table: Vec<Event> = Vec::new();
    let count = some_event_count(r);
    if count > 32 {
        let few: Vec<Attributes> = (0..5).map(|_| some_attributes(r, edition_number)).collect();
        for identifier in many_identifiers(r, count) {
            let mut event = Event::new(identifier, &r.pick(&few));
            event.sample_type |= 1 << 16;
            event.sample_id_all = 1;
            table.push(event);
        }
        return table;
    }
    let alike = r.one_in(4).then(|| some_attributes(r, edition_number));
    while table.len() < count {
        let mut a = alike.unwrap_or_else(|| some_attributes(r, edition_number));
        a.sample_type |= 1 << 16;
        let mut event = Event::new(some_identifier(r), &a);
        event.sample_id_all = r.pick(&[1, 1, 1, 2, 256, 1 << 31, 1 << 32, 1 << 63, u64::MAX]);
        if events::find(&table, event.identifier) == table.len() {
            table.push(event);
        }
    }
    table
}

/// A table that is refused, at times for two reasons.
pub fn spoil(r: &mut Random, table: &mut Vec<Event>) {
    let at = r.below(table.len() as u64) as usize;
    match r.below(7) {
        0 => table[at].sample_type &= !(1 << 16),
        1 => table[at].sample_id_all = 0,
        2 => table.push(table[at]),
        3 => {
            let twin = Event { identifier: table[at].identifier, ..Event::new(0, &some_attributes(r, 3)) };
            let twin = Event { sample_type: twin.sample_type | 1 << 16, sample_id_all: 1, ..twin };
            table.insert(r.below(table.len() as u64 + 1) as usize, twin);
        }
        4 => table.clear(),
        5 => {
            let mut next = r.next();
            while table.len() <= MOST {
                next = next.wrapping_add(1);
                let event = Event { identifier: next, ..table[at] };
                table.push(event);
            }
        }
        _ => {
            table[at].sample_type &= !(1 << 16);
            let last = table.len() - 1;
            table[last].sample_id_all = 0;
        }
    }
}

// ---- records and rings ----

/// Writes the identifier where it stands; a record of 8 bytes has none.
pub fn put_identifier(record: &mut [u8], identifier: u64) {
    let length = record.len();
    if length >= 16 {
        let at = if le32(record, 0) == 9 { 8 } else { length - 8 };
        record[at..at + 8].copy_from_slice(&identifier.to_le_bytes());
    }
}

/// One that no event has, or that of another event, or one that is nearly right.
fn other_identifier(r: &mut Random, table: &[Event], own: u64) -> u64 {
    match r.below(4) {
        0 => own ^ 1 << r.below(64),
        1 => some_identifier(r),
        2 => own.rotate_left(32),
        _ => table[r.below(table.len() as u64) as usize].identifier,
    }
}

/// A record of 8 or 16 bytes, of any type.
fn short_record(r: &mut Random, edition_number: u32, room: usize) -> Vec<u8> {
    let size = if room >= 16 && !r.one_in(3) { 16 } else { 8 };
    let mut record = vec![0; size];
    r.fill(&mut record);
    record[0..4].copy_from_slice(&(some_type(r, edition_number) as u32).to_le_bytes());
    record[6..8].copy_from_slice(&(size as u16).to_le_bytes());
    record
}

/// A record of one of the events, of at most so many bytes.
pub fn event_record(r: &mut Random, edition_number: u32, table: &[Event], room: usize, damaged: bool) -> Vec<u8> {
    let event = &table[r.below(table.len() as u64) as usize];
    let a = event.attributes();
    let mut record = if r.one_in(15) {
        short_record(r, edition_number, room)
    } else {
        fitting_record(r, edition_number, &a, room)
    };
    let before = record.clone();
    if damaged && r.one_in(4) {
        damage_body(r, &mut record, &a);
        if record.len() > room {
            record = before;
        }
    }
    // A damaged type or length moves the place of the identifier: it is put where it stands now.
    put_identifier(&mut record, event.identifier);
    if damaged && r.one_in(8) {
        let other = other_identifier(r, table, event.identifier);
        put_identifier(&mut record, other);
    }
    if damaged && r.one_in(12) {
        let kept = record.clone();
        damage_body(r, &mut record, &a);
        if record.len() > room {
            record = kept;
        }
    }
    record
}

pub fn table_case(r: &mut Random) -> TableCase {
    let edition = if r.one_in(3) { some_edition(r) } else { r.pick(&[2, 3, 4, 4]) };
    let mut table = sound_table(r, edition);
    let length = some_ring_length(r);
    let mut ring = vec![0; length];
    if length <= 4096 && r.one_in(2) {
        r.fill(&mut ring);
    }
    let tail = some_tail(r);
    let attributes = Attributes::EMPTY;
    let mut case = DrainCase { ring, head: tail, tail, attributes, edition, budget: 1, scratch: 64, journal: 64 };
    if length > 0 {
        let fill = match r.below(6) {
            0 => 0,
            1 => length,
            _ => 8 * r.below(length as u64 / 8 + 1) as usize,
        };
        let fill = fill.min(if r.one_in(8) { 150_000 } else { 8192 });
        let damaged = !r.one_in(3);
        let mut sizes = Vec::new();
        let mut at = 0;
        while at + 8 <= fill {
            let mut record = event_record(r, edition, &table, fill - at, damaged);
            if damaged && r.one_in(80) {
                damage_size(r, &mut record);
            }
            put(&mut case.ring, tail.wrapping_add(at as u64), &record);
            sizes.push(record.len());
            at += record.len();
        }
        case.head = tail.wrapping_add(at as u64);
        case.budget = u64::MAX;
        case.scratch = length;
        case.journal = 16 * (sizes.len() + 1);
        choose_room(r, &mut case, &sizes);
        if damaged && r.one_in(12) {
            damage_counts(r, &mut case);
        }
    }
    if r.one_in(12) {
        spoil(r, &mut table);
    }
    TableCase { case, events: table }
}

// ---- the comparison ----

/// One case: the drain, then its records one by one, then the place where it stopped; and some lookups.
pub fn one_case(seed: u64, number: u64, tally: &mut Tally) -> Result<(), Difference> {
    let mut r = Random::new(seed ^ 0x7ab1_e5, number);
    let TableCase { mut case, events } = table_case(&mut r);
    let (done, journal) = compare_drain_with(&case, Some(&events), &mut r, tally)?;
    if events.len() == 1 && !events::refused(&events) {
        one_event_alone(&case, &events[0], &journal[..16 * done.taken as usize], &mut r, tally)?;
    }
    find_events(&events, &mut r)?;
    let at_stop = done.tail;
    for entry in journal.chunks(16).take(done.taken.min(6) as usize) {
        one_of_journal(&mut case, &events, entry, &mut r, tally)?;
    }
    case.tail = at_stop;
    let length = some_length(&mut r);
    compare_one_with(&case, Some(&events), length, &mut r, tally)?;
    Ok(())
}

/// The record of an entry: with its tail count it is given again, and answered as the entry says.
fn one_of_journal(
    case: &mut DrainCase, events: &[Event], entry: &[u8], r: &mut Random, tally: &mut Tally,
) -> Result<(), Difference> {
    case.tail = record::number(&entry[8..16]);
    let one = compare_one_with(case, Some(events), FIELDS, r, tally)?;
    if one.size == 0 || one.answer != u32::from(le16(entry, 6)) {
        let table = describe_table(Some(events));
        return Err(format!("read one gives another record than the journal: {one:?}\n{}\n{table}", describe(case)));
    }
    let length = some_length(r);
    compare_one_with(case, Some(events), length, r, tally)?;
    Ok(())
}

/// Under a table of one event, a record with its identifier is answered as with that event's attributes alone, and
/// every other record is 20, 21, 26 or 27: of the library's own two calls.
fn one_event_alone(
    case: &DrainCase, event: &Event, journal: &[u8], r: &mut Random, tally: &mut Tally,
) -> Result<(), Difference> {
    let alone = DrainCase { ring: case.ring.clone(), attributes: event.attributes(), ..*case };
    // counted in a tally of its own: edition 1 accepts records here
    let (_, plain) = compare_drain_with(&alone, None, r, &mut Tally::default())?;
    let length = case.ring.len() as u64;
    for (entry, other) in journal.chunks(16).zip(plain.chunks(16)) {
        let tail = record::number(&entry[8..16]);
        let byte = |i: u64| case.ring[(tail.wrapping_add(i) % length) as usize];
        let size = u64::from(byte(6)) | u64::from(byte(7)) << 8;
        let bytes: Vec<u8> = (0..size).map(byte).collect();
        let own = size >= 16 && events::identifier(&bytes) == event.identifier;
        let answer = le16(entry, 6);
        let right = if own { entry == other } else { [20, 21, 26, 27].contains(&answer) };
        if !right {
            let table = describe_table(Some(std::slice::from_ref(event)));
            return Err(format!("one event, at tail {tail}: {answer} beside {}\n{}\n{table}", le16(other, 6), describe(case)));
        }
    }
    tally.note("records under one event", journal.len() as u64 / 16);
    Ok(())
}

fn find_events(table: &[Event], r: &mut Random) -> Result<(), Difference> {
    let mut table = table.to_vec();
    for _ in 0..r.below(4) * r.below(12) {
        let identifier = some_identifier(r); // equal ones too: the lookup refuses nothing
        table.push(Event::new(identifier, &Attributes::EMPTY));
    }
    let lent = GuardedWords::new(&crate::drains::table_words(Some(&table)));
    for _ in 0..4 {
        let identifier = match (table.is_empty(), r.below(3)) {
            (false, 0 | 1) => table[r.below(table.len() as u64) as usize].identifier,
            _ => some_identifier(r),
        };
        let (theirs, ours) = (abi::find_event(lent.slice(), identifier), events::find(&table, identifier));
        if theirs != ours || !lent.intact() {
            let table = describe_table(Some(&table));
            return Err(format!("find event {identifier:#x}: library {theirs}, independent {ours}\n{table}"));
        }
    }
    Ok(())
}

pub const MUST: &[(&str, &[u32])] = &[
    ("drain with a table", &[0, 1, 2, 3, 4, 5, 6, 7, 8, 9, 11]),
    ("read one: stop", &[0, 1, 2, 3, 4, 5, 6, 7, 11]),
    ("read one", &[0, 20, 21, 22, 23, 24, 25, 26, 27, 30, 31, 32, 33, 40]),
];

pub const BODY: &[u32] = &[0, 20, 21, 22, 23, 24, 25, 26, 27, 30, 31, 32, 33];

/// What else must have been reached: every type that editions 2 to 4 know was accepted; edition 1 accepts nothing.
pub fn missing_types(tally: &Tally) -> Vec<String> {
    let mut missing = Vec::new();
    for number in [2, 3, 4] {
        for kind in 1..=edition(number).unwrap().last_type {
            if !tally.accepted.contains_key(&(number, kind)) {
                missing.push(format!("edition {number} never accepted type {kind} {} under a table", type_name(kind)));
            }
        }
    }
    if tally.accepted.keys().any(|(number, _)| *number == 1) {
        missing.push("edition 1 accepted a record under a table".to_string());
    }
    missing
}

// ---- the places of an identifier, by hand ----

/// Each type at sizes 8, 16 and 24 in each edition, with the identifier at the start, at the end, at both and nowhere:
/// the answers that are due are said here, by hand.
pub fn places(tally: &mut Tally) -> Result<u64, Difference> {
    let mut r = Random::new(0x1de, 0);
    let mut cases = 0;
    // time and identifier: a SAMPLE has 24 bytes, a switch 24, all others more
    let a = Attributes { sample_type: 1 << 16 | 1 << 2, sample_id_all: 1, ..Attributes::EMPTY };
    let table = [Event::new(7, &a), Event::new(9, &a)];
    for kind in 0..=22u32 {
        for size in [8usize, 16, 24] {
            for number in [1u32, 2, 3, 4] {
                for (first, last) in [(7u64, 1u64), (1, 9), (9, 7), (1, 2)] {
                    let due = due_by_hand(kind, size, number, first, last);
                    let mut record = vec![0; size];
                    record[0..4].copy_from_slice(&kind.to_le_bytes());
                    record[6] = size as u8;
                    if size >= 16 {
                        record[size - 8..].copy_from_slice(&last.to_le_bytes());
                    }
                    if size == 24 {
                        record[8..16].copy_from_slice(&first.to_le_bytes());
                    }
                    let case = DrainCase {
                        ring: [record, vec![0; 64 - size]].concat(),
                        head: size as u64,
                        tail: 0,
                        attributes: Attributes::EMPTY,
                        edition: number,
                        budget: 2,
                        scratch: 0,
                        journal: 16,
                    };
                    let (done, journal) = compare_drain_with(&case, Some(&table), &mut r, tally)?;
                    let answer = u32::from(le16(&journal, 6));
                    if done.stop != 0 || done.taken != 1 || answer != due {
                        return Err(format!("type {kind}: {answer} where {due} is due\n{}", describe(&case)));
                    }
                    cases += 1;
                }
            }
        }
    }
    Ok(cases)
}

fn due_by_hand(kind: u32, size: usize, number: u32, first: u64, last: u64) -> u32 {
    let last_type = [0, 9, 15, 20, 21][number as usize];
    let identifier = if kind == 9 && size == 24 { first } else { last };
    if kind == 0 || kind > last_type {
        20
    } else if number == 1 {
        21
    } else if size == 8 {
        27
    } else if identifier != 7 && identifier != 9 {
        26
    } else if size == 24 && (kind == 9 || kind == 14) {
        0
    } else {
        30 // the trailer has 16 bytes, and every other type a field before it
    }
}

// ---- rings of a live kernel ----

/// NAME.table beside NAME.img: an event a line, its seven words, in C's way of writing them; '#' begins a remark.
pub fn read_table(path: &Path) -> Result<Vec<Event>, String> {
    let text = std::fs::read_to_string(path).map_err(|e| format!("{}: {e}", path.display()))?;
    let mut table = Vec::new();
    for line in text.lines() {
        let line = line.split('#').next().unwrap();
        if line.trim().is_empty() {
            continue;
        }
        let words: Result<Vec<u64>, _> = line
            .split_whitespace()
            .map(|w| w.strip_prefix("0x").map_or_else(|| w.parse(), |hex| u64::from_str_radix(hex, 16)))
            .collect();
        match words {
            Ok(words) if words.len() == events::WORDS => table.push(Event::of_words(&words)),
            _ => return Err(format!("{}: no event: {line}", path.display())),
        }
    }
    Ok(table)
}

/// The rings of a folder, each with its table: every record accepted in edition 4, drained by both in every edition
/// and at the edges, read one by one; under the table without its last event that one's records are 26; then damaged
/// so many times.
pub fn rings(folder: &Path, seed: u64, damaged: u64) -> Result<(), String> {
    let mut tally = Tally::default();
    let mut r = Random::new(0xeb_e27, seed);
    let (mut count, mut records) = (0, 0);
    for (name, bytes) in images::images_of(folder)? {
        let table = read_table(&folder.join(&name).with_extension("table"))?;
        let image = Image::parse(&bytes).ok_or(format!("{name}: fewer than 50 bytes"))?;
        for number in 0..damaged {
            damaged_ring(&image, &table, seed, number, &mut tally).map_err(|d| format!("{name}, seed {seed}, case {number}: {d}"))?;
        }
        let by_event = real_ring(&name, &image, &table, &mut r, &mut tally)?;
        println!("{name}: {by_event:?} records of its {} events, all accepted", table.len());
        count += 1;
        records += by_event.iter().sum::<u64>();
    }
    println!(
        "tables: {records} records of {count} real rings accepted, drained in every edition and compared; {} damaged rings, no difference",
        damaged * count
    );
    Ok(())
}

/// A real ring with damage: to records, to identifiers, to the table, to head and tail; laid again from another tail.
fn damaged_ring(
    image: &Image, table: &[Event], seed: u64, number: u64, tally: &mut Tally,
) -> Result<(), Difference> {
    let mut r = Random::new(seed ^ 0xda3a_7ab, number);
    let mut table = table.to_vec();
    let length = image.ring.len();
    let tail = some_tail(&mut r);
    let (mut from, mut at) = (image.tail, 0);
    let mut ring = image.ring.clone();
    while from != image.head {
        let byte = |i: u64| image.ring[(from.wrapping_add(i) % length as u64) as usize];
        let size = u64::from(byte(6)) | u64::from(byte(7)) << 8;
        let mut record: Vec<u8> = (0..size).map(byte).collect();
        from = from.wrapping_add(size);
        let event = table[events::find(&table, events::identifier(&record)).min(table.len() - 1)];
        if r.one_in(6) {
            damage_body(&mut r, &mut record, &event.attributes());
        }
        if r.one_in(12) {
            let other = other_identifier(&mut r, &table, event.identifier);
            put_identifier(&mut record, other);
        }
        if at + record.len() > length {
            break;
        }
        put(&mut ring, tail.wrapping_add(at as u64), &record);
        at += record.len();
    }
    match r.below(10) {
        0 => spoil(&mut r, &mut table),
        1 => table[0].sample_type ^= 1 << r.below(16),
        3 => table[0].branch_sample_type ^= 1 << r.pick(&[17, 17, 18, 19]),
        2 => table.swap(0, 1),
        _ => {}
    }
    let mut case = DrainCase {
        ring,
        head: tail.wrapping_add(at as u64),
        tail,
        attributes: Attributes::EMPTY,
        edition: r.pick(&[1, 2, 3, 4, 4, 4]),
        budget: if r.one_in(8) { r.below(100) } else { u64::MAX },
        scratch: if r.one_in(8) { r.below(200) as usize } else { length },
        journal: if r.one_in(8) { r.below(1000) as usize } else { 2 * length + 16 },
    };
    if r.one_in(10) {
        damage_counts(&mut r, &mut case);
    }
    compare_drain_with(&case, Some(&table), &mut r, tally)?;
    compare_one_with(&case, Some(&table), FIELDS, &mut r, tally)?;
    Ok(())
}

/// How many records each event wrote.
fn real_ring(
    name: &str, image: &Image, table: &[Event], r: &mut Random, tally: &mut Tally,
) -> Result<Vec<u64>, String> {
    let told = |d: Difference| format!("{name}: {d}");
    let mut case = DrainCase {
        ring: image.ring.clone(),
        head: image.head,
        tail: image.tail,
        attributes: Attributes::EMPTY,
        edition: 4,
        budget: u64::MAX,
        scratch: 65_528,
        journal: 1 << 16,
    };
    let (done, journal) = compare_drain_with(&case, Some(table), r, tally).map_err(told)?;
    let mut by_event = vec![0; table.len()];
    for entry in journal.chunks(16).take(done.taken as usize) {
        one_of_journal(&mut case, table, entry, r, tally).map_err(told)?;
        let bytes: Vec<u8> = (0..image.ring.len() as u64)
            .map(|i| image.ring[(case.tail.wrapping_add(i) % image.ring.len() as u64) as usize])
            .collect();
        let event = events::find(table, events::identifier(&bytes[..usize::from(le16(&bytes, 6))]));
        if le16(entry, 6) != 0 || event == table.len() {
            return Err(format!("{name}: the record at tail {} is answered {}", case.tail, le16(entry, 6)));
        }
        by_event[event] += 1;
    }
    if done.stop != 0 || by_event.contains(&0) {
        return Err(format!("{name}: stop {}, {by_event:?} records of each event", done.stop));
    }
    case.tail = image.tail;
    for (edition, scratch, journal, budget) in [
        (1, 65_528, 1 << 16, u64::MAX),
        (2, 65_528, 1 << 16, u64::MAX),
        (3, 65_528, 1 << 16, u64::MAX),
        (5, 65_528, 1 << 16, u64::MAX),
        (4, 0, 1 << 16, u64::MAX),
        (4, 65_528, 100, u64::MAX),
        (4, 65_528, 1 << 16, 7),
    ] {
        let other = DrainCase { ring: image.ring.clone(), edition, scratch, journal, budget, ..case };
        for table in [table, &table[1..], &table[..table.len() - 1], &table[..0], &[table, table].concat()] {
            compare_drain_with(&other, Some(table), r, tally).map_err(told)?;
        }
    }
    without_last(name, &case, table, &by_event, r, tally)?;
    Ok(by_event)
}

fn without_last(
    name: &str, case: &DrainCase, table: &[Event], by_event: &[u64], r: &mut Random, tally: &mut Tally,
) -> Result<(), String> {
    let fewer = &table[..table.len() - 1];
    let (done, journal) = compare_drain_with(case, Some(fewer), r, tally).map_err(|d| format!("{name}: {d}"))?;
    let unknown = journal.chunks(16).take(done.taken as usize).filter(|entry| le16(entry, 6) == 26).count() as u64;
    if unknown != by_event[table.len() - 1] {
        return Err(format!("{name}: {unknown} records are 26 without the last event, not {by_event:?}"));
    }
    Ok(())
}
