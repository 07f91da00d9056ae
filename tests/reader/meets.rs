//! Where two requests of document 02 meet: what the library gives of one is lent to it for the other. Each step is compared with
//! the independent reader as in the part of its own request; what is due of the meeting is said here.

use crate::abi;
use crate::by_hand::{event, laid, switch};
use crate::compare::{self, Compared, FIELD};
use crate::compares;
use crate::drains::{compare_drain_with, table_words, Difference};
use crate::events::{self, Event, MOST};
use crate::judged::compare_judged;
use crate::made::*;
use crate::readers;
use crate::record::{le16, le32};
use crate::replays;
use crate::rules::{self, Attributes};
use crate::salvages;
use crate::store::{self, Settings, VERSIONS};
use crate::stores::{compare_read, compare_write};
use crate::tables::{event_record, put_identifier, sound_table};
use crate::tally::Tally;
use crate::walks::{compare_walk, WalkCase};
use crate::words::{self, sample, FIELDS};
use std::ops::Range;

/// A ring that holds these records from some count on, a budget and rooms that are enough.
fn ring_of(records: &[Vec<u8>], edition: u32, r: &mut Random) -> DrainCase {
    let bytes: usize = records.iter().map(Vec::len).sum();
    let mut ring = vec![0; bytes.next_power_of_two().max(64)];
    let tail = some_tail(r);
    let mut head = tail;
    for record in records {
        put(&mut ring, head, record);
        head = head.wrapping_add(record.len() as u64);
    }
    let (scratch, journal) = (ring.len().min(65_528), 16 * records.len());
    DrainCase { ring, head, tail, attributes: Attributes::EMPTY, edition, budget: u64::MAX, scratch, journal }
}

/// The answers of a journal's first entries.
fn answers(journal: &[u8], taken: u64) -> Vec<u32> {
    journal.chunks(16).take(taken as usize).map(|entry| u32::from(le16(entry, 6))).collect()
}

fn due<T: PartialEq + std::fmt::Debug>(what: &str, told: T, due: T) -> Result<(), Difference> {
    if told == due { Ok(()) } else { Err(format!("{what}: {told:?} where {due:?} is due")) }
}

// ---- edition 4 in a store of either version ----

/// What the library reads of a store of this version; written again it is one of version 2 that reads the same.
fn stored(s: &Settings, version: &store::Version, r: &mut Random, tally: &mut Tally) -> Result<Settings, Difference> {
    let read = compare_read(&store::bytes_of(s, version), s.events.len(), r, tally)?;
    let read = read.ok_or_else(|| format!("a sound store of version {} is refused", version.number))?.0;
    let again = compare_write(&read, store::WRITTEN.bytes(s.events.len()), r, tally)?.ok_or("it is not written again")?;
    let again = compare_read(&again, s.events.len(), r, tally)?.ok_or("written again it is refused")?.0;
    due("a store read and written again", &again, &read)?;
    due("a store's settings", &read, s)?;
    Ok(read)
}

/// Settings of edition 4 and a ring of their events, drained by what was read: from either version the same entries.
fn edition_4_stored(r: &mut Random, tally: &mut Tally) -> Result<(), Difference> {
    let mut events = sound_table(r, 4);
    for event in &mut events {
        event.sample_id_all = 1;
        event.read_format |= r.pick(&[0, 16]);
    }
    let damaged = r.one_in(2);
    let records: Vec<Vec<u8>> = (0..1 + r.below(8)).map(|_| event_record(r, 4, &events, 400, damaged)).collect();
    let mut case = ring_of(&records, 4, r);
    let settings = Settings { events, ring_length: case.ring.len() as u64, edition: 4, budget: r.below(9) as u32 };
    let mut given: Option<Vec<u8>> = None;
    for version in VERSIONS.iter().filter(|version| settings.events.len() <= version.most) {
        let read = stored(&settings, version, r, tally)?;
        case.edition = read.edition;
        case.budget = u64::from(read.budget);
        let (done, journal) = compare_drain_with(&case, Some(&read.events), r, tally)?;
        let entries = journal[..16 * done.taken as usize].to_vec();
        for entry in entries.chunks(16).filter(|entry| le16(entry, 6) == 0) {
            tally.note(if version.number == 1 { NOTES[0] } else { NOTES[1] }, u64::from(le16(entry, 4) == 21));
        }
        due("the entries by a store of another version", &entries, given.get_or_insert_with(|| entries.clone()))?;
    }
    Ok(())
}

/// One record of type 21, one with lost counts and one of every edition from 2 on, by stores of each edition in both versions.
fn editions_by_hand(r: &mut Random, tally: &mut Tally) -> Result<u64, Difference> {
    let events = vec![Event { read_format: 16, ..event() }];
    // pid and tid, value, lost count, the trailer
    let records = vec![laid(21, &[9, 7]), laid(8, &[1, 2, 3, 7]), switch()];
    let by_edition = [(1, [20, 21, 20]), (2, [20, 22, 0]), (3, [20, 22, 0]), (4, [0, 0, 0])];
    for version in &VERSIONS {
        for (edition, answered) in by_edition {
            let mut case = ring_of(&records, edition, r);
            let s = Settings { events: events.clone(), ring_length: case.ring.len() as u64, edition, budget: 9 };
            let read = stored(&s, version, r, tally)?;
            case.edition = read.edition;
            let (done, journal) = compare_drain_with(&case, Some(&read.events), r, tally)?;
            due(&format!("edition {edition} of version {}", version.number), answers(&journal, done.taken), answered.to_vec())?;
        }
    }
    Ok(8)
}

// ---- a table of 1,024 with branch types ----

/// A SAMPLE of one branch, with a hardware index or without.
fn branch_sample(identifier: u64, index: Option<u64>) -> Vec<u8> {
    let words: Vec<u64> = [identifier, 1].into_iter().chain(index).chain([4, 5, 6]).collect();
    laid(9, &words)
}

/// As many events as a table may have, every other one with the hardware index: each is found, and read by its own branch type.
fn every_branch_type(r: &mut Random, tally: &mut Tally) -> Result<u64, Difference> {
    let plain = Attributes { sample_type: 1 << 16 | 1 << 11, sample_id_all: 1, ..Attributes::EMPTY };
    let indexed = Attributes { branch_sample_type: 1 << 17, ..plain };
    let own = |i: usize| if i % 2 == 1 { indexed } else { plain };
    let table: Vec<Event> = (0..MOST).map(|i| Event::new(3 * i as u64, &own(i))).collect();
    let edges = [31, 32, 33, 255, 256, 257, MOST - 2, MOST - 1];
    let tried: Vec<usize> = (0..MOST).filter(|i| i % 37 < 2 || edges.contains(i)).collect();
    for &i in &tried {
        let identifier = table[i].identifier;
        let with = branch_sample(identifier, Some(77));
        let without = branch_sample(identifier, None);
        let (right, wrong) = if i % 2 == 1 { (&with, &without) } else { (&without, &with) };
        let told = compare_judged(right, &table, 4, FIELDS, r, tally)?;
        due(&format!("event {i}"), (told.answer, told.inspected), (0, i as u32 + 1))?;
        let other = compare_judged(wrong, &table, 4, FIELDS, r, tally)?;
        // a branch too few is 30, a word too many 31
        due(&format!("event {i}, of the other form"), other.answer, if i % 2 == 1 { 30 } else { 31 })?;
        let case = ring_of(&[right.clone(), wrong.clone()], 4, r);
        let (done, journal) = compare_drain_with(&case, Some(&table), r, tally)?;
        due("both in a ring", answers(&journal, done.taken), vec![0, other.answer])?;
        let mut fields = [0; FIELDS];
        abi::read_events(right, &table_words(Some(&table)), 4, &mut fields);
        due("the hardware index", fields[sample::HW_INDEX], if i % 2 == 1 { 77 } else { 0 })?;
    }
    Ok(tried.len() as u64)
}

/// The same with anything else in the attributes: a ring of a table's records, drained, walked backward and compared with itself.
fn many_branches(r: &mut Random, tally: &mut Tally) -> Result<(), Difference> {
    let few: Vec<Attributes> = (0..6).map(|_| some_attributes(r, 4)).collect();
    let count = r.pick(&[33, 256, 257, MOST - 1, MOST]);
    let table: Vec<Event> = (0..count as u64)
        .map(|i| {
            let mut a = r.pick(&few);
            a.sample_type |= 1 << 16 | 1 << 11;
            a.sample_id_all = 1;
            a.branch_sample_type ^= r.pick(&[0, 1 << 17]);
            Event::new(i.wrapping_mul(0x9e37_79b9_7f4a_7c15), &a)
        })
        .collect();
    let mut records = Vec::new();
    for _ in 0..1 + r.below(5) {
        let event = &table[r.below(count as u64) as usize];
        if let Some(mut record) = sound_record(r, 9, 0, &event.attributes(), 1200, false) {
            put_identifier(&mut record, event.identifier);
            let told = compare_judged(&record, &table, 4, FIELDS, r, tally)?;
            tally.note(NOTES[2], u64::from(told.answer == 0 && told.inspected > 32 && event.branch_sample_type >> 17 & 1 == 1));
            records.push(record);
        }
    }
    let case = ring_of(&records, 4, r);
    let (done, journal) = compare_drain_with(&case, Some(&table), r, tally)?;
    let back = DrainCase { head: case.tail, ring: case.ring.clone(), ..case };
    let (walked, starts) = compare_walk(&WalkCase { case: back, events: Some(table.clone()) }, r, tally)?;
    due("the walk and the drain", (walked.taken, walked.bytes), (done.taken, done.bytes))?;
    due("their entries", &starts[..16 * walked.taken as usize], &journal[..16 * done.taken as usize])?;
    let told = compares::compare_records(r, &records, &records, &table, 4, tally)?;
    due("the records compared with themselves", told, Compared { records: records.len() as u64, ..Compared::default() })
}

// ---- dirty names ----

/// Where the bytes behind a name's zero lie in a record that is accepted; none if its type has no name.
fn behind_the_zero(record: &[u8], table: &[Event], edition: u32) -> Range<usize> {
    let kind = u64::from(le32(record, 0));
    let value = rules::edition(edition).and_then(|e| events::decode(record, e, table).ok());
    match (words::flag_word(kind), value) {
        (Some(flag), Some(value)) => {
            let a = table[events::find(table, events::identifier(record))].attributes();
            let zero = (value[flag - 2] + value[flag - 1]) as usize;
            zero + 1..record.len() - rules::trailer_length(kind, &a)
        }
        _ => 0..0,
    }
}

/// A record with a name, made dirty behind its zero, through every call that sees it: 44 by record check alone, accepted by
/// drain and replay, kept by salvage byte for byte, and in a comparison the last field, whatever the stale bytes are.
fn dirty_name(clean: &[u8], table: &[Event], edition: u32, r: &mut Random, tally: &mut Tally) -> Result<(), Difference> {
    let stale = behind_the_zero(clean, table, edition);
    if stale.is_empty() {
        return Ok(());
    }
    let (mut dirty, mut other) = (clean.to_vec(), clean.to_vec());
    dirty[stale.start + r.below(stale.len() as u64) as usize] = 1 + r.below(255) as u8;
    r.fill(&mut other[stale.clone()]);
    other[stale.end - 1] |= 1;
    tally.note(NOTES[3], 1);

    due("check", compare_judged(&dirty, table, edition, FIELDS, r, tally)?.answer, 44)?;
    let case = ring_of(&[dirty.clone()], edition, r);
    let (done, journal) = compare_drain_with(&case, Some(table), r, tally)?;
    due("the drain", answers(&journal, done.taken), vec![0])?;
    let kept = salvages::salvaged(&dirty, table, edition, r, tally)?;
    due("what salvage keeps", &kept, &dirty)?;
    let trace = [replays::offer(&kept), replays::drain(1)].concat();
    let played = replays::replayed(&trace, case.tail, table, edition, case.ring.len(), r, tally)?;
    due("the replay", answers(&played.journal, played.told.taken), vec![0])?;

    let last = compare::fields(&dirty, rules::edition(edition).unwrap(), table).len() as u32 - 1;
    let alike = Compared { records: 1, ..Compared::default() };
    for (right, told) in [(other, alike), (clean.to_vec(), Compared { what: FIELD, field: last, ..Compared::default() })] {
        due("the comparison", compares::compare_records(r, &[dirty.clone()], &[right], table, edition, tally)?, told)?;
    }
    Ok(())
}

fn dirty_names(r: &mut Random, tally: &mut Tally) -> Result<(), Difference> {
    let edition = r.pick(&[2, 3, 4]);
    let table = sound_table(r, edition);
    for kind in [1, 3, 10, 17, 19] {
        let event = table[r.below(table.len() as u64) as usize];
        let misc = some_misc(r);
        if let Some(mut record) = sound_record(r, kind, misc, &event.attributes(), 400, false) {
            put_identifier(&mut record, event.identifier);
            dirty_name(&record, &table, edition, r, tally)?;
        }
    }
    Ok(())
}

/// Each of the five types, its name "kiln".
fn names_by_hand(r: &mut Random, tally: &mut Tally) -> Result<u64, Difference> {
    let kiln = u64::from_le_bytes(*b"kiln\0\0\0\0");
    let before: [(u8, &[u64]); 5] =
        [(1, &[1, 2, 3, 4]), (3, &[1]), (10, &[1, 2, 3, 4, 5, 6, 7, 8]), (17, &[1, 2]), (19, &[1])];
    for (kind, words) in before {
        let record = laid(kind, &[words, &[kiln, 7]].concat());
        due("the bytes behind the zero", behind_the_zero(&record, &[event()], 4), record.len() - 11..record.len() - 8)?;
        dirty_name(&record, &[event()], 4, r, tally)?;
    }
    Ok(5)
}

// ---- a replay of a salvaged stream ----

/// The records of a stream that was salvaged, offered one after the other: all are held, drained and accepted.
fn replay_salvaged(r: &mut Random, tally: &mut Tally) -> Result<(), Difference> {
    let s = salvages::some_stream(r);
    if rules::edition(s.edition).is_none() || events::refused(&s.table) {
        return Ok(());
    }
    let kept = salvages::salvaged(&s.bytes, &s.table, s.edition, r, tally)?;
    let (mut trace, mut at, mut records) = (Vec::new(), 0, 0);
    while at < kept.len() {
        let size = usize::from(le16(&kept, at + 6));
        trace.extend(replays::offer(&kept[at..at + size]));
        if r.one_in(3) {
            trace.extend(replays::drain(r.below(4) as u32));
        }
        at += size;
        records += 1;
    }
    trace.extend(replays::drain(u32::MAX));
    let length = kept.len().next_power_of_two().max(64);
    let start = some_tail(r);
    let played = replays::replayed(&trace, start, &s.table, s.edition, length, r, tally)?;
    let told = (played.told.taken, played.told.dropped, played.told.drained_bytes, played.told.answer);
    due("the replay of a salvaged stream", told, (records, 0, kept.len() as u64, 0))?;
    due("its answers", answers(&played.journal, records), vec![0; records as usize])?;
    tally.note(NOTES[4], if kept.len() < s.bytes.len() { records } else { 0 });
    Ok(())
}

// ---- two readers on a replayed ring ----

/// A trace with drains left out at its end leaves a ring: two readers drain it in turn, and each is given the entries that a
/// drain at the trace's end gives; the kernel's tail passes neither, and ends at the head.
fn readers_of_replayed(r: &mut Random, tally: &mut Tally) -> Result<(), Difference> {
    let edition = r.pick(&[2, 3, 4, 4]);
    let table = sound_table(r, edition);
    let length = 64usize << r.below(6);
    let (start, damaged) = (some_tail(r), r.one_in(2));
    let mut trace = Vec::new();
    for _ in 0..1 + r.below(20) {
        let room = 8 * (1 + r.below(length as u64 / 16)) as usize;
        trace.extend(replays::offer(&event_record(r, edition, &table, room, damaged)));
        if r.one_in(4) {
            trace.extend(replays::drain(r.below(3) as u32));
        }
    }
    let left = replays::replayed(&trace, start, &table, edition, length, r, tally)?;
    trace.extend(replays::drain(u32::MAX));
    let whole = replays::replayed(&trace, start, &table, edition, length, r, tally)?;
    let rest = &whole.journal[16 * left.told.taken as usize..16 * whole.told.taken as usize];
    let (head, first) = (left.told.head, left.told.tail);
    let ring = left.rooms[..length].to_vec();
    let (mut tails, mut given, mut published) = ([first; 2], [Vec::new(), Vec::new()], first);
    while tails != [head; 2] {
        let who = r.below(2) as usize;
        let (tail, budget) = (tails[who], r.below(4));
        let case = DrainCase { ring: ring.clone(), head, tail, attributes: Attributes::EMPTY, edition, budget, scratch: length, journal: 64 };
        let (done, journal) = compare_drain_with(&case, Some(&table), r, tally)?;
        given[who].extend(&journal[..16 * done.taken as usize]);
        tails[who] = done.tail;
        let now = readers::compare(length as u64, head, tails[0], tails[1], tally)?;
        let far = |tail: u64| head.wrapping_sub(tail);
        due("the kernel's tail", (now.answer, far(now.tail)), (0, far(tails[0]).max(far(tails[1]))))?;
        due("it goes forward", far(now.tail) <= far(published), true)?;
        published = now.tail;
    }
    due("the kernel's tail at the end", published, whole.told.tail)?;
    tally.note(NOTES[5], rest.len() as u64 / 16);
    tally.note(NOTES[6], u64::from(head < first));
    due("the first reader's entries", &given[0][..], rest)?;
    due("the second reader's entries", &given[1][..], rest)
}

// ---- all of them ----

const NOTES: [&str; 7] = [
    "records of type 21 accepted by a store of version 1",
    "records of type 21 accepted by a store of version 2",
    "hardware indices of events past the 32nd",
    "dirty names",
    "records of damaged streams, salvaged and replayed",
    "records of replayed rings, drained by two readers",
    "replayed rings across 2^64",
];

/// Each kind of meeting must have had something to meet.
pub fn missing(tally: &Tally) -> Vec<String> {
    NOTES.iter().filter(|what| !tally.notes.contains_key(*what)).map(|what| format!("never met: {what}")).collect()
}

pub fn print_notes(tally: &Tally) {
    for what in NOTES {
        println!("{:>9} {what}", tally.notes.get(what).unwrap_or(&0));
    }
}

pub fn one_case(seed: u64, number: u64, tally: &mut Tally) -> Result<(), Difference> {
    let mut r = Random::new(seed ^ 0x3ee75, number);
    match number % 5 {
        0 => edition_4_stored(&mut r, tally),
        1 => many_branches(&mut r, tally),
        2 => dirty_names(&mut r, tally),
        3 => replay_salvaged(&mut r, tally),
        _ => readers_of_replayed(&mut r, tally),
    }
    .map(|()| tally.notes.retain(|_, met| *met > 0))
}

pub fn by_hand(tally: &mut Tally) -> Result<u64, Difference> {
    let mut r = Random::new(0x3ee7, 0);
    Ok(editions_by_hand(&mut r, tally)? + every_branch_type(&mut r, tally)? + names_by_hand(&mut r, tally)?)
}
