//! Traces (document 02, M-106): the seeded generator; libollskuvan.a against the independent reader; and the library's replay
//! beside the library's own drains over a ring that is filled here.

use crate::abi;
use crate::by_hand::*;
use crate::drains::{describe_table, table_words, Difference};
use crate::events::{self, Event};
use crate::guard::*;
use crate::made::*;
use crate::record::number;
use crate::replay::{self, ask, trace_entry, Asks, Replayed};
use crate::rules::edition;
use crate::tables::{event_record, sound_table, spoil};
use crate::tally::Tally;

/// What goes in; `rooms` is the length of ring and scratch together.
struct Case {
    trace: Vec<u8>,
    start: u64,
    table: Vec<Event>,
    edition: u32,
    rooms: usize,
    journal: usize,
}

/// What came out of the library, and what was lent before.
pub struct Came {
    pub told: Replayed,
    pub rooms: Vec<u8>,
    pub journal: Vec<u8>,
    rooms_before: Vec<u8>,
    journal_before: Vec<u8>,
}

// ---- traces ----

pub fn offer(record: &[u8]) -> Vec<u8> {
    trace_entry(16, record)
}

pub fn drain(budget: u32) -> Vec<u8> {
    trace_entry(17, &budget.to_le_bytes())
}

fn some_bytes(r: &mut Random, length: usize) -> Vec<u8> {
    let mut bytes = vec![0; length];
    r.fill(&mut bytes);
    bytes
}

/// An entry at which a replay ends, mostly: out of place, of no kind, of a wrong length, or an offer that is no record.
fn faulty_entry(r: &mut Random, record: &[u8]) -> Vec<u8> {
    match r.below(12) {
        // a store's own, well formed: a version, an event, the ring
        0 | 1 => {
            let (kind, body) = r.pick(&[(1, 2), (2, 49), (3, 13)]);
            let bytes = some_bytes(r, body);
            trace_entry(kind, &bytes)
        }
        // and not: a byte or more too long or too short
        2 => {
            let (kind, body) = r.pick(&[(1, 2), (2, 49), (3, 13)]);
            let length = r.pick(&[0, body - 1, body + 1, body + 8, 50]);
            let bytes = some_bytes(r, length);
            trace_entry(kind, &bytes)
        }
        3 => {
            let length = r.below(20) as usize;
            let bytes = some_bytes(r, length);
            trace_entry(r.pick(&[0, 4, 15, 18, 32, 255, 0x1000, 0x1100, 65_535]), &bytes)
        }
        4 => {
            let length = r.pick(&[0, 1, 2, 3, 5, 6, 8, 12]);
            let bytes = some_bytes(r, length);
            trace_entry(17, &bytes)
        }
        // offers below 8 bytes, of a size that is none, of another size than theirs
        5 => {
            let length = r.below(8) as usize;
            let bytes = some_bytes(r, length);
            offer(&bytes)
        }
        6 | 7 => {
            let mut other = record.to_vec();
            damage_size(r, &mut other);
            offer(&other)
        }
        8 => {
            let mut longer = record.to_vec();
            let more = 1 + r.below(9) as usize;
            longer.extend(some_bytes(r, more));
            offer(&longer)
        }
        // a length that is below 6, or past the end
        9 => {
            let mut entry = drain(1);
            entry[..4].copy_from_slice(&(r.below(6) as u32).to_le_bytes());
            entry
        }
        10 => {
            let mut entry = drain(1);
            let length = r.pick(&[11, 0x100, 0x10_0000, 0x8000_000a, u32::MAX]);
            entry[..4].copy_from_slice(&length.to_le_bytes());
            entry
        }
        _ => {
            let length = r.below(6) as usize;
            some_bytes(r, length)
        }
    }
}

fn some_rooms(r: &mut Random) -> usize {
    match r.below(60) {
        0 => 2 * r.pick(&[0, 8, 32, 63, 65, 96, 1000, 4097]),
        1 => 129,
        2 => 2 * 64 + r.pick(&[2, 1, 64]),
        3 => 2 << 16,
        4 if r.one_in(8) => 2 << (20 + r.below(2)),
        n if n < 25 => 2 * 64,
        n if n < 40 => 2 * 128,
        n if n < 50 => 2 * 256,
        _ => 2 << (9 + r.below(4)),
    }
}

fn some_case(r: &mut Random) -> Case {
    let edition = if r.one_in(12) { some_edition(r) } else { r.pick(&[2, 3, 4, 4]) };
    let mut table = sound_table(r, edition);
    let rooms = some_rooms(r);
    let ring = (rooms / 2).max(8);
    let (mut trace, mut offers) = (Vec::new(), 0);
    let faulty = r.one_in(3);
    let often = r.pick(&[2, 3, 5, 9]);
    for _ in 0..r.below(40) {
        let room = if r.one_in(8) { 2 * ring } else { 8 + r.below(ring as u64) as usize };
        let damaged = r.one_in(3);
        let record = event_record(r, edition, &table, (room / 8 * 8).clamp(8, 4096), damaged);
        if faulty && r.one_in(20) {
            trace.extend(faulty_entry(r, &record));
        } else if r.one_in(often) {
            trace.extend(drain(r.pick(&[0, 1, 1, 2, 3, 5, 100, 0x8000_0000, u32::MAX])));
        } else {
            trace.extend(offer(&record));
            offers += 1;
        }
    }
    if faulty && r.one_in(4) {
        let left = r.below(trace.len() as u64 + 1) as usize;
        trace.truncate(left);
    }
    let journal = match r.below(5) {
        0 => r.below(16 * (offers + 1)) as usize,
        1 => 16 * r.below(4) as usize,
        _ => 16 * offers as usize + r.below(20) as usize,
    };
    let start = if r.one_in(30) { some_tail(r).wrapping_add(1 + r.below(7)) } else { some_tail(r) };
    if r.one_in(16) {
        spoil(r, &mut table);
    }
    Case { trace, start, table, edition, rooms, journal }
}

// ---- the comparison ----

fn describe(c: &Case) -> String {
    let (trace, table) = (hex(&c.trace), describe_table(Some(&c.table)));
    format!(
        "  edition {}  start {:#x}  rooms {}  journal {}\n  trace of {} bytes: {trace}\n{table}",
        c.edition,
        c.start,
        c.rooms,
        c.journal,
        c.trace.len()
    )
}

/// One replay by both; all that is lent is compared.
fn compare(c: &Case, r: &mut Random, tally: &mut Tally) -> Result<Came, Difference> {
    let (mut rooms, mut journal) = (vec![0; c.rooms], vec![0; c.journal]);
    if c.rooms <= 1 << 16 {
        r.fill(&mut rooms);
    }
    r.fill(&mut journal);
    let words = table_words(Some(&c.table));
    let shift = r.below(8) as usize;
    let lent_trace = Guarded::new(&c.trace, shift);
    let lent_table = GuardedWords::new(&words);
    let mut lent_rooms = Guarded::new(&rooms, shift / 2);
    let mut lent_journal = Guarded::new(&journal, shift / 3);
    let (rooms_before, journal_before) = (rooms.clone(), journal.clone());
    let theirs = abi::replay(
        lent_trace.slice(),
        c.start,
        lent_table.slice(),
        c.edition,
        lent_rooms.slice_mut(),
        lent_journal.slice_mut(),
    );
    let ours = replay::replay(&c.trace, c.start, &c.table, c.edition, &mut rooms, &mut journal);

    let mut wrong = Vec::new();
    if theirs != ours {
        wrong.push(format!("told: library {theirs:?}\n      independent {ours:?}"));
    }
    for (name, lent, due) in [("trace", &lent_trace, &c.trace), ("rooms", &lent_rooms, &rooms), ("journal", &lent_journal, &journal)] {
        lent.told(name, due, &mut wrong);
    }
    lent_table.told("table", &words, &mut wrong);
    if !wrong.is_empty() {
        return Err(format!("replay differs\n{}{}", describe(c), wrong.join("\n")));
    }
    tally.answer("replay", ours.answer);
    Ok(Came {
        told: theirs,
        rooms: lent_rooms.slice().to_vec(),
        journal: lent_journal.slice().to_vec(),
        rooms_before,
        journal_before,
    })
}

/// "At every point the bytes offered equal the bytes drained, dropped and still in the ring", each told from the history: here
/// from the trace, the journal and the counts.
fn balance(c: &Case, came: &Came) -> Result<(), String> {
    let t = &came.told;
    if t.offered_bytes != t.drained_bytes + t.dropped_bytes + t.held_bytes || t.held_bytes != t.head.wrapping_sub(t.tail) {
        return Err(format!("the sums: {t:?}"));
    }
    if t.tail.wrapping_sub(c.start) != t.drained_bytes {
        return Err(format!("the tail is not the start and the bytes drained: {t:?}"));
    }
    let tails: Vec<u64> = came.journal.chunks_exact(16).take(t.taken as usize).map(|e| number(&e[8..16])).collect();
    let ascend = tails.windows(2).all(|two| two[1].wrapping_sub(two[0]) >= 8);
    if tails.len() as u64 != t.taken || tails.first().map_or(false, |first| *first != c.start) || !ascend {
        return Err(format!("the journal's tails {tails:?}: {t:?}"));
    }
    Ok(())
}

/// The same trace by hand: a ring that is filled here, and for each drain the library's drain with a table.
fn by_drains(c: &Case, came: &Came, tally: &mut Tally) -> Result<(), String> {
    let words = table_words(Some(&c.table));
    let mut rooms = came.rooms_before.clone();
    let mut journal = came.journal_before.clone();
    let (ring, scratch) = rooms.split_at_mut(c.rooms / 2);
    let mut told = Replayed { head: c.start, tail: c.start, answer: came.told.answer, ..Replayed::default() };
    let mut left = &c.trace[..];
    while let (false, Ok((asks, length))) = (left.is_empty(), ask(left)) {
        match asks {
            Asks::Offer(record) => {
                let (size, held) = (record.len(), told.head.wrapping_sub(told.tail) as usize);
                told.offered_bytes += size as u64;
                if size <= ring.len() - held {
                    put(ring, told.head, record);
                    told.head = told.head.wrapping_add(size as u64);
                } else {
                    tally.note("records dropped", 1);
                    tally.note("records dropped that are longer than the ring", u64::from(size > ring.len()));
                    told.dropped += 1;
                    told.dropped_bytes += size as u64;
                }
                tally.note("records offered", 1);
                tally.note("a ring that is full to the last byte", u64::from(size + held == ring.len()));
            }
            Asks::Drain(budget) => {
                let rest = &mut journal[16 * told.taken as usize..];
                let d = abi::drain_events(ring, told.head, told.tail, &words, c.edition, u64::from(budget), scratch, rest);
                tally.answer("drain of a replay", d.stop);
                tally.note("records across the ring's end", u64::from(crosses(ring.len(), told.tail, d.tail)));
                told.taken += d.taken;
                told.drained_bytes += d.bytes;
                told.tail = d.tail;
            }
        }
        told.entries += 1;
        left = &left[length..];
    }
    told.held_bytes = told.head.wrapping_sub(told.tail);
    tally.note("records drained", told.taken);
    tally.note("counts that wrap", u64::from(told.tail < c.start));
    tally.notes.retain(|_, met| *met > 0);
    if told == came.told && rooms == came.rooms && journal == came.journal {
        return Ok(());
    }
    Err(format!("the library's own drains give {told:?}, its replay {:?}", came.told))
}

/// The tail passed the ring's end, and not just up to it.
fn crosses(length: usize, from: u64, to: u64) -> bool {
    let place = from % length as u64;
    to.wrapping_sub(from) + place > length as u64
}

pub fn one_case(seed: u64, case: u64, tally: &mut Tally) -> Result<(), Difference> {
    let mut r = Random::new(seed ^ 0x4e91a7, case);
    let c = some_case(&mut r);
    let came = compare(&c, &mut r, tally)?;
    checked(&c, &came, tally)
}

/// A trace over a ring of this length, with a journal that is long enough.
pub fn replayed(
    trace: &[u8], start: u64, table: &[Event], edition: u32, length: usize, r: &mut Random, tally: &mut Tally,
) -> Result<Came, Difference> {
    let journal = 16 * (trace.len() / 14 + 1);
    let c = Case { trace: trace.to_vec(), start, table: table.to_vec(), edition, rooms: 2 * length, journal };
    let came = compare(&c, r, tally)?;
    checked(&c, &came, tally)?;
    Ok(came)
}

fn checked(c: &Case, came: &Came, tally: &mut Tally) -> Result<(), Difference> {
    let told = |d| format!("{d}\n{}", describe(c));
    if [1, 2, 5, 11].contains(&came.told.answer) {
        let nothing = Replayed { head: c.start, tail: c.start, answer: came.told.answer, ..Replayed::default() };
        if came.told != nothing || came.rooms != came.rooms_before || came.journal != came.journal_before {
            return Err(told(format!("refused, and {:?}", came.told)));
        }
        return Ok(());
    }
    balance(c, came).map_err(told)?;
    by_drains(c, came, tally).map_err(told)
}

// ---- what was met ----

const NOTES: &[&str] = &[
    "records offered",
    "records drained",
    "records dropped",
    "records dropped that are longer than the ring",
    "records across the ring's end",
    "a ring that is full to the last byte",
    "counts that wrap",
];

pub const MUST: &[(&str, &[u32])] =
    &[("replay", &[0, 1, 2, 5, 11, 51, 52, 53]), ("drain of a replay", &[0, 8, 9])];

/// Every kind of event must have come up, and no drain of a replay may stop otherwise than with 0, 8 or 9.
pub fn missing_notes(tally: &Tally) -> Vec<String> {
    let met = |what: &&&str| !tally.notes.contains_key(**what);
    let mut missing: Vec<String> = NOTES.iter().filter(met).map(|what| format!("never met: {what}")).collect();
    for (call, answer) in tally.answers.keys() {
        if *call == "drain of a replay" && ![0, 8, 9].contains(answer) {
            missing.push(format!("a drain of a replay stopped with {answer}"));
        }
    }
    missing
}

// ---- by hand ----

const BEFORE: u64 = 0u64.wrapping_sub(8);

/// A trace over a ring of 64 bytes from count 2^64 - 8, told after each of its entries: a record across the end, a full ring, a
/// drop, a drain of two, a record again across the end, all drained.
fn worked() -> (Vec<Vec<u8>>, Vec<Replayed>) {
    let entries =
        vec![offer(&switch()), offer(&lost()), offer(&switch()), offer(&switch()), drain(2), offer(&lost()), drain(9)];
    // offered, drained, dropped, held bytes; taken, dropped; head and tail past the start
    let told = [
        (0, 0, 0, 0, 0, 0, 0, 0),
        (16, 0, 0, 16, 0, 0, 16, 0),
        (48, 0, 0, 48, 0, 0, 48, 0),
        (64, 0, 0, 64, 0, 0, 64, 0),
        (80, 0, 16, 64, 0, 1, 64, 0),
        (80, 48, 16, 16, 2, 1, 64, 48),
        (112, 48, 16, 48, 2, 1, 96, 48),
        (112, 96, 16, 0, 4, 1, 96, 96),
    ];
    let told = told
        .iter()
        .enumerate()
        .map(|(n, t)| Replayed {
            entries: n as u64,
            offered_bytes: t.0,
            drained_bytes: t.1,
            dropped_bytes: t.2,
            held_bytes: t.3,
            taken: t.4,
            dropped: t.5,
            head: BEFORE.wrapping_add(t.6),
            tail: BEFORE.wrapping_add(t.7),
            answer: 0,
        })
        .collect();
    (entries, told)
}

/// Entries at which a replay ends, and why.
fn faults() -> Vec<(Vec<u8>, u32)> {
    let long = |length: u32| [&length.to_le_bytes()[..], &[17, 0, 1, 0, 0, 0]].concat();
    let mut odd = switch();
    odd[6] = 12;
    let mut other = switch();
    other[6] = 8;
    vec![
        // cut short, shorter than 6, of no kind, of another length than its kind's
        (vec![10], 51),
        (vec![10, 0, 0], 51),
        (vec![10, 0, 0, 0], 51),
        (vec![10, 0, 0, 0, 17, 0, 1, 0, 0], 51),
        (vec![5, 0, 0, 0, 17], 51),
        (long(0), 51),
        (long(5), 51),
        (long(11), 51),
        (long(u32::MAX), 51),
        (trace_entry(18, &[0; 4]), 51),
        (trace_entry(32, &[0; 16]), 51),
        (trace_entry(0, &[]), 51),
        (trace_entry(17, &[]), 51),
        (trace_entry(17, &[0; 3]), 51),
        (trace_entry(17, &[0; 5]), 51),
        (trace_entry(1, &[1]), 51),
        (trace_entry(2, &[0; 48]), 51),
        (trace_entry(3, &[0; 14]), 51),
        // a store's own, whatever they say
        (trace_entry(1, &[1, 0]), 52),
        (trace_entry(1, &[2, 0]), 52),
        (trace_entry(2, &[0; 49]), 52),
        (trace_entry(3, &[0; 13]), 52),
        // no record
        (offer(&[]), 53),
        (offer(&[0; 7]), 53),
        (offer(&[0; 8]), 53),
        (offer(&odd), 53),
        (offer(&odd[..12]), 53),
        (offer(&other), 53),
        (offer(&switch()[..8]), 53),
        (offer(&lost()[..24]), 53),
    ]
}

pub fn by_hand(tally: &mut Tally) -> Result<u64, Difference> {
    let mut r = Random::new(0x4e9, 0);
    let mut tried = 0;
    let (entries, told) = worked();
    let base = Case { trace: vec![], start: BEFORE, table: vec![event()], edition: 4, rooms: 128, journal: 64 };
    let mut is = |c: &Case, due: &Replayed, tally: &mut Tally| {
        let came = compare(c, &mut r, tally)?;
        tried += 1;
        if came.told != *due {
            return Err(format!("{:?}\n  due {due:?}\n{}", came.told, describe(c)));
        }
        checked(c, &came, tally)?;
        Ok(came)
    };
    // after each entry; and with a fault behind it, which changes nothing
    for n in 0..=entries.len() {
        let trace = entries[..n].concat();
        is(&Case { trace: trace.clone(), table: base.table.clone(), ..base }, &told[n], tally)?;
        for (fault, answer) in faults() {
            let trace = [&trace[..], &fault].concat();
            is(&Case { trace, table: base.table.clone(), ..base }, &Replayed { answer, ..told[n] }, tally)?;
        }
    }
    // the journal: four entries, their tails one behind the other; the scratch begins with the last record that was copied
    let whole = Case { trace: entries.concat(), table: base.table.clone(), journal: 70, ..base };
    let came = is(&whole, &told[7], tally)?;
    let tails: Vec<u64> = came.journal.chunks_exact(16).map(|e| number(&e[8..16])).collect();
    if tails != [BEFORE, 8, 40, 56] || came.rooms[64..96] != lost()[..] || came.journal[..8] != [16, 0, 0, 0, 14, 0, 0, 0] {
        return Err(format!("tails {tails:?}, rooms {}, journal {}", hex(&came.rooms), hex(&came.journal)));
    }
    // a journal for two: the first drain takes two, the second none, and stops with 9; the replay goes on
    let two = Replayed { drained_bytes: 48, held_bytes: 48, taken: 2, tail: BEFORE.wrapping_add(48), ..told[7] };
    is(&Case { trace: whole.trace.clone(), table: base.table.clone(), journal: 47, ..base }, &two, tally)?;
    // a record longer than the ring is dropped, and is no fault
    let long = laid(2, &[0; 8]);
    let due = Replayed { entries: 1, offered_bytes: 72, dropped_bytes: 72, dropped: 1, ..told[0] };
    is(&Case { trace: offer(&long), table: base.table.clone(), ..base }, &due, tally)?;
    // before any entry, also of an empty trace: 1, 2, 5, 11 in this order
    for trace in [vec![], entries.concat(), vec![1]] {
        for (rooms, edition, start, events, answer) in [
            (127, 4, 0, 1, 1),
            (129, 0, 1, 0, 1),
            (0, 4, 0, 1, 1),
            (96, 0, 1, 0, 1),
            (4 << 20, 4, 0, 1, 1),
            (128, 0, 1, 0, 2),
            (128, 257, 0, 1, 2),
            (128, 4, 1, 0, 5),
            (128, 4, BEFORE + 4, 1, 5),
            (128, 4, 0, 0, 11),
        ] {
            let c = Case { trace: trace.clone(), start, table: vec![event(); events], edition, rooms, journal: 64 };
            is(&c, &Replayed { head: start, tail: start, answer, ..Replayed::default() }, tally)?;
        }
    }
    let known = edition(4).map_or(false, |e| events::decode(&switch(), e, &base.table).is_ok());
    if known { Ok(tried) } else { Err("the switch by hand is not sound".to_string()) }
}

/// Each value of each byte of a small trace, and each length of it.
pub fn every_byte(tally: &mut Tally) -> Result<u64, Difference> {
    let mut r = Random::new(0x4ea, 0);
    let whole = [offer(&switch()), drain(1), offer(&lost()), offer(&switch()), drain(2)].concat();
    let mut tried = 0;
    let mut one = |trace: Vec<u8>, tally: &mut Tally| {
        let c = Case { trace, start: BEFORE, table: vec![event()], edition: 4, rooms: 128, journal: 48 };
        let came = compare(&c, &mut r, tally)?;
        tried += 1;
        checked(&c, &came, tally)
    };
    for length in 0..whole.len() {
        one(whole[..length].to_vec(), tally)?;
    }
    for at in 0..whole.len() {
        for value in 0..=255 {
            let mut trace = whole.clone();
            trace[at] = value;
            one(trace, tally)?;
        }
    }
    Ok(tried)
}
