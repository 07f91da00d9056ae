//! Damaged streams of records (document 02, M-111): the seeded generator, libollskuvan.a against the independent reader, and what
//! M-111 promises of the library's own output: the sums, the runs, and that salvaging it again changes nothing.

use crate::abi;
use crate::by_hand::*;
use crate::drains::{describe_table, table_words, Difference};
use crate::events::{self, Event};
use crate::guard::*;
use crate::made::*;
use crate::record::{self, number};
use crate::rules::edition;
use crate::salvage::{self, framed, parts, Parts, Salvaged, ENTRY};
use crate::tables::{event_record, sound_table, spoil};
use crate::tally::Tally;

/// What goes in but the rooms.
pub struct Stream {
    pub bytes: Vec<u8>,
    pub table: Vec<Event>,
    pub edition: u32,
}

/// What came out of the library: what it told, and both buffers whole.
struct Came {
    told: Salvaged,
    out: Vec<u8>,
    changes: Vec<u8>,
}

// ---- streams ----

fn noise(r: &mut Random, length: usize) -> Vec<u8> {
    let mut bytes = vec![0; length];
    if r.one_in(2) {
        r.fill(&mut bytes);
    }
    bytes
}

/// A header that claims so many bytes; mostly of a type that is known.
fn header(r: &mut Random, size: usize) -> [u8; 8] {
    let kind = if r.one_in(4) { r.pick(&[0, 22, 300, u32::MAX]) } else { 1 + r.below(21) as u32 };
    let mut bytes = [0; 8];
    bytes[0..4].copy_from_slice(&kind.to_le_bytes());
    bytes[6..8].copy_from_slice(&(size as u16).to_le_bytes());
    bytes
}

/// What a damaged file has between, before or in place of records.
fn damage_stream(r: &mut Random, stream: &mut Vec<u8>, record: &mut Vec<u8>) {
    match r.below(9) {
        // bytes between two records, eight at a time or not
        0 => {
            let length = 8 * (1 + r.below(6)) as usize;
            stream.extend(noise(r, length));
        }
        1 => {
            let length = 1 + r.below(30) as usize;
            stream.extend(noise(r, length));
        }
        // a part of the record is gone
        2 | 3 => {
            let whole = r.one_in(2);
            let step = if whole { 8 } else { 1 };
            let from = step * r.below((record.len() / step) as u64) as usize;
            let to = (from + step * (1 + r.below(4)) as usize).min(record.len());
            record.drain(from..to);
        }
        // a part of it is written over
        4 | 5 => {
            let from = r.below(record.len() as u64) as usize;
            let to = (from + 1 + r.below(24) as usize).min(record.len());
            let over = noise(r, to - from);
            record[from..to].copy_from_slice(&over);
        }
        // a header that takes in what follows, refused or past the end: the records after it lie in its body
        6 => {
            let size = 8 + record.len() + 8 * r.below(12) as usize;
            stream.extend(header(r, size));
        }
        7 => stream.extend(header(r, 65_528)),
        // the size alone
        _ => damage_size(r, record),
    }
}

/// Records end to end, one in three without damage, the others with some or much.
pub fn some_stream(r: &mut Random) -> Stream {
    let edition = if r.one_in(8) { some_edition(r) } else { r.pick(&[2, 3, 4, 4]) };
    let mut table = sound_table(r, edition);
    let often = r.pick(&[0, 0, 2, 4, 12]);
    let mut bytes = Vec::new();
    let most = if r.one_in(10) { 60 } else { 12 };
    for _ in 0..r.below(most) {
        let words = if r.one_in(30) { 2000 } else { 60 };
        let room = 8 * (1 + r.below(words)) as usize;
        let damaged = often != 0 && r.one_in(often);
        let mut record = event_record(r, edition, &table, room, damaged);
        if often != 0 && r.one_in(often) && !record.is_empty() {
            damage_stream(r, &mut bytes, &mut record);
        }
        bytes.extend(record);
    }
    if often != 0 && r.one_in(4) {
        let left = r.below(bytes.len() as u64 + 1) as usize;
        bytes.truncate(left);
    }
    if often != 0 && r.one_in(4) {
        let length = r.below(12) as usize;
        bytes.extend(noise(r, length));
    }
    if r.one_in(300) {
        bytes = (0..9000).flat_map(|_| header(r, 65_528)).collect();
    }
    if r.one_in(12) {
        spoil(r, &mut table);
    }
    Stream { bytes, table, edition }
}

// ---- the comparison ----

fn describe(s: &Stream, out: usize, changes: usize) -> String {
    let bytes = hex(&s.bytes);
    let table = describe_table(Some(&s.table));
    format!("  edition {}  rooms {out} and {changes}\n  stream of {} bytes: {bytes}\n{table}", s.edition, s.bytes.len())
}

/// One salvage by both into such rooms; all that is lent is compared.
fn compare(s: &Stream, out: usize, changes: usize, r: &mut Random, tally: &mut Tally) -> Result<Came, Difference> {
    let (mut out, mut changes) = (vec![0; out], vec![0; changes]);
    r.fill(&mut out);
    r.fill(&mut changes);
    let words = table_words(Some(&s.table));
    let shift = r.below(8) as usize;
    let lent_stream = Guarded::new(&s.bytes, shift);
    let lent_table = GuardedWords::new(&words);
    let mut lent_out = Guarded::new(&out, shift / 2);
    let mut lent_changes = Guarded::new(&changes, shift / 3);
    let theirs =
        abi::salvage(lent_stream.slice(), lent_table.slice(), s.edition, lent_out.slice_mut(), lent_changes.slice_mut());
    let ours = salvage::salvage(&s.bytes, &s.table, s.edition, &mut out, &mut changes);

    let mut wrong = Vec::new();
    if theirs != ours {
        wrong.push(format!("results: library {theirs:?}, independent {ours:?}"));
    }
    for (name, lent, due) in [("output", &lent_out, &out), ("list", &lent_changes, &changes), ("stream", &lent_stream, &s.bytes)] {
        lent.told(name, due, &mut wrong);
    }
    lent_table.told("table", &words, &mut wrong);
    if !wrong.is_empty() {
        return Err(format!("salvage differs\n{}{}", describe(s, out.len(), changes.len()), wrong.join("\n")));
    }
    tally.answer("salvage", ours.answer);
    Ok(Came { told: theirs, out: lent_out.slice().to_vec(), changes: lent_changes.slice().to_vec() })
}

/// What M-111 says of a salvage that was not refused, of the library's numbers and bytes alone.
fn promises(s: &Stream, came: &Came) -> Result<(), String> {
    let list = &came.changes[..came.told.changes as usize];
    if list.len() % ENTRY != 0 {
        return Err(format!("a list of {} bytes", list.len()));
    }
    let holes: Vec<(u64, u64)> = list.chunks(ENTRY).map(|e| (number(&e[6..14]), number(&e[14..22]))).collect();
    if holes.len() > s.bytes.len() / 24 + 1 {
        return Err(format!("{} holes, which is more than the header says there can be", holes.len()));
    }
    let dropped: u64 = holes.iter().map(|hole| hole.1).sum();
    if dropped != came.told.dropped || came.told.kept + dropped != s.bytes.len() as u64 {
        return Err(format!("the sums: {:?}, the list has {dropped}", came.told));
    }
    let mut rest: Vec<u8> = Vec::new();
    let mut at = 0;
    for (i, (start, length)) in holes.iter().enumerate() {
        if *length == 0 || *start < at || (i > 0 && *start < at + 8) || start + length > s.bytes.len() as u64 {
            return Err(format!("the hole at {start} of {length} bytes, after {at}"));
        }
        rest.extend(&s.bytes[at as usize..*start as usize]);
        at = start + length;
    }
    rest.extend(&s.bytes[at as usize..]);
    if rest != came.out[..came.told.kept as usize] {
        return Err("the output is not the stream without its holes".to_string());
    }
    Ok(())
}

/// What a stream is salvaged to, with room enough.
pub fn salvaged(bytes: &[u8], table: &[Event], edition: u32, r: &mut Random, tally: &mut Tally) -> Result<Vec<u8>, Difference> {
    let s = Stream { bytes: bytes.to_vec(), table: table.to_vec(), edition };
    let came = compare(&s, bytes.len(), ENTRY * (bytes.len() / 24 + 1), r, tally)?;
    promises(&s, &came).map_err(|d| format!("{d}\n{}", describe(&s, bytes.len(), 0)))?;
    Ok(came.out[..came.told.kept as usize].to_vec())
}

/// The output salvaged once more, into exactly its own room and no list.
fn again(s: &Stream, came: &Came, r: &mut Random, tally: &mut Tally) -> Result<(), Difference> {
    let output = came.out[..came.told.kept as usize].to_vec();
    let once_more = Stream { bytes: output.clone(), table: s.table.clone(), edition: s.edition };
    let second = compare(&once_more, output.len(), 0, r, tally)?;
    let same = Salvaged { kept: output.len() as u64, dropped: 0, changes: 0, answer: 0 };
    if second.told != same || second.out != output {
        return Err(format!("salvaging the output again: {:?}\n{}", second.told, describe(&once_more, output.len(), 0)));
    }
    Ok(())
}

/// Rooms: mostly exactly enough or more, at times a byte or all of it too little.
fn some_room(r: &mut Random, due: usize) -> usize {
    match r.below(10) {
        0 if due > 0 => due - 1,
        1 if due > 0 => r.below(due as u64) as usize,
        2 | 3 => due + r.below(60) as usize,
        _ => due,
    }
}

pub fn one_case(seed: u64, case: u64, tally: &mut Tally) -> Result<(), Difference> {
    let mut r = Random::new(seed ^ 0x5a17_a6e, case);
    let s = some_stream(&mut r);
    let (e, sound) = (edition(s.edition), !events::refused(&s.table));
    let due = if let (Some(e), true) = (e, sound) { parts(&s.bytes, e, &s.table) } else { Parts::default() };
    let kept: usize = due.records.iter().map(|record| record.len()).sum();
    let (out, changes) = (some_room(&mut r, kept), some_room(&mut r, ENTRY * due.holes.len()));
    let came = compare(&s, out, changes, &mut r, tally)?;
    if came.told.answer == 54 {
        let short = (out < kept, changes < ENTRY * due.holes.len());
        tally.note(if short == (true, true) { "54 by both rooms" } else if short.0 { "54 by the output's room" } else { "54 by the list's room" }, 1);
    }
    if came.told.answer != 0 {
        return Ok(());
    }
    count(&s, &due, tally);
    promises(&s, &came).map_err(|d| format!("{d}\n{}", describe(&s, out, changes)))?;
    again(&s, &came, &mut r, tally)
}

// ---- what was met ----

const NOTES: &[&str] = &[
    "streams without a hole",
    "streams of one hole and nothing else",
    "holes",
    "holes at the start",
    "holes between two records",
    "holes at the end",
    "holes of no multiple of 8",
    "holes in which a record was refused by its body",
    "records kept",
    "records kept with a dirty name",
    "records kept in another's body",
    "54 by both rooms",
    "54 by the output's room",
    "54 by the list's room",
];

pub const MUST: &[(&str, &[u32])] = &[("salvage", &[0, 2, 11, 54])];

/// Every kind of stream must have come up.
pub fn missing_notes(tally: &Tally) -> Vec<String> {
    NOTES.iter().filter(|what| !tally.notes.contains_key(*what)).map(|what| format!("never met: {what}")).collect()
}

fn count(s: &Stream, due: &Parts, tally: &mut Tally) {
    let e = edition(s.edition).unwrap();
    let decoded = |from: usize, size: usize| events::decode(&s.bytes[from..from + size], e, &s.table);
    tally.note("streams without a hole", u64::from(due.holes.is_empty() && !s.bytes.is_empty()));
    tally.note("streams of one hole and nothing else", u64::from(due.records.is_empty() && !s.bytes.is_empty()));
    tally.note("holes", due.holes.len() as u64);
    tally.note("records kept", due.records.len() as u64);
    // how far the records reach that were refused by their bodies
    let mut reach = 0;
    let mut inside = 0;
    let mut refused = 0;
    let mut records = due.records.iter().peekable();
    for hole in &due.holes {
        tally.note("holes at the start", u64::from(hole.start == 0));
        tally.note("holes at the end", u64::from(hole.end == s.bytes.len()));
        tally.note("holes between two records", u64::from(hole.start > 0 && hole.end < s.bytes.len()));
        tally.note("holes of no multiple of 8", u64::from(hole.len() % 8 != 0));
        while let Some(record) = records.next_if(|record| record.start < hole.start) {
            inside += u64::from(record.start < reach);
        }
        let claims = hole.clone().step_by(8).filter_map(|at| framed(&s.bytes[at..]).map(|size| at + size)).max();
        refused += u64::from(claims.is_some());
        reach = reach.max(claims.unwrap_or(0));
    }
    inside += records.filter(|record| record.start < reach).count() as u64;
    tally.note("holes in which a record was refused by its body", refused);
    tally.note("records kept in another's body", inside);
    let dirty = due.records.iter().filter(|at| decoded(at.start, at.len()).map_or(false, |v| record::flag(&v) != 0)).count();
    tally.note("records kept with a dirty name", dirty as u64);
    tally.notes.retain(|_, met| *met > 0);
}

// ---- by hand ----

/// "kiln", its zero, and three stale bytes.
fn dirty() -> Vec<u8> {
    laid(3, &[1 << 32 | 2, u64::from_le_bytes([b'k', b'i', b'l', b'n', 0, 1, 2, 3]), 7])
}

/// Streams, and what is due: the holes, and of the rest that it is kept.
pub fn by_hand(tally: &mut Tally) -> Result<u64, Difference> {
    let zeros = |n: usize| vec![0; n];
    let odd = |size: u16| [&[22u8, 0, 0, 0, 0, 0][..], &size.to_le_bytes()].concat();
    let mut wrong_name = switch();
    wrong_name[8] = 8;
    let mut long = lost();
    long[6] = 40;
    type Due = Vec<(usize, usize)>;
    let cases: Vec<(Vec<Vec<u8>>, u32, Due)> = vec![
        (vec![], 4, vec![]),
        (vec![switch()], 4, vec![]),
        (vec![switch(), lost(), dirty(), switch()], 2, vec![]),
        (vec![switch(), zeros(16), lost(), zeros(3)], 4, vec![(16, 16), (64, 3)]),
        (vec![zeros(7)], 4, vec![(0, 7)]),
        (vec![zeros(8)], 4, vec![(0, 8)]),
        (vec![zeros(9)], 4, vec![(0, 9)]),
        // as many holes as there can be
        (vec![zeros(8), switch(), zeros(8), switch(), zeros(1)], 4, vec![(0, 8), (24, 8), (48, 1)]),
        // a hole that is no multiple of 8 loses what follows it
        (vec![zeros(12), lost()], 4, vec![(0, 44)]),
        (vec![switch(), zeros(4), switch(), zeros(4), switch()], 4, vec![(16, 24)]),
        // a record in the body of another that is refused
        (vec![odd(40), switch(), zeros(16), lost()], 4, vec![(0, 8), (24, 16)]),
        (vec![odd(65_528), switch(), lost()], 4, vec![(0, 8)]),
        // the size is above what is left, by 8; no record is cut short
        (vec![long.clone()], 4, vec![(0, 32)]),
        (vec![long, switch()], 4, vec![(0, 32)]),
        (vec![switch()[..12].to_vec()], 4, vec![(0, 12)]),
        (vec![switch(), lost()[..31].to_vec()], 4, vec![(16, 31)]),
        // 26, 27, 20, and edition 1's 21
        (vec![wrong_name, switch()], 4, vec![(0, 16)]),
        (vec![laid(14, &[]), switch()], 4, vec![(0, 8)]),
        (vec![laid(21, &[9, 7])], 3, vec![(0, 24)]),
        (vec![laid(21, &[9, 7])], 4, vec![]),
        (vec![switch(), lost()], 1, vec![(0, 48)]),
    ];
    let mut r = Random::new(0x5a1, 0);
    for (pieces, edition, due) in &cases {
        let s = Stream { bytes: pieces.concat(), table: vec![event()], edition: *edition };
        let dropped: usize = due.iter().map(|hole| hole.1).sum();
        let (kept, list) = (s.bytes.len() - dropped, ENTRY * due.len());
        for (out, changes) in [(kept, list), (kept + 9, list + 9), (kept.max(1) - 1, list), (kept, list.max(1) - 1)] {
            let came = compare(&s, out, changes, &mut r, tally)?;
            let fits = out >= kept && changes >= list;
            let told = Salvaged { kept: kept as u64, dropped: dropped as u64, changes: list as u64, answer: 0 };
            let told = if fits { told } else { Salvaged { answer: 54, ..Salvaged::default() } };
            let holes: Due = came.changes.chunks_exact(ENTRY).map(|e| (number(&e[6..14]) as usize, number(&e[14..22]) as usize)).collect();
            let heads = came.changes.chunks_exact(ENTRY).all(|e| e[..6] == [22, 0, 0, 0, 32, 0]);
            if came.told != told || (fits && (holes[..due.len()] != due[..] || changes == list && !heads)) {
                return Err(format!("{:?} and holes {holes:?}, due are {told:?} and {due:?}\n{}", came.told, describe(&s, out, changes)));
            }
            if fits {
                promises(&s, &came)?;
            }
        }
    }
    Ok(4 * cases.len() as u64)
}

/// Each value of each byte of a small stream, and each length of it.
pub fn every_byte(tally: &mut Tally) -> Result<u64, Difference> {
    let mut r = Random::new(0x5a2, 0);
    let whole = [switch(), lost(), laid(22, &[0, 0]), dirty(), switch()].concat();
    let mut tried = 0;
    for length in 0..whole.len() {
        let s = Stream { bytes: whole[..length].to_vec(), table: vec![event()], edition: 4 };
        promises(&s, &compare(&s, length, 200, &mut r, tally)?)?;
        tried += 1;
    }
    for at in 0..whole.len() {
        for value in 0..=255 {
            let mut bytes = whole.clone();
            bytes[at] = value;
            let s = Stream { bytes, table: vec![event()], edition: 4 };
            promises(&s, &compare(&s, whole.len(), 200, &mut r, tally)?)?;
            tried += 1;
        }
    }
    Ok(tried)
}
