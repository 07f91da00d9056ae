//! Pairs of rings (document 02, M-108): the seeded generator, libollskuvan.a against the independent comparison, and what M-108
//! promises of the library's own reports: with the sides exchanged it tells the same of the other side.

use crate::abi;
use crate::compare::{self, *};
use crate::drains::{describe_table, table_words, Difference};
use crate::events::{self, Event};
use crate::guard::*;
use crate::made::*;
use crate::record::le32;
use crate::ring::Ring;
use crate::rules::{edition, Attributes, EDITIONS};
use crate::tables::{event_record, sound_table, spoil};
use crate::tally::Tally;
use crate::words;

/// All that goes into a comparison but the bytes that the scratches hold before.
struct Pair {
    left: Side,
    right: Side,
    left_scratch: usize,
    right_scratch: usize,
    table: Vec<Event>,
    edition: u32,
}

fn describe(p: &Pair) -> String {
    let side = |name, s: &Side, scratch| {
        format!("  {name}: head {:#x}  tail {:#x}  scratch {scratch}  ring of {} bytes: {}\n", s.head, s.tail, s.ring.len(), hex(&s.ring))
    };
    let (left, right) = (side("left", &p.left, p.left_scratch), side("right", &p.right, p.right_scratch));
    format!("  edition {}\n{left}{right}{}", p.edition, describe_table(Some(&p.table)))
}

fn ring_of(s: &Side, edition: u32) -> Ring<'_> {
    Ring { bytes: &s.ring, head: s.head, edition, attributes: Attributes::EMPTY }
}

// ---- the comparison of both comparisons ----

/// One comparison by both; all that is lent is compared.
fn both(p: &Pair, r: &mut Random, tally: &mut Tally) -> Result<Compared, Difference> {
    let (mut left_scratch, mut right_scratch) = (vec![0; p.left_scratch], vec![0; p.right_scratch]);
    r.fill(&mut left_scratch);
    r.fill(&mut right_scratch);
    let words = table_words(Some(&p.table));
    let shift = r.below(8) as usize;
    let lent_left = Guarded::new(&p.left.ring, shift);
    let lent_right = Guarded::new(&p.right.ring, r.below(8) as usize);
    let lent_table = GuardedWords::new(&words);
    let mut lent_left_scratch = Guarded::new(&left_scratch, shift / 2);
    let mut lent_right_scratch = Guarded::new(&right_scratch, shift / 3);
    let theirs = abi::compare(
        (lent_left.slice(), p.left.head, p.left.tail), lent_left_scratch.slice_mut(),
        (lent_right.slice(), p.right.head, p.right.tail), lent_right_scratch.slice_mut(), lent_table.slice(), p.edition,
    );
    let (left, right) = (ring_of(&p.left, p.edition), ring_of(&p.right, p.edition));
    let ours = compare::compare(
        &left, p.left.tail, &mut left_scratch, &right, p.right.tail, &mut right_scratch, &p.table,
    );
    let mut wrong = Vec::new();
    if theirs != ours {
        wrong.push(format!("results: library {theirs:?}, independent {ours:?}"));
    }
    let lent = [
        ("left ring", &lent_left, &p.left.ring),
        ("right ring", &lent_right, &p.right.ring),
        ("left scratch", &lent_left_scratch, &left_scratch),
        ("right scratch", &lent_right_scratch, &right_scratch),
    ];
    for (name, lent, due) in lent {
        lent.told(name, due, &mut wrong);
    }
    lent_table.told("table", &words, &mut wrong);
    if !wrong.is_empty() {
        return Err(format!("the comparison differs\n{}{}", describe(p), wrong.join("\n")));
    }
    count(p, &ours, tally);
    Ok(theirs)
}

/// These records in two rings, compared.
pub fn compare_records(
    r: &mut Random, left: &[Vec<u8>], right: &[Vec<u8>], table: &[Event], edition: u32, tally: &mut Tally,
) -> Result<Compared, Difference> {
    let p = pair_of(r, left, right, table, edition);
    both(&p, r, tally)
}

/// The library's own two reports of a pair and of the same with its sides exchanged: "symmetric up to the side", but where both
/// stop at the same record and the left is told.
fn exchanged(p: &Pair, told: Compared, r: &mut Random, tally: &mut Tally) -> Result<(), Difference> {
    let other = Pair {
        left: p.right.clone(),
        right: p.left.clone(),
        left_scratch: p.right_scratch,
        right_scratch: p.left_scratch,
        table: p.table.clone(),
        edition: p.edition,
    };
    let mirrored = both(&other, r, tally)?;
    let what = [ALIKE, FIELD, RIGHT_ENDED, LEFT_ENDED, RIGHT_STOPPED, LEFT_STOPPED][told.what as usize];
    let both_stop = told.what == LEFT_STOPPED && mirrored.what == LEFT_STOPPED && told.records == mirrored.records;
    if mirrored == (Compared { what, ..told }) {
        return Ok(());
    }
    if both_stop {
        tally.note("pairs in which both sides stop at the same record", 1);
        return Ok(());
    }
    Err(format!("{told:?}, with the sides exchanged {mirrored:?}\n{}", describe(p)))
}

// ---- pairs ----

/// These records in a ring at some count: the ring is long enough, and mostly not much longer.
fn laid_out(r: &mut Random, records: &[Vec<u8>]) -> Side {
    let bytes: usize = records.iter().map(Vec::len).sum();
    let least = bytes.next_power_of_two().max(64);
    let mut ring = vec![0; if r.one_in(4) { least * 2 } else { least }];
    if r.one_in(2) {
        r.fill(&mut ring);
    }
    let tail = some_tail(r);
    let mut head = tail;
    for record in records {
        put(&mut ring, head, record);
        head = head.wrapping_add(record.len() as u64);
    }
    Side { ring, head, tail }
}

fn pair_of(r: &mut Random, left: &[Vec<u8>], right: &[Vec<u8>], table: &[Event], edition: u32) -> Pair {
    let (left, right) = (laid_out(r, left), laid_out(r, right));
    let (left_scratch, right_scratch) = (left.ring.len().min(65_528), right.ring.len().min(65_528));
    Pair { left, right, left_scratch, right_scratch, table: table.to_vec(), edition }
}

/// Bytes of a record that do not count: with another value there no field differs.
fn change_ignored(r: &mut Random, record: &mut [u8], edition_number: u32, table: &[Event]) -> bool {
    let e = match edition(edition_number) {
        Some(e) if record.len() <= 600 && !events::refused(table) => e,
        _ => return false,
    };
    let from = r.below(record.len() as u64) as usize;
    let mut changed = false;
    for i in 0..record.len() {
        let at = (from + i) % record.len();
        let mut other = record.to_vec();
        other[at] ^= 1 << r.below(8);
        if compare::first_difference(record, &other, e, table).is_none() {
            record.copy_from_slice(&other);
            changed = true;
            if r.one_in(2) {
                break;
            }
        }
    }
    changed
}

/// A bit of one of its fields, picked evenly among them.
fn change_field(r: &mut Random, record: &mut [u8], edition_number: u32, table: &[Event]) {
    let e = edition(edition_number).unwrap_or(&EDITIONS[3]);
    let fields: Vec<Field> = compare::fields(record, e, table).into_iter().filter(|f| !f.holds.is_empty()).collect();
    let field = &fields[r.below(fields.len() as u64) as usize];
    let at = field.at + r.below(field.holds.len() as u64) as usize;
    let at = if r.one_in(2) { field.at } else { at }.min(record.len() - 1);
    record[at] ^= 1 << r.below(8);
}

/// What makes the right side's records others than the left side's.
fn change(r: &mut Random, left: &mut Vec<Vec<u8>>, right: &mut Vec<Vec<u8>>, table: &[Event], edition: u32, tally: &mut Tally) {
    if r.one_in(3) {
        let mut ignored = false;
        for record in right.iter_mut() {
            ignored |= change_ignored(r, record, edition, table);
        }
        tally.note("pairs with ignored bytes changed", u64::from(ignored));
    }
    let at = r.below(right.len() as u64 + 1) as usize;
    let more = 8 * (1 + r.below(20)) as usize;
    match r.below(12) {
        0 | 1 => tally.note("pairs of the same records", 1),
        2 => right.insert(at, event_record(r, edition, table, more, false)),
        3 => left.insert(at, event_record(r, edition, table, more, false)),
        _ if at == right.len() => right.truncate(at / 2),
        4 => right[at] = event_record(r, edition, table, more, true),
        5 => damage_size(r, &mut right[at]),
        6 => damage_size(r, &mut left[at]),
        7 => {
            let place = r.below(right[at].len() as u64) as usize;
            right[at][place] = r.next() as u8;
        }
        8 => right[at][4..6].copy_from_slice(&(some_misc(r) as u16).to_le_bytes()),
        _ => change_field(r, &mut right[at], edition, table),
    }
}

/// Head and tail as nobody should hand them in, and rings of no allowed length.
fn spoil_side(r: &mut Random, side: &mut Side) {
    let length = side.ring.len() as u64;
    match r.below(7) {
        0 => side.head = side.head.wrapping_add(1 + r.below(7)),
        1 => side.tail = side.tail.wrapping_sub(1 + r.below(7)),
        2 => side.head = side.tail.wrapping_add(length + 8),
        3 => side.head = side.tail.wrapping_sub(8),
        4 => side.head = side.head.wrapping_sub(8),
        5 => side.head = side.tail,
        _ => side.ring.truncate(r.pick(&[0, 63, 96, 100])),
    }
}

fn some_pair(r: &mut Random, tally: &mut Tally) -> Pair {
    let edition = if r.one_in(8) { some_edition(r) } else { r.pick(&[2, 3, 4, 4]) };
    let table = sound_table(r, edition);
    let damaged = r.one_in(2);
    let most = if r.one_in(12) { 40 } else { 8 };
    let room = if r.one_in(60) { 2000 } else { 40 };
    let mut left: Vec<Vec<u8>> = (0..r.below(most))
        .map(|_| {
            let bytes = 8 * (1 + r.below(room)) as usize;
            event_record(r, edition, &table, bytes, damaged)
        })
        .collect();
    let mut right = left.clone();
    change(r, &mut left, &mut right, &table, edition, tally);
    if r.one_in(8) {
        std::mem::swap(&mut left, &mut right);
    }
    let mut p = pair_of(r, &left, &right, &table, edition);
    if r.one_in(10) {
        p.left_scratch = r.below(p.left_scratch as u64 / 2 + 1) as usize;
    }
    if r.one_in(10) {
        p.right_scratch = r.below(p.right_scratch as u64 / 2 + 1) as usize;
    }
    if r.one_in(14) {
        spoil_side(r, &mut p.left);
    }
    if r.one_in(14) {
        spoil_side(r, &mut p.right);
    }
    if r.one_in(16) {
        spoil(r, &mut p.table);
    }
    p
}

pub fn one_case(seed: u64, case: u64, tally: &mut Tally) -> Result<(), Difference> {
    let mut r = Random::new(seed ^ 0xc0_3a_2e, case);
    let p = some_pair(&mut r, tally);
    let told = both(&p, &mut r, tally)?;
    exchanged(&p, told, &mut r, tally)
}

// ---- what was met ----

pub const CALLS: &[&str] = &["compare", "left stop", "right stop", "field"];

pub const MUST: &[(&str, &[u32])] = &[
    ("compare", &[0, 1, 2, 3, 4, 5]),
    ("left stop", &[1, 2, 3, 4, 5, 6, 7, 11]),
    ("right stop", &[1, 3, 4, 5, 6, 7]),
    ("field", &[0, 1, 2, 3, 4, 5, 6, 7, 8, 9, 10, 11, 12, 13, 14, 15, 16, 17, 18, 19, 20]),
];

const NOTES: &[&str] = &[
    "pairs of the same records",
    "pairs with ignored bytes changed",
    "pairs alike with other bytes",
    "pairs alike at other counts",
    "pairs in which both sides stop at the same record",
    "differences after equal records",
    "differences of refused records by their bytes",
    "differences in records that cross the end",
];

/// The record of this number on a side whose first records are sound.
fn record_at(s: &Side, edition: u32, number: u64) -> (Vec<u8>, bool) {
    let ring = ring_of(s, edition);
    let mut tail = s.tail;
    for _ in 0..number {
        tail = tail.wrapping_add(ring.size_at(tail) as u64);
    }
    let size = ring.size_at(tail);
    ((0..size as u64).map(|i| ring.byte(tail.wrapping_add(i))).collect(), ring.crosses(tail, size))
}

fn between(s: &Side) -> Vec<u8> {
    let length = s.ring.len() as u64;
    (0..s.head.wrapping_sub(s.tail)).map(|i| s.ring[(s.tail.wrapping_add(i) % length) as usize]).collect()
}

fn count(p: &Pair, told: &Compared, tally: &mut Tally) {
    tally.answer("compare", told.what);
    match told.what {
        LEFT_STOPPED => tally.answer("left stop", told.stop),
        RIGHT_STOPPED => tally.answer("right stop", told.stop),
        ALIKE => {
            tally.note("pairs alike with other bytes", u64::from(between(&p.left) != between(&p.right)));
            tally.note("pairs alike at other counts", u64::from(p.left.tail != p.right.tail && p.left.head != p.left.tail));
        }
        FIELD => {
            tally.answer("field", told.field);
            let e = edition(p.edition).unwrap();
            let (left, crosses) = record_at(&p.left, p.edition, told.records);
            let (right, _) = record_at(&p.right, p.edition, told.records);
            let word = compare::first_difference(&left, &right, e, &p.table).unwrap().1;
            *tally.fields.entry((u64::from(le32(&left, 0)), word)).or_default() += 1;
            tally.note("differences after equal records", u64::from(told.records > 0));
            tally.note("differences of refused records by their bytes", u64::from(word == BYTES));
            tally.note("differences in records that cross the end", u64::from(crosses));
        }
        _ => {}
    }
    tally.notes.retain(|_, met| *met > 0);
}

/// Every note, and every field of every type, must have come up.
pub fn missing(tally: &Tally) -> Vec<String> {
    let mut missing: Vec<String> =
        NOTES.iter().filter(|what| !tally.notes.contains_key(*what)).map(|what| format!("never met: {what}")).collect();
    let of_trailer = words::trailer::NAMES.iter().map(|(word, _)| *word);
    for kind in 1..=21 {
        let mut due: Vec<usize> = (3..48).filter(|word| told_word(kind, *word)).collect();
        if kind != 9 {
            due.extend(of_trailer.clone().filter(|word| *word != words::trailer::IDENTIFIER));
        }
        due.extend([words::TYPE, words::MISC, words::SIZE, IDENTIFIER, ANSWER]);
        let never = due.iter().filter(|word| !tally.fields.contains_key(&(kind, **word)));
        missing.extend(never.map(|word| format!("never differed first: {} of type {kind}", name(kind, *word))));
    }
    missing
}

fn name(kind: u64, word: usize) -> String {
    match word {
        ANSWER => "the answer".to_string(),
        BYTES => "the bytes".to_string(),
        IDENTIFIER => "the identifier".to_string(),
        _ => words::word_name(kind, word),
    }
}

/// A word of a value of this type that stands for a field: no count, and not the identifier. The value of a word without a name
/// is no field.
fn told_word(kind: u64, word: usize) -> bool {
    let name = words::word_name(kind, word);
    !name.starts_with("word ") && !name.ends_with("_COUNT") && !(kind == 9 && word == words::sample::IDENTIFIER)
}

// ---- every field ----

/// Records of every type, under attributes that select anything, and each of their fields changed in its first byte, its last
/// one and one between.
pub fn every_field(tally: &mut Tally) -> Result<u64, Difference> {
    let mut r = Random::new(0xc03, 1);
    let mut tried = 0;
    for round in 0..12 {
        for e in &EDITIONS[1..] {
            for kind in 1..=e.last_type {
                tried += fields_of_type(&mut r, kind, e.number, round, tally)?;
            }
        }
    }
    Ok(tried)
}

/// Type, misc and identifier, each where it stands.
fn named(record: &mut [u8], kind: u64, misc: u64, identifier: u64) {
    record[0..4].copy_from_slice(&(kind as u32).to_le_bytes());
    record[4..6].copy_from_slice(&(misc as u16).to_le_bytes());
    let at = if kind == 9 { 8 } else { record.len() - 8 };
    record[at..at + 8].copy_from_slice(&identifier.to_le_bytes());
}

fn fields_of_type(r: &mut Random, kind: u64, number: u32, round: u64, tally: &mut Tally) -> Result<u64, Difference> {
    let e = edition(number).unwrap();
    let mut a = some_attributes(r, number);
    // half of the rounds select what the edition knows, so that no record is refused
    if round % 2 == 0 {
        a.sample_type = (1 << (e.last_sample_bit + 1)) - 1 & if round % 4 == 0 { !0 } else { r.next() } & !(1 << 24);
        let known = (2 << e.last_read_bit) - 1;
        a.read_format = [known & !8, known, r.below(known + 1)][round as usize / 2 % 3];
        a.branch_sample_type = if e.hw_index && r.one_in(2) { 1 << 17 } else { 0 };
        a.user_mask &= 0xff;
        a.interrupt_mask &= 0xff;
    }
    a.sample_type |= 1 << 16;
    a.sample_id_all = 1;
    let short = Attributes { sample_type: 1 << 16, ..a };
    let table = vec![Event::new(7, &a), Event::new(6, &a), Event::new(4, &short)];
    let misc = if round % 3 == 0 { 1 << 14 } else { some_misc(r) };
    let mut record = match sound_record(r, kind, misc, &a, 1200, round % 4 == 1) {
        Some(record) => record,
        None => return Ok(0),
    };
    named(&mut record, kind, misc, 7);
    let mut tried = 0;
    // the same type of an event that selects less: it is the size that differs first
    if let Some(mut other) = sound_record(r, kind, misc, &short, 1200, false) {
        named(&mut other, kind, misc, 4);
        let p = pair_of(r, &[record.clone()], &[other], &table, number);
        both(&p, r, tally)?;
        tried += 1;
    }
    for field in compare::fields(&record, e, &table) {
        let bytes = field.holds.len().min(record.len() - field.at);
        let places = [0, bytes / 2, bytes.saturating_sub(1)];
        for place in &places[..if bytes == 0 { 0 } else { 3 }] {
            let mut other = record.clone();
            other[field.at + place] ^= 1;
            let p = pair_of(r, &[record.clone()], &[other], &table, number);
            both(&p, r, tally)?;
            tried += 1;
        }
    }
    Ok(tried)
}

// ---- by hand ----

/// The events of the pairs by hand: 7 with nothing but the identifier, 8 with time and CPU too.
fn events_by_hand() -> Vec<Event> {
    let plain = Attributes { sample_type: 1 << 16, sample_id_all: 1, ..Attributes::EMPTY };
    let more = Attributes { sample_type: 1 << 16 | 1 << 2 | 1 << 7, ..plain };
    vec![Event::new(7, &plain), Event::new(8, &more)]
}

/// A record of this type and misc with these words behind its header.
fn laid(kind: u8, misc: u16, words: &[u64]) -> Vec<u8> {
    let size = 8 + 8 * words.len() as u16;
    let mut bytes = vec![kind, 0, 0, 0];
    bytes.extend(misc.to_le_bytes());
    bytes.extend(size.to_le_bytes());
    bytes.extend(words.iter().flat_map(|w| w.to_le_bytes()));
    bytes
}

fn switch(misc: u16) -> Vec<u8> {
    laid(14, misc, &[7])
}

fn lost(id: u64, lost: u64) -> Vec<u8> {
    laid(2, 0, &[id, lost, 7])
}

fn comm(name: &[u8; 8]) -> Vec<u8> {
    laid(3, 0, &[1 << 32 | 2, u64::from_le_bytes(*name), 7])
}

/// pid 1, tid 2, addr 3, len 4, pgoff 5, then 24 bytes as they are, prot and flags, the name "a".
fn mmap2(misc: u16, middle: [u64; 3], prot: u64, flags: u64) -> Vec<u8> {
    laid(10, misc, &[2 << 32 | 1, 3, 4, 5, middle[0], middle[1], middle[2], flags << 32 | prot, 0x61, 7])
}

pub fn by_hand(tally: &mut Tally) -> Result<u64, Difference> {
    let (s, l) = (switch(0), lost(5, 6));
    let timed = |cpu: u64, time: u64| laid(14, 0, &[time, cpu, 8]);
    let odd = |last: u64| laid(22, 0, &[1, last]);
    let (plain, built) = ([9, 9, 9], 1 << 14);
    let poke = |old: u64, new: u64, text: u64| laid(20, 0, &[1, old | new << 16 | text << 32, 7]);
    type Case = (Vec<Vec<u8>>, Vec<Vec<u8>>, (u64, u32, u32));
    let cases: Vec<Case> = vec![
        (vec![], vec![], (0, 0, 0)),
        (vec![s.clone()], vec![s.clone()], (1, 0, 0)),
        (vec![s.clone(), l.clone()], vec![s.clone(), l.clone()], (2, 0, 0)),
        (vec![s.clone()], vec![s.clone(), l.clone()], (1, 2, 0)),
        (vec![s.clone(), l.clone()], vec![s.clone()], (1, 3, 0)),
        (vec![s.clone(), l.clone()], vec![l.clone(), s.clone()], (0, 1, 1)),
        (vec![s.clone()], vec![switch(1)], (0, 1, 2)),
        (vec![s.clone()], vec![timed(0, 0)], (0, 1, 3)),
        (vec![comm(b"kiln\0\0\0\0")], vec![laid(3, 0, &[0, 0x6161_6161_6161_6161, 0, 7])], (0, 1, 3)),
        (vec![lost(5, 6)], vec![lost(4, 6)], (0, 1, 5)),
        (vec![s.clone(), lost(5, 6)], vec![s.clone(), lost(5, 7)], (1, 1, 6)),
        // a pid, a tid, a name, a name of another length, the flag alone, and two flags alike with other stale bytes
        (vec![laid(3, 0, &[1, 0x61, 7])], vec![laid(3, 0, &[2, 0x61, 7])], (0, 1, 5)),
        (vec![laid(3, 0, &[1, 0x61, 7])], vec![laid(3, 0, &[1 << 32 | 1, 0x61, 7])], (0, 1, 6)),
        (vec![comm(b"kiln\0\0\0\0")], vec![comm(b"kilm\0\0\0\0")], (0, 1, 7)),
        (vec![comm(b"kiln\0\0\0\0")], vec![comm(b"kilns\0\0\0")], (0, 1, 7)),
        (vec![comm(b"kiln\0\0\0\0")], vec![comm(b"kiln\0\0\0\x01")], (0, 1, 8)),
        (vec![comm(b"kiln\0\x05\0\0")], vec![comm(b"kiln\0\0\0\x01")], (1, 0, 0)),
        // the identifier is 4, and is not told again; the time 5, the CPU 6, and what lies behind the CPU does not count
        (vec![laid(14, 0, &[1, 2, 8])], vec![laid(14, 0, &[1, 2, 9])], (0, 1, 0)),
        (vec![timed(3, 4)], vec![timed(3, 5)], (0, 1, 5)),
        (vec![timed(3, 4)], vec![timed(4, 4)], (0, 1, 6)),
        (vec![timed(3, 4)], vec![timed(1 << 40 | 3, 4)], (1, 0, 0)),
        (vec![laid(2, 0, &[5, 6, 7])], vec![laid(2, 0, &[5, 7, 7])], (0, 1, 6)),
        (vec![laid(2, 0, &[5, 6, 4, 3, 8])], vec![laid(2, 0, &[5, 6, 4, 2, 8])], (0, 1, 8)),
        // MMAP2: prot is 14, with a build id 11; the rest of a build id's room does not count
        (vec![mmap2(0, plain, 5, 1)], vec![mmap2(0, plain, 7, 1)], (0, 1, 14)),
        (vec![mmap2(0, plain, 5, 1)], vec![mmap2(0, plain, 5, 2)], (0, 1, 15)),
        (vec![mmap2(0, [9, 9, 8], 5, 1)], vec![mmap2(0, plain, 5, 1)], (0, 1, 13)),
        (vec![mmap2(built, [4, 0, 0], 5, 1)], vec![mmap2(built, [4, 0, 0], 7, 1)], (0, 1, 11)),
        (vec![mmap2(built, [4, 0, 0], 5, 1)], vec![mmap2(built, [3, 0, 0], 5, 1)], (0, 1, 10)),
        (vec![mmap2(built, [4, 0, 0], 5, 1)], vec![mmap2(built, [4 | 1 << 32, 0, 0], 5, 1)], (0, 1, 10)),
        (vec![mmap2(built, [4, 0, 0], 5, 1)], vec![mmap2(built, [4 | 1 << 8, 1, 2], 5, 1)], (1, 0, 0)),
        (vec![mmap2(0, plain, 5, 1)], vec![mmap2(built, [9, 9, 9], 5, 1)], (0, 1, 2)),
        // TEXT_POKE: the old text is 6 and the new one 7, each with its length; padding does not count
        (vec![poke(1, 1, 0x0201)], vec![poke(1, 1, 0x0203)], (0, 1, 6)),
        (vec![poke(1, 1, 0x0201)], vec![poke(1, 1, 0x0401)], (0, 1, 7)),
        (vec![poke(1, 1, 0x0201)], vec![poke(2, 1, 0x0201)], (0, 1, 6)),
        (vec![poke(1, 1, 0x0201)], vec![poke(1, 2, 0x0201)], (0, 1, 7)),
        (vec![poke(1, 1, 0x0201)], vec![poke(1, 1, 0xff_0201)], (1, 0, 0)),
        // refused alike: by their bytes, as field 1; refused unlike, or one alone: field 0
        (vec![odd(1), s.clone()], vec![odd(1), s.clone()], (2, 0, 0)),
        (vec![odd(1)], vec![odd(2)], (0, 1, 1)),
        (vec![s.clone(), odd(1)], vec![s.clone(), laid(2, 0, &[1, 9])], (1, 1, 0)),
        (vec![s.clone(), odd(1)], vec![s.clone(), s.clone()], (1, 1, 0)),
    ];
    let mut r = Random::new(0xc03, 0);
    let mut tried = 0;
    for (left, right, (records, what, field)) in &cases {
        for _ in 0..4 {
            let p = pair_of(&mut r, left, right, &events_by_hand(), 4);
            let told = both(&p, &mut r, tally)?;
            let due = Compared { records: *records, what: *what, field: *field, stop: 0 };
            if told != due {
                return Err(format!("{told:?}, due is {due:?}\n{}", describe(&p)));
            }
            exchanged(&p, told, &mut r, tally)?;
            tried += 1;
        }
    }
    Ok(tried + stops_by_hand(&mut r, tally)?)
}

/// A side as it is lent: its records behind one switch, and what is done to it.
fn stops_by_hand(r: &mut Random, tally: &mut Tally) -> Result<u64, Difference> {
    let (s, l) = (switch(0), lost(5, 6));
    let mut short = s.clone();
    short[6] = 4;
    let mut long = s.clone();
    long[6] = 64;
    let same = || vec![s.clone(), l.clone()];
    let zero = |p: &mut Pair| (p.left.tail, p.left.head) = (0, 48);
    type Do = Box<dyn Fn(&mut Pair)>;
    type Case = (Vec<Vec<u8>>, Vec<Vec<u8>>, Do, (u64, u32, u32, u32));
    let as_it_is = || -> Do { Box::new(|_| {}) };
    let cases: Vec<Case> = vec![
        (vec![s.clone(), short.clone()], same(), as_it_is(), (1, 4, 0, 6)),
        (same(), vec![s.clone(), short.clone()], as_it_is(), (1, 5, 0, 6)),
        (same(), vec![s.clone(), long.clone()], as_it_is(), (1, 5, 0, 7)),
        // both: the left; a difference comes before a later stop; the left ended and the right stopped: the right's stop
        (vec![long.clone()], vec![short.clone()], as_it_is(), (0, 4, 0, 7)),
        (vec![s.clone(), l.clone(), short.clone()], vec![s.clone(), lost(5, 7), s.clone()], as_it_is(), (1, 1, 6, 0)),
        (vec![s.clone()], vec![s.clone(), short.clone()], as_it_is(), (1, 5, 0, 6)),
        (vec![s.clone(), short], vec![s.clone()], as_it_is(), (1, 4, 0, 6)),
        (same(), same(), Box::new(|p| p.left.ring.truncate(40)), (0, 4, 0, 1)),
        (same(), same(), Box::new(|p| p.right.ring.truncate(40)), (0, 5, 0, 1)),
        (same(), same(), Box::new(|p| p.edition = 5), (0, 4, 0, 2)),
        (same(), same(), Box::new(|p| p.table.clear()), (0, 4, 0, 11)),
        (vec![], vec![], Box::new(|p| p.table.clear()), (0, 4, 0, 11)),
        // the right ring's length is told after the left side's table
        (same(), same(), Box::new(|p| { p.table.clear(); p.right.ring.truncate(40) }), (0, 4, 0, 11)),
        (same(), same(), Box::new(|p| p.right.tail = p.right.head.wrapping_add(8)), (0, 5, 0, 4)),
        (same(), same(), Box::new(|p| p.right.head = p.right.head.wrapping_add(1)), (0, 5, 0, 5)),
        (same(), same(), Box::new(|p| { p.left.head = p.left.head.wrapping_add(1); p.right.tail = p.right.head.wrapping_add(8) }), (0, 4, 0, 5)),
        // edition 1 refuses every record with 21: by their bytes
        (same(), vec![s.clone(), lost(5, 7)], Box::new(|p| p.edition = 1), (1, 1, 1, 0)),
    ];
    for (left, right, done, (records, what, field, stop)) in &cases {
        let mut p = pair_of(r, left, right, &events_by_hand(), 4);
        done(&mut p);
        let told = both(&p, r, tally)?;
        let due = Compared { records: *records, what: *what, field: *field, stop: *stop };
        if told != due {
            return Err(format!("{told:?}, due is {due:?}\n{}", describe(&p)));
        }
        exchanged(&p, told, r, tally)?;
    }
    // no scratch: a record that crosses the end stops its side, one that does not needs none
    let mut p = pair_of(r, &same(), &same(), &events_by_hand(), 4);
    p.left.ring = vec![0; 64];
    zero(&mut p);
    put(&mut p.left.ring, 0, &same().concat());
    p.left_scratch = 0;
    p.right.ring = vec![0; 64];
    (p.right.tail, p.right.head) = (32, 80);
    put(&mut p.right.ring, 32, &same().concat());
    for (scratch, due) in [(31, Compared { records: 1, what: 5, field: 0, stop: 3 }), (32, Compared { records: 2, ..Compared::default() })] {
        p.right_scratch = scratch;
        let told = both(&p, r, tally)?;
        if told != due {
            return Err(format!("{told:?}, due is {due:?}\n{}", describe(&p)));
        }
        exchanged(&p, told, r, tally)?;
    }
    Ok(cases.len() as u64 + 2)
}
