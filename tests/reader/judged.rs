//! One record with a table of events (document 02, M-112): record check and the reader, libollskuvan.a against the
//! independent reader: answer, number inspected, words. And what has to hold whatever the reader says: the number of
//! both calls, of the reader of one record and of the lookup are one; with the event found, both answer as the calls
//! with that event's attributes.

use crate::abi;
use crate::drains::{describe_table, table_words, Difference};
use crate::events::{self, Event, Judged, MOST};
use crate::guard::{first_difference, hex, Guarded, GuardedWords};
use crate::made::{damage_body, damage_size, some_edition, Random};
use crate::ones::some_length;
use crate::rules::Attributes;
use crate::tables::{event_record, sound_table, spoil};
use crate::tally::Tally;
use crate::words::FIELDS;

pub const MUST: &[(&str, &[u32])] = &[
    ("check with a table", &[0, 2, 6, 7, 11, 20, 21, 22, 23, 24, 25, 26, 27, 30, 31, 32, 33, 44]),
    ("read with a table", &[0, 2, 6, 7, 11, 20, 21, 22, 23, 24, 25, 26, 27, 30, 31, 32, 33, 40]),
];

/// A number inspected by what it tells: without a lookup, found, not found.
pub const NUMBERS: &[&str] = &["nothing inspected", "found at index 0", "found from index 32 on", "all inspected, none found"];

pub fn missing(tally: &Tally) -> Vec<String> {
    let mut missing = tally.missing(MUST, &[], false);
    missing.extend(NUMBERS.iter().filter(|note| !tally.notes.contains_key(*note)).map(|note| format!("never: {note}")));
    missing
}

fn note(judged: Judged, tally: &mut Tally) {
    match (judged.answer, judged.inspected) {
        (26, _) => tally.note(NUMBERS[3], 1),
        (_, 0) => tally.note(NUMBERS[0], 1),
        (_, 1) => tally.note(NUMBERS[1], 1),
        (_, 33..) => tally.note(NUMBERS[2], 1),
        _ => {}
    }
}

/// Both calls on one record; what record check tells.
pub fn compare_judged(
    record: &[u8], table: &[Event], edition: u32, length: usize, r: &mut Random, tally: &mut Tally,
) -> Result<Judged, Difference> {
    let words = table_words(Some(table));
    let (lent, lent_table) = (Guarded::new(record, r.below(8) as usize), GuardedWords::new(&words));
    let case = || format!("edition {edition}, {length} words, record {}\n{}", hex(record), describe_table(Some(table)));
    let theirs = abi::check_events(lent.slice(), lent_table.slice(), edition);
    let ours = events::check(record, edition, table);
    if theirs != ours {
        return Err(format!("check with a table: library {theirs:?}, independent {ours:?}\n{}", case()));
    }
    tally.answer("check with a table", ours.answer);
    note(ours, tally);
    let mut due: Vec<u64> = (0..length).map(|_| r.next()).collect();
    let mut fields = GuardedWords::new(&due);
    let their_read = abi::read_events(lent.slice(), lent_table.slice(), edition, fields.slice_mut());
    let our_read = events::read(record, edition, table, &mut due);
    if their_read != our_read {
        return Err(format!("read with a table: library {their_read:?}, independent {our_read:?}\n{}", case()));
    }
    if let Some(word) = first_difference(fields.slice(), &due) {
        return Err(format!("word {word}: library {:#x}, independent {:#x}\n{}", fields.slice()[word], due[word], case()));
    }
    if !fields.intact() {
        return Err(format!("words beside the value were written to\n{}", case()));
    }
    tally.answer("read with a table", our_read.answer);
    if lent.slice() != record || lent_table.slice() != words || !lent.intact() || !lent_table.intact() {
        return Err(format!("record, table, or what lies beside them, was written to\n{}", case()));
    }
    beside(record, table, edition, theirs, r).map_err(|d| format!("{d}\n{}", case()))?;
    Ok(ours)
}

/// Of the library's own calls: the number is that of its lookup, and under its event the record is answered as with that
/// event's attributes.
fn beside(record: &[u8], table: &[Event], edition: u32, told: Judged, r: &mut Random) -> Result<(), Difference> {
    let index = (told.inspected as usize).wrapping_sub(1);
    if told.inspected as usize > table.len() {
        return Err(format!("{told:?}: more than the table has"));
    }
    if told.inspected == 0 {
        let unlooked = [2, 6, 7, 11, 20, 21, 27].contains(&told.answer);
        return if unlooked { Ok(()) } else { Err(format!("{told:?}: nothing was inspected")) };
    }
    let found = abi::find_event(&table_words(Some(table)), events::identifier(record));
    if told.answer == 26 {
        let none = found == table.len() && told.inspected as usize == table.len();
        return if none { Ok(()) } else { Err(format!("{told:?}: the lookup says {found}")) };
    }
    if found != index {
        return Err(format!("{told:?}: the lookup says {found}"));
    }
    let a: Attributes = table[index].attributes();
    let alone = abi::check(record, &a, edition);
    if alone != told.answer {
        return Err(format!("{told:?}: with its event's attributes alone {alone}"));
    }
    if record.len() <= 64 && record.len() % 8 == 0 {
        number_in_a_ring(record, table, edition, told, r)?;
    }
    Ok(())
}

/// The reader of one record tells the same number of the record in a ring.
fn number_in_a_ring(record: &[u8], table: &[Event], edition: u32, told: Judged, r: &mut Random) -> Result<(), Difference> {
    let tail = 8 * r.below(1 << 20);
    let mut ring = vec![0; 64];
    crate::made::put(&mut ring, tail, record);
    let (mut scratch, mut fields) = ([0; 64], [0; FIELDS]);
    let head = tail.wrapping_add(record.len() as u64);
    let one = abi::read_one_events(&ring, head, tail, &table_words(Some(table)), edition, &mut scratch, &mut fields);
    let answer = if told.answer == 44 { 0 } else { told.answer };
    if (one.answer, one.inspected, one.stop) == (answer, told.inspected, 0) {
        return Ok(());
    }
    Err(format!("{told:?}, and in a ring {one:?}"))
}

/// A record of a table, damaged or not; the table at times too; every edition.
pub fn one_case(seed: u64, number: u64, tally: &mut Tally) -> Result<(), Difference> {
    let mut r = Random::new(seed ^ 0x1d9ed, number);
    let edition = if r.one_in(4) { some_edition(&mut r) } else { r.pick(&[2, 3, 4, 4]) };
    let mut table = sound_table(&mut r, edition);
    let room = 8 * (1 + r.below(60)) as usize;
    let mut record = event_record(&mut r, edition, &table, room, true);
    match r.below(12) {
        0 => damage_size(&mut r, &mut record),
        1 => record.truncate(r.below(record.len() as u64 + 1) as usize),
        2 => record.push(0),
        3 => damage_body(&mut r, &mut record, &Attributes::EMPTY),
        _ => {}
    }
    if r.one_in(12) {
        spoil(&mut r, &mut table);
    }
    let length = some_length(&mut r);
    compare_judged(&record, &table, edition, length, &mut r, tally)?;
    Ok(())
}

// ---- by hand ----

fn plain(identifier: u64) -> Event {
    Event::new(identifier, &Attributes { sample_type: 1 << 16, sample_id_all: 1, ..Attributes::EMPTY })
}

/// A switch of this event, 16 bytes.
fn switch(identifier: u64) -> Vec<u8> {
    let mut record = vec![14, 0, 0, 0, 0, 0, 16, 0];
    record.extend(identifier.to_le_bytes());
    record
}

fn due(
    record: &[u8], table: &[Event], edition: u32, answer: u32, inspected: u32, r: &mut Random, tally: &mut Tally,
) -> Result<u64, Difference> {
    let told = compare_judged(record, table, edition, FIELDS, r, tally)?;
    if told == (Judged { answer, inspected }) {
        return Ok(1);
    }
    Err(format!("{told:?} where {answer}, {inspected} is due: {} of {} events", hex(record), table.len()))
}

/// Every event of tables of 1, 2, 32, 33, 256, 1,023 and 1,024 events, rising, falling and out of order: index plus one;
/// the table's length for 26; the edges of the limit; and each answer that comes without a lookup, in its turn.
pub fn by_hand(tally: &mut Tally) -> Result<u64, Difference> {
    let mut r = Random::new(0x1d9ed, 1);
    let mut cases = 0;
    for count in [1usize, 2, 11, 32, 33, 256, MOST - 1, MOST] {
        let rising: Vec<Event> = (0..count as u64).map(|i| plain(1000 + 7 * i)).collect();
        let falling: Vec<Event> = rising.iter().rev().copied().collect();
        // a multiplier that has no factor in common with 2^64: each identifier once, in no order
        let mixed: Vec<Event> = (0..count as u64).map(|i| plain((i + 1).wrapping_mul(0x9e37_79b9_7f4a_7c15))).collect();
        // all alike in their low 13 bits
        let alike: Vec<Event> = (0..count as u64).map(|i| plain((count as u64 - i) << 13)).collect();
        for table in [rising, falling, mixed, alike] {
            for (index, event) in table.iter().enumerate() {
                let near = index < 3 || index + 3 > count || index % 37 == 0 || count <= 33;
                if near {
                    cases += due(&switch(event.identifier), &table, 4, 0, index as u32 + 1, &mut r, tally)?;
                }
            }
            cases += due(&switch(3), &table, 4, 26, count as u32, &mut r, tally)?;
            let mut twin = table.clone();
            if count > 1 {
                twin[count - 1].identifier = twin[0].identifier;
                cases += due(&switch(3), &twin, 4, 11, 0, &mut r, tally)?;
                twin[count - 1].identifier = twin[count / 2 - usize::from(count == 2)].identifier;
                cases += due(&switch(3), &twin, 4, 11, 0, &mut r, tally)?;
            }
        }
    }
    Ok(cases + edges(&mut r, tally)?)
}

fn edges(r: &mut Random, tally: &mut Tally) -> Result<u64, Difference> {
    let table: Vec<Event> = (0..=MOST as u64).map(plain).collect();
    let two = &table[5..7]; // identifiers 5 and 6
    let mut cases = 0;
    let mut no_bit = two.to_vec();
    no_bit[1].sample_type = 0;
    let mut newer = two.to_vec();
    newer[1].sample_type |= 1 << 23; // edition 2 does not know it: 21 after the lookup
    let mut longer = switch(6);
    longer.extend([0; 8]);
    let mut size_12 = switch(6);
    size_12[6] = 12;
    let mut dirty = vec![3, 0, 0, 0, 0, 0, 32, 0, 1, 0, 0, 0, 2, 0, 0, 0, b'k', 0, 9, 0, 0, 0, 0, 0];
    dirty.extend(6u64.to_le_bytes());
    let mut unknown = switch(6);
    unknown[0] = 22;
    let eight = vec![14, 0, 0, 0, 0, 0, 8, 0];
    let mut left_over = switch(0);
    left_over[6] = 24;
    left_over.extend(5u64.to_le_bytes());
    for (record, table, edition, answer, inspected) in [
        (&switch(6)[..], two, 4, 0, 2),
        (&switch(5), two, 4, 0, 1),
        (&switch(7), two, 4, 26, 2),
        (&switch(6), two, 5, 2, 0),
        (&switch(6), &table[..0], 5, 2, 0),  // 2 before 11
        (&switch(6), &table[..0], 4, 11, 0),
        (&[], &table[..0], 4, 11, 0),        // 11 before 7
        (&[], two, 4, 7, 0),
        (&switch(6)[..7], two, 4, 7, 0),
        (&size_12, &no_bit, 4, 11, 0),       // 11 before 6
        (&size_12, two, 4, 6, 0),
        (&longer, two, 4, 7, 0),
        (&unknown, two, 4, 20, 0),
        (&unknown, two, 1, 20, 0),           // 20 before edition 1's 21
        (&switch(6), two, 1, 20, 0),
        (&dirty, two, 1, 21, 0),
        (&eight, two, 4, 27, 0),
        (&left_over, two, 4, 31, 1),
        (&dirty, two, 4, 44, 2),
        (&dirty, &newer, 2, 21, 2),
        (&switch(6), &newer, 4, 0, 2),
        (&switch(MOST as u64 - 1), &table[..MOST], 4, 0, MOST as u32),
        (&switch(MOST as u64), &table[..MOST], 4, 26, MOST as u32),
        (&switch(MOST as u64), &table, 4, 11, 0), // one event too many
    ] {
        cases += due(record, table, edition, answer, inspected, r, tally)?;
    }
    // 40 for too few words: the number is told all the same
    for (length, answer) in [(0, 40), (FIELDS - 1, 40), (FIELDS, 0)] {
        let mut fields = vec![7; length];
        let told = abi::read_events(&dirty, &table_words(Some(two)), 4, &mut fields);
        if told != (Judged { answer, inspected: 2 }) || (answer == 40 && fields.iter().any(|w| *w != 7)) {
            return Err(format!("read with a table into {length} words: {told:?}"));
        }
        cases += 1;
    }
    Ok(cases)
}
