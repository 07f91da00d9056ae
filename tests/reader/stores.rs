//! M-103 and M-112, the store of settings in both versions: read and write by libollskuvan.a and by the independent reader, on made, damaged and changed
//! stores; and what has to hold whatever the reader says: what reads is written again by the same bytes, and what is
//! written reads back.

use crate::abi;
use crate::drains::{describe_table, table_words, Difference};
use crate::events::{Event, WORDS};
use crate::guard::{first_difference, hex, Guarded, GuardedWords};
use crate::made::Random;
use crate::made_stores::{damage, some_settings, some_store};
use crate::record::number;
use crate::store::{self, Reason, Settings, Version, REASONS, WRITTEN};
use crate::tally::Tally;
use std::path::Path;

pub const MUST: &[(&str, &[u32])] =
    &[("read store", &[0, 11, 40, 50, 51, 52]), ("write store", &[0, 1, 2, 11, 40])];

/// Stores that read, by their version.
const READ: [&str; 2] = ["read, of version 1", "read, of version 2"];

/// Each reason must have come up, each version have been read, and no call may have given another number.
pub fn missing(tally: &Tally) -> Vec<String> {
    let mut missing = tally.missing(MUST, &[], false);
    missing.extend(READ.iter().filter(|note| !tally.notes.contains_key(*note)).map(|note| format!("no store was {note}")));
    for reason in REASONS {
        if !tally.notes.contains_key(reason.name()) {
            missing.push(format!("no store was refused for {:?}", reason.name()));
        }
    }
    for (call, answers) in MUST {
        for (told, answer) in tally.answers.keys() {
            if told == call && !answers.contains(answer) {
                missing.push(format!("{call} answered {answer}"));
            }
        }
    }
    missing
}

fn some_rows(r: &mut Random, rows: usize) -> Vec<u64> {
    (0..WORDS * rows).map(|_| r.next()).collect()
}

/// Reads into a lent table of so many rows; gives what the independent reader makes of it.
pub fn compare_read(
    bytes: &[u8], rows: usize, r: &mut Random, tally: &mut Tally,
) -> Result<Option<(Settings, &'static Version)>, Difference> {
    let before = some_rows(r, rows);
    let mut lent = GuardedWords::new(&before);
    let given = Guarded::new(bytes, r.below(8) as usize);
    let theirs = abi::read_store(given.slice(), lent.slice_mut());
    let ours = store::read(bytes, rows);
    let mut due = before;
    let told = match &ours {
        Ok((s, _)) => {
            let words = table_words(Some(&s.events));
            due[..words.len()].copy_from_slice(&words);
            (s.events.len() as u64, s.ring_length, s.edition, s.budget, 0)
        }
        Err(fault) => (0, 0, 0, 0, fault.reason.number()),
    };
    tally.answer("read store", told.4);
    match &ours {
        Ok((_, version)) => tally.note(READ[usize::from(version.number) - 1], 1),
        Err(fault) => tally.note(fault.reason.name(), 1),
    }
    let case = || format!("read store into {rows} rows, independent {ours:?}\nstore {}", hex(bytes));
    let library = (theirs.events, theirs.ring_length, theirs.edition, theirs.budget, theirs.answer);
    if library != told {
        return Err(format!("library {library:?} where {told:?} is due\n{}", case()));
    }
    if let Some(word) = first_difference(lent.slice(), &due) {
        return Err(format!("row {}, word {}: library {:#x}, due is {:#x}\n{}", word / WORDS, word % WORDS, lent.slice()[word], due[word], case()));
    }
    if !lent.intact() || !given.intact() || given.slice() != bytes {
        return Err(format!("bytes beside the table, or the store, were written to\n{}", case()));
    }
    Ok(ours.ok())
}

/// Writes into a buffer of so many bytes; gives the bytes written.
pub fn compare_write(s: &Settings, room: usize, r: &mut Random, tally: &mut Tally) -> Result<Option<Vec<u8>>, Difference> {
    let mut before = vec![0; room];
    r.fill(&mut before);
    let mut buffer = Guarded::new(&before, r.below(8) as usize);
    let words = table_words(Some(&s.events));
    let given = GuardedWords::new(&words);
    let theirs = abi::write_store(given.slice(), s.ring_length, s.edition, s.budget, buffer.slice_mut());
    let ours = store::write(s, room);
    let told = match &ours {
        Ok(bytes) => {
            before[..bytes.len()].copy_from_slice(bytes);
            (bytes.len() as u64, 0)
        }
        Err(answer) => (0, *answer),
    };
    tally.answer("write store", told.1);
    let case = || {
        let table = describe_table(Some(&s.events));
        format!("write store, ring length {}, edition {}, budget {}, room {room}\n{table}", s.ring_length, s.edition, s.budget)
    };
    if (theirs.bytes, theirs.answer) != told {
        return Err(format!("library {:?} where {told:?} is due\n{}", (theirs.bytes, theirs.answer), case()));
    }
    if let Some(at) = first_difference(buffer.slice(), &before) {
        return Err(format!("byte {at}: library {}, due is {}\n{}", hex(buffer.slice()), hex(&before), case()));
    }
    if !buffer.intact() || !given.intact() || given.slice() != words {
        return Err(format!("bytes beside the buffer, or the table, were written to\n{}", case()));
    }
    Ok(ours.ok())
}

/// Of the library's two calls alone: what was read is written by the bytes that were read, if they are of the version that
/// is written. A store of the older version is, by its settings, the one of that version that can be laid out.
fn only_encoding(bytes: &[u8], s: &Settings, version: &Version, r: &mut Random, tally: &mut Tally) -> Result<(), Difference> {
    let room = WRITTEN.bytes(s.events.len()) + r.below(3) as usize;
    if store::bytes_of(s, version) != bytes {
        return Err(format!("a store that reads is not the one of its settings and version\nstore {}", hex(bytes)));
    }
    match compare_write(s, room, r, tally)? {
        Some(again) if version != WRITTEN || again == bytes => {
            tally.note("stores written again", 1);
            Ok(())
        }
        other => Err(format!("a store that reads is not what is written of it: {other:?}\nstore {}", hex(bytes))),
    }
}

/// A store: with room for its events, and with any room.
fn one_store(bytes: &[u8], r: &mut Random, tally: &mut Tally) -> Result<(), Difference> {
    let rows = match r.below(4) {
        0 => r.below(5) as usize,
        1 => bytes.len() / 55 + r.below(3) as usize,
        _ => bytes.len() / 55,
    };
    if let Some((s, version)) = compare_read(bytes, rows, r, tally)? {
        only_encoding(bytes, &s, version, r, tally)?;
        let fewer = r.below(s.events.len() as u64) as usize;
        compare_read(bytes, fewer, r, tally)?;
    }
    Ok(())
}

/// Settings: with exact room, one byte less, and any; what is written reads back, with sample_id_all set.
fn one_writing(r: &mut Random, tally: &mut Tally) -> Result<(), Difference> {
    let mut s = some_settings(r, WRITTEN);
    let exact = WRITTEN.bytes(s.events.len());
    for room in [exact, exact - 1, r.below(2 * exact as u64) as usize] {
        if let Some(bytes) = compare_write(&s, room, r, tally)? {
            let more = r.below(3) as usize;
            let back = compare_read(&bytes, s.events.len() + more, r, tally)?;
            for event in &mut s.events {
                event.sample_id_all = 1;
            }
            if back.map(|(settings, _)| settings) != Some(s.clone()) {
                return Err(format!("what was written reads back as something else\nstore {}", hex(&bytes)));
            }
            tally.note("stores read back", 1);
        }
    }
    Ok(())
}

pub fn one_case(seed: u64, case: u64, tally: &mut Tally) -> Result<(), Difference> {
    let mut r = Random::new(seed ^ 0x5703e, case);
    let bytes = some_store(&mut r);
    one_store(&bytes, &mut r, tally)?;
    one_writing(&mut r, tally)
}

// ---- by hand ----

fn plain_event(identifier: u64) -> Event {
    Event {
        identifier,
        sample_type: 1 << 16,
        read_format: 0,
        user_mask: 0,
        interrupt_mask: 0,
        branch_sample_type: 0,
        sample_id_all: 1,
    }
}

/// A store of version 1 or 2, laid out by hand: 8 bytes, 55 or 56 an event, 19.
fn plain_store(version: u8, events: usize) -> Vec<u8> {
    let mut bytes = vec![8, 0, 0, 0, 1, 0, version, 0];
    for index in 0..events {
        bytes.extend([54 + version, 0, 0, 0, 2, 0, index as u8]);
        if version == 2 {
            bytes.push((index >> 8) as u8);
        }
        let mut words = [0; 48];
        words[..3].copy_from_slice(&(index as u32 + 1).to_le_bytes()[..3]);
        words[10] = 1; // sample bit 16
        bytes.extend(words);
    }
    bytes.extend([19, 0, 0, 0, 3, 0]);
    bytes.extend([0, 1, 0, 0, 0, 0, 0, 0]);
    bytes.extend([3, 7, 0, 0, 0]);
    bytes
}

fn due(bytes: &[u8], rows: usize, answer: u32, r: &mut Random, tally: &mut Tally) -> Result<(), Difference> {
    let told = compare_read(bytes, rows, r, tally)?;
    let ours = store::read(bytes, rows).map_or_else(|fault| fault.reason.number(), |_| 0);
    if ours == answer && told.is_some() == (answer == 0) {
        return Ok(());
    }
    Err(format!("store {}: {ours} where {answer} is due", hex(bytes)))
}

/// The answer to a store of one event whose byte at this place is another one. One of version 2 has one more byte of index.
fn due_changed(version: u8, at: usize, byte: u8) -> u32 {
    let at = match at {
        15 if version == 2 => 14,
        16.. if version == 2 => at - 1,
        _ => at,
    };
    match at {
        6 if byte == 1 || byte == 2 => 51,      // the other version: no event of its length follows
        6 | 7 => 50,
        14 => 52,                               // the index
        25 if byte & 1 == 0 => 11,              // sample bit 16
        15..=62 => 0,                           // the words of the event
        70 if byte.is_power_of_two() && byte <= 128 => 0, // the ring's length, 256: another one that is allowed
        69..=76 => 52,
        77 if (1..=4).contains(&byte) => 0,     // the edition
        77 => 52,
        78..=81 => 0,                           // the budget
        _ => 51,                                // lengths and kinds
    }
}

/// "Every single-byte change of a small store": all values of each byte of a store of one event, in both versions, with the
/// answer due by hand; each bit of each byte of stores of two events and of 32 and 33; each length that they can be cut to.
pub fn changed(tally: &mut Tally) -> Result<u64, Difference> {
    let mut r = Random::new(0x5703e, 1);
    let mut cases = 0;
    for version in [1, 2] {
        let small = plain_store(version, 1);
        for at in 0..small.len() {
            for byte in 0..=255 {
                let mut bytes = small.clone();
                bytes[at] = byte;
                let answer = if byte == small[at] { 0 } else { due_changed(version, at, byte) };
                due(&bytes, 2, answer, &mut r, tally).map_err(|d| format!("byte {at} is {byte}: {d}"))?;
                cases += 1;
            }
        }
    }
    for (version, events) in [(1, 2), (1, 32), (2, 2), (2, 33)] {
        let store = plain_store(version, events);
        for at in 0..store.len() {
            for bit in 0..8 {
                let mut bytes = store.clone();
                bytes[at] ^= 1 << bit;
                one_store(&bytes, &mut r, tally)?;
                cases += 1;
            }
            due(&store[..at], events, 51, &mut r, tally)?;
            cases += 1;
        }
        due(&store, events, 0, &mut r, tally)?;
        due(&store, events - 1, 40, &mut r, tally)?;
        cases += 2;
    }
    Ok(cases)
}

/// Both versions, and what is their own: the limit, the width of the index.
pub fn by_hand(tally: &mut Tally) -> Result<u64, Difference> {
    let mut r = Random::new(0x5703e, 2);
    let mut count = in_version(1, &mut r, tally)? + in_version(2, &mut r, tally)?;
    // version 1: 33 to 256 events are 11, found at the end; the index of a 257th cannot be in turn
    for (events, answer) in [(31, 0), (32, 0), (33, 11), (255, 11), (256, 11), (257, 52), (300, 52)] {
        due(&plain_store(1, events), 300, answer, &mut r, tally)?;
        count += 1;
    }
    // version 2: 1,025 to 65,536; and a 65,537th
    for (events, answer) in [(33, 0), (257, 0), (1023, 0), (1024, 0), (1025, 11), (65_536, 11), (65_537, 52)] {
        due(&plain_store(2, events), 1024, answer, &mut r, tally)?;
        count += 1;
    }
    due(&plain_store(2, 1024), 1023, 40, &mut r, tally)?;
    due(&plain_store(2, 1025), 0, 11, &mut r, tally)?;
    // an index of 256 that shows one byte of it, and one whose high byte is not 0
    for (at, byte) in [(8 + 56 * 256 + 7, 0), (8 + 56 * 3 + 7, 1)] {
        let mut bytes = plain_store(2, 300);
        bytes[at] = byte;
        due(&bytes, 300, 52, &mut r, tally)?;
    }
    Ok(count + 4 + writings(&mut r, tally)?)
}

/// Which reason goes first, and the edges of each.
fn in_version(version: u8, r: &mut Random, tally: &mut Tally) -> Result<u64, Difference> {
    let head: &[u8] = &[8, 0, 0, 0, 1, 0, version, 0];
    let (length, index) = (54 + usize::from(version), usize::from(version));
    let two = plain_store(version, 2);
    let other = plain_store(3 - version, 2);
    let (row, rest) = (&two[8..8 + length], &two[two.len() - 19..]);
    let row_of_other = &other[8..8 + 111 - length];
    let with = |place: usize, bytes: &[u8]| {
        let mut store = two.clone();
        store[place..place + bytes.len()].copy_from_slice(bytes);
        store
    };
    let changed_rest = |place: usize, bytes: &[u8]| with(two.len() - 19 + place, bytes);
    let joined = |parts: &[&[u8]]| parts.concat();
    let mut cases: Vec<(Vec<u8>, usize, u32)> = vec![
        (vec![], 2, 51),
        (vec![8], 2, 51),
        (vec![8, 0, 0, 0], 2, 51),
        (vec![6, 0, 0, 0, 1, 0], 2, 51),
        (head[..7].to_vec(), 2, 51),
        (vec![8, 0, 0, 0, 1, 0, 3, 0], 2, 50),
        (vec![8, 0, 0, 0, 1, 0, version, 1], 2, 50),
        (vec![8, 0, 0, 0, 1, 0, 0, 0, 99], 2, 50), // whatever follows
        (vec![9, 0, 0, 0, 1, 0, 2, 0, 0], 2, 51),  // kind 1 of another length
        (vec![8, 0, 0, 0, 2, 0, 2, 0], 2, 51),
        (vec![8, 0, 0, 1, 1, 0, 2, 0], 2, 51), // a length beyond the end is not a version
        (vec![255, 255, 255, 255, 1, 0, 1, 0], 2, 51),
        (head.to_vec(), 2, 51),
        (joined(&[row, rest]), 2, 52),
        (joined(&[row_of_other, rest]), 2, 52), // before a version is known either length is one of kind 2
        (joined(&[&[57, 0, 0, 0, 2, 0], &[0; 51], rest]), 2, 51),
        (joined(&[&[54, 0, 0, 0, 2, 0], &[0; 48], rest]), 2, 51),
        (joined(&[rest]), 2, 52),
        (joined(&[rest, head]), 2, 52),
        (joined(&[head, head]), 2, 52),
        (joined(&[head, &[8, 0, 0, 0, 1, 0, 2, 0]]), 2, 52), // a second kind 1, whatever version it shows
        (joined(&[head, &[8, 0, 0, 0, 1, 0, 2]]), 2, 51),
        (joined(&[head, rest]), 2, 11), // no event
        (joined(&[head, rest]), 0, 11), // 11 before 40
        (joined(&[head, row, rest, rest]), 2, 52),
        (joined(&[head, row, rest, row]), 2, 52),
        (joined(&[head, row, rest, row_of_other]), 2, 51),
        (joined(&[head, row, rest, &[0]]), 2, 51),
        (joined(&[head, row, rest, &[5, 0, 0, 0]]), 2, 51),
        (joined(&[head, row, rest, &[6, 0, 0, 0, 9, 0]]), 2, 51),
        (joined(&[head, row, row, rest]), 2, 52), // index 0 twice
        (joined(&[head, row, row, &[1]]), 2, 52), // 52 at the second, before what is cut short behind it
        (joined(&[head, row, &[1], row]), 2, 51),
        (joined(&[head, &two[8 + length..8 + 2 * length], row, rest]), 2, 52), // from 1 downward
        (joined(&[head, row, &other[8 + row_of_other.len()..]]), 2, 51), // the other version's index
        (joined(&[head, row_of_other, rest]), 2, 51),
        (changed_rest(6, &[0, 0]), 2, 52),
        (changed_rest(6, &[32, 0]), 2, 52),
        (changed_rest(6, &[64, 0]), 2, 0),
        (changed_rest(6, &[0, 0, 16]), 2, 0),
        (changed_rest(6, &[0, 0, 32]), 2, 52),
        (changed_rest(6, &[64, 0, 0, 0, 1]), 2, 52), // not narrowed
        (changed_rest(14, &[0]), 2, 52),
        (changed_rest(14, &[4]), 2, 0), // edition 4 may be stored
        (changed_rest(14, &[5]), 2, 52),
        (changed_rest(15, &[255, 255, 255, 255]), 2, 0),
        (with(8 + 6 + index, &[2]), 2, 11),      // equal identifiers
        (with(8 + 6 + index + 10, &[0]), 2, 11), // no bit 16
        (with(8 + 6 + index + 10, &[0]), 0, 11), // before 40
        (two.clone(), 2, 0),
        (two.clone(), 1, 40),
        (two.clone(), 0, 40),
        (plain_store(version, 32), 32, 0),
        (plain_store(version, 32), 31, 40),
    ];
    // 52 before 11: one fault of each
    let mut both = with(8 + 6 + index, &[2]);
    let length = both.len();
    both[length - 5] = 9;
    cases.push((both.clone(), 2, 52));
    both.push(0);
    cases.push((both, 2, 52));
    let count = cases.len() as u64;
    for (bytes, rows, answer) in cases {
        due(&bytes, rows, answer, r, tally)?;
    }
    Ok(count)
}

/// The writer's order 11, 1, 2, 40, and its edges.
fn writings(r: &mut Random, tally: &mut Tally) -> Result<u64, Difference> {
    let table = |count: u64| (1..=count).map(plain_event).collect::<Vec<_>>();
    let unmarked = |word: fn(&mut Event)| {
        let mut events = table(3);
        word(&mut events[2]);
        events
    };
    let cases = [
        (table(2), 256, 3, 139, 0),
        (table(2), 256, 3, 138, 40),
        (table(2), 256, 4, 139, 0),
        (table(2), 256, 5, 0, 2),
        (table(2), 256, 257, 139, 2),
        (table(2), 257, 5, 0, 1),
        (table(2), 0, 3, 139, 1),
        (table(2), (1 << 32) + 64, 3, 139, 1),
        (table(2), 1 << 20, 1, 139, 0),
        (table(0), 257, 5, 0, 11),
        (table(1025), 257, 5, 0, 11),
        (table(1025), 256, 3, 60_000, 11),
        (table(32), 256, 3, 27 + 56 * 32, 0),
        (table(33), 256, 3, 27 + 56 * 33, 0),
        (table(1024), 256, 3, 27 + 56 * 1024, 0),
        (table(1024), 256, 3, 27 + 56 * 1024 - 1, 40),
        (unmarked(|v| v.identifier = 1), 257, 5, 0, 11),
        (unmarked(|v| v.sample_type = 0), 256, 3, 200, 11),
        (unmarked(|v| v.sample_id_all = 0), 256, 3, 200, 11),
        (unmarked(|v| v.sample_id_all = 1 << 63), 256, 3, 195, 0),
    ];
    let count = cases.len() as u64;
    for (events, ring_length, edition, room, answer) in cases {
        let s = Settings { events, ring_length, edition, budget: 7 };
        compare_write(&s, room, r, tally)?;
        let ours = store::write(&s, room).map_or_else(|answer| answer, |_| 0);
        if ours != answer {
            return Err(format!("write store of {} events, ring length {ring_length}, edition {edition}, room {room}: {ours}, not {answer}", s.events.len()));
        }
    }
    // the bytes themselves, laid out by hand
    for events in [2, 300, 1024] {
        let s = Settings { events: table(events), ring_length: 256, edition: 3, budget: 7 };
        if compare_write(&s, 60_000, r, tally)? != Some(plain_store(2, events as usize)) {
            return Err("write store: other bytes than those by hand".to_string());
        }
    }
    Ok(count + 3)
}

/// The kept stores' settings, as they were given to the writers: so many events.
fn kept_settings(count: u64) -> Settings {
    let chosen = |number: u64, by: u64, word: u64| if number % by == 0 { word } else { 0 };
    let events = (0..count).map(|i| Event {
        identifier: 1000 + 7 * i,
        sample_type: 1 << 16 | 1 << 2 | chosen(i + 1, 2, 1 << 7) | chosen(i, 3, 1),
        read_format: i % 4,
        user_mask: chosen(i, 5, 0xff),
        interrupt_mask: chosen(i, 6, 0x3f),
        branch_sample_type: chosen(i, 8, 1 << 17),
        sample_id_all: 1,
    });
    Settings { events: events.collect(), ring_length: 65_536, edition: 4, budget: 4096 }
}

/// Stores that were kept: one of version 1, by the writer of before M-112, with all the events that it may have, and one
/// of version 2 with 1,024. Each reads as what it was written of; that of version 2 is written by the same bytes, that of
/// version 1 by others, which read as the same.
pub fn kept(folder: &Path, tally: &mut Tally) -> Result<Vec<String>, String> {
    let mut lines = Vec::new();
    for (name, number, events) in [("version-1.store", 1, 32), ("version-2.store", 2, 1024)] {
        let mut r = Random::new(0x4e97, number);
        let bytes = std::fs::read(folder.join(name)).map_err(|e| format!("{name}: {e}"))?;
        let due = kept_settings(events);
        match compare_read(&bytes, events as usize, &mut r, tally).map_err(|d| format!("{name}: {d}"))? {
            Some((settings, version)) if settings == due && u64::from(version.number) == number => {}
            other => return Err(format!("{name} reads as {other:?}")),
        }
        compare_read(&bytes, events as usize - 1, &mut r, tally)?;
        let again = compare_write(&due, WRITTEN.bytes(events as usize), &mut r, tally)?.ok_or(format!("{name} is not written"))?;
        if (again == bytes) != (number == 2) {
            return Err(format!("{name} is written by {} bytes", if number == 2 { "other" } else { "the same" }));
        }
        match compare_read(&again, events as usize, &mut r, tally)? {
            Some((settings, version)) if settings == due && version == WRITTEN => {}
            other => return Err(format!("{name}, written again, reads as {other:?}")),
        }
        lines.push(format!("{name}: {}; written again in {} bytes, and read", told(&bytes), again.len()));
    }
    Ok(lines)
}

/// What is wrong with a file: its number and place, or what it holds. For the program's own test.
pub fn told(bytes: &[u8]) -> String {
    match store::read(bytes, usize::MAX) {
        Ok((s, version)) => format!("version {}, {} events, ring length {}, edition {}, budget {}", version.number, s.events.len(), s.ring_length, s.edition, s.budget),
        Err(fault) if fault.reason == Reason::Table => "11".to_string(),
        Err(fault) => format!("{} at byte {}", fault.reason.number(), fault.place),
    }
}

/// Damaged copies of a store, for the program's own test: so many, and every one-bit change of it.
pub fn damaged(bytes: &[u8], seed: u64, count: u64) -> Vec<Vec<u8>> {
    let mut stores = Vec::new();
    for at in 0..bytes.len() {
        let mut other = bytes.to_vec();
        other[at] ^= 1 << (number(&[at as u8]) % 8);
        stores.push(other);
    }
    for case in 0..count {
        let mut r = Random::new(seed, case);
        let mut other = bytes.to_vec();
        for _ in 0..1 + r.below(2) {
            damage(&mut r, &mut other);
        }
        stores.push(other);
    }
    stores
}
