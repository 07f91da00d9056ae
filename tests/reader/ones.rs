//! The reader of one record: libollskuvan.a against the independent reader, with guards around every slice.

use crate::abi;
use crate::drains::{describe, describe_table, table_words, Difference};
use crate::guard::*;
use crate::made::*;
use crate::record;
use crate::ring::{self, One, Ring};
use crate::rules::Attributes;
use crate::tally::Tally;
use crate::words::FIELDS;

pub fn compare_one(case: &DrainCase, length: usize, r: &mut Random, tally: &mut Tally) -> Result<One, Difference> {
    compare_one_with(case, None, length, r, tally)
}

/// One call by both at the case's tail; what is told, and every byte and word that is lent, is compared.
pub fn compare_one_with(
    case: &DrainCase, table: ring::Table, length: usize, r: &mut Random, tally: &mut Tally,
) -> Result<One, Difference> {
    let mut scratch = vec![0; case.scratch];
    r.fill(&mut scratch);
    let mut words: Vec<u64> = (0..length).map(|_| r.next()).collect();
    let shift = r.below(8) as usize;
    let lent_ring = Guarded::new(&case.ring, shift);
    let mut lent_scratch = Guarded::new(&scratch, shift / 2);
    let mut lent_words = GuardedWords::new(&words);
    let lent_table = GuardedWords::new(&table_words(table));
    let theirs = if table.is_some() {
        abi::read_one_events(
            lent_ring.slice(),
            case.head,
            case.tail,
            lent_table.slice(),
            case.edition,
            lent_scratch.slice_mut(),
            lent_words.slice_mut(),
        )
    } else {
        abi::read_one(
            lent_ring.slice(),
            case.head,
            case.tail,
            &case.attributes,
            case.edition,
            lent_scratch.slice_mut(),
            lent_words.slice_mut(),
        )
    };
    let ring = Ring { bytes: &case.ring, head: case.head, edition: case.edition, attributes: case.attributes };
    let ours = ring::read_one(&ring, case.tail, table, &mut scratch, &mut words);

    let mut wrong = Vec::new();
    if theirs != ours {
        wrong.push(format!("library {theirs:?}, independent {ours:?}"));
    }
    if let Some(word) = first_difference(lent_words.slice(), &words) {
        wrong.push(format!("word {word}: library {:#x}, independent {:#x}", lent_words.slice()[word], words[word]));
    }
    if let Some(at) = first_difference(lent_scratch.slice(), &scratch) {
        wrong.push(format!("scratch from byte {at}: library {}", hex(lent_scratch.slice())));
    }
    if lent_ring.slice() != case.ring {
        wrong.push("the ring was written to".to_string());
    }
    if lent_table.slice() != table_words(table) || !lent_table.intact() {
        wrong.push("the table, or words around it, were written to".to_string());
    }
    if !lent_ring.intact() || !lent_scratch.intact() || !lent_words.intact() {
        wrong.push("bytes or words around a slice were written to".to_string());
    }
    if !wrong.is_empty() {
        let wrong = wrong.join("\n");
        return Err(format!("read one differs, {length} words\n{}\n{}{wrong}", describe(case), describe_table(table)));
    }
    count(&ours, tally);
    Ok(ours)
}

/// Stops and answers are counted apart, and how often a record lay in the scratch.
fn count(one: &One, tally: &mut Tally) {
    if one.size == 0 {
        tally.answer("read one: stop", one.stop);
    } else {
        tally.answer("read one", one.answer);
        tally.answer("read one: in scratch", one.in_scratch);
    }
}

pub fn some_length(r: &mut Random) -> usize {
    match r.below(6) {
        0 => r.pick(&[0, 1, 3, 54, FIELDS - 1]),
        1 => FIELDS + 1 + r.below(4) as usize,
        _ => FIELDS,
    }
}

/// One case: from tail to tail through a ring, as far as it goes, beside the same ring's drain.
pub fn one_case(seed: u64, number: u64, tally: &mut Tally) -> Result<(), Difference> {
    let mut r = Random::new(seed ^ 0x0e0_4e5, number);
    let mut case = drain_case(&mut r);
    let mut journal = vec![0; 16 * (case.ring.len() / 8 + 1)];
    let ring = Ring { bytes: &case.ring, head: case.head, edition: case.edition, attributes: case.attributes };
    let drained = ring::drain(&ring, case.tail, 8, &mut vec![0; case.scratch], &mut journal);
    for entry in journal.chunks(16).take(drained.taken as usize) {
        let one = compare_one(&case, FIELDS, &mut r, tally)?;
        if one.size == 0 || one.answer != u32::from(record::le16(entry, 6)) || case.tail != record::number(&entry[8..16]) {
            return Err(format!("read one gives another record than the journal: {one:?}\n{}", describe(&case)));
        }
        let length = some_length(&mut r);
        compare_one(&case, length, &mut r, tally)?;
        case.tail = one.tail;
    }
    let length = some_length(&mut r);
    compare_one(&case, length, &mut r, tally)?;
    Ok(())
}

/// A LOST and a COMM at every place of a ring of 64 bytes, with a scratch that is one byte short, just enough and more,
/// and 0, 55, 56 and 57 words: what is due is said here, by hand.
pub fn every_place(tally: &mut Tally) -> Result<u64, Difference> {
    let mut r = Random::new(0x91ace, 0);
    let mut cases = 0;
    for (kind, accepted) in [(2u8, true), (3, false)] {
        for place in (0..64u64).step_by(8) {
            for (scratch, length) in [(23, 56), (24, 0), (24, 55), (24, 56), (64, 57)] {
                let mut record = vec![kind, 0, 0, 0, 0, 0, 24, 0];
                record.extend([b'x'; 16]);
                let tail = 0u64.wrapping_sub(64).wrapping_add(place);
                let mut ring = vec![0xee; 64];
                put(&mut ring, tail, &record);
                let case = DrainCase {
                    ring,
                    head: tail.wrapping_add(24),
                    tail,
                    attributes: Attributes::EMPTY,
                    edition: 3,
                    budget: 1,
                    scratch,
                    journal: 16,
                };
                let one = compare_one(&case, length, &mut r, tally)?;
                let crosses = place + 24 > 64;
                let due = if crosses && scratch < 24 {
                    One { tail, stop: 3, ..One::default() }
                } else {
                    One {
                        place: if crosses { 0 } else { place },
                        size: 24,
                        tail: case.head,
                        in_scratch: u32::from(crosses),
                        answer: if !accepted { 33 } else if length < FIELDS { 40 } else { 0 },
                        ..One::default()
                    }
                };
                if one != due {
                    return Err(format!("{one:?} where {due:?} is due\n{}", describe(&case)));
                }
                cases += 1;
            }
        }
    }
    Ok(cases)
}

/// Each record of a real ring, from tail to head.
pub fn real_ring(name: &str, image: &ring::Image, tally: &mut Tally) -> Result<(), Difference> {
    let mut r = Random::new(0x5ea2, name.len() as u64);
    let mut case = DrainCase {
        ring: image.ring.clone(),
        head: image.head,
        tail: image.tail,
        attributes: image.attributes,
        edition: image.edition,
        budget: 1,
        scratch: 65_528,
        journal: 16,
    };
    while case.tail != case.head {
        let one = compare_one(&case, FIELDS, &mut r, tally).map_err(|d| format!("{name}: {d}"))?;
        if one.answer != 0 || one.size == 0 {
            return Err(format!("{name}: at tail {}: {one:?}", case.tail));
        }
        case.tail = one.tail;
    }
    Ok(())
}

pub const MUST: &[(&str, &[u32])] = &[
    ("read one: stop", &[0, 1, 2, 3, 4, 5, 6, 7]),
    ("read one", &[0, 20, 21, 22, 23, 24, 25, 30, 31, 32, 33, 40]),
    ("read one: in scratch", &[0, 1]),
];
