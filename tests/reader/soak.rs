//! The soak: drains, drains with a table, walks, values, stores of settings, damaged real rings and printed images, until the time is up.
//!
//! Each case depends on the seed and its number alone. The first difference ends the soak and says how
//! to run that case again.

use crate::drains::{self, compare_check, compare_drain, Difference};
use crate::images;
use crate::made::*;
use crate::ones;
use crate::ring::Image;
use crate::judged;
use crate::stores;
use crate::tables;
use crate::tally::Tally;
use crate::values;
use crate::walks;
use crate::words::FIELDS;
use std::panic::{catch_unwind, AssertUnwindSafe};
use std::path::Path;
use std::time::{Duration, Instant};

/// Cases of each kind in one round, before the clock is looked at again.
const DRAINS: u64 = 1000;
const TABLES: u64 = 500;
const WALKS: u64 = 500;
const VALUES: u64 = 500;
const STORES: u64 = 200;
const DAMAGED: u64 = 100;
const PRINTED: u64 = 5;

/// The records of an image from tail to head, each with its own tail count.
pub type Records = Vec<(u64, Vec<u8>)>;

/// A real ring with damage: to records, to single bytes, to the attributes, to head and tail.
pub fn damaged_case(
    rings: &[(Image, Records)], seed: u64, number: u64, tally: &mut Tally,
) -> Result<(), Difference> {
    let mut r = Random::new(seed ^ 0xda3a_6ed, number);
    let (image, records) = &rings[r.below(rings.len() as u64) as usize];
    let mut attributes = image.attributes;
    let edition = if r.one_in(4) { some_edition(&mut r) } else { image.edition };
    match r.below(11) {
        0 => attributes = some_attributes(&mut r, edition),
        1 => attributes.sample_type ^= 1 << r.below(25),
        2 => attributes.read_format ^= 1 << r.below(5),
        3 => attributes.user_mask ^= r.next() & r.next() & r.next(),
        4 => attributes.sample_id_all ^= 1,
        5 => attributes.branch_sample_type ^= 1 << r.pick(&[0, 16, 17, 17, 18, 19, 63]),
        _ => {}
    }
    // Laid again from another tail, so that another record crosses the end.
    let tail = if r.one_in(2) { image.tail } else { some_tail(&mut r) };
    let length = image.ring.len();
    let mut ring = image.ring.clone();
    let mut at = 0;
    let damage = 1 + r.below(12);
    for (_, record) in records {
        let mut record = record.clone();
        if r.one_in(damage) {
            damage_body(&mut r, &mut record, &attributes);
        }
        if r.one_in(200) {
            damage_size(&mut r, &mut record);
        }
        if at + record.len() > length {
            break;
        }
        put(&mut ring, tail.wrapping_add(at as u64), &record);
        at += record.len();
        if r.one_in(20) {
            compare_check(&record, &attributes, edition, &mut r, tally)?;
            let _value = values::compare_read(&record, &attributes, edition, FIELDS, &mut r, tally)?;
        }
    }
    for _ in 0..r.below(4) {
        let byte = r.below(length as u64) as usize;
        ring[byte] = r.next() as u8;
    }
    let mut case = DrainCase {
        head: tail.wrapping_add(at as u64),
        tail,
        attributes,
        edition,
        budget: if r.one_in(8) { r.below(100) } else { u64::MAX },
        scratch: if r.one_in(8) { r.below(200) as usize } else { length },
        journal: if r.one_in(8) { r.below(1000) as usize } else { 2 * length + 16 },
        ring,
    };
    if r.one_in(10) {
        damage_counts(&mut r, &mut case);
    }
    compare_drain(&case, &mut r, tally)?;
    ones::compare_one(&case, FIELDS, &mut r, tally)?;
    Ok(())
}

/// What has been tried so far.
#[derive(Default)]
struct Done {
    drains: u64,
    tables: u64,
    walks: u64,
    values: u64,
    stores: u64,
    damaged: u64,
    printed: u64,
}

impl Done {
    fn text(&self, seed: u64, since: Instant) -> String {
        let seconds = since.elapsed().as_secs();
        format!(
            "soak: {} min {:02} s, seed {seed}: {} drains, {} with a table, {} walks, {} values, {} stores, {} damaged real rings, {} images printed",
            seconds / 60,
            seconds % 60,
            self.drains,
            self.tables,
            self.walks,
            self.values,
            self.stores,
            self.damaged,
            self.printed
        )
    }
}

/// A panic of the test itself is a difference too: it must name its case.
fn caught(one: impl FnOnce() -> Result<(), Difference>) -> Result<(), Difference> {
    catch_unwind(AssertUnwindSafe(one)).unwrap_or_else(|_| Err("the test itself panicked, see above".to_string()))
}

fn again(kind: &str, seed: u64, number: u64, more: &str, difference: Difference) -> String {
    format!(
        "seed {seed}, {kind} case {number}: {difference}\nrun it again: reader {kind} --seed {seed} --from {number} --count 1{more}"
    )
}

pub fn run(
    program: &mut images::Program, rings: &[(Image, Records)], folder: &Path, seed: u64, minutes: u64,
) -> Result<(), String> {
    let start = Instant::now();
    let end = start + Duration::from_secs(60 * minutes);
    let mut told = start;
    let mut done = Done::default();
    let mut tally = Tally::default();
    let more = format!(" --rings {}", folder.display());
    while Instant::now() < end {
        for number in done.drains..done.drains + DRAINS {
            caught(|| drains::one_case(seed, number, &mut tally)).map_err(|d| again("drains", seed, number, "", d))?;
        }
        done.drains += DRAINS;
        for number in done.tables..done.tables + TABLES {
            caught(|| tables::one_case(seed, number, &mut tally)).map_err(|d| again("tables", seed, number, "", d))?;
        }
        for number in done.tables..done.tables + TABLES {
            caught(|| judged::one_case(seed, number, &mut tally)).map_err(|d| again("judged", seed, number, "", d))?;
        }
        done.tables += TABLES;
        for number in done.walks..done.walks + WALKS {
            caught(|| walks::one_case(seed, number, &mut tally)).map_err(|d| again("walks", seed, number, "", d))?;
        }
        done.walks += WALKS;
        for number in done.values..done.values + VALUES {
            caught(|| values::one_case(seed, number, &mut tally)).map_err(|d| again("values", seed, number, "", d))?;
        }
        done.values += VALUES;
        for number in done.stores..done.stores + STORES {
            caught(|| stores::one_case(seed, number, &mut tally)).map_err(|d| again("stores", seed, number, "", d))?;
        }
        done.stores += STORES;
        for number in done.damaged..done.damaged + DAMAGED {
            caught(|| damaged_case(rings, seed, number, &mut tally))
                .map_err(|d| again("damaged", seed, number, &more, d))?;
        }
        done.damaged += DAMAGED;
        for number in done.printed..done.printed + PRINTED {
            images::one_image(program, seed ^ 0x1a6e, number)?;
        }
        done.printed += PRINTED;
        if told.elapsed() >= Duration::from_secs(10) {
            told = Instant::now();
            println!("{}", done.text(seed, start));
        }
    }
    tally.print_records();
    tally.print_accepted();
    for call in ["drain", "drain with a table", "walk", "walk with a table", "check", "check with a table", "name copy", "read", "read with a table", "write", "read store", "write store"] {
        tally.print_answers(call);
    }
    println!("{}; no difference", done.text(seed, start));
    Ok(())
}
