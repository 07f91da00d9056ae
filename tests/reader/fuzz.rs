//! The input of the fuzz target (tests/fuzz/target.c): its layout, seeds made of real rings and of the
//! generator's records, and mutations that know what a record is.
//!
//! An input is a control block, the branch sample type, then what the program ringdump takes: head, tail, the
//! other attributes and the ring's bytes. `LAID` in the flags says that the bytes are records, laid into a ring from the
//! tail on; otherwise they are the ring as it is. The target's calls on records take them as one record; the
//! call with a table takes the first of them as events, that on stores too, and the others as a store.

#![allow(dead_code)] // the program makes the seeds, the archive the mutations

use crate::events::{Event, WORDS};
use crate::made::*;
use crate::made_stores::{damage, some_store, some_stored_length};
use crate::record::{le16, le32, number};
use crate::ring::Image;
use crate::rules::{edition, Attributes};

pub const CONTROL: usize = 48;
const BRANCH: usize = 8;
const HEADER: usize = 50;
/// What stands before the ring's bytes.
const BEFORE: usize = CONTROL + BRANCH + HEADER;

// The bytes of the control block that are set here; target.c has the whole list.
const CALL: usize = 0;
const FLAGS: usize = 1;
const LENGTH: usize = 2;
const PATCHES: usize = 12;
const NAME_ROOM: usize = 15;
const EVENTS: usize = 46;
const GIVEN: usize = 47;

const DRAIN: u8 = 0;
const PROGRAM: u8 = 1;
const RECORD: u8 = 2;
const WRITE: u8 = 3;
const TABLED: u8 = 4;
const STORE: u8 = 5;
const CALLS: u8 = 6;

// Flags.
const LAID: u8 = 1;
const PLACE_NEAR: u8 = 4;
const FALSE_EDITION: u8 = 8;
const FLAG_KEPT: u8 = 128;

struct Input {
    control: [u8; CONTROL],
    image: Image,
    events: Vec<Event>,
}

impl Input {
    /// Anything is an input: what is missing is zero.
    fn parse(bytes: &[u8]) -> Input {
        let mut whole = bytes.to_vec();
        if whole.len() < BEFORE {
            whole.resize(BEFORE, 0);
        }
        let (control, rest) = whole.split_at(CONTROL);
        let (branch, rest) = rest.split_at(BRANCH);
        let mut image = Image::parse(rest).unwrap();
        image.attributes.branch_sample_type = number(branch);
        let mut events = Vec::new();
        if has_table(control[CALL]) {
            let given = if control[GIVEN] != 0 { control[GIVEN] } else { control[EVENTS] };
            let count = usize::from(given % 40).min(image.ring.len() / (8 * WORDS));
            let ring = image.ring.split_off(8 * WORDS * count);
            let words: Vec<u64> = image.ring.chunks(8).map(number).collect();
            events = words.chunks(WORDS).map(Event::of_words).collect();
            image.ring = ring;
        }
        Input { control: control.try_into().unwrap(), image, events }
    }

    fn bytes(&self) -> Vec<u8> {
        let mut control = self.control;
        let mut image = self.image.clone();
        if has_table(self.call()) {
            let at = if control[GIVEN] != 0 && !self.events.is_empty() { GIVEN } else { EVENTS };
            control[at] = self.events.len() as u8;
            let words = self.events.iter().flat_map(Event::words).flat_map(u64::to_le_bytes);
            image.ring = words.chain(image.ring).collect();
        }
        let branch = image.attributes.branch_sample_type.to_le_bytes();
        [&control[..], &branch, &image.bytes()].concat()
    }

    fn call(&self) -> u8 {
        self.control[CALL] % CALLS
    }

    fn laid(&self) -> bool {
        (self.call() < RECORD || self.call() == TABLED) && self.control[FLAGS] & LAID != 0
    }

    /// What records are made with: the attributes, or those of one of the events.
    fn some_attributes(&self, r: &mut Random) -> (Option<u64>, Attributes) {
        if self.events.is_empty() {
            return (None, self.image.attributes);
        }
        let event = self.events[r.below(self.events.len() as u64) as usize];
        (Some(event.identifier), event.attributes())
    }

    fn records(&self) -> Vec<Vec<u8>> {
        cut(&self.image.ring)
    }
}

fn has_table(call: u8) -> bool {
    call % CALLS == TABLED || call % CALLS == STORE
}

/// The bytes cut into records by their sizes; what is left, or a bad size, is a last piece.
fn cut(bytes: &[u8]) -> Vec<Vec<u8>> {
    let mut records = Vec::new();
    let mut at = 0;
    while at + 8 <= bytes.len() {
        let size = usize::from(le16(bytes, at + 6));
        if size < 8 || at + size > bytes.len() {
            break;
        }
        records.push(bytes[at..at + size].to_vec());
        at += size;
    }
    if at < bytes.len() {
        records.push(bytes[at..].to_vec());
    }
    records
}

/// The least ring that holds so many bytes, as a power of two above 64.
fn length_for(bytes: usize) -> u8 {
    bytes.max(64).next_power_of_two().trailing_zeros() as u8 - 6
}

/// One mutation: the attributes, the records, or the control block. At most `most` bytes come back.
pub fn mutated(bytes: &[u8], most: usize, seed: u64) -> Vec<u8> {
    let mut r = Random::new(seed, bytes.len() as u64);
    let mut input = Input::parse(bytes);
    if !r.one_in(4) {
        mend(&mut r, &mut input);
    }
    for _ in 0..1 + r.below(3) {
        match r.below(12) {
            4 | 5 if has_table(input.call()) => mutate_events(&mut r, &mut input),
            6..=11 if input.call() == STORE => mutate_store(&mut r, &mut input),
            0 => mutate_control(&mut r, &mut input.control),
            1 => mutate_attributes(&mut r, &mut input.image),
            2 => input.image.tail = some_tail(&mut r),
            3 => *input.image_words(&mut r) = r.next() >> r.below(64),
            _ if input.laid() => mutate_records(&mut r, &mut input, most),
            _ if input.call() == RECORD || input.call() == WRITE => mutate_record(&mut r, &mut input, most),
            _ => mutate_bytes(&mut r, &mut input.image.ring),
        }
    }
    let mut bytes = input.bytes();
    bytes.truncate(most);
    bytes
}

/// An edition that is refused hides all that comes after it: mostly give it one that is not.
fn mend(r: &mut Random, input: &mut Input) {
    input.control[FLAGS] &= !FALSE_EDITION;
    if edition(input.image.edition).is_none() {
        input.image.edition = r.pick(&[1, 2, 3, 4]);
    }
    if input.call() == RECORD && r.one_in(2) {
        input.control[FLAGS] |= PLACE_NEAR;
    }
    mend_events(r, input);
}

/// A table that is refused hides all that comes after it, too; so does edition 1.
fn mend_events(r: &mut Random, input: &mut Input) {
    input.events.truncate(32);
    for at in 0..input.events.len() {
        let (before, event) = input.events.split_at_mut(at);
        event[0].sample_type |= 1 << 16;
        event[0].sample_id_all |= 1;
        while before.iter().any(|v| v.identifier == event[0].identifier) {
            event[0].identifier = r.below(100);
        }
    }
    if input.call() == TABLED && input.image.edition == 1 {
        input.image.edition = r.pick(&[3, 4]);
    }
}

/// The bytes that are read as a store: damaged, or others; and the ring length that is written.
fn mutate_store(r: &mut Random, input: &mut Input) {
    match r.below(8) {
        0 | 1 => input.image.ring = some_store(r),
        2 => {
            input.control[FLAGS] ^= LAID;
            input.image.head = some_stored_length(r);
        }
        _ => damage(r, &mut input.image.ring),
    }
}

/// One event more or less, another identifier, other attributes, or a bit of a word.
fn mutate_events(r: &mut Random, input: &mut Input) {
    let count = input.events.len() as u64;
    if count == 0 || (count < 36 && r.one_in(4)) {
        let mut a = some_attributes(r, input.image.edition);
        a.sample_type |= 1 << 16;
        a.sample_id_all = 1;
        input.events.push(Event::new(r.below(40), &a));
        return;
    }
    if r.one_in(8) {
        input.control[GIVEN] = r.pick(&[0, 1]);
        // from 200 on: the target's own choice of many, about 32, 256 and 1,024
        let many = 200 + r.below(16) as u8;
        input.control[EVENTS] = r.pick(&[2, 11, 31, 32, 33, 34, 39, many, many]);
        return;
    }
    let at = r.below(count) as usize;
    let event = &mut input.events[at];
    match r.below(7) {
        0 => event.identifier = r.next() >> r.below(64),
        6 => event.branch_sample_type ^= 1 << r.pick(&[17, 17, 18, 19]),
        1 => event.sample_type ^= 1 << r.below(26),
        2 => event.read_format ^= 1 << r.below(5),
        3 => {
            let mut words = event.words();
            words[r.below(WORDS as u64) as usize] ^= 1 << r.below(64);
            *event = Event::of_words(&words);
        }
        4 => {
            input.events.remove(at);
        }
        _ if count < 39 => {
            let twin = *event;
            input.events.push(twin);
        }
        _ => event.sample_id_all = 0,
    }
}

/// Writes the identifier where it stands.
fn put_identifier(record: &mut [u8], identifier: Option<u64>) {
    let length = record.len();
    if let (Some(identifier), true) = (identifier, length >= 16) {
        let at = if le32(record, 0) == 9 { 8 } else { length - 8 };
        record[at..at + 8].copy_from_slice(&identifier.to_le_bytes());
    }
}

impl Input {
    fn image_words(&mut self, r: &mut Random) -> &mut u64 {
        match r.below(4) {
            0 => &mut self.image.head,
            1 => &mut self.image.tail,
            2 => &mut self.image.attributes.user_mask,
            _ => &mut self.image.attributes.interrupt_mask,
        }
    }
}

fn mutate_control(r: &mut Random, control: &mut [u8; CONTROL]) {
    let at = match r.below(3) {
        0 => r.below(CONTROL as u64) as usize,
        _ => r.below(16) as usize,
    };
    control[at] = match r.below(4) {
        0 => 0,
        1 => control[at] ^ 1 << r.below(8),
        2 => r.below(8) as u8,
        _ => r.next() as u8,
    };
}

fn mutate_attributes(r: &mut Random, image: &mut Image) {
    let a = &mut image.attributes;
    match r.below(10) {
        0 => image.edition = r.pick(&[1, 2, 3, 4]),
        1 => image.edition = some_edition(r) & 0xff,
        2 => a.sample_type ^= 1 << r.below(26),
        3 => a.sample_type ^= 1 << r.below(64),
        4 => a.read_format ^= 1 << r.below(6),
        5 => a.sample_id_all ^= 1,
        6 => a.user_mask ^= 1 << r.below(64),
        7 => a.branch_sample_type ^= 1 << r.pick(&[17, 17, 18, 19]),
        8 => a.branch_sample_type ^= 1 << r.below(64),
        _ => *a = some_attributes(r, image.edition),
    }
}

/// Replace, insert, damage, double, drop or swap records of a laid ring.
fn mutate_records(r: &mut Random, input: &mut Input, most: usize) {
    let mut records = input.records();
    let edition = input.image.edition;
    let (identifier, a) = input.some_attributes(r);
    let room = most.saturating_sub(BEFORE).clamp(8, 8 * (1 + r.below(80)) as usize);
    let at = r.below(records.len() as u64 + 1) as usize;
    if at == records.len() || r.one_in(5) {
        records.insert(at, fitting_record(r, edition, &a, room));
        put_identifier(&mut records[at], identifier);
    } else {
        match r.below(8) {
            0 => {
                records[at] = fitting_record(r, edition, &a, room);
                put_identifier(&mut records[at], identifier);
            }
            1 if records[at].len() >= 8 => damage_size(r, &mut records[at]),
            2 => records.insert(at, records[at].clone()),
            3 => {
                records.remove(at);
            }
            4 => {
                let other = r.below(records.len() as u64) as usize;
                records.swap(at, other);
            }
            _ if records[at].len() >= 8 => damage_body(r, &mut records[at], &a),
            _ => mutate_bytes(r, &mut records[at]),
        }
    }
    input.image.ring = records.concat();
    if r.one_in(2) {
        input.control[LENGTH] = length_for(input.image.ring.len());
    }
}

/// The one record of the calls on records.
fn mutate_record(r: &mut Random, input: &mut Input, most: usize) {
    let room = most.saturating_sub(BEFORE).clamp(8, 8 * (1 + r.below(80)) as usize);
    let (edition, a) = (input.image.edition, input.image.attributes);
    let record = &mut input.image.ring;
    if record.len() < 8 || record.len() % 8 != 0 || r.one_in(4) {
        *record = fitting_record(r, edition, &a, room);
    } else {
        damage_body(r, record, &a);
    }
}

fn mutate_bytes(r: &mut Random, bytes: &mut [u8]) {
    if bytes.is_empty() {
        return;
    }
    let at = r.below(bytes.len() as u64) as usize;
    bytes[at] = match r.below(3) {
        0 => 0,
        1 => bytes[at] ^ 1 << r.below(8),
        _ => r.next() as u8,
    };
}

/// The seeds, each with a name: from real rings by their names, and `count` generated ones.
pub fn seeds(rings: &[(String, Vec<u8>)], seed: u64, count: u64) -> Vec<(String, Vec<u8>)> {
    let mut seeds = Vec::new();
    for (name, bytes) in rings {
        let image = match Image::parse(bytes) {
            Some(image) => image,
            None => continue,
        };
        let name = name.trim_end_matches(".img");
        if image.ring.len() <= 4096 {
            seeds.push((format!("{name}-whole"), input(PROGRAM, 0, image.clone())));
        }
        let mut kinds = Vec::new();
        let records = in_order(&image);
        for pieces in records.chunks(6).take(3) {
            let few = Image { tail: image.tail % 4096, ring: pieces.concat(), ..image.clone() };
            seeds.push((format!("{name}-{}-laid", seeds.len()), input(DRAIN, LAID, few)));
        }
        for record in records {
            if record.len() <= 1024 && !kinds.contains(&record[0]) {
                kinds.push(record[0]);
                let one = Image { ring: record, ..image.clone() };
                seeds.push((format!("{name}-type-{}", kinds.last().unwrap()), input(RECORD, 0, one.clone())));
                seeds.push((format!("{name}-type-{}-written", kinds.last().unwrap()), input(WRITE, 0, one)));
            }
        }
    }
    for number in 0..count {
        let mut r = Random::new(seed, number);
        let edition = r.pick(&[1, 2, 3, 4]);
        let attributes = some_attributes(&mut r, edition);
        let image = Image { head: 0, tail: some_tail(&mut r), attributes, edition, ring: Vec::new() };
        let call = (number % u64::from(CALLS)) as u8;
        if call == TABLED {
            seeds.push((format!("made-{number}"), tabled_seed(&mut r, image)));
            continue;
        }
        if call == STORE {
            seeds.push((format!("made-{number}"), store_seed(&mut r, image)));
            continue;
        }
        let records = if call < RECORD { 1 + r.below(5) } else { 1 };
        let ring: Vec<u8> = (0..records)
            .flat_map(|_| {
                let room = 8 * (1 + r.below(60)) as usize;
                fitting_record(&mut r, edition, &attributes, room)
            })
            .collect();
        let flags = if call == WRITE && r.one_in(4) { LAID | FLAG_KEPT } else { LAID };
        seeds.push((format!("made-{number}"), input(call, flags, Image { ring, ..image })));
    }
    seeds
}

/// A table of some events and a few records of theirs.
fn tabled_seed(r: &mut Random, image: Image) -> Vec<u8> {
    let edition = r.pick(&[2, 3, 4]);
    let mut input = Input { control: [0; CONTROL], image: Image { edition, ..image }, events: Vec::new() };
    for _ in 0..1 + r.below(4) {
        mutate_events(r, &mut input);
    }
    for _ in 0..1 + r.below(5) {
        let (identifier, a) = input.some_attributes(r);
        let room = 8 * (1 + r.below(40)) as usize;
        let mut record = fitting_record(r, edition, &a, room);
        put_identifier(&mut record, identifier);
        input.image.ring.extend(record);
    }
    input.control[CALL] = TABLED;
    input.control[FLAGS] = LAID;
    input.control[LENGTH] = length_for(input.image.ring.len());
    input.bytes()
}

/// A store, mostly a short one, and a table to be written.
fn store_seed(r: &mut Random, image: Image) -> Vec<u8> {
    let mut input = Input { control: [0; CONTROL], image, events: Vec::new() };
    for _ in 0..1 + r.below(4) {
        mutate_events(r, &mut input);
    }
    while input.image.ring.is_empty() || input.image.ring.len() > 600 {
        input.image.ring = some_store(r);
    }
    input.image.head = some_stored_length(r);
    input.control[CALL] = STORE;
    input.control[FLAGS] = r.pick(&[0, LAID]);
    input.control[LENGTH] = r.below(16) as u8;
    input.bytes()
}

fn input(call: u8, flags: u8, image: Image) -> Vec<u8> {
    let mut control = [0; CONTROL];
    control[CALL] = call;
    control[FLAGS] = if call == RECORD { flags | PLACE_NEAR } else { flags };
    control[LENGTH] = length_for(image.ring.len());
    control[PATCHES] = u8::from(call == WRITE);
    control[NAME_ROOM] = 64;
    Input { control, image, events: Vec::new() }.bytes()
}

/// The records of an image from tail to head, as far as their sizes go.
fn in_order(image: &Image) -> Vec<Vec<u8>> {
    let length = image.ring.len() as u64;
    let left = image.head.wrapping_sub(image.tail).min(length);
    let bytes: Vec<u8> = (0..left).map(|i| image.ring[(image.tail.wrapping_add(i) % length) as usize]).collect();
    cut(&bytes)
}
