//! The seeded generator of stores (document 02, M-103, M-112): settings, sound and not, and damage to their bytes.

use crate::events::Event;
use crate::made::{some_edition, Random};
use crate::record::{le16, le32};
use crate::store::{self, Settings, Version, EVENT, HEAD, REST, VERSION, VERSIONS};

fn some_word(r: &mut Random) -> u64 {
    match r.below(5) {
        0 => 0,
        1 => u64::MAX,
        2 => 1 << r.below(64),
        3 => r.below(300),
        _ => r.next(),
    }
}

fn some_event(r: &mut Random) -> Event {
    Event {
        identifier: if r.one_in(3) { r.below(40) } else { some_word(r) },
        sample_type: some_word(r) | 1 << 16,
        read_format: some_word(r),
        user_mask: some_word(r),
        interrupt_mask: some_word(r),
        branch_sample_type: some_word(r),
        sample_id_all: r.pick(&[1, 1, 1, 2, 1 << 32, u64::MAX]),
    }
}

pub fn some_stored_length(r: &mut Random) -> u64 {
    match r.below(12) {
        0 => r.pick(&[0, 1, 8, 32, 63, 65, 96, 127, 4095, 1 << 21, 1 << 32, 1 << 63, (1 << 32) + 64, u64::MAX]),
        1 => r.next(),
        _ => 64 << r.below(15),
    }
}

fn some_event_count(r: &mut Random, most: usize) -> usize {
    match r.below(80) {
        0 => 0,
        1 => most,
        2 => most + 1,
        3 | 4 => r.pick(&[31, 32, 33, 64, 255, 256, 257, 258, 300]),
        5 => 1 + r.below(most as u64) as usize,
        6..=9 => 1 + r.below(40) as usize,
        _ => 1 + r.below(4) as usize,
    }
}

/// Mostly such as can be stored in this version; at times one thing in them, or two, cannot.
pub fn some_settings(r: &mut Random, version: &Version) -> Settings {
    let count = some_event_count(r, version.most);
    let mut events: Vec<Event> = Vec::new();
    let start = r.next();
    while events.len() < count {
        let mut event = some_event(r);
        if count > 8 {
            event.identifier = start.wrapping_add(events.len() as u64);
        }
        if count > 8 || events.iter().all(|v| v.identifier != event.identifier) {
            events.push(event);
        }
    }
    if count > 0 && r.one_in(10) {
        let (at, other) = (r.below(count as u64) as usize, r.below(count as u64) as usize);
        match r.below(4) {
            0 => events[at].sample_type &= !(1 << 16),
            1 => events[at].sample_id_all = 0,
            _ => events[at].identifier = events[other].identifier,
        }
    }
    Settings { events, ring_length: some_stored_length(r), edition: some_edition(r), budget: some_word(r) as u32 }
}

/// Where the entries begin, as far as their lengths lead; the last is what is left.
fn places(bytes: &[u8]) -> Vec<usize> {
    let mut places = vec![0];
    let mut at = 0;
    while bytes.len() - at >= HEAD {
        let length = le32(bytes, at) as usize;
        if length < HEAD || length >= bytes.len() - at {
            break;
        }
        at += length;
        places.push(at);
    }
    places
}

fn length_at(bytes: &[u8], at: usize) -> usize {
    let rest = bytes.len() - at;
    if rest < 4 { rest } else { (le32(bytes, at) as usize).min(rest) }
}

/// The place of an entry of this kind, or of any.
fn place_of(r: &mut Random, bytes: &[u8], kind: u16) -> usize {
    let places: Vec<usize> = places(bytes).into_iter().filter(|at| bytes.len() - at >= HEAD).collect();
    let own: Vec<usize> = places.iter().copied().filter(|at| le16(bytes, at + 4) == kind).collect();
    match (own.is_empty(), places.is_empty()) {
        (false, _) => r.pick(&own),
        (_, false) => r.pick(&places),
        _ => 0,
    }
}

fn put(bytes: &mut [u8], at: usize, number: u64, count: usize) {
    for i in 0..count {
        if let Some(byte) = bytes.get_mut(at + i) {
            *byte = (number >> (8 * i)) as u8;
        }
    }
}

fn damage_length(r: &mut Random, bytes: &mut [u8], at: usize) {
    let (own, left) = (length_at(bytes, at) as u64, (bytes.len() - at) as u64);
    let lengths = [
        0, 4, 5, 6, 7, 8, 9, 18, 19, 20, 54, 55, 56, 57, own + 1, own.wrapping_sub(1), left, left + 1, own + 65_536,
        own + (1 << 24), 1 << 31, u64::from(u32::MAX),
    ];
    let length = r.pick(&lengths);
    put(bytes, at, length, 4);
}

/// A body that is longer or shorter, and a length that says so.
fn damage_body(r: &mut Random, bytes: &mut Vec<u8>, at: usize) {
    let own = length_at(bytes, at);
    if own < HEAD {
        return;
    }
    if r.one_in(2) {
        let more = 1 + r.below(2) as usize;
        for _ in 0..more {
            bytes.insert(at + HEAD, r.pick(&[0, 0, 1, 255]));
        }
        put(bytes, at, (own + more) as u64, 4);
    } else if own > HEAD {
        bytes.remove(at + HEAD);
        put(bytes, at, own as u64 - 1, 4);
    }
}

/// Entries in another order, twice, or left out.
fn damage_order(r: &mut Random, bytes: &mut Vec<u8>) {
    let places = places(bytes);
    let mut entries: Vec<Vec<u8>> = places.iter().map(|at| bytes[*at..*at + length_at(bytes, *at)].to_vec()).collect();
    let end = places.last().map_or(0, |at| at + length_at(bytes, *at));
    let rest = bytes.split_off(end);
    let (one, other) = (r.below(entries.len() as u64) as usize, r.below(entries.len() as u64) as usize);
    match r.below(4) {
        0 => entries.swap(one, other),
        1 => entries.insert(one, entries[other].clone()),
        2 => entries.push(entries[one].clone()),
        _ => {
            entries.remove(one);
        }
    }
    *bytes = [entries.concat(), rest].concat();
}

fn damage_field(r: &mut Random, bytes: &mut [u8], version: &Version) {
    let row = place_of(r, bytes, EVENT) + HEAD;
    let words = row + version.index;
    match r.below(5) {
        0 => {
            let any = r.below(256);
            let index = r.pick(&[0, 1, 2, 31, 32, 33, 255, 256, 257, 1023, 1024, 65_535, any, 256 * any]);
            put(bytes, row, index, version.index);
        }
        1 => {
            let other = place_of(r, bytes, EVENT) + HEAD + version.index;
            for i in 0..8 {
                if let Some(byte) = bytes.get(other + i).copied() {
                    put(bytes, words + i, u64::from(byte), 1);
                }
            }
        }
        2 => {
            if let Some(byte) = bytes.get_mut(words + 10) {
                *byte &= !1; // sample bit 16
            }
        }
        3 => {
            let (at, length) = (place_of(r, bytes, REST) + HEAD, some_stored_length(r));
            put(bytes, at, length, 8);
        }
        _ => {
            let at = place_of(r, bytes, REST) + HEAD + 8;
            let edition = r.pick(&[0, 1, 2, 3, 4, 5, 6, 128, 255]);
            put(bytes, at, edition, 1);
        }
    }
}

/// One thing wrong with the bytes, or nothing, by chance.
pub fn damage(r: &mut Random, bytes: &mut Vec<u8>) {
    let length = bytes.len() as u64;
    if length == 0 {
        return;
    }
    let at = r.below(length) as usize;
    let any = r.pick(&places(bytes));
    match r.below(12) {
        0 => bytes[at] = r.next() as u8,
        1 => bytes[at] ^= 1 << r.below(8),
        2 => bytes.truncate(at),
        3 => {
            let more = 1 + r.below(30);
            for _ in 0..more {
                let any = r.next() as u8;
                bytes.push(r.pick(&[0, 0, 1, 2, 3, 6, 8, 19, 55, 56, any]));
            }
        }
        4 | 5 => damage_order(r, bytes),
        6 => damage_length(r, bytes, any),
        7 => {
            let kind = r.pick(&[0, 1, 2, 3, 4, 16, 17, 32, 256, 257, 258, 259, 0x300, 65_535]);
            put(bytes, any + 4, kind, 2);
        }
        8 => {
            let (at, version) = (place_of(r, bytes, VERSION), r.pick(&[0, 1, 2, 3, 255, 256, 257, 65_535]));
            put(bytes, at + HEAD, version, 2);
        }
        9 => damage_body(r, bytes, any),
        _ => {
            let shown = VERSIONS.iter().find(|version| bytes.get(6) == Some(&(version.number as u8)));
            damage_field(r, bytes, shown.unwrap_or(&VERSIONS[0]));
        }
    }
}

/// The bytes of a store, sound or damaged, mostly near one that reads.
pub fn some_store(r: &mut Random) -> Vec<u8> {
    if r.one_in(30) {
        let mut bytes = vec![0; r.below(60) as usize];
        r.fill(&mut bytes);
        return bytes;
    }
    let version = &VERSIONS[r.below(VERSIONS.len() as u64) as usize];
    let settings = some_settings(r, version);
    let mut bytes = store::bytes_of(&settings, version);
    for _ in 0..r.pick(&[0, 0, 1, 1, 1, 1, 2, 3]) {
        damage(r, &mut bytes);
    }
    bytes
}
