//! The seeded generator: attributes, sound records, damage, rings.

use crate::record::{le16, le32, number, Value};
use crate::ring::Image;
use crate::rules::*;
use crate::words::*;
use crate::writer::{all_items, listed};

/// splitmix64: each case has its own start, made of the seed and the case's number.
pub struct Random(u64);

impl Random {
    pub fn new(seed: u64, case: u64) -> Random {
        let mut r = Random(seed ^ case.wrapping_mul(0xd6e8_feb8_6659_fd93));
        r.next();
        r
    }

    pub fn next(&mut self) -> u64 {
        self.0 = self.0.wrapping_add(0x9e37_79b9_7f4a_7c15);
        let mut z = self.0;
        z = (z ^ z >> 30).wrapping_mul(0xbf58_476d_1ce4_e5b9);
        z = (z ^ z >> 27).wrapping_mul(0x94d0_49bb_1331_11eb);
        z ^ z >> 31
    }

    /// 0 to limit - 1
    pub fn below(&mut self, limit: u64) -> u64 {
        self.next() % limit
    }

    /// true once in so many
    pub fn one_in(&mut self, many: u64) -> bool {
        self.below(many) == 0
    }

    pub fn pick<T: Copy>(&mut self, from: &[T]) -> T {
        from[self.below(from.len() as u64) as usize]
    }

    pub fn fill(&mut self, bytes: &mut [u8]) {
        for chunk in bytes.chunks_mut(8) {
            chunk.copy_from_slice(&self.next().to_le_bytes()[..chunk.len()]);
        }
    }

    /// A number of so many bytes, with the edges more often than chance gives them.
    fn number(&mut self, bytes: usize) -> u64 {
        let all = u64::MAX >> (64 - 8 * bytes);
        match self.below(8) {
            0 => 0,
            1 => all,
            2 => self.below(256),
            _ => self.next() & all,
        }
    }
}

pub fn some_edition(r: &mut Random) -> u32 {
    if r.one_in(40) {
        r.pick(&[0, 5, 6, 255, 256, 257, 258, 259, 0x8000_0001, 0x0001_0002, u32::MAX])
    } else {
        r.pick(&[1, 2, 3, 4])
    }
}

fn some_mask(r: &mut Random) -> u64 {
    match r.below(8) {
        0 => 0,
        1 => u64::MAX,
        2 => r.next(),
        3 => 1 << 63,
        4 => 0x00ff_0fff,
        _ => r.next() & r.next() & r.next() & r.next(),
    }
}

fn some_sample_type(r: &mut Random, known: u32) -> u64 {
    let all = (1u64 << (known + 1)) - 1;
    let mut bits = match r.below(10) {
        0 => 0,
        1 => 1 << r.below(25),
        2 => all,
        3 => r.next() & all,
        4 => r.next() & 0x1ff_ffff,
        5 => r.next() & 66_246,
        6 => 1 << r.below(u64::from(known) + 1),
        _ => r.next() & r.next() & all,
    };
    // A SAMPLE with both weights is refused: mostly keep one.
    if !r.one_in(16) {
        bits &= !(1 << r.pick(&[14, 24]));
    }
    if r.one_in(25) {
        bits |= 1 << (25 + r.below(39));
    }
    bits
}

/// Bits 0 to 16 and 18 change nothing; 17 is there often where the edition knows it, at times where it does not.
fn some_branch_type(r: &mut Random, edition_number: u32) -> u64 {
    let mut bits = match r.below(3) {
        0 => 0,
        1 => r.next() & 0x5_ffff,
        _ => 0x5_ffff,
    };
    let known = edition(edition_number).map_or(true, |e| e.hw_index);
    if if known { r.one_in(2) } else { r.one_in(8) } {
        bits |= 1 << 17;
    }
    if r.one_in(25) {
        bits |= 1 << (19 + r.below(45));
    }
    bits
}

pub fn some_attributes(r: &mut Random, edition_number: u32) -> Attributes {
    let known = edition(edition_number).map_or(24, |e| e.last_sample_bit);
    let read = 1 << edition(edition_number).map_or(5, |e| e.last_read_bit + 1);
    let read_format = if r.one_in(25) { r.below(16) | 1 << (4 + r.below(60)) } else { r.below(read) };
    Attributes {
        sample_type: some_sample_type(r, known),
        read_format,
        sample_id_all: if r.one_in(2) { 0 } else { r.pick(&[1, 1, 1, 2, 256, 0x8000_0000, u32::MAX]) },
        user_mask: some_mask(r),
        interrupt_mask: some_mask(r),
        branch_sample_type: some_branch_type(r, edition_number),
    }
}

/// The bytes of an item at the least.
fn least(item: &Item) -> usize {
    match *item {
        Item::Number { bytes, rule: Rule::PlusFour, .. } => bytes + 4,
        Item::Number { bytes, .. } | Item::Ignored { bytes } | Item::Fixed { bytes, .. } => bytes,
        Item::BuildId { .. } => 20,
        Item::Name { .. } => 8,
        Item::Padding => 4,
        Item::List { .. } | Item::Registers { .. } | Item::Filled { .. } => 0,
    }
}

/// How many, of at most so many: mostly few.
fn some_count(r: &mut Random, most: usize) -> usize {
    let most = match r.below(8) {
        0 => most,
        1 => most.min(64),
        _ => most.min(5),
    };
    r.below(most as u64 + 1) as usize
}

/// A sound record of at most `room` bytes, or None if the least one is longer. The ignored bytes
/// are random if `dirty`. The type must be one of 1 to 21; an edition plays no part.
pub fn sound_record(
    r: &mut Random, kind: u64, misc: u64, a: &Attributes, room: usize, dirty: bool,
) -> Option<Vec<u8>> {
    let items = all_items(kind, misc, a);
    let least_size = 8 + items.iter().map(least).sum::<usize>();
    let mut spare = room.min(65_528).checked_sub(least_size)?;
    let chosen = choose_counts(r, &items, &mut spare);

    let mut record = vec![0; 8];
    for item in &items {
        match *item {
            Item::Number { word, bytes, .. } => {
                let n = chosen[word].unwrap_or_else(|| r.number(bytes));
                record.extend(&n.to_le_bytes()[..bytes]);
            }
            Item::Ignored { bytes } => push_ignored(r, &mut record, bytes, dirty),
            Item::List { count, entry, .. } => push_random(r, &mut record, chosen[count].unwrap() as usize * entry),
            Item::Registers { abi, mask, .. } => {
                let ones = if chosen[abi] == Some(0) { 0 } else { mask.count_ones() as usize };
                push_random(r, &mut record, 8 * ones);
            }
            Item::Filled { size, .. } => {
                let size = chosen[size].unwrap();
                if size != 0 {
                    let filled = match r.below(4) {
                        0 => size,
                        1 => 0,
                        _ => r.below(size + 1),
                    };
                    record.extend(filled.to_le_bytes());
                }
            }
            Item::BuildId { count, .. } => {
                let count = chosen[count].unwrap() as usize;
                push_random(r, &mut record, count);
                push_ignored(r, &mut record, 20 - count, dirty);
            }
            Item::Fixed { bytes, .. } => push_random(r, &mut record, bytes),
            Item::Name { count, .. } => {
                let length = chosen[count].unwrap() as usize;
                for _ in 0..length {
                    record.push(1 + r.below(255) as u8);
                }
                record.push(0);
                push_stale(r, &mut record, 7 - length % 8, dirty);
            }
            Item::Padding => {
                let bytes = (8 - record.len() % 8) % 8;
                push_ignored(r, &mut record, bytes, dirty);
            }
        }
    }
    let size = record.len();
    assert!(size <= room && size % 8 == 0 && size <= 65_528, "the generator made a size of {size}");
    record[0..4].copy_from_slice(&(kind as u32).to_le_bytes());
    record[4..6].copy_from_slice(&(misc as u16).to_le_bytes());
    record[6..8].copy_from_slice(&(size as u16).to_le_bytes());
    Some(record)
}

/// Counts, sizes and abi words, so that the record keeps within its room.
fn choose_counts(r: &mut Random, items: &[Item], spare: &mut usize) -> [Option<u64>; FIELDS] {
    let mut chosen: [Option<u64>; FIELDS] = [None; FIELDS];
    let rule_of = |word: usize| {
        items.iter().find_map(|i| match *i {
            Item::Number { word: w, rule, .. } if w == word => Some(rule),
            _ => None,
        })
    };
    let padded = items.contains(&Item::Padding);
    let mut free = if padded { 4 } else { 0 }; // texts of 4 bytes at most need no more room
    for item in items {
        match *item {
            Item::List { count, entry, .. } if padded => {
                let n = some_count(r, (*spare / 8 * 8 + free) / entry);
                let beyond = n.saturating_sub(free);
                free = free.saturating_sub(n) + (8 - beyond % 8) % 8;
                *spare -= (beyond + 7) / 8 * 8;
                chosen[count] = Some(n as u64);
            }
            Item::List { count, entry, .. } => {
                let rule = rule_of(count).unwrap();
                let filled = items.iter().any(|i| matches!(*i, Item::Filled { size, .. } if size == count));
                let n = match rule {
                    Rule::PlusFour => 4 + 8 * some_count(r, *spare / 8),
                    Rule::Eights if filled => 8 * some_count(r, (*spare / 8).saturating_sub(1)),
                    Rule::Eights => 8 * some_count(r, *spare / 8),
                    _ => some_count(r, *spare / entry),
                };
                let least = if rule == Rule::PlusFour { 4 } else { 0 };
                *spare -= n * entry - least + if filled && n != 0 { 8 } else { 0 };
                chosen[count] = Some(n as u64);
            }
            Item::Registers { abi, mask, .. } => {
                let bytes = 8 * mask.count_ones() as usize;
                if bytes > *spare || r.one_in(6) {
                    chosen[abi] = Some(0);
                } else {
                    *spare -= bytes;
                    chosen[abi] = Some(if r.one_in(4) { r.next() | 1 } else { 1 + r.below(2) });
                }
            }
            Item::BuildId { count, .. } => chosen[count] = Some(r.pick(&[0, 1, 8, 16, 19, 20, 20, 20])),
            Item::Name { count, .. } => {
                let rooms = some_count(r, *spare / 8);
                *spare -= 8 * rooms;
                chosen[count] = Some(8 * rooms as u64 + r.below(8));
            }
            _ => {}
        }
    }
    chosen
}

fn push_random(r: &mut Random, record: &mut Vec<u8>, bytes: usize) {
    let start = record.len();
    record.resize(start + bytes, 0);
    r.fill(&mut record[start..]);
}

fn push_ignored(r: &mut Random, record: &mut Vec<u8>, bytes: usize, dirty: bool) {
    if dirty {
        push_random(r, record, bytes);
    } else {
        record.resize(record.len() + bytes, 0);
    }
}

/// The bytes after a name's zero: random ones, or one alone that is not zero, with its lowest or its highest bit.
fn push_stale(r: &mut Random, record: &mut Vec<u8>, bytes: usize, dirty: bool) {
    if bytes == 0 || !dirty || r.one_in(2) {
        push_ignored(r, record, bytes, dirty);
        return;
    }
    let from = record.len();
    record.resize(from + bytes, 0);
    let any = r.below(bytes as u64) as usize;
    record[from + r.pick(&[0, any, bytes - 1])] = r.pick(&[1, 0x80]);
}

pub fn some_misc(r: &mut Random) -> u64 {
    match r.below(6) {
        0 => 0,
        1 => r.next() & 0xffff,
        2 => 0x2000 | r.below(8),
        3 => 0x4000 | r.below(8),
        4 => 0x6000,
        _ => r.below(8),
    }
}

/// The types that an edition knows, and at times one of the others.
pub fn some_type(r: &mut Random, edition_number: u32) -> u64 {
    let last = edition(edition_number).map_or(21, |e| e.last_type);
    match r.below(12) {
        0 => 1 + r.below(21),
        1 | 2 => SAMPLE,
        _ => 1 + r.below(last),
    }
}

/// A sound record that fits the room: of a random type if one fits, else a smaller one.
pub fn fitting_record(r: &mut Random, edition_number: u32, a: &Attributes, room: usize) -> Vec<u8> {
    let dirty = r.one_in(2);
    for _ in 0..4 {
        let kind = some_type(r, edition_number);
        let misc = some_misc(r);
        if let Some(record) = sound_record(r, kind, misc, a, room, dirty) {
            return record;
        }
    }
    let misc = some_misc(r);
    if let Some(record) = sound_record(r, 14, misc, a, room, dirty) {
        return record;
    }
    // Nothing fits: a record of a known type that is too short for its fields.
    let size = 8 * (1 + r.below(room as u64 / 8));
    let mut record = vec![0; size as usize];
    r.fill(&mut record);
    let kind = some_type(r, edition_number) as u32;
    record[0..4].copy_from_slice(&kind.to_le_bytes());
    record[6..8].copy_from_slice(&(size as u16).to_le_bytes());
    record
}

/// Where the counts, sizes, abi words and filled lengths of a record lie, and their bytes.
fn count_places(record: &[u8], a: &Attributes) -> Vec<(usize, usize)> {
    let kind = u64::from(le32(record, 0));
    if !(1..=21).contains(&kind) {
        return Vec::new();
    }
    let items = all_items(kind, u64::from(le16(record, 4)), a);
    let counts = |word: usize| {
        items.iter().any(|i| match *i {
            Item::List { count, .. } => count == word,
            Item::Registers { abi, .. } => abi == word,
            Item::Number { word: w, rule, .. } => w == word && rule != Rule::None,
            _ => false,
        })
    };
    let mut found = Vec::new();
    let mut value = [0; FIELDS];
    let mut place = 8usize;
    for item in &items {
        let step = match *item {
            Item::Number { word, bytes, .. } => {
                let field = match record.get(place..place + bytes) {
                    Some(field) => field,
                    None => break,
                };
                value[word] = number(field);
                if counts(word) {
                    found.push((place, bytes));
                }
                bytes as u64
            }
            Item::Ignored { bytes } | Item::Fixed { bytes, .. } => bytes as u64,
            Item::List { count, entry, .. } => value[count].saturating_mul(entry as u64),
            Item::Registers { abi, mask, .. } => if value[abi] == 0 { 0 } else { 8 * u64::from(mask.count_ones()) },
            Item::Filled { size, .. } if value[size] == 0 => 0,
            Item::Filled { .. } => {
                found.push((place, 8));
                8
            }
            Item::BuildId { .. } => 20,
            Item::Name { .. } | Item::Padding => break,
        };
        if step > (record.len() - place) as u64 {
            break;
        }
        place += step as usize;
    }
    found.retain(|(at, bytes)| at + bytes <= record.len());
    found
}

/// A wrong number for a count or size of so many bytes.
fn wrong_count(r: &mut Random, old: u64, words: u64) -> u64 {
    match r.below(6) {
        0 => r.below(24),
        1 => u64::MAX - r.below(16),
        2 => r.pick(&[
            1 << 63,
            1 << 61,
            1 << 60,
            0x0aaa_aaaa_aaaa_aaab,
            0x1555_5555_5555_5556,
            0xffff_ffff,
            0xffff_fffc,
            1 << 32,
            u64::MAX - 7,
        ]),
        3 => old.wrapping_add(r.pick(&[1, 2, 4, 8, u64::MAX, u64::MAX - 3, u64::MAX - 7])),
        4 => r.below(words + 2),
        _ => 8 * r.below(words + 2),
    }
}

/// Damage to the body or the type; the record's size, and so the cutting of the ring, stays.
pub fn damage_body(r: &mut Random, record: &mut Vec<u8>, a: &Attributes) {
    let words = record.len() as u64 / 8;
    let counts = count_places(record, a);
    if !counts.is_empty() && r.one_in(2) {
        let (at, bytes) = r.pick(&counts);
        let n = wrong_count(r, number(&record[at..at + bytes]), words);
        record[at..at + bytes].copy_from_slice(&n.to_le_bytes()[..bytes]);
        return;
    }
    match r.below(8) {
        // a count, or any other word
        0 | 1 if words > 1 => {
            let at = 8 * (1 + r.below(words - 1)) as usize;
            let n = wrong_count(r, number(&record[at..at + 8]), words);
            record[at..at + 8].copy_from_slice(&n.to_le_bytes());
        }
        // half a word: raw sizes and text lengths
        2 if words > 1 => {
            let at = (8 + 4 * r.below(2 * (words - 1))) as usize;
            let n: u32 = r.pick(&[0, 1, 3, 4, 5, 8, 12, 20, 0xffff_fffc, u32::MAX, 0xffff, 0xffff_0000, 21]);
            record[at..at + 4].copy_from_slice(&n.to_le_bytes());
        }
        // one byte
        3 => {
            let any = r.below(record.len() as u64) as usize;
            let at = r.pick(&[0, 5, any]);
            if at != 6 && at != 7 {
                record[at] = r.pick(&[0, 1, 20, 21, 0x40, 0x60, 0xff]);
            }
        }
        // the type
        4 => {
            let other = 1 + r.below(21) as u32;
            let kind = r.pick(&[0, other, 22, 23, 9, 10, 0x1_0001, 65_535, 65_536, u32::MAX]);
            record[0..4].copy_from_slice(&kind.to_le_bytes());
        }
        // the name, or whatever lies at the end: no zero, or an early one, or the last byte alone not zero
        5 => {
            let kind = u64::from(record[0]);
            let room = trailer_length(kind, a);
            let end = record.len().saturating_sub(room).max(8);
            if r.one_in(3) && end > 8 {
                record[end - 1] = r.pick(&[1, 0x80]);
            } else if r.one_in(2) {
                let from = end.saturating_sub(8 * r.pick(&[1, 1, 2, 8])).max(8);
                for byte in &mut record[from..end] {
                    *byte |= 1;
                }
            } else if end > 24 {
                let at = end - 9 - r.below(8) as usize;
                record[at] = 0;
            }
        }
        // shorter or longer by some words, the size with it
        6 => {
            let bytes = 8 * r.pick(&[1, 1, 1, 2, 3]);
            if r.one_in(2) && record.len() >= bytes + 8 {
                record.truncate(record.len() - bytes);
            } else if record.len() + bytes <= 65_528 {
                push_random(r, record, bytes);
            }
            let size = record.len() as u16;
            record[6..8].copy_from_slice(&size.to_le_bytes());
        }
        // misc
        _ => {
            let misc = some_misc(r) as u16;
            record[4..6].copy_from_slice(&misc.to_le_bytes());
        }
    }
}

/// A size that the record does not have.
pub fn damage_size(r: &mut Random, record: &mut [u8]) {
    let size = le16(record, 6);
    let (any, small) = (r.next() as u16, r.next() as u16 & 0x1f8);
    let wrong = r.pick(&[
        0,
        1,
        4,
        7,
        8,
        12,
        size.wrapping_add(8),
        size.wrapping_sub(8),
        size.wrapping_add(1),
        size.wrapping_add(4),
        65_528,
        65_535,
        any,
        small,
    ]);
    record[6..8].copy_from_slice(&wrong.to_le_bytes());
}

/// All that goes into a drain.
pub struct DrainCase {
    pub ring: Vec<u8>,
    pub head: u64,
    pub tail: u64,
    pub attributes: Attributes,
    pub edition: u32,
    pub budget: u64,
    pub scratch: usize,
    pub journal: usize,
}

impl DrainCase {
    pub fn image(&self) -> Image {
        Image {
            head: self.head,
            tail: self.tail,
            attributes: self.attributes,
            edition: self.edition,
            ring: self.ring.clone(),
        }
    }
}

pub fn some_ring_length(r: &mut Random) -> usize {
    match r.below(400) {
        0 => 1 << 20,
        1 => 1 << (13 + r.below(7)),
        2..=5 => r.pick(&[0, 1, 8, 32, 63, 65, 96, 100, 120, 192, 1000, 4095, 4097, 2 << 20]),
        n if n < 60 => 64,
        n if n < 120 => 128,
        n if n < 200 => 256,
        n if n < 280 => 512,
        n if n < 340 => 1024,
        n if n < 380 => 2048,
        _ => 4096,
    }
}

pub fn some_tail(r: &mut Random) -> u64 {
    let place = r.next();
    8 * match r.below(4) {
        0 => r.below(1 << 10),
        1 => (1 << 61) - 1 - r.below(64),
        2 => (1 << 61) - 1 - r.below(1 << 10),
        _ => place >> 3,
    }
}

pub fn put(ring: &mut [u8], count: u64, bytes: &[u8]) {
    let length = ring.len() as u64;
    for (i, byte) in bytes.iter().enumerate() {
        ring[(count.wrapping_add(i as u64) % length) as usize] = *byte;
    }
}

/// A ring with records from tail to head, and damage here and there.
pub fn drain_case(r: &mut Random) -> DrainCase {
    let edition = some_edition(r);
    let attributes = some_attributes(r, edition);
    let length = some_ring_length(r);
    let mut ring = vec![0; length];
    if length <= 4096 && r.one_in(2) {
        r.fill(&mut ring);
    }
    let tail = some_tail(r);
    if length == 0 {
        let head = tail.wrapping_add(r.pick(&[0, 8]));
        return DrainCase { ring, head, tail, attributes, edition, budget: 1, scratch: 64, journal: 64 };
    }
    // In a large ring only a part is filled; start it near the end so that it still crosses.
    let tail = if length > 4096 && r.one_in(2) {
        let far = length as u64 - 8 * r.below(200);
        (tail & !(length as u64 - 1)).wrapping_add(far)
    } else {
        tail
    };
    let fill = match r.below(6) {
        0 => 0,
        1 => length,
        _ => 8 * r.below(length as u64 / 8 + 1) as usize,
    }
    .min(if r.one_in(8) { 150_000 } else { 8192 });
    let careful = r.one_in(3); // no damage at all
    let mut at = 0;
    let mut sizes = Vec::new();
    while at + 8 <= fill {
        let mut record = fitting_record(r, edition, &attributes, fill - at);
        if !careful && r.one_in(4) {
            let before = record.clone();
            damage_body(r, &mut record, &attributes);
            if record.len() > fill - at {
                record = before;
            }
        }
        if !careful && r.one_in(60) {
            damage_size(r, &mut record);
        }
        put(&mut ring, tail.wrapping_add(at as u64), &record);
        sizes.push(record.len());
        at += record.len();
    }
    let mut case = DrainCase {
        head: tail.wrapping_add(at as u64),
        tail,
        attributes,
        edition,
        budget: u64::MAX,
        scratch: length,
        journal: 16 * (sizes.len() + 1),
        ring,
    };
    choose_room(r, &mut case, &sizes);
    if !careful && r.one_in(12) {
        damage_counts(r, &mut case);
    }
    case
}

/// Budget, scratch and journal: mostly enough, at times at an edge.
pub fn choose_room(r: &mut Random, case: &mut DrainCase, sizes: &[usize]) {
    let records = sizes.len() as u64;
    if r.one_in(8) {
        case.budget = r.pick(&[0, 1, 2, records, records.saturating_sub(1), records / 2, records + 1]);
    } else if r.one_in(2) {
        case.budget = records + r.below(3);
    }
    if r.one_in(8) {
        let whole = 16 * records as usize;
        case.journal = r.pick(&[0, 1, 15, 16, 17, 31, 32, whole, whole.saturating_sub(1), whole / 2, whole + 7]);
    } else if r.one_in(8) {
        case.journal += r.below(40) as usize;
    }
    // The record that crosses the ring's end, if there is one, decides what scratch is enough.
    let length = case.ring.len();
    let mut place = (case.tail % length as u64) as usize;
    let crossing = sizes.iter().copied().find(|size| {
        let crosses = place < length && place + size > length;
        place += size;
        crosses
    });
    case.scratch = match (crossing, r.below(8)) {
        (Some(size), 0) => size - 1,
        (Some(size), 1) => r.below(size as u64) as usize,
        (Some(size), 2 | 3) => size,
        (Some(size), 4) => size + 1 + r.below(16) as usize,
        (None, 0 | 1) => r.below(64) as usize,
        _ => length.min(65_528),
    };
}

/// Head and tail as nobody should hand them in.
pub fn damage_counts(r: &mut Random, case: &mut DrainCase) {
    let length = case.ring.len() as u64;
    match r.below(8) {
        0 => case.head = case.head.wrapping_add(1 + r.below(7)),
        1 => case.tail = case.tail.wrapping_sub(1 + r.below(7)),
        2 => case.head = case.tail.wrapping_add(length + 8),
        3 => case.head = case.tail.wrapping_add(length),
        4 => case.head = case.tail.wrapping_sub(8),
        5 => case.head = r.next(),
        6 => case.head = case.tail.wrapping_add(8 * r.below(length / 8 + 2)),
        _ => case.head = case.tail,
    }
}

/// One record for read, write and check, sound or damaged.
pub fn lone_record(r: &mut Random, edition_number: u32, a: &Attributes) -> Vec<u8> {
    let room = match r.below(40) {
        0 => 65_528,
        1 => 16_384,
        _ => 8 * (1 + r.below(250)) as usize,
    };
    let mut record = fitting_record(r, edition_number, a, room);
    if r.one_in(3) {
        for _ in 0..1 + r.below(2) {
            damage_body(r, &mut record, a);
        }
    }
    record
}

/// A sound value of its own: the lists of a value moved to other places in a new source.
pub fn moved(r: &mut Random, value: &Value, source: &[u8], a: &Attributes) -> (Value, Vec<u8>) {
    let mut moved = *value;
    let mut bytes = vec![0; r.below(40) as usize];
    r.fill(&mut bytes);
    let mut lists: Vec<_> = all_items(value[TYPE], value[MISC], a).iter().filter_map(listed).collect();
    if r.one_in(2) {
        lists.reverse();
    }
    for (place, count, entry) in lists {
        let start = value[place] as usize;
        let list = &source[start..start + value[count] as usize * entry];
        if list.is_empty() && r.one_in(2) {
            moved[place] = r.below(bytes.len() as u64 + 1);
            continue;
        }
        let gap = r.below(9) as usize;
        push_random(r, &mut bytes, gap);
        moved[place] = bytes.len() as u64;
        bytes.extend(list);
    }
    // The place of a list that is not selected is not looked at.
    for place in place_words(value[TYPE]) {
        let selected = all_items(value[TYPE], value[MISC], a)
            .iter()
            .filter_map(listed)
            .any(|(p, _, _)| p == *place);
        if !selected && r.one_in(2) {
            moved[*place] = r.next();
        }
    }
    (moved, bytes)
}
