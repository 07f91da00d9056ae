//! The independent writer of one record, and "the same record".

use crate::record::*;
use crate::rules::*;
use crate::words::*;

/// All items of a record: the body's, then the trailer's.
pub fn all_items(kind: u64, misc: u64, a: &Attributes) -> Vec<Item> {
    let mut items = body(kind, misc, a);
    items.extend(trailer_items(kind, a));
    items
}

/// A selected list or name: its place word, its count word and the bytes of one element.
pub fn listed(item: &Item) -> Option<(usize, usize, usize)> {
    match *item {
        Item::List { place, count, entry } => Some((place, count, entry)),
        Item::Registers { place, count, .. } => Some((place, count, 8)),
        Item::BuildId { place, count } => Some((place, count, 1)),
        Item::Fixed { place, count, .. } => Some((place, count, 1)),
        Item::Name { place, count, .. } => Some((place, count, 1)),
        _ => None,
    }
}

/// The writer: 2; 42 for too few words; 20 to 25; 43; 41; 42; 40; otherwise the record goes to the start of the buffer.
pub fn write(value: &[u64], source: &[u8], edition_number: u32, a: &Attributes, buffer: &mut [u8]) -> u32 {
    let e = match edition(edition_number) {
        Some(e) => e,
        None => return 2,
    };
    // Fewer words than a value has are no value: there is no type that 20 to 25 could look at.
    if value.len() < FIELDS {
        return 42;
    }
    let value: &Value = value[..FIELDS].try_into().unwrap();
    if let Some(refusal) = unknown(value[TYPE], value[MISC], e, a) {
        return refusal;
    }
    // "The writer refuses a value with the flag set with 43, after 24 and before 41": any word but 0 is set.
    if flag(value) != 0 {
        return 43;
    }
    let items = all_items(value[TYPE], value[MISC], a);
    let passes = |&(place, count, entry): &(usize, usize, usize)| {
        u128::from(value[place]) + u128::from(value[count]) * entry as u128 > source.len() as u128
    };
    if items.iter().filter_map(listed).any(|l| passes(&l)) {
        return 41;
    }
    let record = match record_of(value, source, &items) {
        Some(record) => record,
        None => return 42,
    };
    if record.len() > buffer.len() {
        return 40;
    }
    buffer[..record.len()].copy_from_slice(&record);
    0
}

/// The bytes of the record that decodes to this value, or None if there is none.
/// Every list lies in the source (41 has been tested).
fn record_of(value: &Value, source: &[u8], items: &[Item]) -> Option<Vec<u8>> {
    unselected_are_empty(value, items).then_some(())?;
    let mut record = Vec::new();
    push_number(&mut record, value[TYPE], 4)?;
    push_number(&mut record, value[MISC], 2)?;
    push_number(&mut record, value[SIZE], 2)?;
    for item in items {
        push_item(&mut record, item, value, source)?;
    }
    let size = record.len();
    (size <= 65_528 && value[SIZE] == size as u64).then_some(record)
}

/// Every word that no item uses is 0, but for the places of lists that are not selected.
fn unselected_are_empty(value: &Value, items: &[Item]) -> bool {
    let mut used = [false; FIELDS];
    for word in [TYPE, MISC, SIZE] {
        used[word] = true;
    }
    for place in place_words(value[TYPE]) {
        used[*place] = true;
    }
    for item in items {
        match *item {
            Item::Number { word, .. } | Item::Filled { word, .. } => used[word] = true,
            _ => {}
        }
        if let Some((place, count, _)) = listed(item) {
            used[place] = true;
            used[count] = true;
        }
    }
    (0..FIELDS).all(|word| used[word] || value[word] == 0)
}

fn push_number(record: &mut Vec<u8>, number: u64, bytes: usize) -> Option<()> {
    let all = number.to_le_bytes();
    if all[bytes..].iter().any(|b| *b != 0) {
        return None;
    }
    record.extend(&all[..bytes]);
    Some(())
}

fn push_item(record: &mut Vec<u8>, item: &Item, value: &Value, source: &[u8]) -> Option<()> {
    let zeros = |record: &mut Vec<u8>, n: usize| record.resize(record.len() + n, 0);
    let slice = |place: usize, bytes: u64| {
        let start = value[place] as usize;
        &source[start..start + bytes as usize]
    };
    match *item {
        Item::Number { word, bytes, rule } => {
            (!rule.broken(value[word])).then_some(())?;
            push_number(record, value[word], bytes)?;
        }
        Item::Ignored { bytes } => zeros(record, bytes),
        Item::List { place, count, entry } => record.extend(slice(place, value[count] * entry as u64)),
        Item::Registers { abi, place, count, mask } => {
            let ones = if value[abi] == 0 { 0 } else { u64::from(mask.count_ones()) };
            (value[count] == ones).then_some(())?;
            record.extend(slice(place, ones * 8));
        }
        Item::Filled { word, size } => {
            (value[word] <= value[size]).then_some(())?;
            if value[size] != 0 {
                push_number(record, value[word], 8)?;
            }
        }
        Item::BuildId { place, count } => {
            record.extend(slice(place, value[count]));
            zeros(record, 20 - value[count] as usize);
        }
        Item::Fixed { place, count, bytes } => {
            (value[count] == bytes as u64).then_some(())?;
            record.extend(slice(place, bytes as u64));
        }
        Item::Name { place, count, .. } => {
            let name = slice(place, value[count]);
            (!name.contains(&0)).then_some(())?;
            record.extend(name);
            zeros(record, 8 - name.len() % 8);
        }
        Item::Padding => zeros(record, (8 - record.len() % 8) % 8),
    }
    // No record is this long; a huge source must not fill the memory.
    (record.len() <= 1 << 17).then_some(())
}

/// "Two records are the same if their numbers, counts and the bytes at the places are, wherever
/// the places lie." A name's flag is one of the numbers. Both values must be decoded, or accepted by
/// the writer, under these attributes.
pub fn same(left: &Value, left_bytes: &[u8], right: &Value, right_bytes: &[u8], a: &Attributes) -> bool {
    if left[TYPE] != right[TYPE] || left[MISC] != right[MISC] {
        return false;
    }
    let places = place_words(left[TYPE]);
    if (0..FIELDS).any(|w| !places.contains(&w) && left[w] != right[w]) {
        return false;
    }
    all_items(left[TYPE], left[MISC], a).iter().filter_map(listed).all(|(place, count, entry)| {
        let bytes = left[count] as usize * entry;
        let (l, r) = (left[place] as usize, right[place] as usize);
        left_bytes[l..l + bytes] == right_bytes[r..r + bytes]
    })
}

/// The record with its ignored bytes set to zero: what writing it again gives.
pub fn clean(record: &[u8], value: &Value, a: &Attributes) -> Vec<u8> {
    let mut bytes = record.to_vec();
    let mut place = 8;
    let end = record.len() - trailer_length(value[TYPE], a);
    for item in all_items(value[TYPE], value[MISC], a) {
        let step = match item {
            Item::Number { bytes, .. } => bytes,
            Item::Ignored { bytes: n } => {
                bytes[place..place + n].fill(0);
                n
            }
            Item::List { count, entry, .. } => value[count] as usize * entry,
            Item::Registers { count, .. } => value[count] as usize * 8,
            Item::Filled { size, .. } => if value[size] == 0 { 0 } else { 8 },
            Item::BuildId { count, .. } => {
                bytes[place + value[count] as usize..place + 20].fill(0);
                20
            }
            Item::Fixed { bytes, .. } => bytes,
            Item::Name { count, .. } => {
                bytes[place + value[count] as usize..end].fill(0);
                end - place
            }
            Item::Padding => {
                bytes[place..end].fill(0);
                end - place
            }
        };
        place += step;
    }
    bytes
}
