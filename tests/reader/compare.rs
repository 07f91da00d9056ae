//! Two rings compared (document 02, M-108): the fields of a record by number, the first that differs, and what is told of two
//! rings record by record.
//!
//! Written from the document and its settled readings alone, as events.rs is. The decoding is the independent reader's own.

use crate::events::{self, Event};
use crate::record::{le16, le32, Value};
use crate::ring::Ring;
use crate::rules::{body, edition, trailer_items, Edition, Item};
use crate::words::{self, FIELDS, MISC, SIZE, TYPE};

/// What is told. `field` and `stop` are 0 where they say nothing.
#[derive(Clone, Copy, Debug, Default, PartialEq)]
pub struct Compared {
    pub records: u64,
    pub what: u32,
    pub field: u32,
    pub stop: u32,
}

pub const ALIKE: u32 = 0;
pub const FIELD: u32 = 1;
pub const LEFT_ENDED: u32 = 2;
pub const RIGHT_ENDED: u32 = 3;
pub const LEFT_STOPPED: u32 = 4;
pub const RIGHT_STOPPED: u32 = 5;

/// A field of a record: the word of a value that stands for it (of a list or name that of its place), where it lies, and what
/// it holds. A list's count is the length of what it holds.
#[derive(Clone, Debug, PartialEq)]
pub struct Field {
    pub word: usize,
    pub at: usize,
    pub holds: Vec<u8>,
}

/// The words of the two fields that a refused record has; no word of a value has these numbers.
pub const ANSWER: usize = FIELDS;
pub const BYTES: usize = FIELDS + 1;
/// The identifier, which "is 4 for every accepted record and is not told again".
pub const IDENTIFIER: usize = FIELDS + 2;

fn number_field(word: usize, at: usize, number: u64) -> Field {
    Field { word, at, holds: number.to_le_bytes().to_vec() }
}

/// "A count or size word has no number of its own, the list stands where its entries stand."
fn counts(items: &[Item], word: usize) -> bool {
    items.iter().any(|item| match item {
        Item::List { count, .. } | Item::BuildId { count, .. } => *count == word,
        _ => false,
    })
}

fn told_as_identifier(word: usize, sample: bool) -> bool {
    word == if sample { words::sample::IDENTIFIER } else { words::trailer::IDENTIFIER }
}

/// The fields of some items that lie from a place on, each where it is present.
fn item_fields(items: &[Item], mut at: usize, end: usize, record: &[u8], value: &Value, sample: bool) -> Vec<Field> {
    let mut fields = Vec::new();
    let held = |word: usize, at: usize, bytes: usize| Field { word, at, holds: record[at..at + bytes].to_vec() };
    for item in items {
        let from = at;
        match *item {
            Item::Number { word, bytes, .. } => {
                if !counts(items, word) && !told_as_identifier(word, sample) {
                    fields.push(number_field(word, from, value[word]));
                }
                at += bytes;
            }
            Item::Ignored { bytes } => at += bytes,
            Item::List { place, count, entry } => {
                let bytes = value[count] as usize * entry;
                fields.push(held(place, from, bytes));
                at += bytes;
            }
            // "after abi 0 no registers .. have no number .. registers of mask 0 after a nonzero abi" have
            Item::Registers { abi, place, count, .. } => {
                if value[abi] != 0 {
                    let bytes = 8 * value[count] as usize;
                    fields.push(held(place, from, bytes));
                    at += bytes;
                }
            }
            Item::Filled { word, size } => {
                if value[size] != 0 {
                    fields.push(number_field(word, from, value[word]));
                    at += 8;
                }
            }
            Item::BuildId { place, count } => {
                fields.push(held(place, from, value[count] as usize));
                at += 20;
            }
            Item::Fixed { place, bytes, .. } => {
                fields.push(held(place, from, bytes));
                at += bytes;
            }
            Item::Name { place, count, .. } => {
                fields.push(held(place, from, value[count] as usize));
                at = end;
            }
            Item::Padding => at = end,
        }
    }
    fields
}

/// The fields of a record by number: "answer (0 or the refusal) 0, type 1, misc 2, size 3, identifier 4, then the other fields
/// present in document 01's order, a list or name as one"; "records refused alike compare by their bytes, as field 1"; "the
/// M-107 flag does, as the last field".
pub fn fields(record: &[u8], e: &Edition, table: &[Event]) -> Vec<Field> {
    let value = match events::decode(record, e, table) {
        Err(refusal) => {
            return vec![number_field(ANSWER, 0, u64::from(refusal)), Field { word: BYTES, at: 0, holds: record.to_vec() }]
        }
        Ok(value) => value,
    };
    let (kind, misc) = (u64::from(le32(record, 0)), u64::from(le16(record, 4)));
    let sample = kind == crate::rules::SAMPLE;
    let identifier = events::identifier(record);
    let a = table[events::find(table, identifier)].attributes();
    let end = record.len() - crate::rules::trailer_length(kind, &a);
    let mut fields = vec![
        number_field(ANSWER, 0, 0),
        number_field(TYPE, 0, kind),
        number_field(MISC, 4, misc),
        number_field(SIZE, 6, record.len() as u64),
        number_field(IDENTIFIER, if sample { 8 } else { record.len() - 8 }, identifier),
    ];
    fields.extend(item_fields(&body(kind, misc, &a), 8, end, record, &value, sample));
    fields.extend(item_fields(&trailer_items(kind, &a), end, record.len(), record, &value, sample));
    if let Some(word) = words::flag_word(kind) {
        fields.push(number_field(word, end - 1, value[word]));
    }
    fields
}

/// The number of the first field in which two records differ, and the word that stands for it.
pub fn first_difference(left: &[u8], right: &[u8], e: &Edition, table: &[Event]) -> Option<(u32, usize)> {
    let (left, right) = (fields(left, e, table), fields(right, e, table));
    let at = left.iter().zip(&right).position(|(l, r)| l.holds != r.holds);
    assert!(at.is_some() || left.len() == right.len(), "fields that are equal have as many after them");
    at.map(|i| (i as u32, left[i].word))
}

/// One side: a ring with its pointers.
#[derive(Clone, Debug)]
pub struct Side {
    pub ring: Vec<u8>,
    pub head: u64,
    pub tail: u64,
}

/// The record at a tail, copied to the scratch where it crosses the ring's end.
fn taken(ring: &Ring, tail: u64, scratch: &mut [u8]) -> Vec<u8> {
    let size = ring.size_at(tail);
    let record: Vec<u8> = (0..size as u64).map(|i| ring.byte(tail.wrapping_add(i))).collect();
    if ring.crosses(tail, size) {
        scratch[..size].copy_from_slice(&record);
    }
    record
}

/// Two rings, record by record. "Both frames are asked before a record is copied"; "a stop other than 0 on either side goes
/// first .. the left side first if both stop at the same record".
pub fn compare(
    left: &Ring, left_tail: u64, left_scratch: &mut [u8], right: &Ring, right_tail: u64, right_scratch: &mut [u8],
    table: &[Event],
) -> Compared {
    let (mut left_tail, mut right_tail) = (left_tail, right_tail);
    let mut records = 0;
    loop {
        let told = |what| Compared { records, what, ..Compared::default() };
        let at_left = left.stop(left_tail, Some(table), 1, 16, left_scratch.len());
        let at_right = right.stop(right_tail, Some(table), 1, 16, right_scratch.len());
        match (at_left, at_right) {
            (Some(stop), _) if stop != 0 => return Compared { stop, ..told(LEFT_STOPPED) },
            (_, Some(stop)) if stop != 0 => return Compared { stop, ..told(RIGHT_STOPPED) },
            (Some(_), Some(_)) => return told(ALIKE),
            (Some(_), None) => return told(LEFT_ENDED),
            (None, Some(_)) => return told(RIGHT_ENDED),
            (None, None) => {}
        }
        let on_left = taken(left, left_tail, left_scratch);
        let on_right = taken(right, right_tail, right_scratch);
        let e = edition(left.edition).unwrap();
        if let Some((field, _)) = first_difference(&on_left, &on_right, e, table) {
            return Compared { field, ..told(FIELD) };
        }
        records += 1;
        left_tail = left_tail.wrapping_add(on_left.len() as u64);
        right_tail = right_tail.wrapping_add(on_right.len() as u64);
    }
}
