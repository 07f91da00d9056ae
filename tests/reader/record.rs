//! The independent reader of one record: record check and the value.

use crate::rules::*;
use crate::words::*;

pub type Value = [u64; FIELDS];

pub fn le16(bytes: &[u8], at: usize) -> u16 {
    u16::from_le_bytes(bytes[at..at + 2].try_into().unwrap())
}

pub fn le32(bytes: &[u8], at: usize) -> u32 {
    u32::from_le_bytes(bytes[at..at + 4].try_into().unwrap())
}

/// A number of 1, 2, 4 or 8 bytes.
pub fn number(bytes: &[u8]) -> u64 {
    bytes.iter().rev().fold(0, |sum, b| sum << 8 | u64::from(*b))
}

/// The flag of a value: M-107's, for the types that have a name.
pub fn flag(value: &Value) -> u64 {
    flag_word(value[TYPE]).map_or(0, |word| value[word])
}

/// The value with its flag not set.
pub fn unflagged(value: &Value) -> Value {
    let mut plain = *value;
    if let Some(word) = flag_word(value[TYPE]) {
        plain[word] = 0;
    }
    plain
}

/// Record check: one lent slice, edition and attributes. Where the flag is set "record check, and nothing else, answers 44
/// instead of 0".
pub fn check(record: &[u8], edition: u32, a: &Attributes) -> u32 {
    match read(record, edition, a) {
        Ok(value) if flag(&value) != 0 => 44,
        Ok(_) => 0,
        Err(refusal) => refusal,
    }
}

/// As record check but for 44, and the value where that answers 0 or 44.
pub fn read(record: &[u8], edition_number: u32, a: &Attributes) -> Result<Value, u32> {
    let e = edition(edition_number).ok_or(2u32)?;
    if record.len() < 8 {
        return Err(7);
    }
    let size = usize::from(le16(record, 6));
    if size < 8 || size % 8 != 0 {
        return Err(6);
    }
    if size != record.len() {
        return Err(7);
    }
    decode(record, e, a)
}

/// Rows 20 to 33 for a record whose size is its length.
pub fn decode(record: &[u8], e: &Edition, a: &Attributes) -> Result<Value, u32> {
    let kind = u64::from(le32(record, 0));
    let misc = u64::from(le16(record, 4));
    if let Some(refusal) = unknown(kind, misc, e, a) {
        return Err(refusal);
    }
    let trailer = trailer_length(kind, a);
    if 8 + trailer > record.len() {
        return Err(30);
    }
    let end = record.len() - trailer;

    let mut value = [0; FIELDS];
    value[TYPE] = kind;
    value[MISC] = misc;
    value[SIZE] = record.len() as u64;

    let mut fields = Cursor { record, place: 8, end };
    for item in body(kind, misc, a) {
        fields.take(item, &mut value)?;
    }
    if fields.left() != 0 {
        return Err(31);
    }
    let mut last = Cursor { record, place: end, end: record.len() };
    for item in trailer_items(kind, a) {
        last.take(item, &mut value)?;
    }
    assert!(last.left() == 0, "the trailer's length is that of its items");
    Ok(value)
}

/// Field after field, from a place up to the end.
struct Cursor<'r> {
    record: &'r [u8],
    place: usize,
    end: usize,
}

impl Cursor<'_> {
    fn left(&self) -> usize {
        self.end - self.place
    }

    /// The next so many bytes, or 30. The number may be as large as it likes.
    fn bytes(&mut self, count: u128) -> Result<&[u8], u32> {
        if count > self.left() as u128 {
            return Err(30);
        }
        let start = self.place;
        self.place += count as usize;
        Ok(&self.record[start..self.place])
    }

    fn take(&mut self, item: Item, value: &mut Value) -> Result<(), u32> {
        match item {
            Item::Number { word, bytes, rule } => {
                let n = number(self.bytes(bytes as u128)?);
                if rule.broken(n) {
                    return Err(32);
                }
                value[word] = n;
            }
            Item::Ignored { bytes } => {
                self.bytes(bytes as u128)?;
            }
            Item::List { place, count, entry } => {
                value[place] = self.place as u64;
                self.bytes(u128::from(value[count]) * entry as u128)?;
            }
            Item::Registers { abi, place, count, mask } => {
                let ones = if value[abi] == 0 { 0 } else { u64::from(mask.count_ones()) };
                value[place] = self.place as u64;
                value[count] = ones;
                self.bytes(u128::from(ones) * 8)?;
            }
            Item::Filled { word, size } => {
                if value[size] != 0 {
                    let filled = number(self.bytes(8)?);
                    if filled > value[size] {
                        return Err(32);
                    }
                    value[word] = filled;
                }
            }
            Item::BuildId { place, count: _ } => {
                value[place] = self.place as u64;
                self.bytes(20)?;
            }
            Item::Fixed { place, count, bytes } => {
                value[place] = self.place as u64;
                value[count] = bytes as u64;
                self.bytes(bytes as u128)?;
            }
            Item::Name { place, count, flag } => {
                let room = &self.record[self.place..self.end];
                let zero = room.iter().position(|b| *b == 0).ok_or(33u32)?;
                if zero + 8 < room.len() {
                    return Err(33);
                }
                value[place] = self.place as u64;
                value[count] = zero as u64;
                value[flag] = u64::from(room[zero..].iter().any(|b| *b != 0));
                self.place = self.end;
            }
            Item::Padding => {
                if self.left() >= 8 {
                    return Err(31);
                }
                self.place = self.end;
            }
        }
        Ok(())
    }
}

/// Name copy: 41, 12, or the name and one zero.
pub fn copy_name(record: &[u8], place: u64, count: u64, buffer: &mut [u8]) -> u32 {
    if u128::from(place) + u128::from(count) > record.len() as u128 {
        return 41;
    }
    let (place, count) = (place as usize, count as usize);
    if count + 1 > buffer.len() {
        return 12;
    }
    buffer[..count].copy_from_slice(&record[place..place + count]);
    buffer[count] = 0;
    0
}
