//! Salvage of a damaged stream (document 02, M-111): which records are kept, which runs of bytes are dropped, and the list of
//! these in M-103's entries.
//!
//! Written from the document alone, as events.rs is.

use crate::events::{self, Event};
use crate::record::le16;
use crate::rules::{edition, Edition};
use std::ops::Range;

/// What is told; of a refusal the answer alone.
#[derive(Clone, Copy, Debug, Default, PartialEq)]
pub struct Salvaged {
    pub kept: u64,
    pub dropped: u64,
    pub changes: u64,
    pub answer: u32,
}

/// The bytes of an entry of the list: "a 4-byte length that covers itself, a 2-byte kind", "start and length in 8 bytes each".
pub const ENTRY: usize = 4 + 2 + 8 + 8;
pub const KIND: u16 = 32;

/// The size in the header, if "the frame passes 6 and 7 against the bytes left".
pub fn framed(left: &[u8]) -> Option<usize> {
    if left.len() < 8 {
        return None;
    }
    let size = usize::from(le16(left, 6));
    (size >= 8 && size % 8 == 0 && size <= left.len()).then_some(size)
}

/// A stream taken apart: the records kept and the longest dropped runs, as places in it.
#[derive(Debug, Default, PartialEq)]
pub struct Parts {
    pub records: Vec<Range<usize>>,
    pub holes: Vec<Range<usize>>,
}

/// "At each place: if the frame passes .. and the body is accepted, keep the record; otherwise drop 8 bytes, or all that is left
/// if fewer."
pub fn parts(stream: &[u8], e: &Edition, table: &[Event]) -> Parts {
    let mut parts = Parts::default();
    let mut at = 0;
    while at < stream.len() {
        let left = &stream[at..];
        let accepted = framed(left).filter(|size| events::decode(&left[..*size], e, table).is_ok());
        let from = at;
        match accepted {
            Some(size) => {
                at += size;
                parts.records.push(from..at);
            }
            None => {
                at += left.len().min(8);
                match parts.holes.last_mut() {
                    Some(hole) if hole.end == from => hole.end = at,
                    _ => parts.holes.push(from..at),
                }
            }
        }
    }
    parts
}

pub fn entry(hole: &Range<usize>) -> [u8; ENTRY] {
    let mut bytes = [0; ENTRY];
    bytes[0..4].copy_from_slice(&(ENTRY as u32).to_le_bytes());
    bytes[4..6].copy_from_slice(&KIND.to_le_bytes());
    bytes[6..14].copy_from_slice(&(hole.start as u64).to_le_bytes());
    bytes[14..22].copy_from_slice(&(hole.len() as u64).to_le_bytes());
    bytes
}

/// "refusals 2, then 11"; "No room in either buffer is 54, found before anything is written."
pub fn salvage(stream: &[u8], table: &[Event], edition_number: u32, out: &mut [u8], changes: &mut [u8]) -> Salvaged {
    let refused = |answer| Salvaged { answer, ..Salvaged::default() };
    let e = match edition(edition_number) {
        Some(e) => e,
        None => return refused(2),
    };
    if events::refused(table) {
        return refused(11);
    }
    let parts = parts(stream, e, table);
    let output: Vec<u8> = parts.records.iter().flat_map(|r| stream[r.clone()].iter().copied()).collect();
    let list: Vec<u8> = parts.holes.iter().flat_map(|hole| entry(hole)).collect();
    if out.len() < output.len() || changes.len() < list.len() {
        return refused(54);
    }
    out[..output.len()].copy_from_slice(&output);
    changes[..list.len()].copy_from_slice(&list);
    Salvaged {
        kept: output.len() as u64,
        dropped: parts.holes.iter().map(|hole| hole.len() as u64).sum(),
        changes: list.len() as u64,
        answer: 0,
    }
}
