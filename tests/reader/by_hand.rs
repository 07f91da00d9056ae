//! What the traces and streams by hand are made of.

use crate::events::Event;
use crate::rules::Attributes;

/// Their event: its records have the identifier 7 and nothing else in the trailer.
pub fn event() -> Event {
    Event::new(7, &Attributes { sample_type: 1 << 16, sample_id_all: 1, ..Attributes::EMPTY })
}

/// A record of this type with these words behind its header.
pub fn laid(kind: u8, words: &[u64]) -> Vec<u8> {
    let size = 8 + 8 * words.len() as u16;
    let mut bytes = vec![kind, 0, 0, 0, 0, 0];
    bytes.extend(size.to_le_bytes());
    bytes.extend(words.iter().flat_map(|w| w.to_le_bytes()));
    bytes
}

pub fn switch() -> Vec<u8> {
    laid(14, &[7])
}

pub fn lost() -> Vec<u8> {
    laid(2, &[5, 6, 7])
}
