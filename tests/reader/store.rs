//! The store of settings (document 02, M-103, M-112): its bytes read and written, and why it is refused.
//!
//! Written from the document and its settled readings alone, as rules.rs and record.rs are.

use crate::events::{self, Event};
use crate::record::{le16, le32, number};
use crate::rules::edition;

/// What a store's version decides: the bytes of an event's index, and how many events there may be.
#[derive(Debug, PartialEq)]
pub struct Version {
    pub number: u16,
    pub index: usize,
    pub most: usize,
}

/// "The store's version, a two-byte 1", "its index in one byte", "1 to 32 of them"; M-112: "a version 2 store has a
/// two-byte index in each kind 2 entry", "raise the table limit .. to 1,024", "version 1 keeps its limit of 32".
pub const VERSIONS: [Version; 2] =
    [Version { number: 1, index: 1, most: 32 }, Version { number: 2, index: 2, most: 1024 }];

/// "New builds read both versions and write version 2."
pub const WRITTEN: &Version = &VERSIONS[VERSIONS.len() - 1];

/// "An entry is a 4-byte length that covers itself, a 2-byte kind, then the body."
pub const HEAD: usize = 6;
pub const VERSION: u16 = 1;
pub const EVENT: u16 = 2;
pub const REST: u16 = 3;

impl Version {
    /// Index, "then identifier, sample type, read format, user mask, interrupt mask and branch sample type, 8 bytes each".
    pub fn event_length(&self) -> usize {
        HEAD + self.index + 6 * 8
    }

    /// The bytes of a store of so many events: 8 and 19 bytes around them.
    pub fn bytes(&self, events: usize) -> usize {
        8 + self.event_length() * events + 19
    }
}

#[derive(Clone, Debug, PartialEq)]
pub struct Settings {
    pub events: Vec<Event>,
    pub ring_length: u64,
    pub edition: u32,
    pub budget: u32,
}

/// Why a store is refused: each has its number.
#[derive(Clone, Copy, Debug, PartialEq, Eq, PartialOrd, Ord)]
pub enum Reason {
    OtherVersion,
    CutHead,
    TooShort,
    CutBody,
    FitsNoKind,
    EndsEarly,
    FirstIsOther,
    SecondVersion,
    IndexOutOfTurn,
    RingLength,
    Edition,
    BrokenBehind,
    SoundBehind,
    Table,
    NoRoom,
}

pub const REASONS: [Reason; 15] = [
    Reason::OtherVersion,
    Reason::CutHead,
    Reason::TooShort,
    Reason::CutBody,
    Reason::FitsNoKind,
    Reason::EndsEarly,
    Reason::FirstIsOther,
    Reason::SecondVersion,
    Reason::IndexOutOfTurn,
    Reason::RingLength,
    Reason::Edition,
    Reason::BrokenBehind,
    Reason::SoundBehind,
    Reason::Table,
    Reason::NoRoom,
];

impl Reason {
    pub fn number(self) -> u32 {
        match self {
            Reason::OtherVersion => 50,
            Reason::CutHead | Reason::TooShort | Reason::CutBody | Reason::FitsNoKind => 51,
            Reason::EndsEarly | Reason::BrokenBehind => 51,
            Reason::FirstIsOther | Reason::SecondVersion | Reason::IndexOutOfTurn => 52,
            Reason::RingLength | Reason::Edition | Reason::SoundBehind => 52,
            Reason::Table => 11,
            Reason::NoRoom => 40,
        }
    }

    pub fn name(self) -> &'static str {
        match self {
            Reason::OtherVersion => "50: another version",
            Reason::CutHead => "51: fewer than 4 bytes left",
            Reason::TooShort => "51: a length below 6",
            Reason::CutBody => "51: a length beyond the end",
            Reason::FitsNoKind => "51: fits no known kind",
            Reason::EndsEarly => "51: ends before kind 3",
            Reason::FirstIsOther => "52: the first entry is of kind 2 or 3",
            Reason::SecondVersion => "52: a second kind 1",
            Reason::IndexOutOfTurn => "52: an index out of turn",
            Reason::RingLength => "52: a ring length that is not allowed",
            Reason::Edition => "52: an edition that is not allowed",
            Reason::BrokenBehind => "51: behind kind 3, no entry",
            Reason::SoundBehind => "52: behind kind 3, an entry",
            Reason::Table => "11: the table",
            Reason::NoRoom => "40: the lent table is too short",
        }
    }
}

/// Why, and the place of the first faulty entry (of the store's end, where all entries are in order).
#[derive(Clone, Copy, Debug, PartialEq)]
pub struct Fault {
    pub reason: Reason,
    pub place: usize,
}

pub fn ring_length_allowed(length: u64) -> bool {
    length.is_power_of_two() && (64..=1_048_576).contains(&length)
}

/// The entry at the start of these bytes, its kind and body; or "cut short, shorter than 6 or not fitting a known kind".
/// Before a version is known an event may have the length that any of them gives it.
fn entry<'b>(bytes: &'b [u8], version: Option<&Version>) -> Result<(u16, &'b [u8]), Reason> {
    if bytes.len() < 4 {
        return Err(Reason::CutHead);
    }
    let length = u64::from(le32(bytes, 0));
    if length < HEAD as u64 {
        return Err(Reason::TooShort);
    }
    if length > bytes.len() as u64 {
        return Err(Reason::CutBody);
    }
    let length = length as usize;
    let kind = le16(bytes, 4);
    let fits = match (kind, version) {
        (VERSION, _) => length == 8,
        (EVENT, Some(version)) => length == version.event_length(),
        (EVENT, None) => VERSIONS.iter().any(|version| length == version.event_length()),
        (REST, _) => length == 19,
        _ => false,
    };
    if fits { Ok((kind, &bytes[HEAD..length])) } else { Err(Reason::FitsNoKind) }
}

/// sample_id_all is not stored: it is set on reading.
fn event_of(body: &[u8], version: &Version) -> Event {
    let word = |i: usize| number(&body[version.index + 8 * i..version.index + 8 * i + 8]);
    Event {
        identifier: word(0),
        sample_type: word(1),
        read_format: word(2),
        user_mask: word(3),
        interrupt_mask: word(4),
        branch_sample_type: word(5),
        sample_id_all: 1,
    }
}

fn version_at_start(store: &[u8]) -> Result<&'static Version, Reason> {
    let shows = store.len() >= 8 && le32(store, 0) == 8 && le16(store, 4) == VERSION;
    let version = VERSIONS.iter().find(|version| shows && version.number == le16(store, 6));
    if let (true, None) = (shows, version) {
        return Err(Reason::OtherVersion);
    }
    if store.is_empty() {
        return Err(Reason::EndsEarly);
    }
    entry(store, None)?;
    version.ok_or(Reason::FirstIsOther)
}

/// What a store holds, and its version; or the first fault.
pub fn read(store: &[u8], room: usize) -> Result<(Settings, &'static Version), Fault> {
    let version = version_at_start(store).map_err(|reason| Fault { reason, place: 0 })?;
    let mut events = Vec::new();
    let mut place = 8;
    loop {
        let fault = |reason| Fault { reason, place };
        if place == store.len() {
            return Err(fault(Reason::EndsEarly));
        }
        let (kind, body) = entry(&store[place..], Some(version)).map_err(fault)?;
        if kind == VERSION {
            return Err(fault(Reason::SecondVersion));
        }
        if kind == EVENT {
            if number(&body[..version.index]) != events.len() as u64 {
                return Err(fault(Reason::IndexOutOfTurn));
            }
            events.push(event_of(body, version));
            place += version.event_length();
            continue;
        }
        let settings = Settings {
            events,
            ring_length: number(&body[..8]),
            edition: u32::from(body[8]),
            budget: le32(body, 9),
        };
        if !ring_length_allowed(settings.ring_length) {
            return Err(fault(Reason::RingLength));
        }
        if edition(settings.edition).is_none() {
            return Err(fault(Reason::Edition));
        }
        place += 19;
        let fault = |reason| Fault { reason, place };
        if place != store.len() {
            let sound = entry(&store[place..], Some(version)).is_ok();
            return Err(fault(if sound { Reason::SoundBehind } else { Reason::BrokenBehind }));
        }
        if events::refused_above(&settings.events, version.most) {
            return Err(fault(Reason::Table));
        }
        if room < settings.events.len() {
            return Err(fault(Reason::NoRoom));
        }
        return Ok((settings, version));
    }
}

fn put_entry(store: &mut Vec<u8>, kind: u16, body: &[u8]) {
    store.extend(((HEAD + body.len()) as u32).to_le_bytes());
    store.extend(kind.to_le_bytes());
    store.extend(body);
}

pub fn put_event(store: &mut Vec<u8>, version: &Version, index: usize, event: &Event) {
    let mut body = index.to_le_bytes()[..version.index].to_vec();
    body.extend(event.words()[..6].iter().flat_map(|word| word.to_le_bytes()));
    put_entry(store, EVENT, &body);
}

/// The bytes of a store, whether or not anything in it is allowed.
pub fn bytes_of(settings: &Settings, version: &Version) -> Vec<u8> {
    let mut store = Vec::new();
    put_entry(&mut store, VERSION, &version.number.to_le_bytes());
    for (index, event) in settings.events.iter().enumerate() {
        put_event(&mut store, version, index, event);
    }
    let mut rest = settings.ring_length.to_le_bytes().to_vec();
    rest.push(settings.edition as u8);
    rest.extend(settings.budget.to_le_bytes());
    put_entry(&mut store, REST, &rest);
    store
}

/// "Writing refuses with 11, 1, 2, then 40 for no room."
pub fn write(settings: &Settings, room: usize) -> Result<Vec<u8>, u32> {
    if events::refused_above(&settings.events, WRITTEN.most) {
        return Err(11);
    }
    if !ring_length_allowed(settings.ring_length) {
        return Err(1);
    }
    if edition(settings.edition).is_none() {
        return Err(2);
    }
    if room < WRITTEN.bytes(settings.events.len()) {
        return Err(40);
    }
    Ok(bytes_of(settings, WRITTEN))
}
