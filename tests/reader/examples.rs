//! Document 01's own examples, P1 to P12 and the whole journal, the settled readings of it, and document
//! 02's hardware index, tried on the independent reader. No archive is needed.

use crate::record::*;
use crate::ring::*;
use crate::rules::*;
use crate::words::*;
use crate::writer;

struct Tried {
    passed: u32,
    failed: u32,
}

impl Tried {
    fn is<T: PartialEq + std::fmt::Debug>(&mut self, what: &str, got: T, due: T) {
        if got == due {
            self.passed += 1;
        } else {
            self.failed += 1;
            println!("example {what}: {got:?} where {due:?} is due");
        }
    }
}

/// A record of this type, misc and body; the size is its length.
fn made(kind: u32, misc: u16, body: &[u8]) -> Vec<u8> {
    let mut record = kind.to_le_bytes().to_vec();
    record.extend(misc.to_le_bytes());
    record.extend((8 + body.len() as u16).to_le_bytes());
    record.extend(body);
    record
}

fn words(words: &[u64]) -> Vec<u8> {
    words.iter().flat_map(|w| w.to_le_bytes()).collect()
}

fn with(sample_type: u64) -> Attributes {
    Attributes { sample_type, ..Attributes::EMPTY }
}

/// A drain of these bytes, put into a ring of this length at tail.
fn drained(length: usize, tail: u64, distance: u64, bytes: &[u8], edition: u32, scratch: usize) -> (Drained, Vec<u8>, Vec<u8>) {
    let mut ring = vec![0; length];
    for (i, b) in bytes.iter().enumerate() {
        ring[(tail.wrapping_add(i as u64) % length as u64) as usize] = *b;
    }
    let ring = Ring { bytes: &ring, head: tail.wrapping_add(distance), edition, attributes: Attributes::EMPTY };
    let mut scratch = vec![0xcc; scratch];
    let mut journal = vec![0xdd; 64];
    let done = drain(&ring, tail, 9, &mut scratch, &mut journal);
    (done, scratch, journal)
}

fn stop(length: usize, tail: u64, distance: u64, bytes: &[u8], scratch: usize) -> u32 {
    drained(length, tail, distance, bytes, 3, scratch).0.stop
}

pub fn run() -> bool {
    let mut t = Tried { passed: 0, failed: 0 };
    rings(&mut t);
    records(&mut t);
    readings(&mut t);
    hardware_index(&mut t);
    dirty_names(&mut t);
    edition_4(&mut t);
    program(&mut t);
    values(&mut t);
    println!("examples of documents 01 and 02: {} right, {} wrong", t.passed, t.failed);
    t.failed == 0
}

fn rings(t: &mut Tried) {
    t.is("P1", stop(64, 0, 0, &[], 0), 0);
    let switches: Vec<u8> = (0..8).flat_map(|_| made(14, 0, &[])).collect();
    t.is("P2 distance 64", drained(64, 0, 64, &switches, 3, 0).0, Drained { taken: 4, bytes: 32, tail: 32, stop: 9 });
    t.is("P2 distance 72", stop(64, 0, 72, &switches, 0), 4);
    let lost = made(2, 0, &words(&[7, 9]));
    let tail = 0u64.wrapping_sub(8);
    let (done, scratch, journal) = drained(64, tail, 24, &lost, 3, 24);
    t.is("P3 scratch 24", done, Drained { taken: 1, bytes: 24, tail: 16, stop: 0 });
    t.is("P3 scratch holds the record", scratch, lost.clone());
    t.is("P3 answer", le16(&journal, 6), 0);
    t.is("P3 the record's tail", number(&journal[8..16]), tail);
    let (done, scratch, journal) = drained(64, tail, 24, &lost, 3, 23);
    t.is("P3 scratch 23", done, Drained { taken: 0, bytes: 0, tail, stop: 3 });
    t.is("P3 scratch unchanged", scratch, vec![0xcc; 23]);
    t.is("P3 journal unchanged", journal, vec![0xdd; 64]);
    for size in [0u16, 4, 12] {
        let mut record = lost.clone();
        record[6..8].copy_from_slice(&size.to_le_bytes());
        t.is("P4", stop(64, 0, 24, &record, 0), 6);
        t.is("P4 check", check(&record, 3, &Attributes::EMPTY), 6);
    }
    let mut record = lost.clone();
    record[6] = 32;
    t.is("P5", stop(64, 0, 24, &record, 0), 7);
    let p6 = [0x0e, 0, 0, 0, 0, 0x20, 8, 0];
    t.is("P6 edition 1", check(&p6, 1, &Attributes::EMPTY), 20);
    t.is("P6 edition 2", read(&p6, 2, &Attributes::EMPTY).map(|v| (v[TYPE], v[MISC])), Ok((14, 0x2000)));
    let (done, _, journal) = drained(64, 0, 8, &p6, 1, 0);
    t.is("journal whole, result", done, Drained { taken: 1, bytes: 8, tail: 8, stop: 0 });
    t.is("journal whole, entry", journal[..16].to_vec(), [&[0x10, 0, 0, 0, 0x0e, 0, 0x14, 0][..], &[0; 8]].concat());
    t.is("journal whole, rest", journal[16..].to_vec(), vec![0xdd; 48]);
    // rows in the order of the table
    let ring = Ring { bytes: &[0; 64], head: 8, edition: 3, attributes: Attributes::EMPTY };
    t.is("budget 0 and no journal", drain(&ring, 0, 0, &mut [], &mut []).stop, 8);
    t.is("no journal and a bad header", drain(&ring, 0, 1, &mut [], &mut [0; 15]).stop, 9);
    t.is("a bad header", drain(&ring, 0, 1, &mut [], &mut [0; 16]).stop, 6);
    t.is("empty ring and budget 0", drain(&ring, 8, 0, &mut [], &mut []).stop, 0);
    t.is("tail misaligned", drain(&ring, 7, 0, &mut [], &mut []).stop, 5);
    let ring = Ring { edition: 257, ..ring };
    t.is("edition 257", drain(&ring, 8, 0, &mut [], &mut []).stop, 2);
    let ring = Ring { bytes: &[0; 96], ..ring };
    t.is("ring of 96", drain(&ring, 8, 0, &mut [], &mut []).stop, 1);
    for (length, due) in [(0usize, 1), (32, 1), (64, 0), (1 << 20, 0), (1 << 21, 1)] {
        let bytes = vec![0; length];
        let ring = Ring { bytes: &bytes, head: 0, edition: 1, attributes: Attributes::EMPTY };
        t.is("ring length", drain(&ring, 0, 0, &mut [], &mut []).stop, due);
    }
}

fn records(t: &mut Tried) {
    let kiln = made(3, 0, &[&[1, 0, 0, 0, 1, 0, 0, 0][..], b"kiln\0\0\0\0"].concat());
    t.is("P7 size", kiln.len(), 24);
    let named = read(&kiln, 1, &Attributes::EMPTY).map(|v| (v[comm::NAME], v[comm::NAME_COUNT]));
    t.is("P7", named, Ok((16, 4)));
    let wide = made(3, 0, &[&[0; 8][..], b"kiln\0\0\0\0", &[0; 8]].concat());
    t.is("P7 room 16", check(&wide, 1, &Attributes::EMPTY), 33);
    for (body, due) in [(&[1u64, 2][..], 0), (&[1], 30), (&[1, 2, 3], 31)] {
        t.is("P8", check(&made(9, 0, &words(body)), 1, &with(3)), due);
    }
    for (size, due) in [(4u32, 0), (0, 32), (5, 32)] {
        let body = [&size.to_le_bytes()[..], &[1, 2, 3, 4]].concat();
        t.is("P9", check(&made(9, 0, &body), 1, &with(1 << 10)), due);
    }
    t.is("P10", check(&made(9, 0, &words(&[16, 0, 0, 17])), 1, &with(1 << 13)), 32);
    t.is("P10 filled 16", check(&made(9, 0, &words(&[16, 0, 0, 16])), 1, &with(1 << 13)), 0);
    for edition in 1..=4 {
        t.is("P11", check(&made(9, 0, &[]), edition, &with(1 << 25)), 21);
    }
    t.is("P12", check(&made(10, 0x4000, &[0; 72]), 2, &Attributes::EMPTY), 23);
    t.is("P12 edition 3", check(&made(10, 0x4000, &[0; 72]), 3, &Attributes::EMPTY), 0);
}

fn readings(t: &mut Tried) {
    let e = &Attributes::EMPTY;
    t.is("1 COMM of size 16", check(&made(3, 0, &[0; 8]), 3, e), 33);
    t.is("1 MMAP of size 40", check(&made(1, 0, &[0; 32]), 3, e), 33);
    let id = Attributes { sample_type: 2, sample_id_all: 1, ..Attributes::EMPTY };
    let full = made(3, 0, &[&[0; 8][..], b"namename", &[0; 8]].concat());
    t.is("1 a zero in the trailer saves no name", check(&full, 3, &id), 33);
    t.is("2 trailer", check(&made(14, 0, &[]), 3, &id), 30);
    t.is("2 trailer after 20", check(&made(21, 0, &[]), 3, &id), 20);
    let unknown = Attributes { sample_type: 1 << 30, sample_id_all: 1, ..Attributes::EMPTY };
    t.is("3", check(&made(14, 0, &[]), 3, &unknown), 21);
    t.is("3 without sample_id_all", check(&made(14, 0, &[]), 3, &with(1 << 30)), 0);
    t.is("3 both weights", check(&made(14, 0, &[]), 3, &Attributes { sample_type: 1 << 14 | 1 << 24, sample_id_all: 1, ..Attributes::EMPTY }), 0);
    let mut build = vec![0; 40];
    build[32] = 21;
    t.is("4 size byte 21, short", check(&made(10, 0x4000, &build), 3, e), 32);
    build[32] = 20;
    t.is("4 size byte 20, short", check(&made(10, 0x4000, &build), 3, e), 30);
    for (body, due) in [
        (&[0][..], 0),
        (&[0, 0], 31),
        (&[8, 5], 30),
        (&[u64::MAX], 32),
        (&[u64::MAX - 7], 30),
    ] {
        t.is("5 stack", check(&made(9, 0, &words(body)), 3, &with(1 << 13)), due);
    }
    t.is("5 raw", check(&made(9, 0, &words(&[0xffff_fffc])), 3, &with(1 << 10)), 30);
    let poke = |old: u16, new: u16, rest: usize| {
        let mut body = words(&[1]);
        body.extend(old.to_le_bytes());
        body.extend(new.to_le_bytes());
        body.resize(12 + rest, 0);
        check(&made(20, 0, &body), 3, e)
    };
    t.is("6 texts", [poke(2, 2, 4), poke(0, 0, 4), poke(0, 4, 12), poke(0, 5, 12), poke(0, 5, 4)], [0, 0, 31, 0, 30]);
    let regs = Attributes { sample_type: 1 << 12, user_mask: 7, ..Attributes::EMPTY };
    t.is("7 abi 9", check(&made(9, 0, &words(&[9, 1, 2, 3])), 3, &regs), 0);
    t.is("7 abi 0", check(&made(9, 0, &words(&[0])), 3, &regs), 0);
    for (kind, due) in [(65_534u32, 65_534u16), (65_535, 65_535), (65_536, 65_535), (u32::MAX, 65_535)] {
        let (_, _, journal) = drained(64, 0, 8, &made(kind, 0, &[]), 3, 0);
        t.is("8", le16(&journal, 4), due);
    }
    let mut lengths = made(14, 0, &[0; 8]);
    lengths[6] = 12;
    t.is("13 slice of 12, size 12", check(&lengths[..12], 3, e), 6);
    lengths[6] = 24;
    t.is("13 slice of 16, size 24", check(&lengths, 3, e), 7);
    t.is("13 slice of 5", check(&lengths[..5], 3, e), 7);
    t.is("13 edition first", check(&lengths[..5], 0, e), 2);
    let mut buffer = [9; 4];
    t.is("15 past the end", copy_name(b"record", 7, 0, &mut buffer), 41);
    t.is("15 wrap", copy_name(b"record", u64::MAX, 2, &mut buffer), 41);
    t.is("15 no room", copy_name(b"record", 0, 4, &mut buffer), 12);
    t.is("15 unchanged", buffer, [9; 4]);
    t.is("15 copied", (copy_name(b"re\0ord", 1, 2, &mut buffer), buffer), (0, [b'e', 0, 0, 9]));
    let group = Attributes { read_format: 12, ..Attributes::EMPTY };
    for (n, due) in [(1u64, 0), (2, 30), (1 << 60, 30), (0, 31)] {
        t.is("count never wraps", check(&made(8, 0, &words(&[1, n, 5, 6])), 3, &group), due);
    }
}

/// M-102: the word between count and entries, and 25.
fn hardware_index(t: &mut Tried) {
    let both = |sample_type, branch| Attributes { sample_type, branch_sample_type: branch, ..Attributes::EMPTY };
    let index = 1u64 << 17;
    // one branch, then a weight: n, the index, from, to, flags, weight
    let record = made(9, 0, &words(&[1, 7, 11, 12, 13, 5]));
    let a = both(1 << 11 | 1 << 14, index);
    let read_words = |v: Value| [sample::BRANCHES_COUNT, sample::HW_INDEX, sample::BRANCHES, sample::WEIGHT].map(|w| v[w]);
    t.is("index", read(&record, 3, &a).map(read_words), Ok([1, 7, 24, 5]));
    for (edition, due) in [(1, 25), (2, 25), (3, 0), (4, 0)] {
        t.is("index by edition", check(&record, edition, &a), due);
    }
    // without bit 17 the same bytes have one word too many, and it is no word of the value
    t.is("no index", check(&record, 3, &both(1 << 11 | 1 << 14, 0)), 31);
    let plain = made(9, 0, &words(&[1, 11, 12, 13, 5]));
    t.is("no index, read", read(&plain, 3, &both(1 << 11 | 1 << 14, 0)).map(read_words), Ok([1, 0, 16, 5]));
    // with n = 0 the word is there too
    t.is("n = 0", check(&made(9, 0, &words(&[0, 7])), 3, &both(1 << 11, index)), 0);
    t.is("n = 0 and no word", check(&made(9, 0, &words(&[0])), 3, &both(1 << 11, index)), 30);
    t.is("n = 0, no word, a weight taken for it", check(&made(9, 0, &words(&[0, 5])), 3, &both(1 << 11 | 1 << 14, index)), 30);
    t.is("no count", check(&made(9, 0, &[]), 3, &both(1 << 11, index)), 30);
    t.is("a count too large", check(&made(9, 0, &words(&[u64::MAX, 7])), 3, &both(1 << 11, index)), 30);
    // bits 0 to 16 and 18 change nothing, 19 and up are 25, in every edition; without sample bit 11 none counts
    for edition in 1..=4 {
        t.is("bits 0 to 16 and 18", check(&made(9, 0, &words(&[0])), edition, &both(1 << 11, 0x5_ffff)), 0);
        for bit in 19..64 {
            t.is("bit 19 and up", check(&made(9, 0, &words(&[0])), edition, &both(1 << 11, 1 << bit)), 25);
        }
        t.is("without bit 11", check(&made(9, 0, &words(&[5])), edition, &both(1, u64::MAX)), 0);
        t.is("no SAMPLE", check(&made(2, 0, &words(&[5, 6])), edition, &both(1 << 11, u64::MAX)), 0);
        let all = Attributes { sample_id_all: 1, ..both(1 << 11 | 1 << 2, u64::MAX) };
        t.is("no SAMPLE, with a trailer", check(&made(2, 0, &words(&[5, 6, 7])), edition, &all), 0);
        t.is("21 first", check(&made(9, 0, &[]), edition, &both(1 << 11 | 1 << 25, u64::MAX)), 21);
        let format = Attributes { read_format: 32, ..both(1 << 11 | 1 << 4, u64::MAX) };
        t.is("22 first", check(&made(9, 0, &[]), edition, &format), 22);
    }
    t.is("25 before 24", check(&made(9, 0, &[]), 3, &both(1 << 11 | 1 << 14 | 1 << 24, 1 << 19)), 25);
    t.is("24 where 17 is known", check(&made(9, 0, &[]), 3, &both(1 << 11 | 1 << 14 | 1 << 24, index)), 24);
    // the writer: the word where it is selected, 42 where it is not and not 0, 25 before 41
    let mut value = [0; FIELDS];
    (value[TYPE], value[SIZE], value[sample::HW_INDEX]) = (9, 24, 7);
    let mut buffer = [9; 24];
    let write = |value: &Value, edition, branch, buffer: &mut [u8]| writer::write(value, &[], edition, &both(1 << 11, branch), buffer);
    t.is("written", (write(&value, 3, index, &mut buffer), buffer[8..].to_vec()), (0, words(&[0, 7])));
    t.is("42 where it is not selected", write(&with_word(value, SIZE, 16), 3, 0, &mut buffer), 42);
    t.is("25 by the writer", write(&with_word(value, sample::BRANCHES, 1), 2, index, &mut buffer), 25);
    t.is("41 by the writer", write(&with_word(value, sample::BRANCHES, 1), 3, index, &mut buffer), 41);
}

/// M-107: the flag of a name, 44 and 43.
fn dirty_names(t: &mut Tried) {
    let e = &Attributes::EMPTY;
    let id = &Attributes { sample_type: 2, sample_id_all: 1, ..Attributes::EMPTY };
    // what stands before the name, by type and misc: zeros, so many; then "kiln", its zero and three bytes
    let named = |kind: u32, misc: u16, before: usize, rest: &[u8], after: &[u8]| {
        made(kind, misc, &[&vec![0; before][..], b"kiln\0", rest, after].concat())
    };
    for (kind, misc, before) in [(1, 0, 32), (3, 0, 8), (10, 0, 64), (10, 0x4000, 64), (17, 0, 16), (19, 0, 8)] {
        let word = flag_word(u64::from(kind)).unwrap();
        for (rest, flag) in [(&[0, 0, 0], 0), (&[1, 0, 0], 1), (&[0, 128, 0], 1), (&[0, 0, 1], 1), (&[255, 255, 255], 1)] {
            let due = if flag == 1 { 44 } else { 0 };
            let record = named(kind, misc, before, rest, &[]);
            t.is("44", check(&record, 3, e), due);
            t.is("flag", read(&record, 3, e).map(|v| v[word]), Ok(flag));
            // the room ends at the trailer's start: a trailer that is not zero is no stale byte
            let trailed = named(kind, misc, before, rest, &[9; 8]);
            t.is("44 before a trailer", check(&trailed, 3, id), due);
            let (done, _, journal) = drained(256, 0, record.len() as u64, &record, 3, 0);
            t.is("the drain says 0", (done.taken, done.stop, le16(&journal, 6)), (1, 0, 0));
            let value = read(&record, 3, e).unwrap();
            let mut buffer = vec![9; record.len()];
            t.is("43", writer::write(&value, &record, 3, e, &mut buffer), if flag == 1 { 43 } else { 0 });
            if flag == 1 {
                t.is("43: the buffer is unchanged", buffer.clone(), vec![9; record.len()]);
                t.is("43 before 41", writer::write(&value, &[], 3, e, &mut buffer), 43);
                t.is("43 before 42", writer::write(&with_word(value, SIZE, 0), &record, 3, e, &mut buffer), 43);
                t.is("43 before 40", writer::write(&value, &record, 3, e, &mut []), 43);
                t.is("20 before 43", writer::write(&with_word(value, TYPE, 21), &record, 3, e, &mut buffer), 20);
                t.is("2 before 43", writer::write(&value, &record, 5, e, &mut buffer), 2);
                t.is("any word but 0", writer::write(&with_word(value, word, 2), &record, 3, e, &mut buffer), 43);
                t.is("without the flag", writer::write(&with_word(value, word, 0), &record, 3, e, &mut buffer), 0);
                t.is("written without stale bytes", buffer, named(kind, misc, before, &[0, 0, 0], &[]));
            }
        }
    }
    let unknown = &Attributes { sample_type: 1 << 30, sample_id_all: 1, ..Attributes::EMPTY };
    let dirty = named(3, 0, 8, &[1, 1, 1], &[]);
    let value = read(&dirty, 1, e).unwrap();
    t.is("21 before 43", writer::write(&value, &dirty, 3, unknown, &mut [0; 24]), 21);
    let long = read(&named(10, 0x4000, 64, &[1, 0, 0], &[]), 3, e).unwrap();
    t.is("23 before 43", writer::write(&long, &dirty, 2, e, &mut [0; 80]), 23);
    t.is("20 and 33 are no 44", (check(&named(19, 0, 8, &[1, 1, 1], &[]), 2, e), check(&made(3, 0, &[7; 16]), 3, e)), (20, 33));
    // an empty name, and one whose zero is the room's last byte: nothing comes after it
    t.is("an empty name", check(&made(3, 0, &[&[7; 8][..], &[0, 0, 0, 0, 0, 0, 0, 1]].concat()), 3, e), 44);
    t.is("a name to the end", check(&made(3, 0, &[&[7; 8][..], b"kilnmas\0"].concat()), 3, e), 0);
    // what else is ignored raises no flag: a build id's reserved three and unused bytes, text padding, res
    let mut build = vec![7; 72];
    build[32] = 4;
    build[64..].copy_from_slice(b"kiln\0\0\0\0");
    t.is("a build id's ignored bytes", check(&made(10, 0x4000, &build), 3, e), 0);
    let poke = [&words(&[1])[..], &[1, 0, 1, 0], &[7; 4]].concat();
    t.is("text padding", check(&made(20, 0, &poke), 3, e), 0);
    t.is("res in a trailer", check(&made(14, 0, &[7; 8]), 3, &Attributes { sample_type: 1 << 7, sample_id_all: 1, ..Attributes::EMPTY }), 0);
    t.is("res in a SAMPLE", check(&made(9, 0, &[7; 8]), 3, &with(1 << 7)), 0);
    // a type without a name has no flag: its words are spare
    let mut lost = [0; FIELDS];
    (lost[TYPE], lost[SIZE]) = (2, 24);
    for word in [6, 7, 9, 10, 18] {
        t.is("42 where there is no name", writer::write(&with_word(lost, word, 1), &[], 3, e, &mut [0; 24]), 42);
    }
}

/// M-110: lost counts, type 21, and 22 from bit 5 on for edition 4 alone.
fn edition_4(t: &mut Tried) {
    let by = |read_format| Attributes { read_format, ..Attributes::EMPTY };
    let read_words = |v: Value| {
        [read::VALUE, read::VALUES_COUNT, read::ENABLED, read::RUNNING, read::ID, read::LOST, read::VALUES].map(|w| v[w])
    };
    // without bit 3 the lost count is the last read value
    t.is("value, lost", read(&made(8, 0, &words(&[1, 5, 6])), 4, &by(16)).map(read_words), Ok([5, 0, 0, 0, 0, 6, 0]));
    t.is("value, id, lost", read(&made(8, 0, &words(&[1, 5, 6, 7])), 4, &by(20)).map(read_words), Ok([5, 0, 0, 0, 6, 7, 0]));
    let five = made(8, 0, &words(&[1, 5, 6, 7, 8, 9]));
    t.is("all five", read(&five, 4, &by(23)).map(read_words), Ok([5, 0, 6, 7, 8, 9, 0]));
    // with it an entry is value, id, lost: 8, 16 or 24 bytes
    for (format, words_each) in [(8u64, 1), (12, 2), (24, 2), (28, 3)] {
        for n in 0..4u64 {
            for spare in [-1i64, 0, 1] {
                let count = 2 + words_each * n as i64 + spare;
                let mut body = vec![9u64; count.max(1) as usize];
                if count >= 2 {
                    body[1] = n;
                }
                let due = if count < 2 { 30 } else { [30, 0, 31][(spare + 1) as usize] };
                t.is("entries", check(&made(8, 0, &words(&body)), 4, &by(format)), due);
            }
        }
    }
    // 22 by edition, of READ and of a SAMPLE with sample bit 4; of no other record
    for edition in 1..=4 {
        for bit in 0..64 {
            let known = bit < 4 || edition == 4 && bit == 4;
            let a = Attributes { read_format: 1 << bit, sample_type: 16, ..Attributes::EMPTY };
            for kind in [8, 9] {
                t.is("22", check(&made(kind, 0, &[]), edition, &a), if known { 30 } else { 22 });
            }
            t.is("no 22", check(&made(9, 0, &[]), edition, &by(1 << bit)), 0);
            t.is("no 22 of LOST", check(&made(2, 0, &[0; 16]), edition, &a), 0);
        }
        // type 21 is edition 4's: one hardware id and the trailer
        let (full, id) = (made(21, 0, &words(&[5, 6])), Attributes { sample_id_all: 1, ..with(1 << 6) });
        t.is("type 21", check(&full, edition, &id), if edition == 4 { 0 } else { 20 });
        t.is("type 22", check(&made(22, 0, &words(&[5])), edition, &Attributes::EMPTY), 20);
        t.is("edition 4 has edition 3's", check(&made(10, 0x4000, &[0; 72]), edition, &Attributes::EMPTY), match edition {
            1 => 20,
            2 => 23,
            _ => 0,
        });
    }
    let id = Attributes { sample_id_all: 1, ..with(1 << 6) };
    let told = read(&made(21, 0, &words(&[5, 6])), 4, &id);
    t.is("hardware id", told.map(|v| (v[aux_output::HW_ID], v[trailer::ID])), Ok((5, 6)));
    t.is("type 21, short", check(&made(21, 0, &words(&[5])), 4, &id), 30);
    t.is("type 21, long", check(&made(21, 0, &words(&[5, 6, 7])), 4, &id), 31);
    t.is("edition 5", check(&made(2, 0, &[0; 16]), 5, &Attributes::EMPTY), 2);
    // the writer: the lost count where it is selected, 42 where it is not and not 0
    let mut value = [0; FIELDS];
    (value[TYPE], value[SIZE], value[read::LOST]) = (8, 32, 7);
    let mut buffer = [9; 32];
    let write = |value: &Value, edition, format, buffer: &mut [u8]| writer::write(value, &[], edition, &by(format), buffer);
    t.is("written", (write(&value, 4, 16, &mut buffer), buffer[8..].to_vec()), (0, words(&[0, 0, 7])));
    t.is("42 where it is not selected", write(&with_word(value, SIZE, 24), 4, 0, &mut buffer), 42);
    t.is("42 in a group", write(&value, 4, 24, &mut buffer), 42);
    t.is("22 by the writer", write(&value, 3, 16, &mut buffer), 22);
}

fn program(t: &mut Tried) {
    let mut input = words(&[8, 0, 0, 0, 0, 0]);
    input.extend([1, 0]);
    input.extend([0x0e, 0, 0, 0, 0, 0x20, 8, 0]);
    input.resize(50 + 64, 0);
    t.is("program", program_output(&input), "100000000e0014000000000000000000\nstop 0 tail 8\n".to_string());
    t.is("program, 49 bytes", program_output(&input[..49]), "stop 1 tail 0\n".to_string());
    input[8] = 5;
    t.is("program, 50 bytes", program_output(&input[..50]), "stop 1 tail 5\n".to_string());
    input.resize(50 + 16_385, 0);
    t.is("program, ring too long", program_output(&input), "stop 1 tail 0\n".to_string());
    input.truncate(50 + 16_384);
    t.is("program, longest ring", program_output(&input), "stop 5 tail 5\n".to_string());
}

fn values(t: &mut Tried) {
    let a = &Attributes::EMPTY;
    let mut value = [0; FIELDS];
    value[TYPE] = 3;
    value[SIZE] = 24;
    value[comm::NAME] = 1;
    value[comm::NAME_COUNT] = 4;
    let mut buffer = [9; 32];
    let write = |value: &Value, source: &[u8], buffer: &mut [u8]| writer::write(value, source, 1, a, buffer);
    t.is("write", write(&value, b"-kiln", &mut buffer), 0);
    t.is("written", buffer[16..].to_vec(), b"kiln\0\0\0\0\t\t\t\t\t\t\t\t".to_vec());
    t.is("40", write(&value, b"-kiln", &mut buffer[..23]), 40);
    t.is("41", write(&value, b"-kil", &mut buffer), 41);
    t.is("42 zero in a name", write(&value, b"-k\0ln", &mut buffer), 42);
    t.is("41 before 42", write(&Value::try_from([&value[..55], &[1]].concat()).unwrap(), b"-kil", &mut buffer), 41);
    t.is("42 size", write(&with_word(value, SIZE, 32), b"-kiln", &mut buffer), 42);
    t.is("42 pid too wide", write(&with_word(value, comm::PID, 1 << 32), b"-kiln", &mut buffer), 42);
    t.is("pid widest", write(&with_word(value, comm::PID, u64::from(u32::MAX)), b"-kiln", &mut buffer), 0);
    t.is("42 a word that no COMM has", write(&with_word(value, comm::NAME_FLAG + 1, 1), b"-kiln", &mut buffer), 42);
    t.is("20 type as a whole word", write(&with_word(value, TYPE, 3 << 32 | 3), b"-kiln", &mut buffer), 20);
    t.is("42 few words", writer::write(&value[..55], b"-kiln", 3, a, &mut buffer), 42);
    t.is("2 before few words", writer::write(&value[..55], b"-kiln", 9, a, &mut buffer), 2);
    t.is("2", writer::write(&value, b"-kiln", 9, a, &mut buffer), 2);
}

fn with_word(mut value: Value, word: usize, n: u64) -> Value {
    value[word] = n;
    value
}
