//! Values: ollskuvan_read and ollskuvan_write against the independent reader and writer.

use crate::abi;
use crate::drains::{describe_attributes, Difference};
use crate::guard::*;
use crate::made::*;
use crate::record::{self, Value};
use crate::ring::Image;
use crate::rules::*;
use crate::tally::Tally;
use crate::words::*;
use crate::writer;
use std::collections::BTreeSet;

const OLD: u64 = 0x0123_4567_89ab_cdef;

/// Reads a record by both into `length` words; every word is compared by name.
pub fn compare_read(
    record: &[u8], a: &Attributes, edition: u32, length: usize, r: &mut Random, tally: &mut Tally,
) -> Result<Result<Value, u32>, Difference> {
    let lent_record = Guarded::new(record, r.below(8) as usize);
    let before = vec![OLD; length];
    let mut lent_words = GuardedWords::new(&before);
    let theirs = abi::read(lent_record.slice(), a, edition, lent_words.slice_mut());
    let decoded = record::read(record, edition, a);
    let mut expected = before;
    let ours = match &decoded {
        Err(refusal) => *refusal,
        Ok(_) if length < FIELDS => 40,
        Ok(value) => {
            expected[..FIELDS].copy_from_slice(value);
            0
        }
    };
    let mut wrong = Vec::new();
    if theirs != ours {
        wrong.push(format!("answer: library {theirs}, independent {ours}"));
    }
    let kind = if record.len() >= 4 { u64::from(record::le32(record, 0)) } else { 0 };
    for (word, (got, want)) in lent_words.slice().iter().zip(&expected).enumerate() {
        if got != want {
            wrong.push(format!("{}: library {got:#x}, independent {want:#x}", word_name(kind, word)));
        }
    }
    if lent_record.slice() != record || !lent_record.intact() || !lent_words.intact() {
        wrong.push("the record, or bytes around a slice, were written to".to_string());
    }
    if !wrong.is_empty() {
        return Err(format!(
            "read differs\n  edition {edition}  {}\n  {length} words; record of {} bytes: {}\n{}",
            describe_attributes(a),
            record.len(),
            hex(record),
            wrong.join("\n")
        ));
    }
    tally.answer("read", ours);
    if record.len() >= 8 && ours != 40 {
        tally.record(edition, kind, ours);
    }
    Ok(decoded)
}

/// Writes a value by both into a buffer of `room` bytes; answer and every byte are compared.
#[allow(clippy::too_many_arguments)]
pub fn compare_write(
    fields: &[u64], source: &[u8], a: &Attributes, edition: u32, room: usize, r: &mut Random, tally: &mut Tally,
) -> Result<(u32, Vec<u8>), Difference> {
    let mut buffer = vec![0; room];
    r.fill(&mut buffer);
    let lent_words = GuardedWords::new(fields);
    let lent_source = Guarded::new(source, r.below(8) as usize);
    let mut lent_buffer = Guarded::new(&buffer, r.below(8) as usize);
    let theirs = abi::write(lent_words.slice(), lent_source.slice(), a, edition, lent_buffer.slice_mut());
    let ours = writer::write(fields, source, edition, a, &mut buffer);

    let mut wrong = Vec::new();
    if theirs != ours {
        wrong.push(format!("answer: library {theirs}, independent {ours}"));
    }
    if let Some(at) = first_difference(lent_buffer.slice(), &buffer) {
        wrong.push(format!(
            "buffer from byte {at}\n  library:     {}\n  independent: {}",
            hex(lent_buffer.slice()),
            hex(&buffer)
        ));
    }
    let read_only = lent_words.slice() == fields && lent_source.slice() == source;
    if !read_only || !lent_words.intact() || !lent_source.intact() || !lent_buffer.intact() {
        wrong.push("the value, the source, or bytes around a slice were written to".to_string());
    }
    if !wrong.is_empty() {
        let kind = fields.first().copied().unwrap_or(0);
        let words: Vec<String> = fields
            .iter()
            .enumerate()
            .filter(|(_, n)| **n != 0)
            .map(|(w, n)| format!("{} {n:#x}", word_name(kind, w)))
            .collect();
        return Err(format!(
            "write differs\n  edition {edition}  {}\n  {} words (those not 0): {}\n  room {room}; source of {} bytes: {}\n{}",
            describe_attributes(a),
            fields.len(),
            words.join(", "),
            source.len(),
            hex(source),
            wrong.join("\n")
        ));
    }
    tally.answer("write", ours);
    Ok((ours, buffer))
}

/// A value with the flag set, and with any other number but 0 in the flag's word: 43, whatever room there is and
/// whether the name lies in the source or not.
fn refused_with_flag(
    source: &[u8], value: &Value, a: &Attributes, edition: u32, r: &mut Random, tally: &mut Tally,
) -> Result<(), Difference> {
    let word = match flag_word(value[TYPE]) {
        Some(word) => word,
        None => return Ok(()),
    };
    let mut flagged = *value;
    flagged[word] = if value[word] != 0 { value[word] } else { r.pick(&[1, 1, 2, 1 << 32, 1 << 63, u64::MAX]) };
    let room = r.pick(&[0, value[SIZE] as usize, value[SIZE] as usize + 16]);
    let cut = r.pick(&[0, source.len(), source.len()]);
    let (answer, _) = compare_write(&flagged, &source[..cut], a, edition, room, r, tally)?;
    if answer != 43 {
        return Err(format!("a value with the flag {:#x} is written with {answer}\n  source: {}", flagged[word], hex(source)));
    }
    Ok(())
}

/// A decoded record written again, and read back: demand 2, seen from outside. It speaks of values without the flag; one
/// with it is refused, and with the flag taken off it is the record without its stale bytes.
fn written_again(
    record: &[u8], value: &Value, a: &Attributes, edition: u32, r: &mut Random, tally: &mut Tally,
) -> Result<(), Difference> {
    if record::flag(value) != 0 {
        refused_with_flag(record, value, a, edition, r, tally)?;
        tally.note("records with a dirty name", 1);
    }
    let value = &record::unflagged(value);
    let room = record.len() + r.below(24) as usize;
    let (answer, buffer) = compare_write(value, record, a, edition, room, r, tally)?;
    let again = &buffer[..record.len()];
    if answer != 0 || again != writer::clean(record, value, a) {
        return Err(format!(
            "a decoded record written again: answer {answer}\n  edition {edition}  {}\n  record: {}\n  again:  {}",
            describe_attributes(a),
            hex(record),
            hex(again)
        ));
    }
    let back = compare_read(again, a, edition, FIELDS, r, tally)?;
    if !matches!(&back, Ok(v) if writer::same(v, again, value, record, a)) {
        return Err(format!("what was written does not read back: {back:?}\n  record: {}", hex(record)));
    }
    tally.note("records written again and read back", 1);
    Ok(())
}

/// Numbers next to a word's own, and at the edges of the widths.
fn neighbours(word: u64) -> [u64; 18] {
    [
        0,
        1,
        word.wrapping_add(1),
        word.wrapping_sub(1),
        word.wrapping_add(8),
        word.wrapping_sub(8),
        word ^ 1 << 14,
        20,
        21,
        255,
        256,
        0xffff,
        0x1_0000,
        0xffff_ffff,
        0x1_0000_0000,
        u64::MAX - 7,
        u64::MAX,
        1 << 63,
    ]
}

/// One case: a record is read, written again, moved, and its value damaged and written.
pub fn one_case(seed: u64, number: u64, tally: &mut Tally) -> Result<(), Difference> {
    let mut r = Random::new(seed ^ 0x7a1_0e5, number);
    let edition = some_edition(&mut r);
    let a = some_attributes(&mut r, edition);
    let record = lone_record(&mut r, edition, &a);
    let length = match r.below(12) {
        0 => r.pick(&[0, 1, 3, 54, 55]),
        1 => 57 + r.below(4) as usize,
        _ => FIELDS,
    };
    let decoded = compare_read(&record, &a, edition, length, &mut r, tally)?;
    let value = match decoded {
        Ok(value) => value,
        Err(_) => {
            // No value: write what it would have been under an edition that reads it, if there is one.
            if let Ok(value) = record::read(&record, 3, &a) {
                compare_write(&value, &record, &a, edition, record.len(), &mut r, tally)?;
            }
            return Ok(());
        }
    };
    written_again(&record, &value, &a, edition, &mut r, tally)?;

    let (mut value, mut source) = moved(&mut r, &record::unflagged(&value), &record, &a);
    if r.one_in(8) {
        refused_with_flag(&source, &value, &a, edition, &mut r, tally)?;
    }
    let (answer, buffer) = compare_write(&value, &source, &a, edition, record.len(), &mut r, tally)?;
    if answer != 0 || buffer != writer::clean(&record, &record::read(&record, edition, &a).unwrap(), &a) {
        return Err(format!("a value with its lists moved: answer {answer}\n  record {}", hex(&record)));
    }

    // Damage: one to three words, the source's length, the buffer, the number of words, the edition.
    for _ in 0..r.below(4) {
        let word = match r.below(4) {
            0 => r.below(FIELDS as u64) as usize,
            1 => r.pick(&[TYPE, MISC, SIZE]),
            _ => {
                let used: Vec<usize> = (0..FIELDS).filter(|w| value[*w] != 0).collect();
                if used.is_empty() { TYPE } else { r.pick(&used) }
            }
        };
        value[word] = r.pick(&neighbours(value[word]));
    }
    if r.one_in(6) {
        let cut = r.below(source.len() as u64 + 1) as usize;
        source.truncate(cut);
    }
    if r.one_in(8) && !source.is_empty() {
        let at = r.below(source.len() as u64) as usize;
        source[at] = 0;
    }
    let room = match r.below(6) {
        0 => record.len().saturating_sub(1),
        1 => 0,
        2 => record.len() + 1,
        3 => r.below(record.len() as u64 + 16) as usize,
        _ => record.len() + 16,
    };
    let mut fields = value.to_vec();
    if r.one_in(20) {
        fields.truncate(r.pick(&[0, 1, 3, 55]));
    } else if r.one_in(20) {
        fields.extend([r.next(), r.next()]);
    }
    let edition = if r.one_in(10) { some_edition(&mut r) } else { edition };
    let mut a = a;
    if r.one_in(8) {
        match r.below(8) {
            0 => a.sample_type |= 1 << 14 | 1 << 24,
            1 => a.sample_type ^= 1 << r.below(26),
            2 => a.read_format ^= 1 << r.below(5),
            3 => a.read_format |= 1 << (4 + r.below(60)),
            4 => a.sample_id_all ^= 1,
            5 => a.branch_sample_type ^= 1 << 17,
            6 => a.branch_sample_type ^= 1 << r.below(64),
            _ => a.user_mask ^= 1 << r.below(64),
        }
    }
    let (answer, buffer) = compare_write(&fields, &source, &a, edition, room, &mut r, tally)?;
    if answer == 0 {
        // Accepted after damage: it must read back as the same record.
        let size = value[SIZE] as usize;
        let back = compare_read(&buffer[..size], &a, edition, FIELDS, &mut r, tally)?;
        if !matches!(&back, Ok(v) if writer::same(v, &buffer, &value, &source, &a)) {
            return Err(format!("what was written does not read back: {back:?}\n  record: {}", hex(&buffer[..size])));
        }
    }
    Ok(())
}

/// The edges of 40, 41, 42 and 43: for every type and edition, each word with its neighbours, the
/// source cut at each list's end and one before, the buffer one byte short, 55 and 57 words, the
/// flag's word before and after each of the other refusals.
pub fn edges(tally: &mut Tally) -> Result<u64, Difference> {
    let mut cases = 0;
    let mut r = Random::new(0xed6e, 1);
    for e in &EDITIONS {
        for kind in 1..=e.last_type {
            let rounds = if kind == SAMPLE { 24 } else { 4 };
            for round in 0..rounds {
                let mut a = some_attributes(&mut r, e.number);
                a.sample_type &= (1 << (e.last_sample_bit + 1)) - 1;
                if round == 0 {
                    a.sample_type = (1 << (e.last_sample_bit + 1)) - 1;
                }
                if a.sample_bit(14) {
                    a.sample_type &= !(1 << 24);
                }
                a.read_format = [round, round & 7, round ^ 8][r.below(3) as usize] & ((1 << (e.last_read_bit + 1)) - 1);
                a.sample_id_all = round as u32 & 1;
                a.user_mask &= 0xff;
                a.interrupt_mask &= 0xff00;
                a.branch_sample_type &= if e.hw_index { 0x7_ffff } else { 0x5_ffff };
                let misc = if e.build_id_form && round % 2 == 1 { 0x4000 } else { 0 };
                let record = sound_record(&mut r, kind, misc, &a, 2048, round % 3 == 0)
                    .ok_or_else(|| format!("no sound record of type {kind} in 2,048 bytes"))?;
                cases += edges_of(&record, &a, e.number, &mut r, tally)?;
            }
        }
    }
    Ok(cases)
}

fn edges_of(record: &[u8], a: &Attributes, edition: u32, r: &mut Random, tally: &mut Tally) -> Result<u64, Difference> {
    let mut cases = 0;
    let size = record.len();
    let mut expect = |name: &str, got: u32, want: u32| {
        cases += 1;
        if got == want {
            Ok(())
        } else {
            Err(format!(
                "{name}: answer {got} where {want} is due\n  edition {edition}  {}\n  record: {}",
                describe_attributes(a),
                hex(record)
            ))
        }
    };
    // Read: 40 for fewer words than a value has.
    for length in [0, 55, 56, 57] {
        let decoded = compare_read(record, a, edition, length, r, tally)?;
        expect("sound record", decoded.err().unwrap_or(0), 0)?;
    }
    let value = record::unflagged(&record::read(record, edition, a).unwrap());
    // Write: 40 for a buffer that is one byte short.
    for (room, due) in [(0, 40), (size - 1, 40), (size, 0), (size + 1, 0)] {
        let (answer, _) = compare_write(&value, record, a, edition, room, r, tally)?;
        expect("room", answer, due)?;
    }
    // 42 for fewer words, after 2 and before all that looks at a word.
    let long: Vec<u64> = value.iter().copied().chain([9, 9]).collect();
    for (words, edition, due) in [(0, edition, 42), (55, edition, 42), (0, 5, 2), (55, 5, 2), (56, 5, 2), (57, edition, 0), (58, edition, 0)]
    {
        let (answer, _) = compare_write(&long[..words], record, a, edition, size, r, tally)?;
        expect("number of words", answer, due)?;
    }
    // 41: the source ends just where the last list does, or one byte before.
    let items = writer::all_items(value[TYPE], value[MISC], a);
    let lists: Vec<_> = items.iter().filter_map(writer::listed).collect();
    let end = lists.iter().map(|(p, c, n)| value[*p] as usize + value[*c] as usize * n).max();
    if let Some(end) = end {
        let (answer, _) = compare_write(&value, &record[..end], a, edition, size, r, tally)?;
        expect("source exactly long enough", answer, 0)?;
        let (answer, _) = compare_write(&value, &record[..end - 1], a, edition, size, r, tally)?;
        expect("source one byte short", answer, 41)?;
    }
    for (place, count, entry) in &lists {
        let bytes = value[*count] * *entry as u64;
        let mut at = value;
        at[*place] = size as u64 - bytes + 1;
        let (answer, _) = compare_write(&at, record, a, edition, size, r, tally)?;
        expect("place one too far", answer, 41)?;
        at[*place] = 0u64.wrapping_sub(bytes);
        let (answer, _) = compare_write(&at, record, a, edition, size, r, tally)?;
        expect("place that would wrap", answer, if bytes == 0 { 0 } else { 41 })?;
        at[*place] = size as u64 - bytes;
        compare_write(&at, record, a, edition, size, r, tally)?;
    }
    // 43 where the flag's word is not 0: after 2, too few words and 20, before 41, 42 and 40. No other type has that word.
    if let Some(word) = flag_word(value[TYPE]) {
        for n in [1, 2, 256, 1 << 32, 1 << 63, u64::MAX] {
            let mut flagged = value;
            flagged[word] = n;
            let (answer, _) = compare_write(&flagged, record, a, edition, size, r, tally)?;
            expect("flag", answer, 43)?;
            let (answer, _) = compare_write(&flagged, &[], a, edition, 0, r, tally)?;
            expect("flag before 41 and 40", answer, 43)?;
            for (other, m, due) in [(SIZE, 12, 43), (55, 1, 43), (MISC, 1 << 16, 43), (TYPE, 22, 20), (TYPE, 1 << 32, 20)] {
                let mut more = flagged;
                more[other] = m;
                let (answer, _) = compare_write(&more, record, a, edition, size, r, tally)?;
                expect("flag and another fault", answer, due)?;
            }
            let (answer, _) = compare_write(&flagged[..55], record, a, edition, size, r, tally)?;
            expect("flag in too few words", answer, 42)?;
            let (answer, _) = compare_write(&flagged, record, a, 5, size, r, tally)?;
            expect("flag and no edition", answer, 2)?;
        }
    }
    // Each word with its neighbours: mostly 42, at times 20 to 25, 40, 41, 43 or 0.
    for word in 0..FIELDS {
        for n in neighbours(value[word]) {
            let mut near = value;
            near[word] = n;
            compare_write(&near, record, a, edition, size, r, tally)?;
            cases += 1;
        }
    }
    Ok(cases)
}

/// What the bit test has tried, by edition.
#[derive(Default)]
struct Tried {
    bits: BTreeSet<(u32, u32)>,
    types: BTreeSet<(u32, u64)>,
    formats: BTreeSet<(u32, u64, u64)>,
    trailer_bits: BTreeSet<(u32, u64, u32)>,
    branch_bits: BTreeSet<(u32, u32)>,
}

/// In the manner of perf's own sample-parsing test: each sample bit alone, then all together, each
/// read format, each branch bit, each type, each trailer bit: written, read and compared. Fails if one was not tried.
pub fn bits(tally: &mut Tally) -> Result<u64, Difference> {
    let mut r = Random::new(0xb175, 2);
    let mut tried = Tried::default();
    let mut count = 0;
    for e in &EDITIONS {
        let masks = (0x0000_00ff_0fff, 0x8000_0000_0000_0101);
        let with = |sample_type, read_format, id_all| Attributes {
            sample_type,
            read_format,
            sample_id_all: id_all,
            user_mask: masks.0,
            interrupt_mask: masks.1,
            branch_sample_type: if e.hw_index { 1 << 17 } else { 0 },
        };
        // each sample bit alone
        for bit in 0..=e.last_sample_bit {
            for read_format in if bit == 4 { 0..2 << e.last_read_bit } else { 0..1 } {
                count += round_trip(e, SAMPLE, 0, &with(1 << bit, read_format, 0), &mut r, tally, &mut tried)?;
            }
            tried.bits.insert((e.number, bit));
        }
        // all together, with one of the two weights
        let all = (1u64 << (e.last_sample_bit + 1)) - 1;
        for read_format in 0..2u64 << e.last_read_bit {
            for without in if e.last_sample_bit < 24 { vec![63] } else { vec![14, 24] } {
                let a = with(all & !(1 << without), read_format, 0);
                count += round_trip(e, SAMPLE, 0x4000, &a, &mut r, tally, &mut tried)?;
            }
        }
        // both weights are refused; so is the first bit that the edition does not know
        for (sample_type, due) in [(1u64 << 14 | 1 << 24, if e.number >= 3 { 24 } else { 21 }), (1 << (e.last_sample_bit + 1), 21)] {
            let a = with(sample_type, 0, 0);
            let mut value = [0; FIELDS];
            value[TYPE] = SAMPLE;
            value[SIZE] = 16;
            let (answer, _) = compare_write(&value, &[], &a, e.number, 64, &mut r, tally)?;
            if answer != due {
                return Err(format!("edition {}: a SAMPLE under {sample_type:#x} is written with {answer}, not {due}", e.number));
            }
        }
        count += branch_bits(e, &mut r, tally, &mut tried)?;
        // each type, without a trailer, with all of it, with each of its bits alone, with no bit
        for kind in 1..=e.last_type {
            for misc in [0, 0x2001, 0x4002] {
                if has_build_id(kind, misc) && !e.build_id_form {
                    continue;
                }
                let trailer = if e.number == 1 { 66_246 & all } else { 66_246 };
                count += round_trip(e, kind, misc, &with(0, 0, 0), &mut r, tally, &mut tried)?;
                count += round_trip(e, kind, misc, &with(trailer, 0, 1), &mut r, tally, &mut tried)?;
                count += round_trip(e, kind, misc, &with(!66_246 & all & !(1 << 14), 0, 1), &mut r, tally, &mut tried)?;
                for bit in (0..=e.last_sample_bit).filter(|b| 66_246u64 >> b & 1 == 1) {
                    count += round_trip(e, kind, misc, &with(1 << bit, 0, 1), &mut r, tally, &mut tried)?;
                    tried.trailer_bits.insert((e.number, kind, bit));
                }
            }
            if kind == READ {
                for read_format in 0..2u64 << e.last_read_bit {
                    for id_all in [0, 1] {
                        count += round_trip(e, kind, 0, &with(trailer_of(e), read_format, id_all), &mut r, tally, &mut tried)?;
                    }
                }
            }
        }
    }
    not_tried(&tried)?;
    Ok(count)
}

/// Each branch bit alone, with sample bit 11 and with every other: a bit that the edition knows changes the record by bit
/// 17's word alone, any other is 25 in a SAMPLE with sample bit 11 and nothing elsewhere.
fn branch_bits(e: &Edition, r: &mut Random, tally: &mut Tally, tried: &mut Tried) -> Result<u64, Difference> {
    let mut count = 0;
    for bit in 0..64 {
        let known = bit < 19 && (bit != 17 || e.hw_index);
        let with = |sample_type| Attributes { sample_type, branch_sample_type: 1 << bit, ..Attributes::EMPTY };
        for kind in [SAMPLE, READ, 3] {
            count += round_trip(e, kind, 0, &with(0x1004), r, tally, tried)?;
        }
        count += round_trip(e, READ, 0, &Attributes { sample_id_all: 1, ..with(0x804) }, r, tally, tried)?;
        // nothing but a branch stack without entries: the count, and the word where it is read
        for (words, right) in [(1, bit != 17), (2, bit == 17), (3, false)] {
            let due = if !known { 25 } else if right { 0 } else if words == 1 { 30 } else { 31 };
            let mut record = vec![9, 0, 0, 0, 0, 0, 8 + 8 * words as u8, 0];
            record.resize(8 + 8 * words, 0);
            let answer = compare_read(&record, &with(0x800), e.number, FIELDS, r, tally)?.err().unwrap_or(0);
            let mut value = [0; FIELDS];
            (value[TYPE], value[SIZE]) = (SAMPLE, record.len() as u64);
            let (written, _) = compare_write(&value, &[], &with(0x800), e.number, 64, r, tally)?;
            let due_written = if due == 0 || due == 25 { due } else { 42 };
            if (answer, written) != (due, due_written) {
                return Err(format!(
                    "edition {}, branch bit {bit}, {words} words: read with {answer}, written with {written}, not {due} and {due_written}",
                    e.number
                ));
            }
        }
        if known {
            count += round_trip(e, SAMPLE, 0, &with(0x800), r, tally, tried)?;
        }
        tried.branch_bits.insert((e.number, bit));
    }
    // 25 after 21 and 22, before 24
    for (sample_type, read_format, due) in
        [(1u64 << 40 | 0x800, 0, 21), (0x810, 32, 22), (0x800 | 1 << 14 | 1 << 24, 0, if e.number >= 3 { 25 } else { 21 })]
    {
        let a = Attributes { sample_type, read_format, branch_sample_type: 1 << 19, ..Attributes::EMPTY };
        let answer = compare_read(&[9, 0, 0, 0, 0, 0, 8, 0], &a, e.number, FIELDS, r, tally)?.err();
        if answer != Some(due) {
            return Err(format!("edition {}: a SAMPLE under {sample_type:#x} with branch bit 19: {answer:?}, not {due}", e.number));
        }
    }
    Ok(count)
}

fn trailer_of(e: &Edition) -> u64 {
    66_246 & ((1 << (e.last_sample_bit + 1)) - 1)
}

fn not_tried(tried: &Tried) -> Result<(), Difference> {
    for e in &EDITIONS {
        for bit in 0..=e.last_sample_bit {
            if !tried.bits.contains(&(e.number, bit)) {
                return Err(format!("edition {}: sample bit {bit} was not tried", e.number));
            }
        }
        for bit in 0..64 {
            if !tried.branch_bits.contains(&(e.number, bit)) {
                return Err(format!("edition {}: branch bit {bit} was not tried", e.number));
            }
        }
        for kind in 1..=e.last_type {
            if !tried.types.contains(&(e.number, kind)) {
                return Err(format!("edition {}: type {kind} was not tried", e.number));
            }
            for bit in (0..=e.last_sample_bit).filter(|b| 66_246u64 >> b & 1 == 1) {
                if !tried.trailer_bits.contains(&(e.number, kind, bit)) {
                    return Err(format!("edition {}: type {kind} with trailer bit {bit} was not tried", e.number));
                }
            }
        }
        for kind in [READ, SAMPLE] {
            for format in 0..2u64 << e.last_read_bit {
                if !tried.formats.contains(&(e.number, kind, format)) {
                    return Err(format!("edition {}: read format {format} in type {kind} was not tried", e.number));
                }
            }
        }
    }
    Ok(())
}

/// Some values of one type: written by the library, read by it, compared with what was written.
fn round_trip(
    e: &Edition, kind: u64, misc: u64, a: &Attributes, r: &mut Random, tally: &mut Tally, tried: &mut Tried,
) -> Result<u64, Difference> {
    for round in 0..3 {
        let room = [600, 4096, 65_528][round];
        let record = sound_record(r, kind, misc, a, room, false).ok_or(format!("type {kind}: no sound record"))?;
        let value = record::read(&record, e.number, a)
            .map_err(|n| format!("a sound record of type {kind} is refused with {n}: {}", hex(&record)))?;
        let (value, source) = moved(r, &value, &record, a);
        let mut buffer = vec![0x77; record.len()];
        let answer = abi::write(&value, &source, a, e.number, &mut buffer);
        let mut back = [OLD; FIELDS];
        let read = abi::read(&buffer, a, e.number, &mut back);
        if answer != 0 || read != 0 || buffer != record || !writer::same(&back, &buffer, &value, &source, a) {
            return Err(format!(
                "edition {}, type {kind}, misc {misc:#x}, {}: written with answer {answer}, read with {read}\n  \
                 due:     {}\n  written: {}",
                e.number,
                describe_attributes(a),
                hex(&record),
                hex(&buffer)
            ));
        }
        compare_write(&value, &source, a, e.number, record.len(), r, tally)?;
        let _ = compare_read(&record, a, e.number, FIELDS, r, tally)?;
    }
    tried.types.insert((e.number, kind));
    if kind == READ || kind == SAMPLE && a.sample_bit(4) {
        tried.formats.insert((e.number, kind, a.read_format));
    }
    Ok(3)
}

/// Every record of a real ring: read, written again, read back.
pub fn real_ring(name: &str, image: &Image, tally: &mut Tally) -> Result<(), Difference> {
    let mut r = Random::new(0x5ea1, name.len() as u64);
    let length = image.ring.len() as u64;
    let mut tail = image.tail;
    while tail != image.head {
        let byte = |i: u64| image.ring[(tail.wrapping_add(i) % length) as usize];
        let size = u64::from(byte(6)) | u64::from(byte(7)) << 8;
        if size < 8 || size > image.head.wrapping_sub(tail) {
            return Err(format!("{name}: size {size} at tail {tail}"));
        }
        let record: Vec<u8> = (0..size).map(byte).collect();
        for edition in [1, 2, 3] {
            let decoded = compare_read(&record, &image.attributes, edition, FIELDS, &mut r, tally);
            if let Ok(value) = decoded.map_err(|d| format!("{name}, tail {tail}: {d}"))? {
                written_again(&record, &value, &image.attributes, edition, &mut r, tally)
                    .map_err(|d| format!("{name}, tail {tail}: {d}"))?;
            }
        }
        tail = tail.wrapping_add(size);
    }
    Ok(())
}

pub const MUST: &[(&str, &[u32])] = &[
    ("read", &[0, 2, 20, 21, 22, 23, 24, 25, 30, 31, 32, 33, 40]),
    ("write", &[0, 2, 20, 21, 22, 23, 24, 25, 40, 41, 42, 43]),
];
