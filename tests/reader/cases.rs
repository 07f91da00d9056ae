//! The kept cases of tests/cases: each a text file with an input, the answer that is due, and a line on
//! what other readers make of it. Run by the independent reader and by the library; tests/cases/README.md
//! has the format.

use crate::abi;
use crate::drains;
use crate::guard::hex;
use crate::made::{DrainCase, Random};
use crate::record;
use crate::rules::Attributes;
use crate::tally::Tally;
use crate::values;
use crate::words::*;
use std::collections::BTreeMap;
use std::fs;
use std::path::{Path, PathBuf};

/// The lines `key: text` of a file; a key may come more than once.
struct Lines {
    of: BTreeMap<String, Vec<String>>,
}

const KEYS: &[&str] = &[
    "what", "elsewhere", "call", "edition", "sample_type", "read_format", "sample_id_all", "user_mask",
    "interrupt_mask", "branch_sample_type", "record", "answer", "word", "ring", "head", "tail", "budget", "scratch",
    "journal", "records", "stop", "new_tail", "entry",
];

impl Lines {
    fn parse(text: &str) -> Result<Lines, String> {
        let mut of: BTreeMap<String, Vec<String>> = BTreeMap::new();
        for line in text.lines().map(str::trim).filter(|l| !l.is_empty() && !l.starts_with('#')) {
            let (key, rest) = line.split_once(':').ok_or(format!("no key in: {line}"))?;
            if !KEYS.contains(&key) {
                return Err(format!("no such key: {key}"));
            }
            of.entry(key.to_string()).or_default().push(rest.trim().to_string());
        }
        Ok(Lines { of })
    }

    fn all(&self, key: &str) -> &[String] {
        self.of.get(key).map_or(&[], |v| v)
    }

    fn text(&self, key: &str) -> Result<&str, String> {
        match self.all(key) {
            [one] => Ok(one),
            [] => Err(format!("{key} is missing")),
            _ => Err(format!("{key} comes more than once")),
        }
    }

    fn number(&self, key: &str) -> Result<u64, String> {
        number(self.text(key)?)
    }

    /// A number that is `due` where it is not given.
    fn number_or(&self, key: &str, due: u64) -> Result<u64, String> {
        if self.all(key).is_empty() { Ok(due) } else { self.number(key) }
    }

    fn bytes(&self, key: &str) -> Result<Vec<u8>, String> {
        let mut bytes = Vec::new();
        for line in self.all(key) {
            for word in line.split_whitespace() {
                push_word(&mut bytes, word)?;
            }
        }
        Ok(bytes)
    }

    fn attributes(&self) -> Result<Attributes, String> {
        Ok(Attributes {
            sample_type: self.number_or("sample_type", 0)?,
            read_format: self.number_or("read_format", 0)?,
            sample_id_all: self.number_or("sample_id_all", 0)? as u32,
            user_mask: self.number_or("user_mask", 0)?,
            interrupt_mask: self.number_or("interrupt_mask", 0)?,
            branch_sample_type: self.number_or("branch_sample_type", 0)?,
        })
    }
}

/// Decimal, hexadecimal with 0x, or a power of two as 2^N.
fn number(text: &str) -> Result<u64, String> {
    let parsed = if let Some(hex) = text.strip_prefix("0x") {
        u64::from_str_radix(hex, 16).ok()
    } else if let Some(power) = text.strip_prefix("2^") {
        power.parse().ok().and_then(|p| 1u64.checked_shl(p))
    } else {
        text.parse().ok()
    };
    parsed.ok_or(format!("{text} is no number"))
}

/// `u16:N`, `u32:N`, `u64:N`, `"text"`, hexadecimal digits; each may be followed by `*TIMES`.
fn push_word(bytes: &mut Vec<u8>, word: &str) -> Result<(), String> {
    let (one, times) = match word.rsplit_once('*') {
        Some((one, times)) => (one, number(times)? as usize),
        None => (word, 1),
    };
    let piece = if let Some((width, n)) = one.split_once(':') {
        let width = match width {
            "u16" => 2,
            "u32" => 4,
            "u64" => 8,
            _ => return Err(format!("{word} has no width")),
        };
        let n = number(n)?;
        if width < 8 && n >> (8 * width) != 0 {
            return Err(format!("{word} is too wide"));
        }
        n.to_le_bytes()[..width].to_vec()
    } else if let Some(text) = one.strip_prefix('"') {
        text.strip_suffix('"').ok_or(format!("{word} has no end"))?.as_bytes().to_vec()
    } else {
        let digit = |i| one.get(2 * i..2 * i + 2).and_then(|d| u8::from_str_radix(d, 16).ok());
        (0..(one.len() + 1) / 2).map(|i| digit(i).ok_or(format!("{word} is no hexadecimal"))).collect::<Result<_, _>>()?
    };
    bytes.extend(piece.repeat(times));
    Ok(())
}

fn expect<T: PartialEq + std::fmt::Debug>(name: &str, got: T, due: T) -> Result<(), String> {
    if got == due { Ok(()) } else { Err(format!("{name} is {got:?}, due is {due:?}")) }
}

/// `NAME NUMBER` lines: the words that are not 0, by the names that ollskuvan.h gives them.
fn words(lines: &Lines, kind: u64) -> Result<[u64; FIELDS], String> {
    let mut value = [0; FIELDS];
    for line in lines.all("word") {
        let (name, n) = line.split_once(' ').ok_or(format!("word {line}: no number"))?;
        let word = (0..FIELDS).find(|w| word_name(kind, *w) == name).ok_or(format!("no word is called {name}"))?;
        value[word] = number(n.trim())?;
    }
    Ok(value)
}

/// A record: check by both, and read by both, every word.
fn run_record(lines: &Lines, tally: &mut Tally) -> Result<(), String> {
    let record = lines.bytes("record")?;
    let (a, edition) = (lines.attributes()?, lines.number("edition")? as u32);
    let due = lines.number("answer")? as u32;
    let mut r = Random::new(0xca5e5, 0);
    expect("the independent reader's answer", record::check(&record, edition, &a), due)?;
    expect("the library's answer", abi::check(&record, &a, edition), due)?;
    drains::compare_check(&record, &a, edition, &mut r, tally)?;
    if due == 0 || due == 44 {
        let value = words(lines, u64::from(record::le32(&record, 0)))?;
        let ours = record::read(&record, edition, &a).map_err(|refusal| format!("read answers {refusal}"))?;
        for word in 0..FIELDS {
            expect(&word_name(ours[TYPE], word), ours[word], value[word])?;
        }
    }
    let value = values::compare_read(&record, &a, edition, FIELDS, &mut r, tally)?;
    if due == 44 {
        let value = value.map_err(|refusal| format!("read answers {refusal} where check answers 44"))?;
        let (answer, _) = values::compare_write(&value, &record, &a, edition, record.len(), &mut r, tally)?;
        expect("the writer's answer to a flag", answer, 43)?;
    }
    Ok(())
}

/// A drain by both: results, journal and scratch.
fn run_drain(lines: &Lines, tally: &mut Tally) -> Result<(), String> {
    let length = lines.number("ring")? as usize;
    let tail = lines.number("tail")?;
    let records = lines.bytes("records")?;
    if records.len() > length {
        return Err("the records are longer than the ring".to_string());
    }
    let mut ring = vec![0; length];
    for (i, byte) in records.iter().enumerate() {
        ring[(tail.wrapping_add(i as u64) % length as u64) as usize] = *byte;
    }
    let case = DrainCase {
        ring,
        head: lines.number("head")?,
        tail,
        attributes: lines.attributes()?,
        edition: lines.number("edition")? as u32,
        budget: lines.number_or("budget", u64::MAX)?,
        scratch: lines.number("scratch")? as usize,
        journal: lines.number_or("journal", 16 * (length as u64 / 8 + 1))? as usize,
    };
    let mut r = Random::new(0xca5e5, 1);
    let (done, journal) = drains::compare_drain(&case, &mut r, tally)?;
    let due = lines.all("entry");
    expect("the stop", u64::from(done.stop), lines.number("stop")?)?;
    expect("the new tail", done.tail, lines.number("new_tail")?)?;
    expect("the number of entries", done.taken, due.len() as u64)?;
    for (i, entry) in journal.chunks(16).take(due.len()).enumerate() {
        expect(&format!("entry {}", i + 1), hex(entry), due[i].clone())?;
    }
    Ok(())
}

fn run_one(path: &Path, tally: &mut Tally) -> Result<(), String> {
    let lines = Lines::parse(&fs::read_to_string(path).map_err(|e| e.to_string())?)?;
    for key in ["what", "elsewhere"] {
        if lines.all(key).is_empty() {
            return Err(format!("{key} is missing"));
        }
    }
    match lines.text("call")? {
        "record" => run_record(&lines, tally),
        "drain" => run_drain(&lines, tally),
        other => Err(format!("no such call: {other}")),
    }
}

/// The cases of a folder, in the order of their names.
fn paths_of(folder: &Path) -> Result<Vec<PathBuf>, String> {
    let entries = fs::read_dir(folder).map_err(|e| format!("{}: {e}", folder.display()))?;
    let mut paths: Vec<_> = entries.filter_map(|e| e.ok()).map(|e| e.path()).collect();
    paths.retain(|p| p.extension().map_or(false, |e| e == "case"));
    paths.sort();
    if paths.is_empty() {
        return Err(format!("{}: there are no cases", folder.display()));
    }
    Ok(paths)
}

/// The records of the cases for programs that know no rings: name, sample type, read format,
/// sample_id_all, user mask, interrupt mask, branch sample type, bytes before the ring's end, the first record.
pub fn plain(folder: &Path) -> Result<(), String> {
    for path in paths_of(folder)? {
        let lines = Lines::parse(&fs::read_to_string(&path).map_err(|e| e.to_string())?)?;
        let a = lines.attributes()?;
        let drained = lines.text("call")? == "drain";
        let mut record = lines.bytes(if drained { "records" } else { "record" })?;
        let size = usize::from(record::le16(&record, 6));
        let before = if drained { lines.number("ring")? - lines.number("tail")? % lines.number("ring")? } else { u64::MAX };
        if drained && before >= size as u64 {
            continue; // what matters there is the ring
        }
        record.truncate(size);
        println!(
            "{} {} {} {} {} {} {} {before} {}",
            path.file_stem().unwrap_or_default().to_string_lossy(),
            a.sample_type,
            a.read_format,
            a.sample_id_all,
            a.user_mask,
            a.interrupt_mask,
            a.branch_sample_type,
            hex(&record)
        );
    }
    Ok(())
}

pub fn run(folder: &Path) -> Result<(), String> {
    let paths = paths_of(folder)?;
    let mut tally = Tally::default();
    for path in &paths {
        run_one(path, &mut tally).map_err(|e| format!("{}: {e}", path.display()))?;
    }
    println!("cases: {} kept cases, all answered as due by the independent reader and the library", paths.len());
    Ok(())
}
