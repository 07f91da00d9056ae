//! Counts of answers by type, the tables that are printed, and what must have been reached.

use crate::rules::EDITIONS;
use crate::words::type_name;
use std::collections::BTreeMap;

#[derive(Default)]
pub struct Tally {
    /// (type, or 22 for every other; answer) for records taken by drains or checked
    pub records: BTreeMap<(u64, u32), u64>,
    /// (edition, type): accepted records
    pub accepted: BTreeMap<(u32, u64), u64>,
    /// (call, answer)
    pub answers: BTreeMap<(&'static str, u32), u64>,
    /// (type, word): fields that were told as the first in which two records differ
    pub fields: BTreeMap<(u64, usize), u64>,
    /// what else was counted
    pub notes: BTreeMap<&'static str, u64>,
}

impl Tally {
    pub fn record(&mut self, edition: u32, kind: u64, answer: u32) {
        let row = if (1..=21).contains(&kind) { kind } else { 22 };
        *self.records.entry((row, answer)).or_default() += 1;
        if answer == 0 {
            *self.accepted.entry((edition, kind)).or_default() += 1;
        }
    }

    pub fn answer(&mut self, call: &'static str, answer: u32) {
        *self.answers.entry((call, answer)).or_default() += 1;
    }

    pub fn note(&mut self, what: &'static str, count: u64) {
        *self.notes.entry(what).or_default() += count;
    }

    pub fn print_records(&self) {
        let mut columns: Vec<u32> = self.records.keys().map(|(_, answer)| *answer).collect();
        columns.sort_unstable();
        columns.dedup();
        print!("{:<20}", "answers by type");
        for c in &columns {
            print!("{c:>9}");
        }
        println!();
        for row in 1..=22 {
            if !self.records.keys().any(|(kind, _)| *kind == row) {
                continue;
            }
            let name = if row == 22 { "0 or above 21" } else { type_name(row) };
            print!("{:<20}", if row == 22 { name.to_string() } else { format!("{row:>2} {name}") });
            for c in &columns {
                match self.records.get(&(row, *c)) {
                    Some(n) => print!("{n:>9}"),
                    None => print!("{:>9}", "-"),
                }
            }
            println!();
        }
    }

    pub fn print_accepted(&self) {
        print!("{:<20}", "accepted, by type");
        for e in &EDITIONS {
            print!("{:>9}", format!("ed. {}", e.number));
        }
        println!();
        for kind in 1..=21 {
            print!("{:<20}", format!("{kind:>2} {}", type_name(kind)));
            for e in &EDITIONS {
                match self.accepted.get(&(e.number, kind)) {
                    Some(n) => print!("{n:>9}"),
                    None => print!("{:>9}", "-"),
                }
            }
            println!();
        }
    }

    pub fn print_answers(&self, call: &str) {
        print!("{call} answers:");
        for ((c, answer), n) in &self.answers {
            if *c == call {
                print!("  {answer}: {n}");
            }
        }
        println!();
    }

    pub fn print_notes(&self) {
        for (what, count) in &self.notes {
            println!("{count:>9} {what}");
        }
    }

    /// Everything that must be reached and was not, and what must never be reached and was.
    pub fn missing(&self, must: &[(&'static str, &[u32])], body_answers: &[u32], types: bool) -> Vec<String> {
        let mut missing = Vec::new();
        for (call, answers) in must {
            for answer in *answers {
                if !self.answers.contains_key(&(*call, *answer)) {
                    missing.push(format!("{call} never answered {answer}"));
                }
            }
        }
        for answer in body_answers {
            if !self.records.keys().any(|(_, a)| a == answer) {
                missing.push(format!("no record was answered with {answer}"));
            }
        }
        if types {
            for e in &EDITIONS {
                for kind in 1..=e.last_type {
                    if !self.accepted.contains_key(&(e.number, kind)) {
                        missing.push(format!("edition {} never accepted type {kind} {}", e.number, type_name(kind)));
                    }
                }
            }
        }
        for call in ["drain", "walk", "walk with a table", "check", "name copy", "read one: stop", "read one", "read", "read with a table", "write", "read store", "write store"] {
            if self.answers.contains_key(&(call, 10)) {
                missing.push(format!("{call} answered 10, a number that is never used again"));
            }
            if call != "check" && self.answers.contains_key(&(call, 44)) {
                missing.push(format!("{call} answered 44, which record check alone does"));
            }
        }
        if self.records.keys().any(|(_, answer)| *answer == 44) {
            missing.push("a record was read or drained with 44, which record check alone answers".to_string());
        }
        missing
    }
}
