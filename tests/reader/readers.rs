//! M-105, two readers of one ring: the tail for the kernel, by libollskuvan.a and by the independent reader; and two readers
//! in turn, by the library, each beside the same reader alone.

use crate::abi;
use crate::drains::Difference;
use crate::made::*;
use crate::ring;
use crate::tally::Tally;

pub const MUST: &[(&str, &[u32])] = &[("publish", &[0, 1, 4, 5])];

pub fn compare(length: u64, head: u64, first: u64, second: u64, tally: &mut Tally) -> Result<ring::Published, Difference> {
    let (theirs, ours) = (abi::publish(length, head, first, second), ring::publish(length, head, first, second));
    tally.answer("publish", ours.answer);
    if theirs == ours {
        return Ok(ours);
    }
    Err(format!("publish of length {length}, head {head}, tails {first} and {second}: library {theirs:?}, independent {ours:?}"))
}

/// Cases whose answer is written down: the further one; across 2^64; the order of the refusals.
pub fn by_hand(tally: &mut Tally) -> Result<u64, Difference> {
    let before = 8u64.wrapping_neg();
    let cases = [
        (64, 64, 8, 16, 8, 0),
        (64, 64, 16, 8, 8, 0),
        (64, 64, 24, 24, 24, 0),
        (64, 64, 64, 0, 0, 0),
        (64, 16, before, 8, before, 0),
        (64, 16, 8, before, before, 0),
        (1 << 20, before, before, before, before, 0),
        (65, 64, 8, 16, 0, 1),
        (32, 64, 40, 48, 0, 1),
        (2 << 20, 64, 40, 48, 0, 1),
        (0, 64, 64, 64, 0, 1),
        (64, 72, 0, 8, 0, 4),
        (64, 72, 8, 0, 0, 4),
        (64, 63, 8, 16, 0, 5),
        (64, 64, 9, 16, 0, 5),
        (64, 64, 8, 17, 0, 5),
        (64, 72, 9, 0, 0, 5),
        (64, 72, 0, 9, 0, 4),
        (64, 80, 0, 24, 0, 4),
        (65, 72, 0, 9, 0, 1),
    ];
    for (length, head, first, second, tail, answer) in cases {
        let due = ring::Published { tail, answer };
        let told = compare(length, head, first, second, tally)?;
        if told != due {
            return Err(format!("publish of length {length}, head {head}, tails {first} and {second}: {told:?}, due is {due:?}"));
        }
    }
    Ok(cases.len() as u64)
}

/// Counts near each other and near 2^64, odd ones among them.
fn some_counts(r: &mut Random) -> (u64, u64, u64, u64) {
    let length: u64 = if r.one_in(8) { r.pick(&[0, 1, 32, 63, 65, 96, 1000, 2 << 20]) } else { 64 << r.below(15) };
    let head = some_tail(r);
    let mut back = || {
        let far = match r.below(6) {
            0 => length,
            1 => length.wrapping_add(8),
            2 => 0,
            _ => 8 * r.below(length / 8 + 1),
        };
        let odd = if r.one_in(10) { r.below(8) } else { 0 };
        head.wrapping_sub(far).wrapping_add(odd)
    };
    let (first, second) = (back(), back());
    (length, if r.one_in(12) { head.wrapping_add(r.below(8)) } else { head }, first, second)
}

pub fn one_case(seed: u64, number: u64, tally: &mut Tally) -> Result<(), Difference> {
    let mut r = Random::new(seed ^ 0x7ead_e45, number);
    let (length, head, first, second) = some_counts(&mut r);
    compare(length, head, first, second, tally)?;
    if number % 16 == 0 {
        in_turn(&mut r, tally)?;
    }
    Ok(())
}

/// Two readers drain a made ring in turn, at random budgets; the kernel's tail passes neither, and each is told what the other's
/// absence would not change.
fn in_turn(r: &mut Random, tally: &mut Tally) -> Result<(), Difference> {
    let case = drain_case(r);
    if case.ring.len() > 1 << 16 {
        return Ok(());
    }
    let drain = |tail: u64, budget: u64, r: &mut Random| {
        let (mut scratch, mut journal) = (vec![0; case.scratch], vec![0; 16 * budget as usize]);
        r.fill(&mut scratch);
        let d = abi::drain(&case.ring, case.head, tail, &case.attributes, case.edition, budget, &mut scratch, &mut journal);
        journal.truncate(16 * d.taken as usize);
        (d.tail, d.stop, journal)
    };
    let mut tails = [case.tail; 2];
    let mut told = [Vec::new(), Vec::new()];
    let mut turns = Vec::new();
    let mut given = abi::publish(case.ring.len() as u64, case.head, tails[0], tails[1]);
    for _ in 0..1 + r.below(12) {
        let (who, budget) = (r.below(2) as usize, r.below(4));
        let (tail, stop, journal) = drain(tails[who], budget, r);
        tails[who] = tail;
        told[who].push((tail, stop, journal));
        turns.push((who, budget));
        let now = compare(case.ring.len() as u64, case.head, tails[0], tails[1], tally)?;
        let far = |tail: u64| case.head.wrapping_sub(tail);
        let passes = now.answer == 0 && tails.iter().any(|tail| far(*tail) > far(now.tail));
        if passes || now.answer != given.answer || far(now.tail) > far(given.tail) && now.answer == 0 {
            return Err(format!("tails {tails:?}: the kernel's tail was {given:?} and is {now:?}"));
        }
        given = now;
    }
    for who in 0..2 {
        let mut tail = case.tail;
        let alone: Vec<_> = turns.iter().filter(|turn| turn.0 == who).map(|turn| {
            let done = drain(tail, turn.1, r);
            tail = done.0;
            done
        }).collect();
        if alone != told[who] {
            return Err(format!("reader {who} is told something else than alone"));
        }
    }
    Ok(())
}
