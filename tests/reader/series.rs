//! M-113, drains cut anywhere: a series of drains by libollskuvan.a, while head moves on, against one drain by it at the
//! last head. The bytes past each head are noise that is drawn anew for each drain: what is not written yet.

use crate::abi;
use crate::drains::{table_words, Difference};
use crate::guard::{first_difference, hex};
use crate::made::*;
use crate::ring::{Drained, Image};
use crate::tables::{table_case, TableCase};
use crate::tally::Tally;

/// One drain by the library: ring, head, tail, budget, scratch, journal; with one attribute set, or with a table of events.
pub type Drainer<'d> = &'d dyn Fn(&[u8], u64, u64, u64, &mut [u8], &mut [u8]) -> Drained;

/// What a series gives, or one drain: records, entries one after the other, the last tail, why it stopped.
#[derive(Clone, Default, PartialEq)]
struct Given {
    taken: u64,
    entries: Vec<u8>,
    tail: u64,
    stop: u32,
}

impl Given {
    fn from(tail: u64) -> Given {
        Given { tail, ..Given::default() }
    }

    /// What this gave, and then `next`, which began at its tail.
    fn then(&self, next: &Given) -> Given {
        let entries = [&self.entries[..], &next.entries].concat();
        Given { taken: self.taken + next.taken, entries, tail: next.tail, stop: next.stop }
    }

    fn told(&self) -> String {
        format!("{} records, tail {}, stop {}, entries {}", self.taken, self.tail, self.stop, hex(&self.entries))
    }
}

/// The stops that lie in ring and head alone.
const LASTING: [u32; 4] = [0, 3, 6, 7];

pub const MUST: &[(&str, &[u32])] =
    &[("series", &[0, 3, 4, 5, 6, 7, 8, 9]), ("series ended", &[0, 3, 6, 7, 8, 9]), ("stopped in the middle", &[3, 6, 7])];

/// What a series runs over: the ring as it is at the end, its pointers, and the scratch's length in every drain.
struct Course<'c> {
    ring: &'c [u8],
    tail: u64,
    head: u64,
    scratch: usize,
    drainer: Drainer<'c>,
}

impl Course<'_> {
    fn drain(&self, ring: &[u8], head: u64, tail: u64, budget: u64, room: usize, r: &mut Random) -> Given {
        let (mut scratch, mut journal) = (vec![0; self.scratch], vec![0; room]);
        r.fill(&mut scratch);
        r.fill(&mut journal);
        let d = (self.drainer)(ring, head, tail, budget, &mut scratch, &mut journal);
        journal.truncate(16 * d.taken as usize);
        Given { taken: d.taken, entries: journal, tail: d.tail, stop: d.stop }
    }

    /// One drain at the last head, from any tail.
    fn last(&self, tail: u64, budget: u64, r: &mut Random) -> Given {
        self.drain(self.ring, self.head, tail, budget, 16 * budget as usize, r)
    }

    /// The ring as it stood when `written` bytes past the first tail were written.
    fn ring_when(&self, written: u64, r: &mut Random) -> Vec<u8> {
        let mut ring = vec![0; self.ring.len()];
        r.fill(&mut ring);
        let length = ring.len() as u64;
        for i in 0..written {
            let at = (self.tail.wrapping_add(i) % length) as usize;
            ring[at] = self.ring[at];
        }
        ring
    }
}

/// Budget and journal room of one drain of a series: small, at times none, at times more than enough.
fn some_means(r: &mut Random) -> (u64, usize) {
    let budget = match r.below(8) {
        0 => 0,
        1 => 100_000,
        _ => 1 + r.below(4),
    };
    let room = match r.below(8) {
        0 => r.below(16) as usize,
        1 | 2 => 16 * (1 + r.below(3)) as usize + r.below(16) as usize,
        _ => 16 * budget.min(4096) as usize,
    };
    (budget, room)
}

/// A head that is `far` past the first tail; while nothing is past it, at times one behind it.
fn some_head(course: &Course, far: u64, r: &mut Random) -> u64 {
    if far == 0 && r.one_in(6) {
        return course.tail.wrapping_sub(8 * (1 + r.below(100)));
    }
    course.tail.wrapping_add(far)
}

/// One series against one drain. `far` is how far the last head is past the first tail.
fn compare_series(course: &Course, far: u64, r: &mut Random, tally: &mut Tally) -> Result<(), Difference> {
    let mut gave = Given::from(course.tail);
    let mut reached = 0;
    let mut stays: Option<Given> = None;
    for _ in 0..r.below(12) {
        if r.one_in(2) {
            reached += r.below(far - reached + 1).min(1 + r.below(400));
            reached += if r.one_in(4) { 0 } else { (8 - reached % 8) % 8 }.min(far - reached);
        }
        let head = some_head(course, reached, r);
        let ring = course.ring_when(reached, r);
        let (budget, room) = some_means(r);
        gave = gave.then(&course.drain(&ring, head, gave.tail, budget, room, r));
        tally.answer("series", gave.stop);
        if [3, 6, 7].contains(&gave.stop) {
            tally.answer("stopped in the middle", gave.stop);
        }
        if [3, 6].contains(&gave.stop) && stays.is_none() {
            stays = Some(gave.clone());
        }
    }
    // at the last head: until nothing is left, or as far as it comes
    for _ in 0..if r.one_in(4) { 1 + r.below(3) } else { 100_000 } {
        let (budget, room) = some_means(r);
        gave = gave.then(&course.drain(course.ring, course.head, gave.tail, budget, room, r));
        tally.answer("series", gave.stop);
        if gave.stop != 8 && gave.stop != 9 {
            break;
        }
    }
    tally.answer("series ended", gave.stop);
    tally.note("records in series", gave.taken);
    verdict(course, &gave, stays.as_ref(), r)
}

/// What M-113 says of a series that gave this.
fn verdict(course: &Course, gave: &Given, stays: Option<&Given>, r: &mut Random) -> Result<(), Difference> {
    if gave.stop == 0 {
        same("ended with 0", gave, &course.last(course.tail, gave.taken, r))?;
    }
    if LASTING.contains(&gave.stop) {
        same("ended with 0, 3, 6 or 7", gave, &course.last(course.tail, gave.taken + 1, r))?;
    }
    if course.head % 8 == 0 {
        let more = r.below(5);
        let rest = course.last(gave.tail, more, r);
        same("goes on", &gave.then(&rest), &course.last(course.tail, gave.taken + more, r))?;
        if let Some(place) = stays {
            same("3 and 6 stay", place, &course.last(course.tail, place.taken + 1 + more, r))?;
        }
    }
    Ok(())
}

fn same(what: &str, series: &Given, one: &Given) -> Result<(), Difference> {
    if series == one {
        return Ok(());
    }
    let at = first_difference(&series.entries, &one.entries);
    Err(format!("{what}: the series and the one drain differ, entries from byte {at:?}\nseries {}\none    {}", series.told(), one.told()))
}

/// A made ring of several events, by the call with a table.
fn table_series(r: &mut Random, tally: &mut Tally) -> Result<(), Difference> {
    let TableCase { case, events } = table_case(r);
    let words = table_words(Some(&events));
    let drainer = |ring: &[u8], head, tail, budget, scratch: &mut [u8], journal: &mut [u8]| {
        abi::drain_events(ring, head, tail, &words, case.edition, budget, scratch, journal)
    };
    let course = Course { ring: &case.ring, tail: case.tail, head: case.head, scratch: case.scratch, drainer: &drainer };
    run_course(&course, r, tally)
}

/// A made ring: every third by the call with a table, the others by the call with one attribute set.
pub fn one_case(seed: u64, number: u64, tally: &mut Tally) -> Result<(), Difference> {
    let mut r = Random::new(seed ^ 0x5e41e5, number);
    if number % 3 == 2 {
        return table_series(&mut r, tally);
    }
    let case = drain_case(&mut r);
    let drainer = |ring: &[u8], head, tail, budget, scratch: &mut [u8], journal: &mut [u8]| {
        abi::drain(ring, head, tail, &case.attributes, case.edition, budget, scratch, journal)
    };
    let course = Course { ring: &case.ring, tail: case.tail, head: case.head, scratch: case.scratch, drainer: &drainer };
    run_course(&course, &mut r, tally)
}

/// A real ring, from another tail each time.
pub fn real_case(rings: &[(Image, crate::soak::Records)], seed: u64, number: u64, tally: &mut Tally) -> Result<(), Difference> {
    let mut r = Random::new(seed ^ 0x5e41e6, number);
    let (image, records) = &rings[r.below(rings.len() as u64) as usize];
    let tail = if r.one_in(4) { image.tail } else { some_tail(&mut r) };
    let mut ring = image.ring.clone();
    let mut head = tail;
    for (_, record) in records {
        put(&mut ring, head, record);
        head = head.wrapping_add(record.len() as u64);
    }
    let scratch = if r.one_in(6) { r.below(64) as usize } else { ring.len() };
    let drainer = |ring: &[u8], head, tail, budget, scratch: &mut [u8], journal: &mut [u8]| {
        abi::drain(ring, head, tail, &image.attributes, image.edition, budget, scratch, journal)
    };
    run_course(&Course { ring: &ring, tail, head, scratch, drainer: &drainer }, &mut r, tally)
}

/// A last head that is not past the first tail, or more than a ring length past it, reaches nothing.
fn run_course(course: &Course, r: &mut Random, tally: &mut Tally) -> Result<(), Difference> {
    let far = course.head.wrapping_sub(course.tail);
    if course.ring.is_empty() || course.ring.len() > 1 << 16 {
        return Ok(());
    }
    compare_series(course, if far > course.ring.len() as u64 { 0 } else { far }, r, tally)
}

/// The comparison itself: a record that is overwritten after it was taken is seen.
pub fn planted(tally: &mut Tally) -> Result<u64, Difference> {
    let mut r = Random::new(0x91a47ed, 0);
    let attributes = crate::rules::Attributes::EMPTY;
    let drainer = |ring: &[u8], head, tail, budget, scratch: &mut [u8], journal: &mut [u8]| {
        abi::drain(ring, head, tail, &attributes, 3, budget, scratch, journal)
    };
    let switch = [14, 0, 0, 0, 0, 0, 8, 0];
    let then = [&switch[..], &switch, &[0; 48]].concat();
    let mut now = then.clone();
    now[0] = 7;
    let course = Course { ring: &now, tail: 0, head: 16, scratch: 0, drainer: &drainer };
    let first = Given::from(0).then(&course.drain(&then, 8, 0, 9, 64, &mut r));
    let gave = first.then(&course.drain(&now, 16, first.tail, 9, 64, &mut r));
    tally.answer("series ended", gave.stop);
    match verdict(&course, &gave, None, &mut r) {
        Err(_) if gave.stop == 0 && gave.taken == 2 => Ok(1),
        _ => Err("a record that was overwritten was not seen".to_string()),
    }
}
