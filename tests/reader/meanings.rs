//! What misc means: libollskuvan.a against the independent reader.

use crate::abi;
use crate::drains::Difference;
use crate::made::Random;
use crate::rules::misc_meaning;
use crate::tally::Tally;

fn compare(kind: u64, misc: u64, tally: &mut Tally) -> Result<(), Difference> {
    let (theirs, ours) = (abi::misc_meaning(kind, misc), misc_meaning(kind, misc));
    if theirs != ours {
        return Err(format!("misc {misc:#x} of type {kind}: library {theirs}, independent {ours}"));
    }
    tally.answer("misc meaning", ours);
    Ok(())
}

/// Every misc of 16 bits, for types 0 to 70.
pub fn every_misc(tally: &mut Tally) -> Result<u64, Difference> {
    for kind in 0..=70 {
        for misc in 0..=0xffff {
            compare(kind, misc, tally)?;
        }
    }
    Ok(71 << 16)
}

/// One case: types also from 2^32 on, where the low half may be one that is known; misc also with bits from 16 up.
pub fn one_case(seed: u64, number: u64, tally: &mut Tally) -> Result<(), Difference> {
    let mut r = Random::new(seed ^ 0x0e_a415, number);
    let kind = match r.below(4) {
        0 => r.below(71),
        1 => r.below(71) | 1 << 32,
        2 => r.below(71) | 1 << r.below(64),
        _ => r.next() >> r.below(64),
    };
    let misc = match r.below(3) {
        0 => r.next() & 0xffff | 1 << r.below(64),
        1 => 3 << 13 << (16 * r.below(4)) | r.below(8),
        _ => r.next() >> r.below(64),
    };
    compare(kind, misc, tally)
}

/// Every sum that a type can have: the modes, alone and with what bits 13 and 14 mean.
pub const MUST: &[(&str, &[u32])] = &[(
    "misc meaning",
    &[0, 1, 7, 8, 15, 16, 23, 32, 39, 64, 71, 128, 135, 160, 167, 256, 263, 264, 271],
)];
