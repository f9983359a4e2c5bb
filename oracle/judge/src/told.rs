//! What is told of a walk during an update, and of which kinds it may be.

use std::ops::Range;

use crate::function::Answer;
use crate::step::{HALF_WAY, STEPS};

/// The answer, the address, the stores before each of up to three reads, and what is said below.
pub type Told = [u64; 17];

pub const IPA: usize = 9;
pub const STORES: Range<usize> = 10..13;

/// How many reads are made.
pub const READS: usize = 13;

/// Whether the old answer up to half-way, or the granted one from there on, is not nothing.
pub const DUE: usize = 14;

/// Whether two reads see different words in one place.
pub const APART: usize = 15;

/// Whether document 01 allows the answer.
pub const ALLOWED: usize = 16;

pub const ANSWERS: &[Answer] = &[
    ("old", up_to_half_way::<1, 1>),
    ("nothing in place of old", up_to_half_way::<1, 0>),
    ("nothing as before", up_to_half_way::<0, 0>),
    ("nothing at half-way", all_at::<HALF_WAY, 1, 0>),
    ("granted", from_half_way::<1, 1>),
    ("nothing in place of granted", from_half_way::<1, 0>),
    ("nothing as granted", from_half_way::<0, 0>),
    ("granted after the last store", all_at::<STEPS, 1, 1>),
    ("nothing after the last store", all_at::<STEPS, 0, 0>),
    ("old page of three cuts", |told| {
        up_to_half_way::<1, 1>(told) && thrice_read(told)
    }),
    ("granted page of three cuts", |told| {
        from_half_way::<1, 1>(told) && thrice_read(told)
    }),
    ("one cut", |told| cuts(told) == 1),
    ("two words in one place", |told| told[APART] == 1),
];

/// Whether the reads fall up to half-way, and not all there.
fn up_to_half_way<const DUE: u64, const REACHED: u64>(told: &[u64]) -> bool {
    let up_to = told[STORES].iter().all(|stores| *stores <= HALF_WAY);
    up_to && told[STORES] != [HALF_WAY; 3] && kind(told) == [DUE, REACHED]
}

/// Whether the reads fall from half-way on, and not all there.
fn from_half_way<const DUE: u64, const REACHED: u64>(told: &[u64]) -> bool {
    let from = told[STORES].iter().all(|stores| *stores >= HALF_WAY);
    from && told[STORES] != [HALF_WAY; 3] && kind(told) == [DUE, REACHED]
}

fn all_at<const CUT: u64, const DUE: u64, const REACHED: u64>(told: &[u64]) -> bool {
    told[STORES] == [CUT; 3] && kind(told) == [DUE, REACHED]
}

fn kind(told: &[u64]) -> [u64; 2] {
    [told[DUE], told[1]]
}

fn thrice_read(told: &[u64]) -> bool {
    told[READS] == 3 && cuts(told) == 3
}

/// How many different cuts the reads fall on.
fn cuts(told: &[u64]) -> usize {
    let stores = &told[STORES];
    let first = |place: &usize| !stores[..*place].contains(&stores[*place]);
    (0..stores.len()).filter(first).count()
}
