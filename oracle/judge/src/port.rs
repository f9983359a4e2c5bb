//! The port's side: the function that `libprobe.a` exports, and how `libs2.a` hands over an answer.

use crate::fenced::Fenced;
use crate::inputs::{Outcome, Words};

extern "C" {
    fn probe(op: u32, x: *const u64, out: *mut u64);
}

/// What an answer holds before the call, so that a word left unwritten shows.
pub const UNWRITTEN: u64 = 0xa5a5_a5a5_a5a5_a5a5;

pub fn answer(op: u32, x: &Words) -> Words {
    let mut out = [UNWRITTEN; 8];
    // SAFETY: `probe` reads the eight words of `x` and writes the eight words of `out`.
    unsafe { probe(op, x.as_ptr(), out.as_mut_ptr()) };
    out
}

/// The number that the call returns and the eight values that it stores where it is told.
pub fn outcome(call: impl FnOnce(*mut u64) -> u32) -> Outcome {
    let mut values = Fenced::new(&[UNWRITTEN; 8], UNWRITTEN);
    let number = call(values.as_mut_ptr()).into();
    let values = values.lent().expect("eight values are stored, no more");
    std::array::from_fn(|i| if i == 0 { number } else { values[i - 1] })
}
