//! The numbers that are no function of the port: the answer is zero throughout.

use crate::function::{Fault, Function, Layer};
use crate::handed_words;
use crate::inputs::{one, random, Random, NOTHING};
use crate::port;

pub const LAYER: Layer = Layer {
    functions: &[
        absent("op 19", 19),
        absent("op 255", 255),
        absent("op 263", WRAPPED),
        absent("op 4294967295", u32::MAX),
    ],
    faults: &[&[Fault {
        name: "op-cut-to-a-byte",
        slip: "the number of the function is taken modulo 256",
        op: WRAPPED,
        alter: |x, answer| *answer = port::answer(WRAPPED % 256, x),
    }]],
    wrapper_faults: handed_words::ABSENT,
};

/// Its low byte is the number of `decode_page`.
const WRAPPED: u32 = 256 + 7;

const fn absent(name: &'static str, op: u32) -> Function {
    Function {
        call: "no function",
        name,
        op,
        original: |_| NOTHING,
        boundary: || Box::new([0, 1, 3, u64::MAX].into_iter().map(one)),
        sweep: |round| Box::new(random(round.seeded(11), 1_000, Random::words)),
        answers: &[("nothing", |answer| *answer == NOTHING)],
        least: 1,
        recorded: true,
    }
}
