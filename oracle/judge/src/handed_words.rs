//! Slips of the code here that calls `probe`.

use crate::function::Fault;
use crate::inputs::Words;
use crate::port;

/// Faults of the functions that have these numbers.
macro_rules! numbered {
    ($name:literal, $slip:literal, $alter:expr, $($op:literal)*) => {
        &[$(Fault {
            name: concat!("probe-", $op, "-", $name),
            slip: $slip,
            op: $op,
            alter: |x, answer| $alter($op, x, answer),
        }),*]
    };
}

/// Another number is handed over. What has none is asked for the last function.
macro_rules! other_number {
    ($($op:literal)*) => {
        numbered!("handed-the-next", "the number is the next one's", next, $($op)*)
    };
}

/// The words are handed over one place on.
macro_rules! words_moved {
    ($($op:literal)*) => {
        numbered!("handed-words-moved", "each word is handed in the place after", moved, $($op)*)
    };
}

/// The answer is handed back one place on.
macro_rules! answer_moved {
    ($($op:literal)*) => {
        numbered!("answer-moved", "each word is read in the place after its own", moved_back, $($op)*)
    };
}

/// Frames, levels and page types.
pub const P2M: &[&[Fault]] = &[
    other_number!(0 1 2),
    words_moved!(0 1 2),
    answer_moved!(0 1 2),
];

/// Descriptors. Constants and words are told whatever is handed over.
pub const DESC: &[&[Fault]] = &[
    other_number!(3 4 5 6 7 8 9 10),
    words_moved!(3 4 7 8 9 10),
    answer_moved!(3 4 5 6 7 8 9 10),
];

/// The regime and its registers.
pub const REGIME: &[&[Fault]] = &[
    other_number!(11 12 13 14 15 16 17 18),
    words_moved!(11 12 13 14 15 16 17 18),
    answer_moved!(11 12 13 14 15 16 17 18),
];

pub const ABSENT: &[&[Fault]] = &[&[Fault {
    name: "probe-19-handed-the-last",
    slip: "the number is the last function's",
    op: 19,
    alter: |x, answer| *answer = port::answer(18, x),
}]];

fn next(op: u32, x: &Words, answer: &mut Words) {
    *answer = port::answer(op + 1, x);
}

fn moved(op: u32, x: &Words, answer: &mut Words) {
    let mut x = *x;
    x.rotate_right(1);
    *answer = port::answer(op, &x);
}

fn moved_back(_: u32, _: &Words, answer: &mut Words) {
    answer.rotate_right(1);
}
