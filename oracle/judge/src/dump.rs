//! The program `s2dump`, which prints the words that a scene is encoded to.
//!
//! What it prints is document 01's section "Proved and printed". The words are the unchanged
//! Rust's, as in encode.rs.

use crate::dump_inputs::{bad_texts, example_texts, mangled_texts, texts};
use crate::encode::{emitted, Scene, TABLE_LEN};
use crate::function::{answers, Answer, Function, Layer};
use crate::handed_texts;
use crate::layout::row;
use crate::programs::{printed, Lines, Printed, Program, Text, BAD};
use crate::{bad_line_faults, dump_faults, number_faults, reading_faults};

pub const LAYER: Layer<Text> = Layer {
    functions: &[
        Function {
            call: "s2dump",
            name: "s2dump",
            op: (Program::Dump, Lines::Good),
            original: dump,
            boundary: || Box::new(example_texts()),
            sweep: |round| Box::new(texts(round)),
            answers: ANSWERS,
            least: 50,
            recorded: false,
        },
        Function {
            call: "s2dump",
            name: "s2dump, bad lines",
            op: (Program::Dump, Lines::Bad),
            original: dump,
            boundary: || Box::new(bad_texts()),
            sweep: |round| Box::new(mangled_texts(round)),
            answers: BAD,
            least: 300,
            recorded: false,
        },
    ],
    faults: &[
        dump_faults::FAULTS,
        bad_line_faults::FAULTS,
        reading_faults::FAULTS,
        number_faults::FAULTS,
    ],
    wrapper_faults: handed_texts::DUMP,
};

const ANSWERS: &[Answer] = answers!([("words", row::<0>)] 4 5 6 7 8 9 10 11 12 13 14);

pub fn dump(text: &Text) -> Printed {
    printed(text, words)
}

/// The words that are not zero.
fn words(scene: &Scene) -> String {
    let words = emitted(scene).into_iter().enumerate();
    words
        .filter(|(_, word)| *word != 0)
        .map(|(place, word)| {
            let (table, index) = (1 + place / TABLE_LEN, place % TABLE_LEN);
            format!("{table:X} {index:03X} {word:016X}\n")
        })
        .collect()
}
