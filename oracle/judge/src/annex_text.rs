//! The program `s2annex`, which prints the annex page of a scene.
//!
//! It reads what `s2dump` reads, and is asked the same texts and some more. The page is that of
//! annex_page.rs.

use crate::annex_page::page;
use crate::annex_text_faults::FAULTS;
use crate::dump_inputs::{bad_texts, example_texts, mangled_texts, page_texts, texts};
use crate::encode::Scene;
use crate::function::{answers, Answer, Function, Layer};
use crate::handed_texts;
use crate::layout::row;
use crate::programs::{printed, Lines, Printed, Program, Text, BAD};

pub const LAYER: Layer<Text> = Layer {
    functions: &[
        Function {
            call: "s2annex",
            name: "s2annex",
            op: (Program::Annex, Lines::Good),
            original: annex_text,
            boundary: || Box::new(example_texts().chain(page_texts())),
            sweep: |round| Box::new(texts(round)),
            answers: ANSWERS,
            least: 50,
            recorded: false,
        },
        Function {
            call: "s2annex",
            name: "s2annex, bad lines",
            op: (Program::Annex, Lines::Bad),
            original: annex_text,
            boundary: || Box::new(bad_texts()),
            sweep: |round| Box::new(mangled_texts(round)),
            answers: BAD,
            least: 300,
            recorded: false,
        },
    ],
    faults: &[FAULTS],
    wrapper_faults: handed_texts::ANNEX,
};

const ANSWERS: &[Answer] = answers!([("page", row::<0>)] 4 5 6 7 8 9 10 11 12 13 14);

pub fn annex_text(text: &Text) -> Printed {
    printed(text, printed_page)
}

fn printed_page(scene: &Scene) -> String {
    String::from_utf8(page(scene)).expect("a page is text")
}
