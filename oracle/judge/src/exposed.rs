//! Whether a table lies where a guest can reach it: in an output window of an accepted layout.
//!
//! The Rust has no such function. Which layouts are refused is as in layout.rs; what is told of an
//! accepted one is computed here.

use crate::exposed_faults::FAULTS;
use crate::exposed_inputs::{around_windows, example_layouts};
use crate::function::{answers, Answer, Function, Input, Layer};
use crate::handed_layouts;
use crate::inputs::{hex, words, Outcome};
use crate::layout::{all_windows, validate, Fields, Window, ACCEPTED, LEAST, TABLES};
use crate::layout_inputs::layouts;
use crate::port_layouts;

/// A layout whose tables are looked for in its windows.
#[derive(Clone)]
pub struct Exposed(pub Fields);

pub const LAYER: Layer<Exposed> = Layer {
    functions: &[Function {
        call: "s2_exposed",
        name: "exposed",
        op: (),
        original: exposed,
        boundary: || Box::new(example_layouts()),
        sweep: |round| Box::new(around_windows(round).chain(layouts(round).map(Exposed))),
        answers: ANSWERS,
        least: LEAST,
        recorded: false,
    }],
    faults: &[FAULTS],
    wrapper_faults: handed_layouts::EXPOSED,
};

const ANSWERS: &[Answer] = answers!(
    [
        ("none", |answer| *answer == ACCEPTED),
        ("l1", table::<1>),
        ("l2_code", table::<2>),
        ("l2_data", table::<3>),
        ("l3_data", table::<4>),
        ("l2_sup", table::<5>),
        ("l2_dev", table::<6>),
        ("in the image", window::<1>),
        ("in data", window::<2>),
        ("in super", window::<3>),
        ("in device", window::<4>),
    ]
    4 5 6 7 8 9 10 11 12
);

fn table<const NUMBER: u64>(answer: &[u64]) -> bool {
    answer[..3] == [0, 1, NUMBER]
}

fn window<const CODE: u64>(answer: &[u64]) -> bool {
    answer[..2] == [0, 1] && answer[3] == CODE
}

impl Input for Exposed {
    type Op = ();
    type Reply = Outcome;

    fn port(&self, (): ()) -> Outcome {
        port_layouts::exposed(&self.0)
    }

    fn shown(&self) -> String {
        hex(&self.0)
    }
}

pub fn exposed(x: &Exposed) -> Outcome {
    match validate(&x.0) {
        ACCEPTED => first(&x.0, holds),
        refusal => refusal,
    }
}

/// The lowest table that a window holds, and the lowest window that holds it.
pub fn first(x: &Fields, holds: impl Fn(&Window, u64) -> bool) -> Outcome {
    let held = |(number, table): (u64, &u64)| {
        let windows = all_windows(x).into_iter();
        let mut holding = windows.filter(|window| holds(window, *table));
        holding
            .next()
            .map(|window| words([0, 1, number, window.code]))
    };
    (1..).zip(&x[TABLES]).find_map(held).unwrap_or(ACCEPTED)
}

pub fn holds(window: &Window, table: u64) -> bool {
    window.present && window.pa <= table && u128::from(table) < window.output_end()
}
