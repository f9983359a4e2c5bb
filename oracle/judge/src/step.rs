//! The step of an update, after the rows of an encoding and row 26.
//!
//! The Rust has no such function. Rows 1 to 14 are as in encode.rs. Row 26 and the place of the
//! store are computed here from document 01; a word that is not zero is the unchanged Rust's.

use std::fmt::{self, Display, Formatter};

use crate::encode::{guard, target, Encoded, Scene};
use crate::function::{answers, Answer, Function, Input, Layer};
use crate::handed_layouts;
use crate::inputs::{words, Outcome};
use crate::layout::{row, ACCEPTED, LEAST};
use crate::port_layouts;
use crate::step_inputs::{
    example_steps, filled_storing, filled_zeroing, steps, storing_steps, zeroing_steps,
};
use crate::{step_row_faults, step_store_faults};

#[derive(Clone)]
pub struct Step {
    pub scene: Scene,
    pub number: u64,
}

/// How many steps an update has, and how many of them come before the first that stores a word of
/// the new tables.
pub const STEPS: u64 = 6_144;
pub const HALF_WAY: u64 = 3_072;

pub const LAYER: Layer<Step> = Layer {
    functions: &[
        Function {
            call: "s2_step",
            name: "step",
            op: (),
            original: step,
            boundary: || Box::new(example_steps()),
            sweep: |round| Box::new(steps(round)),
            answers: ROWS,
            least: LEAST,
            recorded: false,
        },
        Function {
            call: "s2_step",
            name: "step, zeroing",
            op: (),
            original: step,
            boundary: || Box::new(filled_zeroing()),
            sweep: |round| Box::new(zeroing_steps(round)),
            answers: STORED,
            least: 10_000,
            recorded: false,
        },
        Function {
            call: "s2_step",
            name: "step, storing",
            op: (),
            original: step,
            boundary: || Box::new(filled_storing()),
            sweep: |round| Box::new(storing_steps(round)),
            answers: STORED,
            least: 10_000,
            recorded: false,
        },
    ],
    faults: &[step_row_faults::FAULTS, step_store_faults::FAULTS],
    wrapper_faults: handed_layouts::STEP,
};

const ROWS: &[Answer] = answers!([("accepted", row::<0>)] 1 2 3 4 5 6 7 8 9 10 11 12 13 14 26);

const STORED: &[Answer] = &[("accepted", row::<0>)];

impl Input for Step {
    type Op = ();
    type Reply = Encoded;

    fn port(&self, (): ()) -> Encoded {
        port_layouts::step(self)
    }

    fn shown(&self) -> String {
        self.to_string()
    }
}

pub fn step(x: &Step) -> Encoded {
    let outcome = refusal(x).unwrap_or(ACCEPTED);
    let mut arena = x.scene.arena.clone();
    if outcome == ACCEPTED {
        let (place, word) = stored(x);
        arena[place] = word;
    }
    Encoded { outcome, arena }
}

/// The row that refuses the step.
pub fn refusal(x: &Step) -> Option<Outcome> {
    let guarded = Some(guard(&x.scene)).filter(|outcome| *outcome != ACCEPTED);
    guarded.or_else(|| (x.number >= STEPS).then_some(words([26])))
}

/// The place of the store, and the word.
fn stored(x: &Step) -> (usize, u64) {
    match x.number {
        ..HALF_WAY => (x.number as usize, 0),
        _ => {
            let place = (STEPS - 1 - x.number) as usize;
            (place, target(&x.scene)[place])
        }
    }
}

impl Display for Step {
    fn fmt(&self, f: &mut Formatter) -> fmt::Result {
        write!(f, "{}, {}", self.number, self.scene)
    }
}
