//! arm64.rs: `walk`, over an arena whose tables stand at six addresses.
//!
//! Row 1 is not in the Rust: it is computed here from document 01's table.

use std::fmt::{self, Display, Formatter};
use std::rc::Rc;

use given_s2::arm64::{self, Reach};

use crate::encode::{row_1, TABLE_LEN};
use crate::function::{Answer, Function, Input, Layer};
use crate::handed_walks;
use crate::inputs::{hex, words, Outcome};
use crate::layout::{row, LEAST};
use crate::maps;
use crate::port_walk;
use crate::walk_inputs::{damaged_walks, encoded_walks, example_walks, filled_walks, ringed_walks};
use crate::{walk_faults, walk_word_faults};

/// An address that is looked up. One arena is walked many times.
#[derive(Clone)]
pub struct Walk {
    pub arena: Rc<Vec<u64>>,
    pub tables: [u64; 6],
    pub ipa: u64,
}

pub const LAYER: Layer<Walk> = Layer {
    functions: &[
        Function {
            call: "s2_walk",
            name: "walk",
            op: (),
            original: walk,
            boundary: || Box::new(example_walks()),
            sweep: |round| Box::new(damaged_walks(round).chain(ringed_walks(round))),
            answers: ANSWERS,
            least: LEAST,
            recorded: false,
        },
        Function {
            call: "s2_walk",
            name: "walk, encoded",
            op: (),
            original: walk,
            boundary: || Box::new(filled_walks().map(|x| x.walk)),
            sweep: |round| Box::new(encoded_walks(round).map(|x| x.walk)),
            answers: REACHED,
            least: LEAST,
            recorded: false,
        },
    ],
    faults: &[walk_faults::FAULTS, walk_word_faults::FAULTS],
    wrapper_faults: handed_walks::WALK,
};

pub const ANSWERS: &[Answer] = &[
    ("nothing", |answer| *answer == NOTHING),
    ("Ro", leaf::<1, 0>),
    ("Ro never", leaf::<1, 1>),
    ("Rw", leaf::<2, 0>),
    ("Rw never", leaf::<2, 1>),
    ("row 1", row::<1>),
];

/// The answers that an encoded arena has.
pub const REACHED: &[Answer] = ANSWERS.split_at(5).0;

/// Whether an address is reached with this access, and never executed or not.
pub fn leaf<const ACCESS: u64, const NEVER: u64>(answer: &[u64]) -> bool {
    answer[..2] == [0, 1] && answer[3..5] == [ACCESS, NEVER]
}

/// The answer to an address that reaches nothing.
pub const NOTHING: Outcome = [0; 9];

impl Input for Walk {
    type Op = ();
    type Reply = Outcome;

    fn port(&self, (): ()) -> Outcome {
        port_walk::walk(self)
    }

    fn shown(&self) -> String {
        self.to_string()
    }
}

pub fn walk(x: &Walk) -> Outcome {
    row_1(&x.arena).unwrap_or_else(|| original(x))
}

fn original(x: &Walk) -> Outcome {
    let fetch = |address, index| fetched(&x.tables, address, index).map_or(0, |at| x.arena[at]);
    reached(arm64::walk(x.tables[0], x.ipa, fetch))
}

/// The place that a fetch reads, in the first table whose address is exactly the one named. Where
/// there is none, it reads zero.
pub fn fetched(tables: &[u64; 6], address: u64, index: u64) -> Option<usize> {
    let named = tables.iter().position(|table| *table == address)?;
    Some(TABLE_LEN * named + index as usize)
}

pub fn reached(reach: Option<Reach>) -> Outcome {
    match reach {
        Some(Reach { pa, perm, xn }) => words([0, 1, pa, maps::code(Some(perm)).into(), xn.into()]),
        None => NOTHING,
    }
}

impl Display for Walk {
    fn fmt(&self, f: &mut Formatter) -> fmt::Result {
        let Walk { arena, tables, ipa } = self;
        let words = arena.iter().filter(|word| **word != 0).count();
        let (len, tables) = (arena.len(), hex(tables));
        write!(
            f,
            "{ipa:#x}, arena {len} with {words} words, tables {tables}"
        )
    }
}
