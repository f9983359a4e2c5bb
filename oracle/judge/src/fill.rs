//! leafmap.rs: `leaf_map_from_edges`, which fills two maps.
//!
//! Row 2 is not in the Rust: it is computed here from document 01's table. All else is the answer
//! of the unchanged Rust, the maps included.

use std::fmt::{self, Display, Formatter};
use std::iter::once;

use given_core::p2m::DomId;
use given_s2::leafmap::{leaf_map_from_edges, span_of_table, MapError, Maps, Perm};

use crate::fill_examples::small_fillings;
use crate::fill_inputs::fillings;
use crate::function::{Answer, Function, Input, Layer, Reply};
use crate::handed_maps;
use crate::inputs::{hex, words, Outcome};
use crate::layout::{row, ACCEPTED, LEAST};
use crate::maps::{self, too_long};
use crate::port_maps;
use crate::records::{system, Edge, Form, Frame};
use crate::{conflict_faults, edge_record_faults, fill_faults, misread};

#[derive(Clone)]
pub struct Filling {
    pub edges: Vec<Edge>,
    pub frames: Vec<Frame>,
    pub dom: DomId,
    /// Both maps as they are before the call. Any byte may stand there.
    pub base: Vec<u8>,
    pub sup: Vec<u8>,
}

#[derive(Clone, PartialEq)]
pub struct Filled {
    pub outcome: Outcome,
    /// Both maps as they are after the call.
    pub base: Vec<u8>,
    pub sup: Vec<u8>,
}

pub const LAYER: Layer<Filling> = Layer {
    functions: &[
        function("s2_fill", "fill", Form::Rows),
        function("s2_fill_edges", "fill, from records", Form::Records),
    ],
    faults: &[
        misread::FILL,
        fill_faults::FAULTS,
        conflict_faults::FAULTS,
        edge_record_faults::FILL,
    ],
    wrapper_faults: handed_maps::FILL,
};

const fn function(call: &'static str, name: &'static str, form: Form) -> Function<Filling> {
    Function {
        call,
        name,
        op: form,
        original: fill,
        boundary: || Box::new(small_fillings()),
        sweep: |round| Box::new(fillings(round)),
        answers: ANSWERS,
        least: LEAST,
        recorded: false,
    }
}

const ANSWERS: &[Answer] = &[
    ("accepted", row::<0>),
    ("row 2", row::<2>),
    ("row 15", row::<15>),
    ("row 16", row::<16>),
    ("row 17", row::<17>),
];

impl Input for Filling {
    type Op = Form;
    type Reply = Filled;

    fn port(&self, form: Form) -> Filled {
        port_maps::fill(self, form)
    }

    fn shown(&self) -> String {
        self.to_string()
    }
}

impl Reply for Filled {
    fn answers(&self) -> impl Iterator<Item = &[u64]> {
        once(&self.outcome[..])
    }

    fn shown(&self, _: &Self) -> String {
        let (base, sup) = (maps::shown(&self.base), maps::shown(&self.sup));
        format!("{}, base {base}, super {sup}", hex(&self.outcome))
    }
}

pub fn fill(x: &Filling) -> Filled {
    if too_long(&x.base) || too_long(&x.sup) {
        return Filled {
            outcome: words([2]),
            base: x.base.clone(),
            sup: x.sup.clone(),
        };
    }
    // Whatever stands in the maps is cleared.
    let mut base = vec![Some(Perm::Rx); x.base.len()];
    let mut sup = vec![Some(Perm::Rw); x.sup.len()];
    let system = system(&x.edges, &x.frames);
    let answer = leaf_map_from_edges(
        &system.edges,
        |mfn| system.owner_of(mfn),
        |parent| span_of_table(&system, parent),
        x.dom,
        Maps {
            base: &mut base,
            sup: &mut sup,
        },
    );
    Filled {
        outcome: answer.map_or_else(refusal, |()| ACCEPTED),
        base: maps::bytes(&base),
        sup: maps::bytes(&sup),
    }
}

fn refusal(error: MapError) -> Outcome {
    match error {
        MapError::UnsupportedSpan { parent } => words([15, parent.into()]),
        MapError::OutOfRange(past) => words([16, past.mfn.into(), past.capacity as u64]),
        MapError::SpanConflict { mfn } => words([17, mfn.into()]),
    }
}

impl Display for Filling {
    fn fmt(&self, f: &mut Formatter) -> fmt::Result {
        let Filling {
            edges, frames, dom, ..
        } = self;
        let (base, sup) = (self.base.len(), self.sup.len());
        write!(
            f,
            "domain {dom}, frames {frames:?}, edges {edges:?}, base {base}, super {sup}"
        )
    }
}
