//! check.rs: `check_exact`, which checks a map against the edges of one span.
//!
//! Rows 2 and 3 are not in the Rust: they are computed here from document 01's table.

use std::fmt::{self, Display, Formatter};

use given_core::grant;
use given_core::p2m::DomId;
use given_core::Hypervisor;
use given_s2::check::{check_exact, Violation};
use given_s2::leafmap::Span;

use crate::exact_inputs::{linked, small_linked};
use crate::function::{Answer, Function, Input, Layer};
use crate::handed_maps;
use crate::inputs::{words, Outcome};
use crate::layout::{row, ACCEPTED, LEAST};
use crate::maps::{self, too_long};
use crate::port_maps;
use crate::records::{system, Edge, Form, Frame};
use crate::{edge_record_faults, exact_faults, misread};

/// A map with the edges that it is checked against.
#[derive(Clone)]
pub struct Linked {
    pub dom: DomId,
    pub map: Vec<u8>,
    /// The code of a span: 2 is super, all else base.
    pub span: u32,
    pub edges: Vec<Edge>,
    pub frames: Vec<Frame>,
}

/// The answers do not tell the span, so each has a function of its own to be counted by.
pub const LAYER: Layer<Linked> = Layer {
    functions: &[
        of_base("s2_exact", "check_exact, base", Form::Rows),
        of_super("s2_exact", "check_exact, super", Form::Rows),
        of_base(
            "s2_exact_edges",
            "check_exact, base, from records",
            Form::Records,
        ),
        of_super(
            "s2_exact_edges",
            "check_exact, super, from records",
            Form::Records,
        ),
    ],
    faults: &[
        misread::EXACT,
        exact_faults::FAULTS,
        edge_record_faults::EXACT,
    ],
    wrapper_faults: handed_maps::EXACT,
};

const fn of_base(call: &'static str, name: &'static str, form: Form) -> Function<Linked> {
    Function {
        call,
        name,
        op: form,
        original: exact,
        boundary: || Box::new(small_linked(Span::Base)),
        sweep: |round| Box::new(linked(Span::Base, round)),
        answers: ANSWERS,
        least: LEAST,
        recorded: false,
    }
}

const fn of_super(call: &'static str, name: &'static str, form: Form) -> Function<Linked> {
    Function {
        boundary: || Box::new(small_linked(Span::Super)),
        sweep: |round| Box::new(linked(Span::Super, round)),
        ..of_base(call, name, form)
    }
}

const ANSWERS: &[Answer] = &[
    ("accepted", row::<0>),
    ("row 2", row::<2>),
    ("row 3", row::<3>),
    ("row 25", row::<25>),
];

impl Input for Linked {
    type Op = Form;
    type Reply = Outcome;

    fn port(&self, form: Form) -> Outcome {
        port_maps::exact(self, form)
    }

    fn shown(&self) -> String {
        self.to_string()
    }
}

impl Linked {
    pub fn spanned(&self) -> Span {
        spanned(self.span)
    }

    /// The code of the map.
    pub fn code(&self) -> u64 {
        match self.spanned() {
            Span::Base => 1,
            Span::Super => 2,
        }
    }

    /// The kind of the tables whose edges count.
    pub fn kind(&self) -> u32 {
        match self.spanned() {
            Span::Base => 2,
            Span::Super => 3,
        }
    }
}

/// Maps and spans: base 1, super 2; what is not super is base.
pub fn spanned(code: u32) -> Span {
    match code {
        2 => Span::Super,
        _ => Span::Base,
    }
}

pub fn exact(x: &Linked) -> Outcome {
    if too_long(&x.map) {
        return words([2]);
    }
    maps::row_3(x.code(), &x.map).unwrap_or_else(|| original(x))
}

fn original(x: &Linked) -> Outcome {
    let hypervisor = Hypervisor {
        p2m: system(&x.edges, &x.frames),
        grant: grant::System(Vec::new()),
    };
    let answer = check_exact(&hypervisor, x.dom, &maps::entries(&x.map), x.spanned());
    answer.map_or_else(refusal, |()| ACCEPTED)
}

fn refusal(violation: Violation) -> Outcome {
    match violation {
        Violation::Inexact {
            dom,
            mfn,
            mapped,
            expected,
        } => {
            let [mapped, expected] = [mapped, expected].map(maps::code);
            words([25, dom.into(), mfn.into(), mapped.into(), expected.into()])
        }
        other => panic!("check_exact cannot answer {other:?}"),
    }
}

impl Display for Linked {
    fn fmt(&self, f: &mut Formatter) -> fmt::Result {
        let Linked {
            dom,
            span,
            edges,
            frames,
            ..
        } = self;
        let map = maps::shown(&self.map);
        write!(
            f,
            "domain {dom}, map {map}, span {span}, frames {frames:?}, edges {edges:?}"
        )
    }
}
