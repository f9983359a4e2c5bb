//! check.rs: `check_authorized_with`, which checks a map against owners and grants.
//!
//! Rows 2 and 3 are not in the Rust: they are computed here from document 01's table.

use std::fmt::{self, Display, Formatter};

use given_core::p2m::DomId;
use given_s2::check::{check_authorized_with, Violation};

use crate::authorized_examples::small_granted;
use crate::authorized_inputs::granted;
use crate::function::{Answer, Function, Input, Layer};
use crate::handed_maps;
use crate::inputs::{words, Outcome};
use crate::layout::{row, ACCEPTED, LEAST};
use crate::maps::{self, too_long};
use crate::port_maps;
use crate::records::{grants, system, Frame, Grant};
use crate::{authorized_faults, grant_faults};

/// A map with the frames and grants that it is checked against.
#[derive(Clone)]
pub struct Granted {
    pub dom: DomId,
    pub map: Vec<u8>,
    pub frames: Vec<Frame>,
    pub grants: Vec<Grant>,
}

pub const LAYER: Layer<Granted> = Layer {
    functions: &[Function {
        call: "s2_authorized",
        name: "check_authorized_with",
        op: (),
        original: authorized,
        boundary: || Box::new(small_granted()),
        sweep: |round| Box::new(granted(round)),
        answers: ANSWERS,
        least: LEAST,
        recorded: false,
    }],
    faults: &[authorized_faults::FAULTS, grant_faults::FAULTS],
    wrapper_faults: handed_maps::AUTHORIZED,
};

const ANSWERS: &[Answer] = &[
    ("accepted", row::<0>),
    ("row 2", row::<2>),
    ("row 3", row::<3>),
    ("row 23 of nobody's frame", nobodys),
    ("row 23 of a domain's frame", anothers),
    ("row 24", row::<24>),
];

pub fn nobodys(answer: &[u64]) -> bool {
    matches!(answer, [23, _, _, 0, ..])
}

pub fn anothers(answer: &[u64]) -> bool {
    matches!(answer, [23, _, _, 1, ..])
}

impl Input for Granted {
    type Op = ();
    type Reply = Outcome;

    fn port(&self, (): ()) -> Outcome {
        port_maps::authorized(self)
    }

    fn shown(&self) -> String {
        self.to_string()
    }
}

pub fn authorized(x: &Granted) -> Outcome {
    if too_long(&x.map) {
        return words([2]);
    }
    maps::row_3(1, &x.map).unwrap_or_else(|| original(x))
}

fn original(x: &Granted) -> Outcome {
    let system = system(&[], &x.frames);
    let grants = grants(&x.grants);
    let answer = check_authorized_with(
        x.dom,
        &maps::entries(&x.map),
        |mfn| system.owner_of(mfn),
        |grantor, grantee, frame, writable| grants.authorizes(grantor, grantee, frame, writable),
    );
    answer.map_or_else(refusal, |()| ACCEPTED)
}

fn refusal(violation: Violation) -> Outcome {
    match violation {
        Violation::UnauthorizedMapping {
            dom,
            mfn,
            owner,
            perm,
        } => {
            // Whether there is an owner, and who.
            let (owned, owner) = owner.map_or((0, 0), |owner| (1, owner.into()));
            let perm = maps::code(Some(perm));
            words([23, dom.into(), mfn.into(), owned, owner, perm.into()])
        }
        Violation::WriteEscalation { dom, mfn, owner } => {
            words([24, dom.into(), mfn.into(), owner.into()])
        }
        other => panic!("check_authorized_with cannot answer {other:?}"),
    }
}

impl Display for Granted {
    fn fmt(&self, f: &mut Formatter) -> fmt::Result {
        let Granted {
            dom,
            frames,
            grants,
            ..
        } = self;
        let map = maps::shown(&self.map);
        write!(
            f,
            "domain {dom}, map {map}, frames {frames:?}, grants {grants:?}"
        )
    }
}
