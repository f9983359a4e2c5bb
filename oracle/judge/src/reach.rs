//! arm64.rs: `window_reach`, which says from the layout and the maps what a walk must find.
//!
//! It is a second original of the port's walk, for arenas that a scene is encoded to from zeros.
//! It reads no descriptor, so that it shares no slip with `walk`.

use std::rc::Rc;

use given_s2::arm64::window_reach;

use crate::encode::Scene;
use crate::function::{Fault, Function, Input, Layer};
use crate::inputs::{hex, Outcome};
use crate::layout::{layout, LEAST};
use crate::maps;
use crate::port_walk;
use crate::walk::{reached, Walk, REACHED};
use crate::walk_faults::{limit_wraps, nothing_reached, page_offset_dropped, rw_told_as_ro};
use crate::walk_inputs::{encoded_walks, filled_walks};

/// A walk over what a scene is encoded to.
pub struct Encoding {
    pub scene: Rc<Scene>,
    pub walk: Walk,
}

pub const LAYER: Layer<Encoding> = Layer {
    functions: &[Function {
        call: "s2_walk",
        name: "walk, as the windows say",
        op: (),
        original: reach,
        boundary: || Box::new(filled_walks()),
        sweep: |round| Box::new(encoded_walks(round)),
        answers: REACHED,
        least: LEAST,
        recorded: false,
    }],
    faults: &[FAULTS],
    wrapper_faults: &[],
};

impl Input for Encoding {
    type Op = ();
    type Reply = Outcome;

    fn port(&self, (): ()) -> Outcome {
        port_walk::walk(&self.walk)
    }

    fn shown(&self) -> String {
        format!("{}, layout {}", self.walk, hex(&self.scene.fields))
    }
}

fn reach(x: &Encoding) -> Outcome {
    granted(&x.scene, x.walk.ipa)
}

/// What the layout and the maps say that an address reaches.
pub fn granted(scene: &Scene, ipa: u64) -> Outcome {
    reached(window_reach(
        &layout(&scene.fields),
        &maps::entries(&scene.base),
        &maps::entries(&scene.sup),
        ipa,
    ))
}

/// The slips of a walk that the windows alone must show.
const FAULTS: &[Fault<Encoding>] = &[
    fault(
        "windows-nothing",
        "every address reaches nothing",
        |x, answer| nothing_reached(&x.walk, answer),
    ),
    fault(
        "windows-wrap",
        "an address past 2^39 is cut to 39 bits",
        |x, answer| limit_wraps(&x.walk, answer),
    ),
    fault(
        "windows-offset-dropped",
        "a page is reached at its start",
        |x, answer| page_offset_dropped(&x.walk, answer),
    ),
    fault(
        "windows-rw-as-ro",
        "what can be written is told as Ro",
        |x, answer| rw_told_as_ro(&x.walk, answer),
    ),
];

const fn fault(
    name: &'static str,
    slip: &'static str,
    alter: fn(&Encoding, &mut Outcome),
) -> Fault<Encoding> {
    Fault {
        name,
        slip,
        op: (),
        alter,
    }
}
