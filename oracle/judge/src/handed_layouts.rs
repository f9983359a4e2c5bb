//! Slips of the code here that hands layouts to the port: alone, and with an arena and maps.

use std::mem::swap;

use crate::encode::Scene;
use crate::exposed::Exposed;
use crate::function::Fault;
use crate::handed::{arena_otherwise, exchanged_numbers, handed, maps_otherwise, values_moved};
use crate::layout::{Fields, L2_DEV, L2_SUP, SUP_FRAMES};
use crate::port_layouts::{step_in, Call};
use crate::step::Step;
use crate::updates::List;
use crate::updates_faults::fault;
use crate::updating::update;
use crate::verify::Arena;

pub const VALIDATE: &[&[Fault<Fields>]] = &[
    exchanged_numbers!("validate", x => x),
    values_moved!((), "validate", reply => *reply),
];

pub const EXPOSED: &[&[Fault<Exposed>]] = &[
    exchanged_numbers!("exposed", x => x.0),
    values_moved!((), "exposed", reply => *reply),
];

pub const ENCODE: &[&[Fault<Scene>]] = &[
    arena_otherwise!("encode", x => x),
    maps_otherwise!("encode", x => *x),
    exchanged_numbers!("encode", x => x.fields),
    values_moved!((), "encode", reply => reply.outcome),
];

pub const VERIFY: &[&[Fault<Arena>]] = &[
    arena_otherwise!("verify", x => x.0),
    maps_otherwise!("verify", x => x.0),
    exchanged_numbers!("verify", x => x.0.fields),
    values_moved!((), "verify", reply => *reply),
];

pub const STEP: &[&[Fault<Step>]] = &[
    arena_otherwise!("step", x => x.scene),
    maps_otherwise!("step", x => x.scene),
    exchanged_numbers!("step", x => x.scene.fields),
    values_moved!((), "step", reply => reply.outcome),
    &[
        handed!(
            (),
            "step-handed-sup-frames-for-step",
            "the last number of the layout and that of the step are exchanged",
            x => swap(&mut x.scene.fields[SUP_FRAMES], &mut x.number)
        ),
        handed!(
            (),
            "step-handed-no-step",
            "the number of the step is 0",
            x => x.number = 0
        ),
    ],
];

/// The arena and the maps of an update stay lent: other code hands them over.
pub const UPDATE: &[&[Fault<List>]] = &[&[
    fault(
        "update-handed-short-arena",
        "the arena is lent without its last word",
        |x, updated| {
            *updated = update(x, |lending, mut call| {
                call.arena_len = call.arena_len.saturating_sub(1);
                step_in(lending, call)
            });
        },
    ),
    fault(
        "update-handed-other-tables",
        "l2_sup and l2_dev are exchanged",
        |x, updated| {
            *updated = update(x, |lending, mut call| {
                call.fields.swap(L2_SUP, L2_DEV);
                step_in(lending, call)
            });
        },
    ),
    fault(
        "update-handed-the-next-step",
        "the number of the step is one more",
        |x, updated| {
            *updated = update(x, |lending, call| {
                let number = call.number.saturating_add(1);
                step_in(lending, Call { number, ..call })
            });
        },
    ),
]];
