//! Slips of a port that verifies, in which slots of l1 it takes for live.

use crate::function::Fault;
use crate::inputs::{words, Outcome};
use crate::layout::{all_windows, windows};
use crate::mended::{mend, read};
use crate::verify::Arena;
use crate::verify_row_faults::fault;

pub const FAULTS: &[Fault<Arena>] = &[
    fault(
        "verify-slots-uncounted",
        "a list of four slots is looked up whole, where fewer are live: slot 0 is one of them",
        |x, answer| {
            if windows(&x.0.fields).count() < 4 {
                mend(x, answer, |place, due| place == 0 && due == 0);
            }
        },
    ),
    fault(
        "verify-absent-image-live",
        "the slot of an absent image is live",
        absent_live::<0>,
    ),
    fault(
        "verify-absent-device-live",
        "the slot of an absent device is live",
        absent_live::<3>,
    ),
    fault(
        "verify-data-slot-left-out",
        "data's slot is not among the live ones",
        left_out::<1>,
    ),
    fault(
        "verify-super-slot-left-out",
        "the super window's slot is not among the live ones",
        left_out::<2>,
    ),
    fault(
        "verify-image-slot-left-out",
        "the image's slot is not among the live ones",
        left_out::<0>,
    ),
    fault(
        "verify-device-slot-left-out",
        "the device's slot is not among the live ones",
        left_out::<3>,
    ),
];

fn absent_live<const WINDOW: usize>(x: &Arena, answer: &mut Outcome) {
    let window = all_windows(&x.0.fields)[WINDOW];
    if !window.present {
        mend(x, answer, |place, due| {
            place == window.l1_index() as usize && due == 0
        });
    }
}

/// The window's own word is told as one that is not due, unless a word before it is told.
fn left_out<const WINDOW: usize>(x: &Arena, answer: &mut Outcome) {
    let window = all_windows(&x.0.fields)[WINDOW];
    let slot = window.l1_index();
    let sooner = match answer[..2] {
        [18, 1] => true,
        [21, 1] => answer[2] < slot,
        _ => false,
    };
    if window.present && read(answer) && !sooner {
        *answer = words([21, 1, slot, x.0.arena[slot as usize]]);
    }
}
