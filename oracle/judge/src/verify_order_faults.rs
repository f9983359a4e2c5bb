//! Slips of a port that verifies, in which of two words is told that are not due.

use crate::encode::table;
use crate::function::Fault;
use crate::inputs::Outcome;
use crate::layout::{all_windows, windows, IMAGE};
use crate::mended::{mend, table_of};
use crate::table_faults::l2_place;
use crate::verify::Arena;
use crate::verify_row_faults::fault;

pub const FAULTS: &[Fault<Arena>] = &[
    fault(
        "verify-super-before-data",
        "the l1 word of the super window is tested before that of data",
        |x, answer| {
            let [_, data, sup, _] = l1_indices(x);
            sooner(
                x,
                answer,
                |place| place == data,
                |answer| answer[..3] == [18, 1, sup as u64],
            );
        },
    ),
    fault(
        "verify-image-before-data",
        "the image's l1 word is tested before those of data and super",
        |x, answer| {
            let [image, data, sup, _] = l1_indices(x);
            sooner(
                x,
                answer,
                |place| place == data || place == sup,
                |answer| answer[..3] == [18, 1, image as u64],
            );
        },
    ),
    fault(
        "verify-device-before-image",
        "the l1 word of the device window is tested before the image's",
        |x, answer| {
            let [image, _, _, device] = l1_indices(x);
            sooner(
                x,
                answer,
                |place| place == image,
                |answer| answer[..3] == [18, 1, device as u64],
            );
        },
    ),
    fault(
        "verify-l1-in-order",
        "the words of l1 are tested by their index",
        |x, answer| {
            let (live, told) = (live_l1(x), *answer);
            sooner(
                x,
                answer,
                |place| live.contains(&place),
                |later| later[..2] == [21, 1] && told[..2] == [18, 1] && later[2] < told[2],
            );
        },
    ),
    fault(
        "verify-dead-before-live",
        "the other words of l1 are tested first",
        |x, answer| {
            let live = live_l1(x);
            sooner(
                x,
                answer,
                |place| live.contains(&place),
                |answer| answer[..2] == [21, 1],
            );
        },
    ),
    fault(
        "verify-dead-before-image",
        "the other words of l2_code are tested before the image's block",
        |x, answer| {
            if answer[0] == 19 {
                let image = l2_place(2, x.0.fields[IMAGE]);
                sooner(
                    x,
                    answer,
                    |place| place == image,
                    |answer| answer[..2] == [21, 2],
                );
            }
        },
    ),
    fault(
        "verify-table-3-before-2",
        "l2_data is tested before l2_code",
        |x, answer| {
            if table_of(x, answer) == 2 {
                sooner(
                    x,
                    answer,
                    |place| table(2).contains(&place),
                    |answer| answer[..2] == [18, 3] || answer[..2] == [21, 3],
                );
            }
        },
    ),
    fault(
        "verify-pages-before-l1",
        "the pages are tested before tables 1 to 3",
        |x, answer| {
            if (1..4).contains(&table_of(x, answer)) {
                sooner(
                    x,
                    answer,
                    |place| place < table(4).start,
                    |later| table_of(x, later) == 4,
                );
            }
        },
    ),
    fault(
        "verify-supers-before-pages",
        "the supers are tested before the pages",
        |x, answer| {
            if table_of(x, answer) == 4 {
                sooner(
                    x,
                    answer,
                    |place| table(4).contains(&place),
                    |later| later[0] == 20 || later[..2] == [21, 5],
                );
            }
        },
    ),
    fault(
        "verify-device-before-supers",
        "the device slots are tested before the supers",
        |x, answer| {
            if table_of(x, answer) == 5 {
                sooner(
                    x,
                    answer,
                    |place| table(5).contains(&place),
                    |later| later[0] == 22 || later[..2] == [21, 6],
                );
            }
        },
    ),
];

/// Answers as if these places were tested later, if the port then has such an answer.
pub fn sooner(
    x: &Arena,
    answer: &mut Outcome,
    later: impl Fn(usize) -> bool,
    such: impl Fn(&Outcome) -> bool,
) {
    let mut without = *answer;
    mend(x, &mut without, |place, _| later(place));
    if such(&without) {
        *answer = without;
    }
}

/// The l1 slots of image, data, super and device, present or not.
fn l1_indices(x: &Arena) -> [usize; 4] {
    all_windows(&x.0.fields).map(|window| window.l1_index() as usize)
}

/// The l1 slots in use.
fn live_l1(x: &Arena) -> Vec<usize> {
    windows(&x.0.fields)
        .map(|window| window.l1_index() as usize)
        .collect()
}
