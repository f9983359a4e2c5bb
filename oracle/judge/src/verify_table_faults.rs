//! Slips of a port that verifies, in which words it tests.

use crate::encode::{table, TABLE_LEN};
use crate::function::Fault;
use crate::inputs::Outcome;
use crate::layout::{all_windows, DEVICE_LEN, IMAGE_PRESENT};
use crate::mended::mend;
use crate::verify::Arena;
use crate::verify_row_faults::fault;

pub const FAULTS: &[Fault<Arena>] = &[
    fault("verify-l1-untested", "l1 is not tested", untested::<1>),
    fault(
        "verify-l2-code-untested",
        "l2_code is not tested",
        untested::<2>,
    ),
    fault(
        "verify-l2-data-untested",
        "l2_data is not tested",
        untested::<3>,
    ),
    fault(
        "verify-l3-data-untested",
        "l3_data is not tested",
        untested::<4>,
    ),
    fault(
        "verify-l2-sup-untested",
        "l2_sup is not tested",
        untested::<5>,
    ),
    fault(
        "verify-l2-dev-untested",
        "l2_dev is not tested",
        untested::<6>,
    ),
    fault(
        "verify-l1-only-live",
        "l1 may hold words that are not due",
        only_live::<1>,
    ),
    fault(
        "verify-l2-code-only-live",
        "l2_code may hold words that are not due",
        only_live::<2>,
    ),
    fault(
        "verify-l2-data-only-live",
        "l2_data may hold words that are not due",
        only_live::<3>,
    ),
    fault(
        "verify-l3-data-only-live",
        "l3_data may hold pages that are not due",
        only_live::<4>,
    ),
    fault(
        "verify-l2-sup-only-live",
        "l2_sup may hold blocks that are not due",
        only_live::<5>,
    ),
    fault(
        "verify-l2-dev-only-live",
        "l2_dev may hold blocks that are not due",
        only_live::<6>,
    ),
    fault(
        "verify-slot-511-untested",
        "the last word of each table is not tested",
        |x, answer| mend(x, answer, |place, _| place % TABLE_LEN == TABLE_LEN - 1),
    ),
    fault(
        "verify-slot-0-untested",
        "the first word of each table is not tested",
        |x, answer| mend(x, answer, |place, _| place % TABLE_LEN == 0),
    ),
    fault(
        "verify-invalid-words",
        "a word of tables 1 to 3 whose valid bit is clear may stand anywhere",
        |x, answer| {
            mend(x, answer, |place, due| {
                table(3).end > place && due == 0 && x.0.arena[place] & 1 == 0
            });
        },
    ),
    fault(
        "verify-absent-image-untested",
        "l2_code is not tested where there is no image",
        |x, answer| {
            if x.0.fields[IMAGE_PRESENT] == 0 {
                untested::<2>(x, answer);
            }
        },
    ),
    fault(
        "verify-absent-device-untested",
        "l2_dev is not tested where there is no device window",
        |x, answer| {
            if x.0.fields[DEVICE_LEN] == 0 {
                untested::<6>(x, answer);
            }
        },
    ),
    fault(
        "verify-l1-image-untested",
        "no l1 word need name l2_code",
        window_untested::<0>,
    ),
    fault(
        "verify-l1-data-untested",
        "no l1 word need name l2_data",
        window_untested::<1>,
    ),
    fault(
        "verify-l1-super-untested",
        "no l1 word need name l2_sup",
        window_untested::<2>,
    ),
    fault(
        "verify-l1-device-untested",
        "no l1 word need name l2_dev",
        window_untested::<3>,
    ),
];

fn untested<const TABLE: usize>(x: &Arena, answer: &mut Outcome) {
    mend(x, answer, |place, _| table(TABLE).contains(&place));
}

fn only_live<const TABLE: usize>(x: &Arena, answer: &mut Outcome) {
    mend(x, answer, |place, due| {
        due == 0 && table(TABLE).contains(&place)
    });
}

/// The l1 word of a window is not tested.
fn window_untested<const WINDOW: usize>(x: &Arena, answer: &mut Outcome) {
    let window = all_windows(&x.0.fields)[WINDOW];
    if window.present {
        mend(x, answer, |place, _| place == window.l1_index() as usize);
    }
}
