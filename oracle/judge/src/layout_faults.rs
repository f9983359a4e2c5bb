//! Slips of a port that validates layouts, at least one for each of rows 4 to 12.

use crate::function::Fault;
use crate::inputs::{altered, words, Outcome};
use crate::layout::{
    all_windows, pairs, row_10, windows, Fields, Window, ACCEPTED, BLOCK, DATA_PA, DEVICE,
    DEVICE_LEN, FRAME_SIZE, IMAGE, IMAGE_PRESENT, INPUT_LIMIT, L1_SPAN, L2_CODE, OUTPUT_LIMIT,
    PAGE, SUP_FRAMES, SUP_FRAMES_LIMIT, SUP_IPA, TABLES,
};
use crate::port::UNWRITTEN;
use crate::port_layouts;

pub const FAULTS: &[Fault<Fields>] = &[
    fault(
        "row-4-by-pages",
        "the length of the device window need only be whole pages",
        |x, answer| {
            if answer[0] == 4 && x[DEVICE_LEN] % PAGE == 0 {
                *answer = with(x, DEVICE_LEN, x[DEVICE_LEN] / BLOCK * BLOCK);
            }
        },
    ),
    fault(
        "row-4-values-exchanged",
        "the length is carried before the base",
        |_, answer| {
            if answer[0] == 4 {
                answer.swap(1, 2);
            }
        },
    ),
    fault(
        "row-5-before-row-4",
        "the frame size is tested first",
        |x, answer| {
            if x[FRAME_SIZE] != PAGE {
                *answer = words([5, x[FRAME_SIZE]]);
            }
        },
    ),
    fault("row-5-always", "every layout is refused", |x, answer| {
        if *answer == ACCEPTED {
            *answer = words([5, x[FRAME_SIZE]]);
        }
    }),
    fault(
        "row-5-of-32-bits",
        "only the low half of the frame size is compared",
        |x, answer| {
            if x[FRAME_SIZE] as u32 == PAGE as u32 {
                *answer = with(x, FRAME_SIZE, PAGE);
            }
        },
    ),
    fault(
        "row-6-data-pa-by-blocks",
        "the output of the data window must be aligned as its input",
        |x, answer| {
            let reached = before(answer, 6) || answer[0] == 6 && answer[1] > 1;
            if reached && x[DATA_PA] % BLOCK != 0 {
                *answer = words([6, 2, x[DATA_PA], BLOCK]);
            }
        },
    ),
    fault(
        "row-6-absent-device",
        "the base of a device window of no length is tested",
        |x, answer| {
            if before(answer, 6) && x[DEVICE] % BLOCK != 0 {
                *answer = words([6, 6, x[DEVICE], BLOCK]);
            }
        },
    ),
    fault(
        "row-6-image-first",
        "the image is tested before data and super",
        |x, answer| {
            if answer[0] == 6 && x[IMAGE_PRESENT] != 0 && x[IMAGE] % BLOCK != 0 {
                *answer = words([6, 5, x[IMAGE], BLOCK]);
            }
        },
    ),
    fault(
        "row-6-device-as-image",
        "the check of the device window has the image's code",
        |_, answer| {
            if answer[..2] == [6, 6] {
                answer[1] = 5;
            }
        },
    ),
    fault(
        "row-7-limit-accepted",
        "a table may stand just past the addresses that a descriptor holds",
        |x, answer| {
            let mut x = *x;
            for table in &mut x[TABLES] {
                if *table == OUTPUT_LIMIT {
                    *table = 0;
                }
            }
            *answer = port_layouts::validate(&x);
        },
    ),
    fault(
        "row-7-l2-code-unread",
        "the image's table is not tested where there is no image",
        |x, answer| {
            if x[IMAGE_PRESENT] == 0 {
                *answer = with(x, L2_CODE, 0);
            }
        },
    ),
    fault(
        "row-8-wraps",
        "the span of the super window is cut to 64 bits",
        |x, answer| *answer = with(x, SUP_FRAMES, x[SUP_FRAMES] % SUP_FRAMES_LIMIT),
    ),
    fault(
        "row-8-one-early",
        "2^43 - 1 frames are refused by it",
        |x, answer| {
            if before(answer, 8) && x[SUP_FRAMES] == SUP_FRAMES_LIMIT - 1 {
                *answer = words([8, x[SUP_FRAMES]]);
            }
        },
    ),
    fault(
        "row-8-after-row-9",
        "where another window starts or ends is tested before the number of frames",
        |x, answer| {
            let unbacked = with(x, SUP_FRAMES, 0);
            if answer[0] == 8 && unbacked[0] == 9 {
                *answer = unbacked;
            }
        },
    ),
    fault(
        "row-9-limit-accepted",
        "a window of no frames may start at 2^39",
        |x, answer| {
            // Its l1 index is that of address 0.
            if x[SUP_FRAMES] == 0 && x[SUP_IPA] == INPUT_LIMIT {
                *answer = with(x, SUP_IPA, 0);
            }
        },
    ),
    fault(
        "row-9-empty-super-skipped",
        "a window of no frames may start anywhere",
        |x, answer| {
            if x[SUP_FRAMES] == 0 {
                *answer = with(x, SUP_IPA, x[SUP_IPA] % INPUT_LIMIT);
            }
        },
    ),
    fault(
        "row-9-end-excluded",
        "a window may not end where its 1 GiB does",
        |x, answer| {
            let full =
                |window: &Window| u128::from(window.ipa % L1_SPAN) + window.span == L1_SPAN.into();
            if let Some(window) = windows(x).find(full).filter(|_| before(answer, 9)) {
                *answer = words([9, window.l1_index(), window.span as u64]);
            }
        },
    ),
    fault(
        "row-9-index-not-cut",
        "the l1 index past 2^39 is above 511",
        |x, answer| {
            let refused =
                |window: &Window| window.ipa >= INPUT_LIMIT && answer[1] == window.l1_index();
            if let Some(window) = windows(x).find(refused).filter(|_| answer[0] == 9) {
                answer[1] = window.ipa / L1_SPAN;
            }
        },
    ),
    fault(
        "row-10-end-excluded",
        "an output may not end at 2^48",
        |x, answer| {
            let full = |window: &Window| window.output_end() == OUTPUT_LIMIT.into();
            if let Some(window) = windows(x).find(full).filter(|_| before(answer, 10)) {
                *answer = words([10, window.code, window.pa]);
            }
        },
    ),
    fault(
        "row-10-before-row-9",
        "the outputs are tested before the inputs",
        |x, answer| {
            if answer[0] == 9 {
                *answer = row_10(x).unwrap_or(*answer);
            }
        },
    ),
    fault(
        "row-10-super-first",
        "the output of the super window is tested before that of data",
        |x, answer| {
            let [_, _, sup, _] = all_windows(x);
            if answer[0] == 10 && sup.output_end() > OUTPUT_LIMIT.into() {
                *answer = words([10, sup.code, sup.pa]);
            }
        },
    ),
    fault(
        "row-10-carries-the-end",
        "the end of the output is carried in the place of its base",
        |_, answer| {
            if answer[..2] == [10, 2] {
                answer[2] = answer[2].wrapping_add(BLOCK);
            }
        },
    ),
    fault(
        "row-11-before-row-10",
        "the slots are tested before the outputs",
        |x, answer| {
            if answer[0] == 10 {
                *answer = row_11(x).unwrap_or(*answer);
            }
        },
    ),
    fault(
        "row-11-all-pairs-first",
        "the slots of all pairs are tested before the outputs of any",
        |x, answer| {
            if answer[0] == 12 {
                *answer = row_11(x).unwrap_or(*answer);
            }
        },
    ),
    fault(
        "row-11-index-from-1",
        "the l1 index is counted as the codes are",
        |_, answer| {
            if answer[0] == 11 {
                answer[1] += 1;
            }
        },
    ),
    fault(
        "row-12-touching",
        "outputs that only touch overlap",
        |x, answer| {
            let touch = |(a, b): (Window, Window)| {
                u128::from(a.pa) == b.output_end() || u128::from(b.pa) == a.output_end()
            };
            if *answer == ACCEPTED && window_pairs(x).any(touch) {
                *answer = words([12]);
            }
        },
    ),
    fault(
        "row-12-empty-super-skipped",
        "a window of no frames never overlaps",
        |x, answer| {
            let backed = |(a, b): &(Window, Window)| a.span > 0 && b.span > 0;
            let overlap = |(a, b): (Window, Window)| {
                u128::from(a.pa) < b.output_end() && u128::from(b.pa) < a.output_end()
            };
            if answer[0] == 12 && !window_pairs(x).filter(backed).any(overlap) {
                *answer = row_11(x).unwrap_or(ACCEPTED);
            }
        },
    ),
    fault(
        "row-12-carries-a-window",
        "the code of a window is carried",
        |_, answer| {
            if answer[0] == 12 {
                answer[1] = 2;
            }
        },
    ),
    fault(
        "image-only-by-1",
        "an image whose presence is another number than 1 is taken for absent",
        |x, answer| {
            if x[IMAGE_PRESENT] > 1 {
                *answer = with(x, IMAGE_PRESENT, 0);
            }
        },
    ),
    fault(
        "accepted-word-unwritten",
        "the last word of the answer is not written where the layout is accepted",
        |_, answer| {
            if *answer == ACCEPTED {
                answer[8] = UNWRITTEN;
            }
        },
    ),
];

const fn fault(
    name: &'static str,
    slip: &'static str,
    alter: fn(&Fields, &mut Outcome),
) -> Fault<Fields> {
    Fault {
        name,
        slip,
        op: (),
        alter,
    }
}

/// The port's answer to the layout with one other field.
fn with(x: &Fields, field: usize, value: u64) -> Outcome {
    port_layouts::validate(&altered(*x, |x| x[field] = value))
}

/// Whether the row is tested before what the answer says, and does not apply.
fn before(answer: &Outcome, row: u64) -> bool {
    *answer == ACCEPTED || answer[0] > row
}

/// Row 11 for the first two windows in one l1 slot, whatever other rows say.
fn row_11(x: &Fields) -> Option<Outcome> {
    window_pairs(x)
        .find(|(a, b)| a.l1_index() == b.l1_index())
        .map(|(a, _)| words([11, a.l1_index()]))
}

fn window_pairs(x: &Fields) -> impl Iterator<Item = (Window, Window)> {
    let windows = all_windows(x);
    pairs(windows.len())
        .map(move |(first, second)| (windows[first], windows[second]))
        .filter(|(a, b)| a.present && b.present)
}
