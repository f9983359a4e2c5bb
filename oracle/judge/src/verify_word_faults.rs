//! Slips of a port that verifies: in the words of tables 1 to 3, of the image and of the device
//! window.

use crate::descriptors::{ACCESS, ADDRESS, EXECUTE_NEVER, TYPE};
use crate::encode::{table, TABLE_LEN};
use crate::function::Fault;
use crate::inputs::{words, Outcome};
use crate::layout::{all_windows, ACCEPTED, BLOCK, DEVICE, DEVICE_LEN, IMAGE, OUTPUT_LIMIT, PAGE};
use crate::mended::{change, due, mend, take_due};
use crate::table_faults::l2_place;
use crate::verify::Arena;
use crate::verify_row_faults::fault;

/// The bits of a word that hold the type of the memory.
const MEMORY: u64 = 15 << 2;

pub const FAULTS: &[Fault<Arena>] = &[
    fault(
        "verify-table-as-block",
        "a block may stand where the word of a table is due",
        |x, answer| {
            change(x, answer, |place, due, word| {
                let block = place < table(3).end && due & TYPE == 3 && word & TYPE == 1;
                word | u64::from(block) << 1
            });
        },
    ),
    fault(
        "verify-tables-of-64-bits",
        "the bits of a word above its address count to the table that it names",
        |x, answer| {
            let data = data_slot(x);
            if *answer == ACCEPTED && x.0.arena[data] >= OUTPUT_LIMIT {
                let found = x.0.arena[data] & !(PAGE - 1);
                *answer = words([18, 1, data as u64, 1, found, found & ADDRESS]);
            }
        },
    ),
    fault(
        "verify-tables-whole",
        "the words of tables are compared whole",
        |x, answer| {
            let data = data_slot(x);
            if *answer == ACCEPTED && x.0.arena[data] != due(x)[data] {
                let address = x.0.arena[data] & ADDRESS;
                *answer = words([18, 1, data as u64, 1, address, address]);
            }
        },
    ),
    fault(
        "verify-image-access-untested",
        "the image's block may have any access",
        |x, answer| take_due(x, answer, 2, ACCESS),
    ),
    fault(
        "verify-image-never-executed",
        "the image's block may be execute never",
        |x, answer| take_due(x, answer, 2, EXECUTE_NEVER),
    ),
    fault(
        "verify-image-anywhere",
        "the image's block may have any address",
        |x, answer| take_due(x, answer, 2, ADDRESS),
    ),
    fault(
        "verify-image-by-pages",
        "the bits of the image's word below its address are told as found",
        |x, answer| {
            if answer[..2] == [19, 1] {
                answer[2] = x.0.arena[l2_place(2, x.0.fields[IMAGE])] & ADDRESS;
            }
        },
    ),
    fault(
        "verify-device-as-memory",
        "the device's blocks may be normal memory",
        |x, answer| take_due(x, answer, 6, MEMORY),
    ),
    fault(
        "verify-device-executable",
        "the device's blocks may be executed",
        |x, answer| take_due(x, answer, 6, EXECUTE_NEVER),
    ),
    fault(
        "verify-device-anywhere",
        "the device's blocks may have any address",
        |x, answer| take_due(x, answer, 6, ADDRESS),
    ),
    fault(
        "verify-device-access",
        "the access of the device's blocks is tested",
        |x, answer| {
            if *answer == ACCEPTED {
                let due = due(x);
                let bad = |place: &usize| due[*place] != 0 && x.0.arena[*place] & ACCESS != ACCESS;
                if let Some(place) = table(6).find(bad) {
                    let index = place - table(6).start;
                    *answer = words([22, index as u64, x.0.arena[place]]);
                }
            }
        },
    ),
    fault(
        "verify-device-normal-refused",
        "a block of normal memory in an empty device slot is refused",
        refuse_any::<6>,
    ),
    fault(
        "verify-device-index-from-base",
        "the slots of device blocks are counted from the first",
        |x, answer| {
            if answer[0] == 22 {
                answer[1] -= x.0.fields[DEVICE] / BLOCK % 512;
            }
        },
    ),
    fault(
        "verify-device-one-more",
        "a block is due just past the device window",
        |x, answer| {
            let end = (x.0.fields[DEVICE] % (512 * BLOCK)).wrapping_add(x.0.fields[DEVICE_LEN]);
            let past = end / BLOCK;
            if *answer == ACCEPTED && x.0.fields[DEVICE_LEN] > 0 && past < 512 {
                *answer = words([22, past, x.0.arena[table(6)][past as usize]]);
            }
        },
    ),
    fault(
        "verify-device-first-alone",
        "only the first device block is tested",
        |x, answer| {
            let first = l2_place(6, x.0.fields[DEVICE]);
            mend(x, answer, |place, due| {
                table(6).contains(&place) && due != 0 && place != first
            });
        },
    ),
];

/// Refuses any word that is not due in a table of an arena that the port accepts.
pub fn refuse_any<const TABLE: usize>(x: &Arena, answer: &mut Outcome) {
    if *answer == ACCEPTED {
        let due = due(x);
        let spurious = |place: &usize| due[*place] == 0 && x.0.arena[*place] != 0;
        if let Some(place) = table(TABLE).find(spurious) {
            let index = place % TABLE_LEN;
            *answer = words([21, TABLE as u64, index as u64, x.0.arena[place]]);
        }
    }
}

/// The l1 slot of data's word.
fn data_slot(x: &Arena) -> usize {
    let [_, data, ..] = all_windows(&x.0.fields);
    data.l1_index() as usize
}
