//! Slips of a port that verifies, in what it tells of a word that is not due.

use crate::descriptors::EXECUTE_NEVER;
use crate::function::Fault;
use crate::inputs::words;
use crate::layout::{ACCEPTED, OUTPUT_LIMIT, PAGE};
use crate::mended::table_of;
use crate::port::UNWRITTEN;
use crate::verify::Arena;
use crate::verify_row_faults::fault;

pub const FAULTS: &[Fault<Arena>] = &[
    fault(
        "verify-values-left-out",
        "a refusal has its number and no values",
        |_, answer| answer[1..].fill(0),
    ),
    fault(
        "verify-value-unwritten",
        "the last value is not written where the arena is accepted",
        |_, answer| {
            if *answer == ACCEPTED {
                answer[8] = UNWRITTEN;
            }
        },
    ),
    fault(
        "verify-values-unwritten",
        "row 22 does not write past the values that it carries",
        |_, answer| {
            if answer[0] == 22 {
                answer[3..].fill(UNWRITTEN);
            }
        },
    ),
    fault(
        "verify-last-value-left-out",
        "the eighth value is always zero",
        |_, answer| answer[8] = 0,
    ),
    fault(
        "verify-18-exchanged",
        "row 18 carries what is expected before what is found",
        |_, answer| {
            if answer[0] == 18 {
                answer.swap(4, 5);
            }
        },
    ),
    fault(
        "verify-18-without-flag",
        "row 18 does not tell whether a table is found",
        |_, answer| {
            if answer[0] == 18 {
                answer[3..].rotate_left(1);
                answer[8] = 0;
            }
        },
    ),
    fault(
        "verify-18-always-l1",
        "row 18 tells l1 for l2_data too",
        |_, answer| {
            if answer[0] == 18 {
                answer[1] = 1;
            }
        },
    ),
    fault(
        "verify-18-as-20",
        "the word of l2_data that is not due is told by row 20",
        |_, answer| {
            if answer[..2] == [18, 3] {
                answer[0] = 20;
            }
        },
    ),
    fault(
        "verify-19-without-access",
        "row 19 does not tell the access that is found",
        |_, answer| {
            if answer[0] == 19 {
                answer[3] = 0;
            }
        },
    ),
    fault(
        "verify-19-exchanged",
        "row 19 carries the address that is expected before the one that is found",
        |_, answer| {
            if answer[0] == 19 {
                answer.swap(2, 5);
            }
        },
    ),
    fault(
        "verify-21-in-the-arena",
        "the index of a word is counted from the start of the arena",
        |_, answer| {
            if answer[0] == 21 {
                answer[2] += 512 * (answer[1] - 1);
            }
        },
    ),
    fault(
        "verify-21-without-word",
        "row 21 does not carry the word",
        |_, answer| {
            if answer[0] == 21 {
                answer[3] = 0;
            }
        },
    ),
    fault(
        "verify-22-as-21",
        "a device block that is not due is told by row 21",
        |_, answer| {
            if let [22, index, word, ..] = *answer {
                *answer = words([21, 6, index, word]);
            }
        },
    ),
    fault(
        "verify-21-as-22",
        "a word in an empty device slot is told by row 22",
        |_, answer| {
            if let [21, 6, index, word, ..] = *answer {
                *answer = words([22, index, word]);
            }
        },
    ),
    fault(
        "verify-20-exchanged",
        "row 20 carries what is expected before what is found",
        |_, answer| {
            if let [20, mfn, flag, pa, access, never, due, due_pa, due_access] = *answer {
                *answer = [20, mfn, due, due_pa, due_access, never, flag, pa, access];
            }
        },
    ),
    fault(
        "verify-20-rx",
        "row 20 tells Rx where that is the entry",
        |x, answer| {
            if answer[0] == 20 {
                let map = match table_of(x, answer) {
                    4 => &x.0.base,
                    _ => &x.0.sup,
                };
                answer[8] = map[answer[1] as usize].into();
            }
        },
    ),
    fault(
        "verify-20-access-as-bits",
        "row 20 tells the access that is found as a descriptor holds it",
        |_, answer| {
            if answer[0] == 20 && answer[4] == 2 {
                answer[4] = 3;
            }
        },
    ),
    fault(
        "verify-20-without-never",
        "row 20 does not tell whether what is found is never executed",
        |_, answer| {
            if answer[0] == 20 {
                answer[5] = 0;
            }
        },
    ),
    fault(
        "verify-21-as-20",
        "a page where none is due is told by row 20",
        |_, answer| {
            if let [21, 4, index, word, ..] = *answer {
                let access = 1 + (word >> 7 & 1);
                let never = u64::from(word & EXECUTE_NEVER != 0);
                let pa = word % OUTPUT_LIMIT / PAGE * PAGE;
                *answer = words([20, index, 1, pa, access, never]);
            }
        },
    ),
];
