//! Slips of a port that steps: in rows 1 to 14, in row 26, and in the values.

use crate::encode::{row_14, row_2, Encoded, ARENA_LEN};
use crate::encode_inputs::unmap_past_frames;
use crate::function::{with, Fault};
use crate::inputs::words;
use crate::layout::{ACCEPTED, PAGE, TABLES};
use crate::map_faults::{four_as_3, report_last};
use crate::maps::MAP_LEN;
use crate::port::UNWRITTEN;
use crate::port_layouts;
use crate::step::{Step, HALF_WAY, STEPS};

pub const FAULTS: &[Fault<Step>] = &[
    fault(
        "step-row-1-longer-arena",
        "a word of a longer arena is stored",
        |x, reply| {
            if x.scene.arena.len() > ARENA_LEN {
                *reply = with(x, |x| x.scene.arena.truncate(ARENA_LEN));
            }
        },
    ),
    fault(
        "step-row-1-after-row-2",
        "the maps' lengths are tested before the arena's",
        |x, reply| reply.outcome = row_2(&x.scene).unwrap_or(reply.outcome),
    ),
    fault(
        "step-row-2-of-513",
        "a map may have one entry more",
        |x, reply| {
            if x.scene.base.len().max(x.scene.sup.len()) == MAP_LEN + 1 {
                *reply = with(x, |x| {
                    x.scene.base.truncate(MAP_LEN);
                    x.scene.sup.truncate(MAP_LEN);
                });
            }
        },
    ),
    fault("step-row-3-of-4", "a byte of 4 is accepted", |x, reply| {
        *reply = with(x, |x| {
            four_as_3(&mut x.scene.base);
            four_as_3(&mut x.scene.sup);
        });
    }),
    fault(
        "step-row-3-highest",
        "the last byte above 3 is reported",
        |x, reply| {
            if reply.outcome[..2] == [3, 1] {
                report_last(&x.scene.base, &mut reply.outcome);
            }
        },
    ),
    fault(
        "step-row-3-after-row-12",
        "the bytes of the maps are tested after the layout",
        |x, reply| {
            let layout = port_layouts::validate(&x.scene.fields);
            if reply.outcome[0] == 3 && layout != ACCEPTED {
                reply.outcome = layout;
            }
        },
    ),
    fault(
        "step-row-13-untested",
        "the tables may have one address",
        |x, reply| {
            if reply.outcome[0] == 13 {
                *reply = with(x, part_tables);
            }
        },
    ),
    fault(
        "step-row-14-untested",
        "a super may be mapped past the frames",
        |x, reply| {
            if reply.outcome[0] == 14 {
                *reply = with(x, |x| unmap_past_frames(&mut x.scene));
            }
        },
    ),
    fault(
        "step-row-14-before-row-13",
        "the supers are tested before the tables",
        |x, reply| {
            if reply.outcome[0] == 13 {
                reply.outcome = row_14(&x.scene).unwrap_or(reply.outcome);
            }
        },
    ),
    fault(
        "step-row-13-when-storing",
        "a step that zeroes does not compare the tables",
        |x, reply| {
            if reply.outcome[0] == 13 && x.number < HALF_WAY {
                *reply = with(x, part_tables);
            }
        },
    ),
    fault(
        "step-row-14-when-storing",
        "a step that zeroes does not read the maps",
        |x, reply| {
            if x.number < HALF_WAY {
                *reply = with(x, |x| {
                    x.scene.base.fill(0);
                    x.scene.sup.fill(0);
                });
            }
        },
    ),
    fault(
        "step-zeroes-unguarded",
        "a step that zeroes tests the length of the arena alone",
        |x, reply| {
            if reply.outcome[0] > 1 && x.number < HALF_WAY {
                reply.outcome = ACCEPTED;
                reply.arena[x.number as usize] = 0;
            }
        },
    ),
    fault(
        "step-row-26-early",
        "the last step is past the last",
        |x, reply| {
            if reply.outcome == ACCEPTED && x.number == STEPS - 1 {
                *reply = with(x, |x| x.number = STEPS);
            }
        },
    ),
    fault(
        "step-row-26-at-half-way",
        "there is no step after half-way",
        |x, reply| {
            if x.number >= HALF_WAY {
                *reply = with(x, |x| x.number = STEPS);
            }
        },
    ),
    fault(
        "step-row-26-late",
        "one step more is accepted",
        |x, reply| {
            if reply.outcome[0] == 26 && x.number == STEPS {
                reply.outcome = ACCEPTED;
            }
        },
    ),
    fault(
        "step-row-26-untested",
        "a step past the last is accepted and stores nothing",
        |_, reply| {
            if reply.outcome[0] == 26 {
                reply.outcome = ACCEPTED;
            }
        },
    ),
    fault(
        "step-row-26-as-the-last",
        "a step past the last stores as the last",
        |x, reply| *reply = with(x, |x| x.number = x.number.min(STEPS - 1)),
    ),
    fault(
        "step-row-26-begins-again",
        "after the last step comes step 0",
        |x, reply| *reply = with(x, |x| x.number %= STEPS),
    ),
    fault(
        "step-number-of-32-bits",
        "the high half of the number is lost",
        |x, reply| *reply = with(x, |x| x.number %= 1 << 32),
    ),
    fault(
        "step-number-of-16-bits",
        "the number is cut to 16 bits",
        |x, reply| *reply = with(x, |x| x.number %= 1 << 16),
    ),
    fault(
        "step-number-of-63-bits",
        "the highest bit of the number is lost",
        |x, reply| *reply = with(x, |x| x.number &= u64::MAX >> 1),
    ),
    fault(
        "step-row-26-first",
        "the number is tested before all else",
        |x, reply| before(x, reply, 1),
    ),
    fault(
        "step-row-26-before-row-4",
        "the number is tested before the layout",
        |x, reply| before(x, reply, 4),
    ),
    fault(
        "step-row-26-before-row-13",
        "the number is tested before the tables",
        |x, reply| before(x, reply, 13),
    ),
    fault(
        "step-row-26-before-row-14",
        "the number is tested before the supers",
        |x, reply| before(x, reply, 14),
    ),
    fault(
        "step-row-26-carries-the-number",
        "the number of the step is carried",
        |x, reply| {
            if reply.outcome[0] == 26 {
                reply.outcome[1] = x.number;
            }
        },
    ),
    fault(
        "step-row-26-as-row-25",
        "a step past the last has another row's number",
        |_, reply| {
            if reply.outcome[0] == 26 {
                reply.outcome[0] = 25;
            }
        },
    ),
    fault(
        "step-value-unwritten",
        "the last value is not written where the step is accepted",
        |_, reply| {
            if reply.outcome == ACCEPTED {
                reply.outcome[8] = UNWRITTEN;
            }
        },
    ),
    fault(
        "step-row-26-values-unwritten",
        "a step past the last writes no values",
        |_, reply| {
            if reply.outcome[0] == 26 {
                reply.outcome[1..].fill(UNWRITTEN);
            }
        },
    ),
    fault(
        "step-values-left-out",
        "a refusal has its number and no values",
        |_, reply| reply.outcome[1..].fill(0),
    ),
    fault(
        "step-tells-the-place",
        "the place of the store is told",
        |x, reply| {
            if reply.outcome == ACCEPTED {
                reply.outcome[1] = x.number.min(STEPS - 1 - x.number);
            }
        },
    ),
];

pub const fn fault(
    name: &'static str,
    slip: &'static str,
    alter: fn(&Step, &mut Encoded),
) -> Fault<Step> {
    Fault {
        name,
        slip,
        op: (),
        alter,
    }
}

/// Gives each table an address of its own.
fn part_tables(x: &mut Step) {
    for (number, table) in (1..).zip(&mut x.scene.fields[TABLES]) {
        *table = number * PAGE;
    }
}

/// Row 26 comes before this row and those after it.
fn before(x: &Step, reply: &mut Encoded, row: u64) {
    if x.number >= STEPS && reply.outcome[0] >= row {
        reply.outcome = words([26]);
    }
}
