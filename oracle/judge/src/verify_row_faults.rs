//! Slips of a port that verifies, in rows 1 to 14.

use crate::encode::{row_13, row_14, row_2, ARENA_LEN};
use crate::function::{with, Fault};
use crate::inputs::Outcome;
use crate::layout::ACCEPTED;
use crate::map_faults::{four_as_3, report_last};
use crate::maps::{self, MAP_LEN};
use crate::mended::read;
use crate::port_layouts;
use crate::undefined::defined;
use crate::verify::{original, Arena};

pub const FAULTS: &[Fault<Arena>] = &[
    fault(
        "verify-row-1-longer-arena",
        "an arena of more words is read",
        |x, answer| {
            if x.0.arena.len() > ARENA_LEN {
                *answer = with(x, |x| x.0.arena.truncate(ARENA_LEN));
            }
        },
    ),
    fault(
        "verify-row-1-shorter-arena",
        "the words that an arena lacks are taken for zeros",
        |x, answer| {
            if x.0.arena.len() < ARENA_LEN {
                *answer = with(x, |x| x.0.arena.resize(ARENA_LEN, 0));
            }
        },
    ),
    fault(
        "verify-row-1-after-row-2",
        "the maps' lengths are tested before the arena's",
        |x, answer| *answer = row_2(&x.0).unwrap_or(*answer),
    ),
    fault(
        "verify-row-2-of-513",
        "a map may have one entry more",
        |x, answer| {
            if x.0.base.len().max(x.0.sup.len()) == MAP_LEN + 1 {
                *answer = with(x, |x| {
                    x.0.base.truncate(MAP_LEN);
                    x.0.sup.truncate(MAP_LEN);
                });
            }
        },
    ),
    fault(
        "verify-row-2-super-unbounded",
        "the length of the super map is not tested",
        |x, answer| *answer = with(x, |x| x.0.sup.truncate(MAP_LEN)),
    ),
    fault(
        "verify-row-3-of-4",
        "a byte of 4 is accepted",
        |x, answer| {
            *answer = with(x, |x| {
                four_as_3(&mut x.0.base);
                four_as_3(&mut x.0.sup);
            });
        },
    ),
    fault(
        "verify-row-3-super-first",
        "the bytes of the super map are tested first",
        |x, answer| {
            if answer[0] == 3 {
                *answer = maps::row_3(2, &x.0.sup).unwrap_or(*answer);
            }
        },
    ),
    fault(
        "verify-row-3-highest",
        "the last byte above 3 is reported",
        |x, answer| {
            if answer[..2] == [3, 1] {
                report_last(&x.0.base, answer);
            }
        },
    ),
    fault(
        "verify-row-3-after-row-12",
        "the bytes of the maps are tested after the layout",
        |x, answer| {
            let layout = port_layouts::validate(&x.0.fields);
            if answer[0] == 3 && layout != ACCEPTED {
                *answer = layout;
            }
        },
    ),
    fault(
        "verify-row-10-untested",
        "an output may end above 2^48, as in the Rust",
        |x, answer| {
            if answer[0] == 10 {
                *answer = defined(|| original(&x.0)).unwrap_or(*answer);
            }
        },
    ),
    fault(
        "verify-row-13-tested",
        "equal tables are refused",
        |x, answer| {
            if read(answer) {
                *answer = row_13(&x.0.fields).unwrap_or(*answer);
            }
        },
    ),
    fault(
        "verify-row-14-tested",
        "a super past the frames is refused",
        |x, answer| {
            if read(answer) {
                *answer = row_14(&x.0).unwrap_or(*answer);
            }
        },
    ),
    fault(
        "verify-rows-13-and-14-guard",
        "what cannot be encoded is refused by 13 or 14, if nothing else refuses it",
        |x, answer| {
            if *answer == ACCEPTED {
                *answer = row_13(&x.0.fields).or(row_14(&x.0)).unwrap_or(ACCEPTED);
            }
        },
    ),
    fault("verify-accepts", "every arena is accepted", |_, answer| {
        if read(answer) {
            *answer = ACCEPTED;
        }
    }),
];

pub const fn fault(
    name: &'static str,
    slip: &'static str,
    alter: fn(&Arena, &mut Outcome),
) -> Fault<Arena> {
    Fault {
        name,
        slip,
        op: (),
        alter,
    }
}
