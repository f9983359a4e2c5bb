//! Slips of a port that walks: in row 1, in which addresses are walked, in which table a fetch
//! reads, in which index of it, and in what is told.

use std::rc::Rc;

use crate::descriptors::ADDRESS;
use crate::encode::{table, ARENA_LEN};
use crate::function::{with, Fault};
use crate::inputs::Outcome;
use crate::layout::{BLOCK, INPUT_LIMIT, L1_SPAN, PAGE};
use crate::port::UNWRITTEN;
use crate::walk::{Walk, NOTHING};

pub const FAULTS: &[Fault<Walk>] = &[
    fault(
        "walk-row-1-longer-arena",
        "an arena of more words is walked",
        |x, answer| {
            if x.arena.len() > ARENA_LEN {
                *answer = with_arena(x, |arena| arena.truncate(ARENA_LEN));
            }
        },
    ),
    fault(
        "walk-row-1-shorter-arena",
        "the words that an arena lacks are taken for zeros",
        |x, answer| {
            if x.arena.len() < ARENA_LEN {
                *answer = with_arena(x, |arena| arena.resize(ARENA_LEN, 0));
            }
        },
    ),
    fault(
        "walk-row-1-carries-the-length",
        "the length of the arena is carried",
        |x, answer| {
            if answer[0] == 1 {
                answer[1] = x.arena.len() as u64;
            }
        },
    ),
    fault(
        "walk-row-1-after-the-limit",
        "an address past 2^39 reaches nothing in any arena",
        |x, answer| {
            if x.ipa >= INPUT_LIMIT {
                *answer = NOTHING;
            }
        },
    ),
    fault(
        "walk-nothing",
        "every address reaches nothing",
        nothing_reached,
    ),
    fault(
        "walk-wraps",
        "an address past 2^39 is cut to 39 bits",
        limit_wraps,
    ),
    fault("walk-limit-walked", "2^39 is walked", |x, answer| {
        if x.ipa == INPUT_LIMIT {
            *answer = with(x, |x| x.ipa = 0);
        }
    }),
    fault(
        "walk-limit-2-40",
        "addresses below 2^40 are walked",
        |x, answer| {
            if x.ipa < 2 * INPUT_LIMIT {
                limit_wraps(x, answer);
            }
        },
    ),
    fault(
        "walk-address-of-39-bits",
        "the address has to have bit 39 clear, and the bits above are not read",
        |x, answer| {
            if x.ipa & INPUT_LIMIT == 0 {
                limit_wraps(x, answer);
            }
        },
    ),
    fault(
        "walk-last-table",
        "of the tables with one address the last is read",
        |x, answer| {
            if answer[0] == 0 {
                *answer = with_arena(x, |arena| {
                    for (first, address) in x.tables.iter().enumerate() {
                        let mut tables = (first..x.tables.len()).rev();
                        let last = tables.find(|last| x.tables[*last] == *address);
                        arena.copy_within(table(1 + last.unwrap_or(first)), table(1 + first).start);
                    }
                });
            }
        },
    ),
    fault(
        "walk-tables-cut",
        "the addresses of the tables are cut to what a descriptor holds",
        |x, answer| *answer = with(x, |x| x.tables = x.tables.map(|table| table & ADDRESS)),
    ),
    fault(
        "walk-tables-by-page",
        "a table that is not aligned is read where its page is named",
        |x, answer| *answer = with(x, |x| x.tables = x.tables.map(|table| table / PAGE * PAGE)),
    ),
    fault(
        "walk-l1-unnamed",
        "a word that names l1 reads zero",
        |x, answer| {
            // No descriptor holds an address with the low bit.
            if x.tables[0] & 1 == 0 {
                *answer = with(x, |x| x.tables[0] |= 1);
            }
        },
    ),
    fault(
        "walk-l2-dev-unread",
        "the last table is never read",
        |x, answer| *answer = with(x, |x| x.tables[5] = 1),
    ),
    fault(
        "walk-l1-index",
        "the word of the next l1 slot is read",
        next_index::<L1_SPAN>,
    ),
    fault(
        "walk-l2-index",
        "at level 2 the word of the next slot is read",
        next_index::<BLOCK>,
    ),
    fault(
        "walk-l3-index",
        "at level 3 the word of the next slot is read",
        next_index::<PAGE>,
    ),
    fault(
        "walk-page-offset-dropped",
        "a page is reached at its start",
        page_offset_dropped,
    ),
    fault(
        "walk-never-inverted",
        "what may be executed is told as never, and the other way",
        |_, answer| {
            if answer[1] == 1 {
                answer[4] ^= 1;
            }
        },
    ),
    fault(
        "walk-rw-as-ro",
        "what can be written is told as Ro",
        rw_told_as_ro,
    ),
    fault(
        "walk-access-as-bits",
        "the access is told as a descriptor holds it",
        |_, answer| {
            if answer[3] == 2 {
                answer[3] = 3;
            }
        },
    ),
    fault(
        "walk-rx-told",
        "what can be read and executed is told as Rx",
        |_, answer| {
            if answer[..2] == [0, 1] && answer[3..5] == [1, 0] {
                answer[3] = 3;
            }
        },
    ),
    fault(
        "walk-flag-left-out",
        "the output address is the first value",
        |_, answer| {
            if answer[1] == 1 {
                answer[1..].rotate_left(1);
                answer[8] = 0;
            }
        },
    ),
    fault(
        "walk-values-unwritten",
        "the values of an address that reaches nothing are not written",
        |_, answer| {
            if *answer == NOTHING {
                answer[1..].fill(UNWRITTEN);
            }
        },
    ),
];

pub const fn fault(
    name: &'static str,
    slip: &'static str,
    alter: fn(&Walk, &mut Outcome),
) -> Fault<Walk> {
    Fault {
        name,
        slip,
        op: (),
        alter,
    }
}

/// The port's answer over the arena after a change.
pub fn with_arena(x: &Walk, change: impl FnOnce(&mut Vec<u64>)) -> Outcome {
    with(x, |x| change(Rc::make_mut(&mut x.arena)))
}

pub fn nothing_reached(_: &Walk, answer: &mut Outcome) {
    answer[1..].fill(0);
}

pub fn limit_wraps(x: &Walk, answer: &mut Outcome) {
    *answer = with(x, |x| x.ipa %= INPUT_LIMIT);
}

pub fn page_offset_dropped(_: &Walk, answer: &mut Outcome) {
    answer[2] -= answer[2] % PAGE;
}

pub fn rw_told_as_ro(_: &Walk, answer: &mut Outcome) {
    answer[3] = answer[3].min(1);
}

/// The slots of a level, each of this span, are taken one on.
fn next_index<const SPAN: u64>(x: &Walk, answer: &mut Outcome) {
    if x.ipa < INPUT_LIMIT {
        let table = SPAN * 512;
        let within = (x.ipa + SPAN) % table;
        *answer = with(x, |x| x.ipa = x.ipa / table * table + within);
    }
}
