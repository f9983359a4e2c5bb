//! Slips of a port that updates, and of one that walks, as walks during an update must show them.

use crate::function::Fault;
use crate::inputs::Outcome;
use crate::port_layouts::step_in;
use crate::port_walk;
use crate::slips::{
    begins_at_1, ends_early, erases_only, halves_swapped, never_exempt, never_zeroes, short_map,
    two_words, upwards, wrong_word, zeroes_downwards,
};
use crate::torn::{asked, Answers, Torn};
use crate::updating::Stepping;
use crate::walk::{Walk, NOTHING};

pub const FAULTS: &[Fault<Torn>] = &[
    fault(
        "torn-halves-swapped",
        "the new words are stored first and then zeroed",
        |x, answers| *answers = stepped(x, halves_swapped),
    ),
    fault(
        "torn-never-zeroes",
        "the first half stores the new words",
        |x, answers| *answers = stepped(x, never_zeroes),
    ),
    fault(
        "torn-erases-only",
        "the second half zeroes too",
        |x, answers| *answers = stepped(x, erases_only),
    ),
    fault(
        "torn-stores-upwards",
        "the second half starts with the first word",
        |x, answers| *answers = stepped(x, upwards),
    ),
    fault(
        "torn-zeroes-downwards",
        "the first half starts with the last word",
        |x, answers| *answers = stepped(x, zeroes_downwards),
    ),
    fault("torn-begins-at-1", "step 0 stores nothing", |x, answers| {
        *answers = stepped(x, begins_at_1)
    }),
    fault(
        "torn-ends-early",
        "row 26 refuses the last step",
        |x, answers| *answers = stepped(x, ends_early),
    ),
    fault(
        "torn-wrong-word",
        "another page is mapped in one place",
        |x, answers| *answers = stepped(x, wrong_word),
    ),
    fault("torn-two-words", "a step stores two words", |x, answers| {
        *answers = stepped(x, two_words)
    }),
    fault(
        "torn-short-map",
        "the last entry of the base map is not read",
        |x, answers| *answers = stepped(x, short_map),
    ),
    fault(
        "torn-never-exempt",
        "the exemption is not read",
        |x, answers| *answers = stepped(x, never_exempt),
    ),
    fault(
        "torn-nothing",
        "every address reaches nothing",
        |x, answers| *answers = walked(x, |_| NOTHING),
    ),
];

pub const fn fault(
    name: &'static str,
    slip: &'static str,
    alter: fn(&Torn, &mut Answers),
) -> Fault<Torn> {
    Fault {
        name,
        slip,
        op: (),
        alter,
    }
}

fn stepped(x: &Torn, step: Stepping) -> Answers {
    asked(x, step, port_walk::walk)
}

pub fn walked(x: &Torn, walk: fn(&Walk) -> Outcome) -> Answers {
    asked(x, step_in, walk)
}
