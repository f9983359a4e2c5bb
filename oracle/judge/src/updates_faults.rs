//! Slips of a port that updates, as the words at the cuts must show them.

use crate::function::Fault;
use crate::slips::{
    begins_again, begins_at_1, ends_early, erases_only, half_way_late, halves_swapped,
    never_exempt, never_zeroes, refused_zeroes, short_map, two_words, upwards, wrong_word,
    zeroes_downwards,
};
use crate::updates::{List, Updated};
use crate::updating::update;

pub const FAULTS: &[Fault<List>] = &[
    fault(
        "update-halves-swapped",
        "the new words are stored first and then zeroed",
        |x, updated| *updated = update(x, halves_swapped),
    ),
    fault(
        "update-never-zeroes",
        "the first half stores the new words",
        |x, updated| *updated = update(x, never_zeroes),
    ),
    fault(
        "update-erases-only",
        "the second half zeroes too",
        |x, updated| *updated = update(x, erases_only),
    ),
    fault(
        "update-stores-upwards",
        "the second half starts with the first word",
        |x, updated| *updated = update(x, upwards),
    ),
    fault(
        "update-zeroes-downwards",
        "the first half starts with the last word",
        |x, updated| *updated = update(x, zeroes_downwards),
    ),
    fault(
        "update-begins-at-1",
        "step 0 stores nothing",
        |x, updated| *updated = update(x, begins_at_1),
    ),
    fault(
        "update-ends-early",
        "row 26 refuses the last step",
        |x, updated| *updated = update(x, ends_early),
    ),
    fault(
        "update-begins-again",
        "a step past the last is step 0",
        |x, updated| *updated = update(x, begins_again),
    ),
    fault(
        "update-half-way-late",
        "the first step after half-way zeroes",
        |x, updated| *updated = update(x, half_way_late),
    ),
    fault(
        "update-wrong-word",
        "another page is mapped in one place",
        |x, updated| *updated = update(x, wrong_word),
    ),
    fault(
        "update-two-words",
        "a step stores two words",
        |x, updated| *updated = update(x, two_words),
    ),
    fault(
        "update-short-map",
        "the last entry of the base map is not read",
        |x, updated| *updated = update(x, short_map),
    ),
    fault(
        "update-never-exempt",
        "the exemption is not read",
        |x, updated| *updated = update(x, never_exempt),
    ),
    fault(
        "update-refused-zeroes",
        "a refused step zeroes a word",
        |x, updated| *updated = update(x, refused_zeroes),
    ),
];

pub const fn fault(
    name: &'static str,
    slip: &'static str,
    alter: fn(&List, &mut Updated),
) -> Fault<List> {
    Fault {
        name,
        slip,
        op: (),
        alter,
    }
}
