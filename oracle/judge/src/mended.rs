//! What a port that verifies answers if it takes some words for others, as many slips do.

use crate::encode::{table, target};
use crate::function::with;
use crate::inputs::Outcome;
use crate::layout::{ACCEPTED, DATA_PA, PAGE};
use crate::verify::Arena;

/// Whether no row refuses before the arena is read.
pub fn read(answer: &Outcome) -> bool {
    *answer == ACCEPTED || answer[0] >= 18
}

/// The words that the scene is encoded to.
pub fn due(x: &Arena) -> Vec<u64> {
    target(&x.0)
}

/// Takes words for others, each by its place and what is due there, if the arena is read.
pub fn change(x: &Arena, answer: &mut Outcome, by: impl Fn(usize, u64, u64) -> u64) {
    if read(answer) {
        let due = due(x);
        *answer = with(x, |x| {
            for (place, word) in x.0.arena.iter_mut().enumerate() {
                *word = by(place, due[place], *word);
            }
        });
    }
}

/// Takes some words for what is due, by their place and what that is.
pub fn mend(x: &Arena, answer: &mut Outcome, so: impl Fn(usize, u64) -> bool) {
    change(x, answer, |place, due, word| match so(place, due) {
        true => due,
        false => word,
    });
}

/// Takes a field of a table's words for the one that is due.
pub fn take_due(x: &Arena, answer: &mut Outcome, number: usize, field: u64) {
    change(x, answer, |place, due, word| {
        match due != 0 && table(number).contains(&place) {
            true => word & !field | due & field,
            false => word,
        }
    });
}

/// The table that an answer tells of, 0 for none.
pub fn table_of(x: &Arena, answer: &Outcome) -> usize {
    // A page is told from a super by the output that is due.
    let page = x.0.fields[DATA_PA].wrapping_add(answer[1].wrapping_mul(PAGE));
    match answer[0] {
        18 | 21 => answer[1] as usize,
        19 => 2,
        20 if answer[7] == page => 4,
        20 => 5,
        22 => 6,
        _ => 0,
    }
}
