//! Slips of a port in one step or another of an update.

use crate::encode::{table, ARENA_LEN};
use crate::inputs::Outcome;
use crate::layout::{ACCEPTED, EXEMPT};
use crate::lending::Lending;
use crate::port_layouts::{step_in, Call};
use crate::step::{HALF_WAY, STEPS};

/// The second half comes first.
pub fn halves_swapped(lending: &mut Lending, call: Call) -> Outcome {
    numbered(lending, call, |number| (number + HALF_WAY) % STEPS)
}

/// The first half stores the new words.
pub fn never_zeroes(lending: &mut Lending, call: Call) -> Outcome {
    numbered(lending, call, |number| number.max(STEPS - 1 - number))
}

/// The second half starts with the first word.
pub fn upwards(lending: &mut Lending, call: Call) -> Outcome {
    numbered(lending, call, |number| match number {
        ..HALF_WAY => number,
        _ => STEPS - 1 - (number - HALF_WAY),
    })
}

/// The first half starts with the last word.
pub fn zeroes_downwards(lending: &mut Lending, call: Call) -> Outcome {
    numbered(lending, call, |number| match number {
        ..HALF_WAY => HALF_WAY - 1 - number,
        _ => number,
    })
}

/// An update has one step less.
pub fn ends_early(lending: &mut Lending, call: Call) -> Outcome {
    let number = match call.number {
        number if number == STEPS - 1 => STEPS,
        number => number,
    };
    step_in(lending, Call { number, ..call })
}

/// Step 0 stores nothing, as if an update began with step 1.
pub fn begins_at_1(lending: &mut Lending, call: Call) -> Outcome {
    stored(lending, call, |words, place, old| {
        if call.number == 0 {
            words[place] = old;
        }
    })
}

/// The second half zeroes too.
pub fn erases_only(lending: &mut Lending, call: Call) -> Outcome {
    stored(lending, call, |words, place, _| words[place] = 0)
}

/// The first step after half-way zeroes.
pub fn half_way_late(lending: &mut Lending, call: Call) -> Outcome {
    stored(lending, call, |words, place, _| {
        if call.number == HALF_WAY {
            words[place] = 0;
        }
    })
}

/// In one place another page is mapped.
pub fn wrong_word(lending: &mut Lending, call: Call) -> Outcome {
    stored(lending, call, |words, place, _| {
        if place == table(4).start && words[place] != 0 {
            words[place] ^= 1 << 12;
        }
    })
}

/// The next word is stored too.
pub fn two_words(lending: &mut Lending, call: Call) -> Outcome {
    stored(lending, call, |words, place, _| {
        words[(place + 1) % ARENA_LEN] = words[place];
    })
}

/// The last entry of the base map is not read.
pub fn short_map(lending: &mut Lending, call: Call) -> Outcome {
    let unread = table(4).start + lending.base.len();
    stored(lending, call, |words, place, _| {
        if place + 1 == unread && call.number >= HALF_WAY {
            words[place] = 0;
        }
    })
}

/// The exemption is not read.
pub fn never_exempt(lending: &mut Lending, mut call: Call) -> Outcome {
    call.fields[EXEMPT] = 0;
    step_in(lending, call)
}

/// A refused step zeroes a word.
pub fn refused_zeroes(lending: &mut Lending, call: Call) -> Outcome {
    let outcome = step_in(lending, call);
    if outcome != ACCEPTED {
        lending.arena.lent_mut()[(call.number % HALF_WAY) as usize] = 0;
    }
    outcome
}

/// A step past the last is step 0 of another update.
pub fn begins_again(lending: &mut Lending, call: Call) -> Outcome {
    let number = call.number % STEPS;
    step_in(lending, Call { number, ..call })
}

/// The step of an update that has another number.
fn numbered(lending: &mut Lending, call: Call, other: fn(u64) -> u64) -> Outcome {
    let number = match call.number {
        ..STEPS => other(call.number),
        past => past,
    };
    step_in(lending, Call { number, ..call })
}

/// A step that accepts, after which the words are changed, given the place of the store and the
/// word that was there.
fn stored(
    lending: &mut Lending,
    call: Call,
    change: impl FnOnce(&mut [u64], usize, u64),
) -> Outcome {
    let place = call.number.min((STEPS - 1).wrapping_sub(call.number)) as usize;
    let old = lending.arena.lent_mut().get(place).copied();
    let outcome = step_in(lending, call);
    if let Some(old) = old.filter(|_| outcome == ACCEPTED) {
        change(lending.arena.lent_mut(), place, old);
    }
    outcome
}
