//! A walk of which each read sees the words at a cut of its own, and what it may reach.

use std::cell::RefCell;

use given_s2::arm64;

use crate::inputs::Outcome;
use crate::step::{HALF_WAY, STEPS};
use crate::updates::Seen;
use crate::walk::{fetched, reached, NOTHING};

pub struct Reads {
    pub ipa: u64,
    /// Which of the cuts that are looked at each of up to three reads falls on.
    pub cuts: [usize; 3],
    /// What the address reaches before the update, and what it is granted.
    pub old: Outcome,
    pub granted: Outcome,
}

/// What the unchanged `walk` reaches, and what it reads.
pub struct Read {
    pub outcome: Outcome,
    /// The place of each read and the word there, or nothing where no table has the address.
    pub words: Vec<Option<(usize, u64)>>,
}

impl Reads {
    pub fn read(&self, tables: &[u64; 6], seen: &[Seen]) -> Read {
        let words = RefCell::new(Vec::new());
        let fetch = |address, index| {
            let mut words = words.borrow_mut();
            let cut = &seen[self.cuts[words.len()]];
            let place = fetched(tables, address, index);
            let word = place.map_or(0, |place| cut.words[place]);
            words.push(place.map(|place| (place, word)));
            word
        };
        Read {
            outcome: reached(arm64::walk(tables[0], self.ipa, fetch)),
            words: words.into_inner(),
        }
    }

    /// Whether the old answer up to half-way, or the granted one from there on, is not nothing.
    pub fn due(&self, stores: &[u64; 3]) -> bool {
        let up_to = stores.iter().all(|stores| *stores <= HALF_WAY);
        let from = stores.iter().all(|stores| *stores >= HALF_WAY);
        up_to && self.old != NOTHING || from && self.granted != NOTHING
    }

    /// Up to half-way the old answer or nothing, from there on the granted one or nothing; at
    /// half-way nothing, and after the last store the granted answer.
    pub fn allowed(&self, stores: &[u64; 3], outcome: &Outcome) -> bool {
        let all = |so: fn(u64) -> bool| stores.iter().all(|stores| so(*stores));
        let is = |answers: &[Outcome]| answers.contains(outcome);
        (!all(|stores| stores <= HALF_WAY) || is(&[self.old, NOTHING]))
            && (!all(|stores| stores >= HALF_WAY) || is(&[self.granted, NOTHING]))
            && (!all(|stores| stores == HALF_WAY) || is(&[NOTHING]))
            && (!all(|stores| stores == STEPS) || is(&[self.granted]))
    }
}

impl Read {
    /// Whether two reads see different words in one place.
    pub fn apart(&self) -> bool {
        let words = || self.words.iter().flatten();
        words().any(|(place, word)| words().any(|(other, seen)| place == other && word != seen))
    }

    /// An arena in which one read after another sees these words, if no two are apart.
    pub fn joined(&self, rest: &[u64]) -> Vec<u64> {
        let mut arena = rest.to_vec();
        for (place, word) in self.words.iter().flatten() {
            arena[*place] = *word;
        }
        arena
    }
}
