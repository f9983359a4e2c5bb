//! The rounds of a comparison: each asks other random inputs, and the first one all that are not.

use crate::inputs::Random;

#[derive(Clone, Copy)]
pub struct Round {
    /// What the seeds are drawn from. The first round has fixed ones.
    seed: Option<u64>,
    /// How many answers are enough.
    pub enough: u64,
}

impl Round {
    pub const FIRST: Round = Round {
        seed: None,
        enough: u64::MAX,
    };

    /// The first round, up to so many answers of a function.
    pub fn first(enough: u64) -> Self {
        Round {
            enough,
            ..Round::FIRST
        }
    }

    /// The round of a function that has this number, from 0.
    pub fn new(seed: u64, function: &str, number: u64) -> Self {
        if number == 0 {
            return Round::FIRST;
        }
        let told = function.bytes().map(u64::from).chain([number]);
        let seed = told.fold(seed, |seed, next| Random(seed ^ next).word());
        Round {
            seed: Some(seed),
            ..Round::FIRST
        }
    }

    pub fn is_first(self) -> bool {
        self.seed.is_none()
    }

    /// The generator that has this seed in the first round.
    pub fn seeded(self, first: u64) -> Random {
        match self.seed {
            None => Random(first),
            Some(seed) => Random(Random(seed ^ first).word()),
        }
    }

    /// Inputs that are not random: only the first round has them.
    pub fn once<I: IntoIterator>(
        self,
        inputs: impl FnOnce() -> I,
    ) -> impl Iterator<Item = I::Item> {
        self.is_first().then(inputs).into_iter().flatten()
    }
}
