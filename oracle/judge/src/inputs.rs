//! The words that both sides are asked about.

use crate::round::Round;

/// The eight words of a call of `probe`, and the eight of its answer.
pub type Words = [u64; 8];

/// The answer of any other call: the number of the row that refuses, 0 for none, and eight values.
pub type Outcome = [u64; 9];

/// The answer of a function that has none for its input.
pub const NOTHING: Words = [0; 8];

pub type Inputs<I = Words> = Box<dyn Iterator<Item = I>>;

/// Fills up with zeros: a word that is not used is zero.
pub fn words<const N: usize, const M: usize>(given: [u64; N]) -> [u64; M] {
    std::array::from_fn(|i| given.get(i).copied().unwrap_or(0))
}

/// The input of a function of one word.
pub fn one(word: u64) -> Words {
    words([word])
}

/// The input after a change.
pub fn altered<I>(mut input: I, alter: impl FnOnce(&mut I)) -> I {
    alter(&mut input);
    input
}

pub fn hex<const N: usize>(words: &[u64; N]) -> String {
    words.map(|word| format!("{word:#x}")).join(" ")
}

/// Splitmix64, from a known seed: what is asked once can be asked again.
pub struct Random(pub u64);

impl Random {
    pub fn word(&mut self) -> u64 {
        self.0 = self.0.wrapping_add(0x9e37_79b9_7f4a_7c15);
        let z = (self.0 ^ (self.0 >> 30)).wrapping_mul(0xbf58_476d_1ce4_e5b9);
        let z = (z ^ (z >> 27)).wrapping_mul(0x94d0_49bb_1331_11eb);
        z ^ (z >> 31)
    }

    pub fn below(&mut self, bound: u64) -> u64 {
        self.word() % bound
    }

    pub fn pick(&mut self, from: &[u64]) -> u64 {
        from[self.below(from.len() as u64) as usize]
    }

    /// A word in which about four bits are set.
    pub fn sparse(&mut self) -> u64 {
        self.word() & self.word() & self.word() & self.word()
    }

    pub fn words(&mut self) -> Words {
        std::array::from_fn(|_| self.word())
    }
}

impl Iterator for Random {
    type Item = u64;

    fn next(&mut self) -> Option<u64> {
        Some(self.word())
    }
}

/// As many inputs as asked for, each made from the generator.
pub fn random<T>(
    mut source: Random,
    count: usize,
    make: impl Fn(&mut Random) -> T,
) -> impl Iterator<Item = T> {
    (0..count).map(move |_| make(&mut source))
}

/// Every input whose words are taken from the eight lists.
pub fn every(choices: [Vec<u64>; 8]) -> impl Iterator<Item = Words> {
    let count = choices.iter().map(|list| list.len() as u64).product();
    (0..count).map(move |number: u64| {
        let mut rest = number;
        std::array::from_fn(|i| {
            let length = choices[i].len() as u64;
            let digit = rest % length;
            rest /= length;
            choices[i][digit as usize]
        })
    })
}

/// The word as it is and with any one bit changed.
pub fn changed(word: u64) -> impl Iterator<Item = u64> {
    let bits = (0..64).map(move |bit| word ^ (1 << bit));
    [word].into_iter().chain(bits)
}

/// The word with any two bits changed.
pub fn twice_changed(word: u64) -> impl Iterator<Item = u64> {
    (1..64).flat_map(move |high| (0..high).map(move |low| word ^ (1 << high) ^ (1 << low)))
}

/// The codes of a small enumeration and the next ones, also with bits above a byte and above 32.
pub fn few_codes() -> impl Iterator<Item = u64> {
    let wide = (0..=6).map(|code| code + (1 << 32));
    (0..=7).chain([256 + 2]).chain(wide).chain([u64::MAX])
}

/// The codes of a byte, those around every power of two above, and random ones.
pub fn many_codes(round: Round) -> impl Iterator<Item = u64> {
    let around = || (8..64).flat_map(|bit| (0..9).map(move |n| (1 << bit) - 1 + n));
    round
        .once(move || (0..=255).chain(around()).chain([u64::MAX]))
        .chain(random_codes(round))
}

/// Random words, half of which have a small low half. After the first round, half of these have no
/// other.
fn random_codes(round: Round) -> impl Iterator<Item = u64> {
    let words = round.seeded(1).take(100_000);
    words.map(move |word| match word >> 62 {
        0 if !round.is_first() => word & 7,
        0 | 1 => word << 32 | word & 7,
        _ => word,
    })
}
