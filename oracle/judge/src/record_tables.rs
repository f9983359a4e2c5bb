//! Recorded calls on tables: maps of eight entries, and an arena that stays from line to line.

use crate::encode::{encode, Encoded, Scene, ARENA_LEN, TABLE_LEN};
use crate::function::{answers, Answer};
use crate::inputs::Outcome;
use crate::layout::{row, Fields, ACCEPTED};
use crate::record::digits;
use crate::step::{step, Step};
use crate::table_calls;
use crate::tally::Tally;
use crate::verify::{verify, Arena};
use crate::walk::{walk, Walk, ANSWERS as WALKED};

/// The numbers of the calls, as the program replay_tables reads them. 0 is a store.
const STORE: u64 = 0;
const ENCODE: u64 = 1;
const STEPS: u64 = 2;
const WALK: u64 = 3;
const VERIFY: u64 = 4;

/// How many calls must have each kind of answer.
const LEAST: u64 = 1;

/// All rows but 2: maps are short.
const ENCODED: &[Answer] = answers!([("accepted", row::<0>)] 1 3 4 5 6 7 8 9 10 11 12 13 14);
const STEPPED: &[Answer] = answers!([("accepted", row::<0>)] 1 3 4 5 6 7 8 9 10 11 12 13 14 26);
const VERIFIED: &[Answer] =
    answers!([("accepted", row::<0>)] 1 3 4 5 6 7 8 9 10 11 12 18 19 20 21 22);

/// What a call is handed besides the arena.
#[derive(Clone)]
pub struct Handed {
    pub fields: Fields,
    pub base: [u8; 8],
    pub sup: [u8; 8],
    /// How many words of the arena are lent.
    pub lent: usize,
}

/// The lines to be read and to be written, and the arena after them.
pub struct Script {
    stdin: String,
    stdout: String,
    pub arena: Vec<u64>,
    encoded: Tally,
    stepped: Tally,
    walked: Tally,
    verified: Tally,
}

/// The lines to be read, those to be written, and how many answers these are.
pub fn lines() -> Result<(String, String, usize), String> {
    let mut script = Script {
        stdin: String::new(),
        stdout: String::new(),
        arena: vec![0; ARENA_LEN],
        encoded: Tally::new("recorded encode", ENCODED),
        stepped: Tally::new("recorded step", STEPPED),
        walked: Tally::new("recorded walk", WALKED),
        verified: Tally::new("recorded verify", VERIFIED),
    };
    table_calls::all(&mut script);
    let tallies = [
        script.encoded,
        script.stepped,
        script.walked,
        script.verified,
    ];
    tallies.iter().try_for_each(|tally| tally.complete(LEAST))?;
    let answers = tallies.iter().map(|tally| tally.inputs).sum::<u64>();
    Ok((script.stdin, script.stdout, answers as usize))
}

impl Script {
    /// One word at so many places.
    pub fn fill(&mut self, from: usize, count: usize, word: u64) {
        let line = [STORE, from as u64, count as u64, word, 0, 0];
        self.stdin += &format!("{}\n", digits(&line));
        self.arena[from..from + count].fill(word);
    }

    /// A word at an index of a table. Gives the word that stood there.
    pub fn put(&mut self, table: usize, index: usize, word: u64) -> u64 {
        let place = TABLE_LEN * (table - 1) + index;
        let old = self.arena[place];
        self.fill(place, 1, word);
        old
    }

    pub fn encode(&mut self, x: &Handed) -> Outcome {
        self.line(ENCODE, x, [0, 0]);
        let encoded = encode(&x.scene(&self.arena));
        self.encoded.count(&encoded.outcome);
        self.stored(encoded)
    }

    /// The steps from one to another, or to the first that is refused.
    pub fn steps(&mut self, x: &Handed, from: u64, to: u64) -> Outcome {
        self.line(STEPS, x, [from, to]);
        let mut scene = x.scene(&self.arena);
        let mut outcome = ACCEPTED;
        for number in from..=to {
            let stepped = step(&Step {
                scene: scene.clone(),
                number,
            });
            (outcome, scene.arena) = (stepped.outcome, stepped.arena);
            if outcome != ACCEPTED {
                break;
            }
        }
        self.stepped.count(&outcome);
        self.stored(Encoded {
            outcome,
            arena: scene.arena,
        })
    }

    pub fn walk(&mut self, x: &Handed, ipa: u64) -> Outcome {
        self.line(WALK, x, [ipa, 0]);
        let lent = self.arena[..x.lent].to_vec();
        let outcome = walk(&Walk::new(lent, &x.fields).at(ipa));
        self.walked.count(&outcome);
        self.told(outcome)
    }

    pub fn verify(&mut self, x: &Handed) -> Outcome {
        self.line(VERIFY, x, [0, 0]);
        let outcome = verify(&Arena(x.scene(&self.arena)));
        self.verified.count(&outcome);
        self.told(outcome)
    }

    fn line(&mut self, call: u64, x: &Handed, operands: [u64; 2]) {
        let [base, sup] = [x.base, x.sup].map(u64::from_le_bytes);
        let [first, second] = operands;
        let head = [call, base, sup, x.lent as u64, first, second];
        self.stdin += &format!("{} {}\n", digits(&head), digits(&x.fields));
    }

    fn told(&mut self, outcome: Outcome) -> Outcome {
        self.stdout += &format!("{}\n", digits(&outcome));
        outcome
    }

    /// The answer of a call that may store, and a digest of the words that it was lent.
    fn stored(&mut self, encoded: Encoded) -> Outcome {
        self.told(encoded.outcome);
        self.stdout += &format!("{}\n", digits(&[digest(&encoded.arena)]));
        self.arena[..encoded.arena.len()].copy_from_slice(&encoded.arena);
        encoded.outcome
    }
}

impl Handed {
    fn scene(&self, arena: &[u64]) -> Scene {
        Scene {
            arena: arena[..self.lent].to_vec(),
            base: self.base.into(),
            sup: self.sup.into(),
            fields: self.fields,
        }
    }
}

/// A polynomial in 65,599 modulo the prime 2^40 - 87, over the low and the high half of each word.
fn digest(words: &[u64]) -> u64 {
    let halves = words.iter().flat_map(|word| [word % (1 << 32), word >> 32]);
    halves.fold(0, |digest, half| (digest * 65_599 + half) % 0xff_ffff_ffa9)
}
