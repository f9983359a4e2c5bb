//! Walks during an update, each read of which sees the words at a cut of its own.
//!
//! What such a walk reaches is what the unchanged `walk` does, over the words that document 01 says
//! stand at the cuts. Besides, it must be what document 01 allows: the old answer, which is
//! `walk`'s over the old words, the granted one, which is `window_reach`'s, or nothing.

use std::iter::once_with;
use std::rc::Rc;

use crate::function::{Function, Input, Layer, Reply};
use crate::handed_walks;
use crate::inputs::{hex, words, Outcome};
use crate::layout::LEAST;
use crate::port_layouts::step_in;
use crate::port_walk;
use crate::told::{Told, ALLOWED, ANSWERS, APART, DUE, IPA, READS, STORES};
use crate::torn_faults::FAULTS;
use crate::torn_inputs::{torn_update_of_s, torn_updates};
use crate::torn_reads::{Read, Reads};
use crate::updates::{updated, List, Seen};
use crate::updating::{update, Stepping};
use crate::walk::Walk;

/// An update that is looked at at some cuts, and walks that read at these.
pub struct Torn {
    pub list: List,
    pub tables: [u64; 6],
    pub walks: Vec<Reads>,
}

/// What is told of each of the walks.
#[derive(Clone)]
pub struct Answers(Vec<Told>);

/// What is reached is compared, and whether it is allowed. The rest is there to tell the kinds.
impl PartialEq for Answers {
    fn eq(&self, other: &Self) -> bool {
        self.0.len() == other.0.len() && self.differing(other).is_none()
    }
}

impl Answers {
    /// The first walk that is answered otherwise.
    fn differing(&self, other: &Self) -> Option<&Told> {
        let mut both = self.0.iter().zip(&other.0);
        let differs = |(told, other): &(&Told, &Told)| {
            told[..IPA] != other[..IPA] || told[ALLOWED] != other[ALLOWED]
        };
        both.find(differs).map(|(told, _)| told)
    }
}

pub const LAYER: Layer<Torn> = Layer {
    functions: &[Function {
        call: "s2_walk",
        name: "walk, torn by an update",
        op: (),
        original: answers,
        boundary: || Box::new(once_with(torn_update_of_s)),
        sweep: |round| Box::new(torn_updates(round)),
        answers: ANSWERS,
        least: LEAST,
        recorded: false,
    }],
    faults: &[FAULTS],
    wrapper_faults: handed_walks::TORN,
};

impl Input for Torn {
    type Op = ();
    type Reply = Answers;

    fn port(&self, (): ()) -> Answers {
        asked(self, step_in, port_walk::walk)
    }

    fn shown(&self) -> String {
        format!("{} walks over {}", self.walks.len(), self.list)
    }
}

impl Reply for Answers {
    fn answers(&self) -> impl Iterator<Item = &[u64]> {
        self.0.iter().map(|told| &told[..])
    }

    fn shown(&self, other: &Self) -> String {
        self.differing(other).map_or(String::new(), hex)
    }
}

/// The answers that are due. Document 01 has to allow each of them.
fn answers(x: &Torn) -> Answers {
    let seen = updated(&x.list).seen;
    let mut answers = x.answers(&seen, |_, read| read.outcome);
    for told in &mut answers.0 {
        told[ALLOWED] = 1;
    }
    answers
}

/// The answers of a port that steps and walks so. It walks over one arena in which each word that
/// is read is the one at that read's cut. Where there is no such arena, the unchanged `walk` is
/// asked alone.
pub fn asked(x: &Torn, step: Stepping, walk: fn(&Walk) -> Outcome) -> Answers {
    let seen = update(&x.list, step).seen;
    x.answers(&seen, |reads, read| match read.apart() {
        true => read.outcome,
        false => walk(&Walk {
            arena: Rc::new(read.joined(&seen[reads.cuts[0]].words)),
            tables: x.tables,
            ipa: reads.ipa,
        }),
    })
}

impl Torn {
    fn answers(&self, seen: &[Seen], answer: impl Fn(&Reads, &Read) -> Outcome) -> Answers {
        let told = |reads: &Reads| {
            let read = reads.read(&self.tables, seen);
            let outcome = answer(reads, &read);
            let stores = reads.cuts.map(|cut| seen[cut].stores());
            let mut told: Told = words(outcome);
            told[IPA] = reads.ipa;
            told[STORES].copy_from_slice(&stores);
            told[READS] = read.words.len() as u64;
            told[DUE] = reads.due(&stores).into();
            told[APART] = read.apart().into();
            told[ALLOWED] = reads.allowed(&stores, &outcome).into();
            told
        };
        Answers(self.walks.iter().map(told).collect())
    }
}
