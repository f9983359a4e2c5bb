//! Lists of updates: whole ones, and such as are cut and begun again, with refused steps between.
//!
//! The Rust has no updates. Which words stand at a cut is computed here from document 01; the words
//! of the new tables are the unchanged Rust's, from maps that it has filled.

use std::fmt::{self, Display, Formatter};
use std::rc::Rc;

use crate::encode::{differing, target, ARENA_LEN};
use crate::function::{answers, Answer, Function, Input, Layer, Reply};
use crate::handed_layouts;
use crate::inputs::{hex, words, Outcome};
use crate::layout::{ACCEPTED, LEAST};
use crate::port_layouts::step_in;
use crate::source::Source;
use crate::step::{refusal, Step, HALF_WAY, STEPS};
use crate::updates_faults::FAULTS;
use crate::updates_inputs::{lists, updates_of_s};
use crate::updating::update;

/// Updates of one arena, one after another.
#[derive(Clone)]
pub struct List {
    /// The words that the first update finds.
    pub first: Vec<u64>,
    pub updates: Vec<Update>,
}

#[derive(Clone)]
pub struct Update {
    pub source: Rc<Source>,
    /// How many steps store before it is cut or ends.
    pub stores: u64,
    /// What is done at a cut, after so many stores.
    pub between: Vec<(u64, Between)>,
    /// Once in how many steps the maps are filled anew.
    pub kept: u64,
    /// What their lengths are drawn from.
    pub seed: u64,
}

#[derive(Clone)]
pub enum Between {
    Look,
    /// A step that is refused.
    Refused(Rc<Step>),
}

#[derive(Clone, Default, PartialEq)]
pub struct Updated {
    /// One for each thing that is done at a cut.
    pub seen: Vec<Seen>,
    /// The answers of steps that do not store, where document 01 has them store.
    pub idle: Vec<Outcome>,
}

#[derive(Clone, PartialEq)]
pub struct Seen {
    /// The answer of a refused step, zeros where the words are only looked at, and the stores that
    /// come before.
    told: [u64; 10],
    pub words: Vec<u64>,
}

const STORES: usize = 9;

pub const LAYER: Layer<List> = Layer {
    functions: &[Function {
        call: "s2_step",
        name: "update",
        op: (),
        original: updated,
        boundary: || Box::new(updates_of_s()),
        sweep: |round| Box::new(lists(round)),
        answers: ANSWERS,
        least: LEAST,
        recorded: false,
    }],
    faults: &[FAULTS],
    wrapper_faults: handed_layouts::UPDATE,
};

const ANSWERS: &[Answer] = answers!(
    [
        ("before step 0", cut::<0, 0>),
        ("zeroing", cut::<1, { HALF_WAY - 1 }>),
        ("half-way", cut::<HALF_WAY, HALF_WAY>),
        ("storing", cut::<{ HALF_WAY + 1 }, { STEPS - 1 }>),
        ("after the last store", cut::<STEPS, STEPS>),
    ]
    1 2 3 4 5 6 7 8 9 10 11 12 13 14 26
);

/// Whether the words are looked at after so many stores.
fn cut<const FIRST: u64, const LAST: u64>(told: &[u64]) -> bool {
    told[0] == 0 && (FIRST..=LAST).contains(&told[STORES])
}

impl Input for List {
    type Op = ();
    type Reply = Updated;

    fn port(&self, (): ()) -> Updated {
        update(self, step_in)
    }

    fn shown(&self) -> String {
        self.to_string()
    }
}

impl Reply for Updated {
    fn answers(&self) -> impl Iterator<Item = &[u64]> {
        self.seen.iter().map(|seen| &seen.told[..])
    }

    /// The first that is seen otherwise, and how many steps do not store.
    fn shown(&self, other: &Self) -> String {
        let mut both = self.seen.iter().zip(&other.seen);
        let seen = both
            .find(|(seen, other)| seen != other)
            .map_or(String::new(), |(seen, other)| {
                hex(&seen.told) + &differing(&seen.words, &other.words)
            });
        format!("{seen}, {} idle", self.idle.len())
    }
}

pub fn updated(list: &List) -> Updated {
    let mut updated = Updated::default();
    let mut old = list.first.clone();
    for update in &list.updates {
        let target = target(&update.source.scene);
        for (stores, between) in &update.between {
            let outcome = match between {
                Between::Look => ACCEPTED,
                Between::Refused(step) => refusal(step).expect("a row refuses the step"),
            };
            let words = at_cut(&old, &target, *stores);
            updated.seen.push(Seen::new(outcome, *stores, words));
        }
        old = at_cut(&old, &target, update.stores);
    }
    updated
}

/// The words after so many stores. Up to half-way as many of the first words are zero and the rest
/// old; past it as many of the last ones are the target's as are stored since, and the rest zero.
pub fn at_cut(old: &[u64], target: &[u64], stores: u64) -> Vec<u64> {
    let word = |place: usize| match stores.checked_sub(HALF_WAY) {
        None if (place as u64) < stores => 0,
        None => old[place],
        Some(stored) if place + (stored as usize) < ARENA_LEN => 0,
        Some(_) => target[place],
    };
    (0..ARENA_LEN).map(word).collect()
}

impl Seen {
    pub fn new(outcome: Outcome, stores: u64, words: Vec<u64>) -> Self {
        let mut told = self::words(outcome);
        told[STORES] = stores;
        Seen { told, words }
    }

    pub fn stores(&self) -> u64 {
        self.told[STORES]
    }
}

impl Display for List {
    fn fmt(&self, f: &mut Formatter) -> fmt::Result {
        let old = self.first.iter().filter(|word| **word != 0).count();
        write!(f, "arena with {old} old words")?;
        for update in &self.updates {
            let (stores, scene) = (update.stores, &update.source.scene);
            write!(f, "; {stores} stores of {scene}")?;
        }
        Ok(())
    }
}
