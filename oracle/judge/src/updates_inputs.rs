//! Lists of updates: which are cut where, what is refused between, and where the words are looked
//! at.

use std::array;
use std::rc::Rc;

use crate::encode::ARENA_LEN;
use crate::fenced;
use crate::inputs::{random, Random};
use crate::layout_inputs::accepted;
use crate::round::Round;
use crate::source::Source;
use crate::source_inputs::{found, next_layout, source, source_s};
use crate::step::{refusal, Step, HALF_WAY, STEPS};
use crate::step_inputs::any_step;
use crate::updates::{Between, List, Update};

/// Whole updates to scene S over zeros, over ones and over itself, looked at again and again.
pub fn updates_of_s() -> impl Iterator<Item = List> {
    let update = |kept| Update {
        source: Rc::new(source_s()),
        stores: STEPS,
        between: (0..=STEPS)
            .step_by(48)
            .map(|cut| (cut, Between::Look))
            .collect(),
        kept,
        seed: kept,
    };
    [0, u64::MAX].into_iter().map(move |word| List {
        first: vec![word; ARENA_LEN],
        updates: vec![update(1), update(100)],
    })
}

pub fn lists(round: Round) -> impl Iterator<Item = List> {
    let refused = refused_steps(round);
    random(round.seeded(87), 550, move |random| list(random, &refused))
}

fn list(random: &mut Random, refused: &[Rc<Step>]) -> List {
    let mut layout = accepted(random);
    let first = found(random, &layout);
    let updates = (0..=random.below(5)).map(|_| {
        layout = next_layout(random, &layout);
        let source = source(random, layout);
        cut_update(random, source, refused)
    });
    List {
        first,
        updates: updates.collect(),
    }
}

fn cut_update(random: &mut Random, source: Source, refused: &[Rc<Step>]) -> Update {
    let stores = match random.below(8) {
        0..5 => STEPS,
        5 => random.pick(&[1, 2, HALF_WAY - 1, HALF_WAY, HALF_WAY + 1, STEPS - 1]),
        _ => random.below(STEPS + 1),
    };
    let mut between = Vec::new();
    let half_way = HALF_WAY.min(stores);
    for cut in [0, half_way, stores] {
        between.push((cut, Between::Look));
    }
    for _ in 0..8 {
        between.push((random.below(stores + 1), Between::Look));
    }
    refuse(random, refused, 32, stores, &mut between);
    update(random, source, stores, between)
}

/// Fewer than so many refused steps more, at any cuts, and all in order.
pub fn refuse(
    random: &mut Random,
    refused: &[Rc<Step>],
    most: u64,
    stores: u64,
    between: &mut Vec<(u64, Between)>,
) {
    for _ in 0..random.below(most) {
        let step = &refused[random.below(refused.len() as u64) as usize];
        let cut = random.below(stores + 1);
        between.push((cut, Between::Refused(step.clone())));
    }
    between.sort_by_key(|(cut, _)| *cut);
}

/// An update of so many stores. The maps are filled anew at any of its steps, or now and then.
pub fn update(
    random: &mut Random,
    source: Source,
    stores: u64,
    between: Vec<(u64, Between)>,
) -> Update {
    // It takes long to fill from many edges.
    let edges = source.filling.edges.len() as u64;
    Update {
        source: Rc::new(source),
        stores,
        between,
        kept: random.pick(&[1, 16, 128, STEPS]) * (1 + edges / 8),
        seed: random.word(),
    }
}

/// How many steps of each row are refused in the lists.
const SAMPLE: usize = 24;

/// Steps that a row refuses, as many of each row. They are handed the arena of a list, or a part of
/// it, or more.
pub fn refused_steps(round: Round) -> Vec<Rc<Step>> {
    let mut random = round.seeded(88);
    let mut left: [usize; 27] = array::from_fn(|row| match row {
        1..=14 | 26 => SAMPLE,
        _ => 0,
    });
    let mut steps = Vec::new();
    while left.iter().any(|left| *left > 0) {
        let mut step = any_step(&mut random);
        let arena = &mut step.scene.arena;
        arena.truncate(ARENA_LEN + fenced::LEN);
        let row = refusal(&step).map_or(0, |outcome| outcome[0]);
        if let Some(rest) = left[row as usize].checked_sub(1) {
            left[row as usize] = rest;
            steps.push(Rc::new(step));
        }
    }
    steps
}
