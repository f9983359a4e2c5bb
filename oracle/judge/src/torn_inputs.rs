//! Updates, the cuts that a walk may read at, and addresses that are reached before or after.

use std::rc::Rc;

use crate::damage::place;
use crate::descriptors::{ADDRESS, TYPE};
use crate::encode::{table, target, Scene};
use crate::inputs::{random, Random};
use crate::layout::{Fields, BLOCK, DATA_IPA, L1_SPAN, PAGE, TABLES};
use crate::layout_inputs::{accepted, SCENE};
use crate::reach::granted;
use crate::round::Round;
use crate::source::Source;
use crate::source_inputs::{found, next_layout, source, source_s};
use crate::step::{Step, HALF_WAY, STEPS};
use crate::torn::Torn;
use crate::torn_reads::Reads;
use crate::updates::{at_cut, Between, List, Update};
use crate::updates_inputs::{refuse, refused_steps, update};
use crate::walk::{walk, Walk, NOTHING};
use crate::walk_addresses::addresses;

/// From scene S to scene S.
pub fn torn_update_of_s() -> Torn {
    let source = source_s();
    let list = List {
        first: target(&source.scene),
        updates: Vec::new(),
    };
    torn(
        &mut Random(89),
        &SCENE,
        list,
        source,
        &refused_steps(Round::FIRST),
    )
}

pub fn torn_updates(round: Round) -> impl Iterator<Item = Torn> {
    let refused = refused_steps(round);
    random(round.seeded(90), 640, move |random| {
        let old = accepted(random);
        let first = found(random, &old);
        let layout = next_layout(random, &old);
        let source = source(random, layout);
        let updates = (0..random.below(3)).map(|_| earlier(random, &source));
        let updates: Vec<Update> = updates.collect();
        let last = updates.last().map(|update| update.source.scene.fields);
        let list = List { first, updates };
        torn(random, &last.unwrap_or(old), list, source, &refused)
    })
}

/// An update, often cut, before one with the same source or another.
fn earlier(random: &mut Random, next: &Source) -> Update {
    let source = match random.below(2) {
        0 => next.clone(),
        _ => {
            let layout = next_layout(random, &next.scene.fields);
            source(random, layout)
        }
    };
    let stores = match random.below(3) {
        0 => 1 + random.below(STEPS),
        _ => STEPS,
    };
    update(random, source, stores, Vec::new())
}

/// The words that the updates leave.
fn left(list: &List) -> Vec<u64> {
    list.updates.iter().fold(list.first.clone(), |old, update| {
        at_cut(&old, &target(&update.source.scene), update.stores)
    })
}

/// One update more. Walks in and around the windows of the old layout and of the new one, and
/// through words that name their own table.
fn torn(
    random: &mut Random,
    old: &Fields,
    mut list: List,
    source: Source,
    refused: &[Rc<Step>],
) -> Torn {
    let found = left(&list);
    let looks = cuts(random, &found, &target(&source.scene)).into_iter();
    let mut between: Vec<(u64, Between)> = looks.map(|cut| (cut, Between::Look)).collect();
    // After a refused step there is a cut too.
    refuse(random, refused, 16, STEPS, &mut between);
    let cuts: Vec<u64> = between.iter().map(|(cut, _)| *cut).collect();
    let before = Walk::new(found.clone(), old);
    let mut ipas = addresses(random, old);
    ipas.extend(addresses(random, &source.scene.fields));
    ipas.extend(pages(random, &source.scene));
    ipas.extend(rings(&found, old));
    let mut walks = Vec::new();
    for ipa in ipas {
        let old = walk(&before.at(ipa));
        let granted = granted(&source.scene, ipa);
        // What is reached at no time needs no more than a glance.
        let count = if [old, granted] == [NOTHING; 2] { 1 } else { 8 };
        walks.extend((0..count).map(|_| Reads {
            ipa,
            cuts: fall(random, &cuts),
            old,
            granted,
        }));
    }
    list.updates.push(update(random, source, STEPS, between));
    Torn {
        list,
        tables: before.tables,
        walks,
    }
}

/// Addresses in pages that are mapped, if there are any.
fn pages(random: &mut Random, scene: &Scene) -> Vec<u64> {
    let mapped = (0..).zip(&scene.base).filter(|(_, byte)| **byte != 0);
    let mapped: Vec<u64> = mapped.map(|(entry, _)| entry).collect();
    let page = |_| scene.fields[DATA_IPA] + random.pick(&mapped) * PAGE + random.below(PAGE);
    (0..mapped.len().min(24)).map(page).collect()
}

/// Before and after the store of a word in any table, often in l1: half of the words are in use.
fn cuts(random: &mut Random, old: &[u64], new: &[u64]) -> Vec<u64> {
    let mut cuts = vec![0, HALF_WAY, STEPS];
    for _ in 0..12 {
        let number = random.pick(&[1, 1, 1, 2, 3, 4, 5, 6]) as usize;
        let zeroed = place(random, old, number) as u64;
        let stored = STEPS - 1 - place(random, new, number) as u64;
        cuts.extend([zeroed, zeroed + 1, stored, stored + 1]);
    }
    cuts.sort();
    cuts.dedup();
    cuts
}

/// Three of the cuts, by their places in the list: all up to half-way or all from there on, often
/// at the end of that half which is away from half-way.
fn fall(random: &mut Random, cuts: &[u64]) -> [usize; 3] {
    let half_way = cuts.iter().position(|cut| *cut == HALF_WAY);
    let (half_way, last) = (half_way.expect("it is a cut"), cuts.len() - 1);
    let kind = random.below(16);
    let (from, to, end) = match random.below(2) {
        0 => (0, half_way, 0),
        _ => (half_way, last, last),
    };
    let mut any = || match random.below(3) {
        0 => end,
        _ => from + random.below((to - from) as u64 + 1) as usize,
    };
    match kind {
        0 => [half_way; 3],
        1 => [last; 3],
        2 | 3 => [any(); 3],
        _ => [any(), any(), any()],
    }
}

/// Addresses at which every level reads one place, where the word names l1.
fn rings(words: &[u64], x: &Fields) -> Vec<u64> {
    let l1 = x[TABLES.start];
    let names_l1 = |index: &usize| words[*index] & (ADDRESS | TYPE) == l1 | TYPE;
    let address = |index| index as u64 * (L1_SPAN + BLOCK + PAGE);
    let named = table(1).filter(names_l1);
    // Of a few walks at each, some see two words there.
    named.flat_map(|index| [address(index); 4]).collect()
}
