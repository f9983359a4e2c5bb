//! The port's side of updates: `s2_fill` and `s2_step`, called one after another on one arena.

use crate::encode::Scene;
use crate::fill::Filled;
use crate::inputs::{Outcome, Random};
use crate::layout::ACCEPTED;
use crate::lending::Lending;
use crate::port_layouts::Call;
use crate::step::Step;
use crate::updates::{Between, List, Seen, Update, Updated};

/// How a step is made: as the port makes it, or with a slip.
pub type Stepping = fn(&mut Lending, Call) -> Outcome;

/// What is seen at the cuts. It fails if a step has changed a map, or what stands around the arena
/// or a map.
pub fn update(list: &List, step: Stepping) -> Updated {
    let mut lending = Lending::new(&list.first, &[], &[]);
    let mut updated = Updated::default();
    for update in &list.updates {
        one(&mut lending, update, step, &mut updated);
    }
    updated
}

fn one(lending: &mut Lending, update: &Update, step: Stepping, updated: &mut Updated) {
    let mut random = Random(update.seed);
    let mut maps = update.source.filled(&mut random);
    let mut between = update.between.iter().peekable();
    lending.lend_maps(&maps.base, &maps.sup);
    for stores in 0..=update.stores {
        while let Some((_, between)) = between.next_if(|(cut, _)| *cut == stores) {
            let outcome = match between {
                Between::Look => ACCEPTED,
                Between::Refused(other) => apart(lending, other, &maps, step),
            };
            updated.seen.push(Seen::new(outcome, stores, look(lending)));
        }
        if stores == update.stores {
            break;
        }
        if random.below(update.kept) == 0 {
            check_maps(lending, &maps.base, &maps.sup);
            maps = update.source.filled(&mut random);
            lending.lend_maps(&maps.base, &maps.sup);
        }
        let outcome = step(lending, call(&update.source.scene, stores));
        if outcome != ACCEPTED {
            updated.idle.push(outcome);
        }
    }
    check_maps(lending, &maps.base, &maps.sup);
}

/// The answer of a step of another scene, after which the maps are lent again that were before.
fn apart(lending: &mut Lending, other: &Step, maps: &Filled, step: Stepping) -> Outcome {
    let Step { scene, number } = other;
    check_maps(lending, &maps.base, &maps.sup);
    lending.lend_maps(&scene.base, &scene.sup);
    let outcome = step(lending, call(scene, *number));
    check_maps(lending, &scene.base, &scene.sup);
    lending.lend_maps(&maps.base, &maps.sup);
    outcome
}

fn call(scene: &Scene, number: u64) -> Call {
    Call {
        arena_len: scene.arena.len(),
        fields: scene.fields,
        number,
    }
}

fn check_maps(lending: &Lending, base: &[u8], sup: &[u8]) {
    let unchanged = lending.holds(base, sup);
    assert!(unchanged, "s2_step stores into a map or around it");
}

fn look(lending: &Lending) -> Vec<u64> {
    let words = lending.arena.lent();
    words.expect("s2_step stores around the arena").to_vec()
}
