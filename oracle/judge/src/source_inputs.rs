//! Sources at random, and the words that an update may find.

use crate::arenas::old_words;
use crate::descriptors::ring;
use crate::encode::{target, ARENA_LEN};
use crate::encode_inputs::{accepted_scene, unmap_past_frames};
use crate::fill::Filling;
use crate::fill_inputs::linked;
use crate::inputs::{altered, Random};
use crate::layout::{validate, Fields, ACCEPTED, SUP_FRAMES, TABLES};
use crate::layout_inputs::{accepted, SCENE};
use crate::maps::MAP_LEN;
use crate::record_inputs::{domain, frame, frames, leaf, writable_leaf, L1, L2};
use crate::records::Edge;
use crate::source::Source;
use crate::step::STEPS;
use crate::updates::at_cut;

/// Document 01's scene S.
pub fn source_s() -> Source {
    let (owner, execute) = (3, 1);
    let executable = Edge {
        execute,
        ..leaf(1, 2)
    };
    let filling = Filling {
        edges: vec![writable_leaf(0, 1), executable],
        frames: vec![frame(owner, L1), frame(owner, L2)],
        dom: owner as u16,
        base: vec![0; MAP_LEN],
        sup: vec![0; MAP_LEN],
    };
    Source::new(filling, SCENE)
}

/// Edges for the layout, few or many.
pub fn source(random: &mut Random, fields: Fields) -> Source {
    let dom = domain(random);
    let count = 2 + random.below(30);
    let supers = fields[SUP_FRAMES].min(MAP_LEN as u64) as usize;
    let mut filling = Filling {
        edges: Vec::new(),
        frames: frames(random, dom, count),
        dom,
        base: vec![0; MAP_LEN],
        sup: vec![0; supers],
    };
    let most = random.pick(&[1, 100, 1_000, 4_000]);
    let edges = random.below(most);
    linked(random, &mut filling, edges);
    // Of two neighbours, base gets the one or the other.
    let other = random.below(2) as u32;
    filling
        .edges
        .iter_mut()
        .for_each(|edge| edge.child ^= other);
    filling.sup.resize(MAP_LEN, 0);
    Source::new(filling, fields)
}

/// A layout with the same tables: the same, one with a few fields of another, or another.
pub fn next_layout(random: &mut Random, last: &Fields) -> Fields {
    let other = altered(accepted(random), |x| {
        x[TABLES].copy_from_slice(&last[TABLES]);
    });
    let mut mixed = other;
    for (field, last) in mixed.iter_mut().zip(last) {
        if random.below(4) > 0 {
            *field = *last;
        }
    }
    match random.below(3) {
        0 => *last,
        1 if validate(&mixed) == ACCEPTED => mixed,
        _ => other,
    }
}

/// Mostly words with which the windows of the layout are reached.
pub fn found(random: &mut Random, x: &Fields) -> Vec<u64> {
    match random.below(8) {
        0..4 => encoded(random, x),
        4 => {
            let (old, other) = (encoded(random, x), next_layout(random, x));
            let stores = random.below(STEPS + 1);
            at_cut(&old, &encoded(random, &other), stores)
        }
        5 | 6 => ring(random, &x[TABLES]),
        _ => old_words(random, ARENA_LEN),
    }
}

fn encoded(random: &mut Random, fields: &Fields) -> Vec<u64> {
    target(&altered(accepted_scene(random), |scene| {
        scene.fields = *fields;
        unmap_past_frames(scene);
    }))
}
