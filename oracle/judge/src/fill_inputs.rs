//! Random fillings: accepted ones, and such as a row refuses, early and late.

use crate::fill::Filling;
use crate::inputs::{random, Random};
use crate::map_inputs::dirty;
use crate::p2m::NOBODY;
use crate::record_inputs::{
    any, domain, flag, frame, frames, kind, leaf, owner, place, spanless, yes, L1, L2,
};
use crate::records::Edge;
use crate::round::Round;

pub fn fillings(round: Round) -> impl Iterator<Item = Filling> {
    random(round.seeded(18), 80_000, changed).chain(random(round.seeded(19), 80_000, crowded))
}

const CHANGES: [fn(&mut Random, &mut Filling); 5] = [
    add_spanless,
    add_past_map,
    add_conflict,
    change_edge,
    change_frame,
];

/// A filling that neither an edge nor a conflict refuses, but for up to two changes.
pub fn changed(random: &mut Random) -> Filling {
    let mut x = accepted(random);
    for _ in 0..random.below(3) {
        CHANGES[random.below(CHANGES.len() as u64) as usize](random, &mut x);
    }
    x
}

fn accepted(random: &mut Random) -> Filling {
    let dom = domain(random);
    let frame_count = match random.below(8) {
        0 => random.below(3),
        1 => random.below(600),
        _ => 2 + random.below(30),
    };
    let edge_count = match random.below(64) {
        0 => random.below(2_001),
        1..=7 => random.below(300),
        _ => random.below(40),
    };
    let mut x = Filling {
        edges: Vec::new(),
        frames: frames(random, dom, frame_count),
        dom,
        base: dirty(random),
        sup: dirty(random),
    };
    linked(random, &mut x, edge_count);
    x
}

/// Gives a filling so many edges, none of which is refused.
pub fn linked(random: &mut Random, x: &mut Filling, count: u64) {
    x.edges = (0..count).map(|_| edge(random, x)).collect();
}

/// An edge that is not refused: base gets the even frames, and super the odd ones.
fn edge(random: &mut Random, x: &Filling) -> Edge {
    let parent = parent(random, x.frames.len());
    let owned = x.frames.get(parent as usize);
    let owned = owned.filter(|frame| frame.domain() == Some(x.dom));
    let (leaf, child) = match owned.map(|frame| frame.kind) {
        None => (flag(random), any(random)),
        Some(L1) if !x.base.is_empty() => (
            flag(random),
            2 * place(random, x.base.len().div_ceil(2)) as u32,
        ),
        Some(L2) if x.sup.len() > 1 => {
            (flag(random), 2 * place(random, x.sup.len() / 2) as u32 + 1)
        }
        Some(_) => (0, any(random)),
    };
    Edge {
        parent,
        slot: any(random),
        child,
        writable: flag(random),
        leaf,
        execute: flag(random),
    }
}

/// A frame in the list, or now and then past it.
fn parent(random: &mut Random, count: usize) -> u32 {
    match random.below(8) {
        0 => any(random),
        1 => count as u32,
        2 => 65_536 + random.below(count as u64 + 1) as u32,
        _ => random.below(count as u64 + 1) as u32,
    }
}

fn add_spanless(random: &mut Random, x: &mut Filling) {
    let (kind, child) = (spanless(random), any(random));
    add(random, x, kind, child);
}

fn add_past_map(random: &mut Random, x: &mut Filling) {
    let (kind, map) = match random.below(2) {
        0 => (L1, &x.base),
        _ => (L2, &x.sup),
    };
    let past = match random.below(4) {
        0 => random.below(8) as u32,
        1 => u32::MAX - map.len() as u32,
        2 => any(random),
        _ => 0,
    };
    let child = (map.len() as u32).saturating_add(past);
    add(random, x, kind, child);
}

/// Adds one frame or up to three to both maps.
fn add_conflict(random: &mut Random, x: &mut Filling) {
    let shared = x.base.len().min(x.sup.len());
    for _ in 0..=random.below(3).min(shared as u64) {
        let child = random.below(shared as u64 + 1) as u32;
        add(random, x, L1, child);
        add(random, x, L2, child);
    }
}

/// Puts a leaf of a new table of the domain somewhere among the edges.
fn add(random: &mut Random, x: &mut Filling, kind: u32, child: u32) {
    // There are edges of the frame just past the list. It stays nobody's.
    x.frames.push(frame(NOBODY as u32, kind));
    let edge = Edge {
        slot: any(random),
        writable: flag(random),
        leaf: yes(random),
        execute: flag(random),
        ..leaf(x.frames.len() as u32, child)
    };
    x.frames.push(frame(x.dom.into(), kind));
    let count = x.edges.len();
    let place = match random.below(4) {
        0 => 0,
        1 => count,
        _ => random.below(count as u64 + 1) as usize,
    };
    x.edges.insert(place, edge);
}

fn change_edge(random: &mut Random, x: &mut Filling) {
    let (count, frames) = (x.edges.len() as u64, x.frames.len());
    if count == 0 {
        return;
    }
    let edge = &mut x.edges[random.below(count) as usize];
    match random.below(4) {
        0 => edge.parent = parent(random, frames),
        1 => edge.child = random.below(514) as u32,
        2 => edge.leaf = yes(random),
        _ => edge.child ^= 1,
    }
}

fn change_frame(random: &mut Random, x: &mut Filling) {
    let count = x.frames.len() as u64;
    if count == 0 {
        return;
    }
    let frame = &mut x.frames[random.below(count) as usize];
    match random.below(2) {
        0 => frame.owner = owner(random, x.dom),
        _ => frame.kind = kind(random),
    }
}

/// A filling of so few frames that its edges often meet.
pub fn crowded(random: &mut Random) -> Filling {
    let dom = domain(random);
    let mut few = || random.below(6) as u32;
    let mut edges: Vec<Edge> = (0..few()).map(|_| leaf(few(), few())).collect();
    let (base, sup) = (3 + few() as usize, 3 + few() as usize);
    for edge in &mut edges {
        (edge.writable, edge.execute) = (flag(random), flag(random));
        edge.leaf = [yes(random), flag(random)][random.below(2) as usize];
    }
    let tables = [frame(dom.into(), L1), frame(dom.into(), L2)];
    Filling {
        edges,
        frames: [&tables[..], &frames(random, dom, 2)].concat(),
        dom,
        base: vec![random.word() as u8; base],
        sup: vec![random.word() as u8; sup],
    }
}
