//! The records that fillings and checks are made of.

use given_core::p2m::DomId;

use crate::inputs::Random;
use crate::p2m::NOBODY;
use crate::records::{Edge, Frame};

/// The kinds of page tables: leaves of the first two are base and super.
pub const L1: u32 = 2;
pub const L2: u32 = 3;
pub const L3: u32 = 4;

/// Tables of the domain, one of another domain and one of nobody.
pub fn tables(dom: DomId) -> Vec<Frame> {
    let dom = u32::from(dom);
    vec![
        frame(dom, L1),
        frame(dom, L2),
        frame(dom, L3),
        frame(dom ^ 1, L1),
        frame(NOBODY as u32, L2),
    ]
}

pub const fn frame(owner: u32, kind: u32) -> Frame {
    Frame { owner, kind }
}

/// A read-only leaf. Its slot is another number than its child.
pub const fn leaf(parent: u32, child: u32) -> Edge {
    Edge {
        parent,
        slot: child ^ 1,
        child,
        writable: 0,
        leaf: 1,
        execute: 0,
    }
}

pub const fn writable_leaf(parent: u32, child: u32) -> Edge {
    let writable = 1;
    Edge {
        writable,
        ..leaf(parent, child)
    }
}

/// Edges of each of the tables and of the frame past them to each of three frames: a leaf of every
/// permission, and an interior edge.
fn few_edges() -> Vec<Edge> {
    let flags = [(0, 1, 0), (1, 1, 0), (0, 1, 1), (1, 1, 1), (1, 0, 0)];
    let ends = (0..=5).flat_map(|parent| (0..3).map(move |child| leaf(parent, child)));
    ends.flat_map(|edge| {
        flags.map(|(writable, leaf, execute)| Edge {
            writable,
            leaf,
            execute,
            ..edge
        })
    })
    .collect()
}

/// Every list of two of the edges.
pub fn edge_pairs() -> impl Iterator<Item = Vec<Edge>> {
    let edges = few_edges();
    let second = edges.clone();
    let pairs = move |first: Edge| {
        second
            .clone()
            .into_iter()
            .map(move |edge| vec![first, edge])
    };
    edges.into_iter().flat_map(pairs)
}

/// Every kind of a byte, and larger numbers that may be taken for a table's.
pub fn kinds() -> impl Iterator<Item = u32> {
    (0..256).chain([256 + 2, 256 + 3, 65_536 + 2, u32::MAX])
}

pub fn domain(random: &mut Random) -> DomId {
    let number = match random.below(2) {
        0 => random.pick(&[0, 1, 3, 255, 256, 65_534, 65_535]),
        _ => random.below(1 << 16),
    };
    number as DomId
}

/// A number that may be taken for the domain, or one at an end of the domains or past them.
pub fn other(random: &mut Random, dom: DomId) -> u32 {
    let dom = u64::from(dom);
    let number = match random.below(4) {
        0 => random.below(4),
        1 => random.pick(&[65_534, 65_535, 65_536, 65_537, u32::MAX.into()]),
        2 => dom + (1 << 16),
        _ => dom ^ (1 << random.below(32)),
    };
    number as u32
}

/// Frames of which about half are the domain's, and most are tables that have a span.
pub fn frames(random: &mut Random, dom: DomId, count: u64) -> Vec<Frame> {
    (0..count)
        .map(|_| Frame {
            owner: owner(random, dom),
            kind: kind(random),
        })
        .collect()
}

pub fn owner(random: &mut Random, dom: DomId) -> u32 {
    match random.below(2) {
        0 => dom.into(),
        _ => other(random, dom),
    }
}

pub fn kind(random: &mut Random) -> u32 {
    match random.below(4) {
        0 => spanless(random),
        _ => 2 + random.below(2) as u32,
    }
}

/// A kind that is neither L1 nor L2, but may be taken for it.
pub fn spanless(random: &mut Random) -> u32 {
    let kind = match random.below(2) {
        0 => random.pick(&[0, 1, 4, 5, 6, 256 + 2, 65_536 + 3, u32::MAX.into()]),
        _ => random.below(252) + 4,
    };
    kind as u32
}

/// A number that is a yes or a no.
pub fn flag(random: &mut Random) -> u32 {
    match random.below(2) {
        0 => 0,
        _ => yes(random),
    }
}

pub fn yes(random: &mut Random) -> u32 {
    random.pick(&[1, 1, 2, 1 << 8, 1 << 16, 1 << 31, u32::MAX.into()]) as u32
}

/// A number of any width.
pub fn any(random: &mut Random) -> u32 {
    random.word() as u32 >> random.below(32)
}

/// The place of an entry in a list of so many, often one of the first.
pub fn place(random: &mut Random, count: usize) -> usize {
    let bound = match random.below(2) {
        0 => count.min(4),
        _ => count,
    };
    random.below(bound as u64) as usize
}
