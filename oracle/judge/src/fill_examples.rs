//! Fillings by hand, and all pairs of a few edges.

use given_core::p2m::DomId;

use crate::examples::{examples, Example};
use crate::fill::{fill, Filling};
use crate::inputs::altered;
use crate::maps::MAP_LEN;
use crate::record_inputs::{edge_pairs, frame, kinds, leaf, tables, writable_leaf, L1, L3};
use crate::records::Edge;

/// Changes of a filling without edges, and the answer to them.
const EXAMPLES: &[Example<Filling>] = &[
    (&[0], |_| ()),
    (&[2], |x| x.base.resize(MAP_LEN + 1, 1)),
    (&[2], |x| x.sup.resize(MAP_LEN + 1, 1)),
    (&[2], |x| resize(x, 1_024, 65_536 + 512)),
    (&[15, 2], |x| x.edges = vec![leaf(2, 1)]),
    (&[16, 512, 512], |x| x.edges = vec![leaf(0, 512)]),
    (&[17, 1], |x| x.edges = vec![leaf(0, 1), leaf(1, 1)]),
    // The last entry of each map, and past the shorter one.
    (&[0], |x| x.edges = vec![leaf(0, 511), leaf(1, 510)]),
    (&[17, 511], |x| x.edges = vec![leaf(0, 511), leaf(1, 511)]),
    (&[16, 7, 7], |x| {
        resize(x, 512, 7);
        x.edges = vec![leaf(0, 7), leaf(1, 6), leaf(1, 7)];
    }),
    (&[16, 0, 0], |x| {
        resize(x, 0, 512);
        x.edges = vec![leaf(1, 0), leaf(0, 0)];
    }),
    (&[0], |x| resize(x, 0, 0)),
    (&[16, 0xffff_ffff, 512], |x| {
        x.edges = vec![leaf(1, 3), leaf(1, u32::MAX)];
    }),
    (&[16, 65_536, 512], |x| x.edges = vec![leaf(0, 65_536)]),
    // A conflict shows only after the last edge, and the lowest comes first.
    (&[17, 2], |x| {
        let conflicts = [leaf(0, 9), leaf(1, 9), leaf(1, 2), leaf(0, 2)];
        x.edges = [&conflicts[..], &[writable_leaf(0, 4)]].concat();
    }),
    (&[15, 2], |x| {
        x.edges = vec![leaf(0, 1), leaf(1, 1), leaf(2, 1), leaf(0, 5)];
    }),
    // A table without a span refuses before the child is looked at.
    (&[15, 2], |x| x.edges = vec![leaf(2, 512), leaf(0, 5)]),
    // A later edge overwrites.
    (&[0], |x| x.edges = vec![leaf(0, 1), writable_leaf(0, 1)]),
    (&[0], |x| x.edges = vec![writable_leaf(0, 1), leaf(0, 1)]),
    // Interior edges and those of others are skipped, whatever they say.
    (&[0], |x| {
        let interior = altered(leaf(2, 512), |edge| edge.leaf = 0);
        x.edges = vec![interior, leaf(3, 512), leaf(4, u32::MAX)];
    }),
    (&[0], |x| {
        x.frames[3].kind = L3;
        x.edges = vec![leaf(3, 1)];
    }),
    // A frame past the list has no owner, not even domain 0.
    (&[0], |x| {
        (x.dom, x.frames) = (0, tables(0));
        x.edges = [5, 6, 65_536, u32::MAX]
            .map(|parent| leaf(parent, 1))
            .to_vec();
    }),
    (&[0], |x| {
        x.frames.clear();
        x.edges = vec![leaf(0, 1)];
    }),
    // The numbers around the last domain.
    (&[16, 512, 512], |x| {
        x.dom = 65_535;
        x.frames[3].owner = 65_535;
        x.edges = vec![leaf(0, 600), leaf(4, 700), leaf(3, 512)];
    }),
    (&[0], |x| {
        x.dom = 65_535;
        x.frames = [65_534, 65_536, 65_537, u32::MAX]
            .map(|owner| frame(owner, L1))
            .to_vec();
        x.edges = (0..4).map(|parent| leaf(parent, 512)).collect();
    }),
    // All that is not zero is yes.
    (&[16, 512, 512], |x| {
        x.edges = vec![altered(leaf(0, 512), |edge| edge.leaf = 1 << 31)];
    }),
    (&[0], |x| {
        let flagged = |child, writable, execute| Edge {
            writable,
            execute,
            ..leaf(1, child)
        };
        x.edges = vec![
            flagged(0, 2, 0),
            flagged(1, u32::MAX, 2),
            flagged(2, 0, 1 << 31),
        ];
    }),
];

fn resize(x: &mut Filling, base: usize, sup: usize) {
    x.base.resize(base, 1);
    x.sup.resize(sup, 1);
}

/// The examples, tables of any kind, and all pairs of a few edges.
pub fn small_fillings() -> impl Iterator<Item = Filling> {
    let of_kind = kinds().map(|kind| {
        altered(without_edges(3, MAP_LEN, MAP_LEN), |x| {
            x.frames[0].kind = kind;
            x.edges = vec![leaf(0, 1)];
        })
    });
    let paired = edge_pairs().map(|edges| Filling {
        edges,
        ..without_edges(0, 2, 1)
    });
    examples(EXAMPLES, || without_edges(3, MAP_LEN, MAP_LEN), fill)
        .chain([four_leaves()])
        .chain(of_kind)
        .chain(paired)
}

fn without_edges(dom: DomId, base: usize, sup: usize) -> Filling {
    Filling {
        edges: Vec::new(),
        frames: tables(dom),
        dom,
        base: vec![0xff; base],
        sup: vec![2; sup],
    }
}

/// Document 01's four leaves: W, W and X, X, and plain.
fn four_leaves() -> Filling {
    let flags = [(1, 0), (1, 1), (0, 1), (0, 0)];
    let edges = (0..).zip(flags).map(|(child, (writable, execute))| Edge {
        writable,
        execute,
        ..leaf(0, child)
    });
    let x = Filling {
        edges: edges.collect(),
        ..without_edges(3, 4, 4)
    };
    assert_eq!(fill(&x).base, [2, 2, 3, 1], "document 01 gives the entries");
    x
}
