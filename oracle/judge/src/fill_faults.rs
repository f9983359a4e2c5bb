//! Slips of a port that fills maps: in clearing and storing, and in rows 2, 15 and 16.

use crate::fill::{Filled, Filling};
use crate::function::{with, Fault};
use crate::inputs::{words, Outcome};
use crate::layout::ACCEPTED;
use crate::map_inputs::set;
use crate::maps::MAP_LEN;
use crate::port::UNWRITTEN;
use crate::port_maps;
use crate::record_inputs::{L1, L2};
use crate::records::{Edge, Form, Frame};

pub const FAULTS: &[Fault<Filling>] = &[
    fault(
        "fill-base-not-cleared",
        "an entry of the base map that no edge maps stays",
        |x, filled| {
            if filled.outcome[0] != 2 {
                keep(&x.base, &mut filled.base);
            }
        },
    ),
    fault(
        "fill-super-not-cleared",
        "an entry of the super map that no edge maps stays",
        |x, filled| {
            if filled.outcome[0] != 2 {
                keep(&x.sup, &mut filled.sup);
            }
        },
    ),
    fault(
        "fill-row-2-clears",
        "the maps are cleared before their lengths are tested",
        |_, filled| {
            if filled.outcome[0] == 2 {
                filled.base.fill(0);
                filled.sup.fill(0);
            }
        },
    ),
    fault(
        "fill-row-2-of-513",
        "the base map may have one entry more",
        |x, filled| {
            if x.base.len() == MAP_LEN + 1 {
                *filled = with(x, |x| x.base.truncate(MAP_LEN));
                filled.base.push(0);
            }
        },
    ),
    fault(
        "fill-row-2-super-unbounded",
        "the length of the super map is not tested",
        |x, filled| {
            if x.sup.len() > MAP_LEN {
                *filled = with(x, |x| x.sup.truncate(MAP_LEN));
                filled.sup.resize(x.sup.len(), 0);
            }
        },
    ),
    fault(
        "fill-first-edge-wins",
        "a later edge does not overwrite",
        |x, filled| {
            if [0, 17].contains(&filled.outcome[0]) {
                *filled = with(x, |x| x.edges.reverse());
            }
        },
    ),
    fault(
        "fill-spans-exchanged",
        "leaves of an L1 table are super, those of an L2 table base",
        |x, filled| {
            *filled = with(x, |x| {
                for frame in x.frames.iter_mut().filter(|frame| !spanless(frame)) {
                    frame.kind = L1 + L2 - frame.kind;
                }
            });
        },
    ),
    fault(
        "fill-row-15-skipped",
        "an edge of a table without a span is skipped",
        |x, filled| *filled = without(x, |answer| answer[0] == 15),
    ),
    fault(
        "fill-row-15-before-the-owner",
        "the kinds of others' tables are tested too",
        |x, filled| {
            *filled = with(x, |x| {
                for frame in x.frames.iter_mut().filter(|frame| spanless(frame)) {
                    frame.owner = x.dom.into();
                }
            });
        },
    ),
    fault(
        "fill-row-15-of-interior-edges",
        "the kinds of the parents of interior edges are tested too",
        |x, filled| {
            let parent = |edge: &Edge| x.frames.get(edge.parent as usize);
            *filled = with(x, |x| {
                for edge in &mut x.edges {
                    edge.leaf |= u32::from(parent(edge).is_some_and(spanless));
                }
            });
        },
    ),
    fault(
        "fill-row-15-after-row-16",
        "the child is tested against the base map before the kind",
        |x, filled| {
            if filled.outcome[0] == 15 {
                let child = x.edges[refused(x)].child;
                if child as usize >= x.base.len() {
                    filled.outcome = words([16, child.into(), x.base.len() as u64]);
                }
            }
        },
    ),
    fault(
        "fill-row-15-stored",
        "an edge of a table without a span is stored in the base map",
        |x, filled| {
            if filled.outcome[0] == 15 {
                let edge = x.edges[refused(x)];
                set(&mut filled.base, edge.child as usize, code(edge));
            }
        },
    ),
    fault(
        "fill-row-15-carries-the-child",
        "the child is carried in the place of the parent",
        |x, filled| {
            if filled.outcome[0] == 15 {
                filled.outcome[1] = x.edges[refused(x)].child.into();
            }
        },
    ),
    fault(
        "fill-row-16-skipped",
        "an edge whose child is past its map is skipped",
        |x, filled| *filled = without(x, |answer| answer[0] == 16),
    ),
    fault(
        "fill-row-16-at-the-capacity",
        "a child just past its map is not refused",
        |x, filled| *filled = without(x, |answer| answer[0] == 16 && answer[1] == answer[2]),
    ),
    fault(
        "fill-row-16-other-capacity",
        "the length of the other map is carried",
        |x, filled| {
            if filled.outcome[0] == 16 {
                filled.outcome[2] = (x.base.len() + x.sup.len()) as u64 - filled.outcome[2];
            }
        },
    ),
    fault(
        "fill-stores-on",
        "edges after the refused one are stored too",
        |x, filled| {
            if [15, 16].contains(&filled.outcome[0]) {
                let stored = with(x, |x| _ = x.edges.remove(refused(x)));
                (filled.base, filled.sup) = (stored.base, stored.sup);
            }
        },
    ),
    fault(
        "fill-refused-clears",
        "the maps are cleared when an edge is refused",
        |_, filled| {
            if [15, 16].contains(&filled.outcome[0]) {
                filled.base.fill(0);
                filled.sup.fill(0);
            }
        },
    ),
    fault(
        "fill-word-unwritten",
        "the last word of the answer is not written where the edges are accepted",
        |_, filled| {
            if filled.outcome == ACCEPTED {
                filled.outcome[8] = UNWRITTEN;
            }
        },
    ),
];

pub const fn fault(
    name: &'static str,
    slip: &'static str,
    alter: fn(&Filling, &mut Filled),
) -> Fault<Filling> {
    Fault {
        name,
        slip,
        op: Form::Rows,
        alter,
    }
}

fn keep(before: &[u8], after: &mut [u8]) {
    for (after, before) in after.iter_mut().zip(before) {
        if *after == 0 {
            *after = *before;
        }
    }
}

/// The place of the edge that row 15 or 16 refuses.
fn refused(x: &Filling) -> usize {
    let refuses = |place: &usize| {
        let answer = with(x, |x| x.edges.truncate(place + 1)).outcome;
        [15, 16].contains(&answer[0])
    };
    (0..x.edges.len())
        .find(refuses)
        .expect("an edge is refused")
}

/// The port's reply after the edges that it refuses so are left out.
fn without(x: &Filling, so: fn(&Outcome) -> bool) -> Filled {
    let mut x = x.clone();
    loop {
        let filled = port_maps::fill(&x, Form::Rows);
        if !so(&filled.outcome) {
            return filled;
        }
        x.edges.remove(refused(&x));
    }
}

/// The entry of a leaf.
fn code(edge: Edge) -> u8 {
    match (edge.writable, edge.execute) {
        (0, 0) => 1,
        (0, _) => 3,
        _ => 2,
    }
}

fn spanless(frame: &Frame) -> bool {
    ![L1, L2].contains(&frame.kind)
}
