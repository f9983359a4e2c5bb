//! `s2_fill` and `s2_exact`, from edges as rows and as records.

use std::hint::black_box;

use given_core::{grant, Hypervisor};
use given_s2::check::check_exact;
use given_s2::leafmap::{leaf_map_from_edges, span_of_table, Maps};

use crate::bench::{calls, Line};
use crate::exact::Linked;
use crate::fill::{fill, Filling};
use crate::inputs::Random;
use crate::maps::{self, MAP_LEN};
use crate::port_maps::{s2_exact, s2_exact_edges, s2_fill, s2_fill_edges, Exact, Fill};
use crate::record_inputs::{leaf, tables};
use crate::records::{system, Edge};

const COUNTS: [usize; 4] = [0, 10, 100, 2_000];
const DOM: u16 = 3;

pub fn lines() {
    for count in COUNTS {
        let x = filling(count);
        fill_line("s2_fill", s2_fill, &x, |edge| edge);
        fill_line("s2_fill_edges", s2_fill_edges, &x, Edge::record);
    }
    for count in COUNTS {
        let x = linked(count);
        exact_line("s2_exact", s2_exact, &x, |edge| edge);
        exact_line("s2_exact_edges", s2_exact_edges, &x, Edge::record);
    }
}

/// Half of the edges are base leaves, and half supers of other frames; now and then one is another
/// domain's, or no leaf.
fn edge(random: &mut Random) -> Edge {
    let half = MAP_LEN as u64 / 2;
    let sup = random.below(2);
    let [writable, execute] = [0; 2].map(|_: u32| random.below(2) as u32);
    Edge {
        parent: match random.below(10) {
            0 => 3,
            _ => sup as u32,
        },
        leaf: random.below(10).min(1) as u32,
        writable,
        execute,
        ..leaf(0, (sup * half + random.below(half)) as u32)
    }
}

fn filling(count: usize) -> Filling {
    let mut random = Random(1);
    Filling {
        edges: (0..count).map(|_| edge(&mut random)).collect(),
        frames: tables(DOM),
        dom: DOM,
        base: vec![0; MAP_LEN],
        sup: vec![0; MAP_LEN],
    }
}

/// The base map that the edges fill.
fn linked(count: usize) -> Linked {
    let x = filling(count);
    Linked {
        dom: DOM,
        map: fill(&x).base,
        span: 1,
        edges: x.edges,
        frames: x.frames,
    }
}

fn input(edges: &[Edge]) -> String {
    format!("{} edges, maps of 512", edges.len())
}

fn fill_line<E>(call: &str, port: Fill<E>, x: &Filling, lent: fn(Edge) -> E) {
    let line = Line {
        call,
        input: &input(&x.edges),
        beside: "`leaf_map_from_edges`",
        alike: true,
    };
    let edges: Vec<E> = x.edges.iter().copied().map(lent).collect();
    let system = system(&x.edges, &x.frames);
    let (mut base, mut sup) = (maps::entries(&x.base), maps::entries(&x.sup));
    let (mut filled, mut values) = (x.clone(), [0; 8]);
    line.print(
        || {
            let system = black_box(&system);
            let (base, sup) = black_box((&mut base[..], &mut sup[..]));
            black_box(leaf_map_from_edges(
                &system.edges,
                |mfn| system.owner_of(mfn),
                |parent| span_of_table(system, parent),
                black_box(DOM),
                Maps { base, sup },
            ))
            .is_ok()
        },
        || calls::fill(port, black_box(&edges), black_box(&mut filled), &mut values),
    );
    let same = maps::bytes(&base) == filled.base && maps::bytes(&sup) == filled.sup;
    assert!(same, "{call}: other maps");
}

fn exact_line<E>(call: &str, port: Exact<E>, x: &Linked, lent: fn(Edge) -> E) {
    let line = Line {
        call,
        input: &input(&x.edges),
        beside: "`check_exact`",
        alike: true,
    };
    let edges: Vec<E> = x.edges.iter().copied().map(lent).collect();
    let hypervisor = Hypervisor {
        p2m: system(&x.edges, &x.frames),
        grant: grant::System(Vec::new()),
    };
    let map = maps::entries(&x.map);
    let mut values = [0; 8];
    line.print(
        || {
            let (hypervisor, map) = black_box((&hypervisor, &map));
            black_box(check_exact(hypervisor, x.dom, map, x.spanned())).is_ok()
        },
        || calls::exact(port, black_box(&edges), black_box(x), &mut values),
    );
}
