//! Edges as records and as rows give the same maps.

#[path = "../examples/scene_s/scene.rs"]
mod scene;

use dervhalt_s2::{check_exact, encode, leaf_map_from_edges, Arena, Edge, EdgeRow, Perm, Span};
use scene::{DOM, EDGES, FRAMES, LAYOUT};

/// An edge as a row, with other numbers for yes than 1.
fn row(edge: &Edge) -> EdgeRow {
    let flag = |flag: bool, yes: u32| if flag { yes } else { 0 };
    [
        edge.parent,
        edge.slot,
        edge.child,
        flag(edge.writable, 2),
        flag(edge.leaf, 1 << 31),
        flag(edge.execute, u32::MAX),
    ]
}

/// Document 01's four leaf edges: W, W+X, X, plain; then one that is no leaf, and one of a frame
/// that is no table of the domain.
fn edges() -> [Edge; 6] {
    let leaf = |child, writable, execute| Edge {
        child,
        writable,
        execute,
        ..EDGES[0]
    };
    [
        leaf(0, true, false),
        leaf(1, true, true),
        leaf(2, false, true),
        leaf(3, false, false),
        Edge {
            leaf: false,
            ..leaf(4, true, false)
        },
        Edge {
            parent: 9,
            ..leaf(5, true, false)
        },
    ]
}

#[test]
fn records_and_rows_give_the_same() {
    let edges = edges();
    let rows = edges.each_ref().map(row);
    let (mut base, mut sup) = ([7; 8], [7; 8]);
    let records = leaf_map_from_edges(&edges, &FRAMES, DOM, &mut base, &mut sup).unwrap();
    assert_eq!(records.base(), [2, 2, 3, 1, 0, 0, 0, 0]);
    assert_eq!(records.sup(), [0; 8]);
    let perms = [0, 1, 2, 3, 4, 9].map(|mfn| records.perm(Span::Base, mfn));
    let (ro, rw, rx) = (Some(Perm::Ro), Some(Perm::Rw), Some(Perm::Rx));
    assert_eq!(perms, [rw, rw, rx, ro, None, None]);
    let (mut base, mut sup) = ([7; 8], [7; 8]);
    let from_rows = leaf_map_from_edges(&rows, &FRAMES, DOM, &mut base, &mut sup).unwrap();
    assert_eq!(from_rows, records);
    for (span, map) in [(Span::Base, records.base()), (Span::Super, records.sup())] {
        assert_eq!(check_exact(DOM, map, span, &edges, &FRAMES), Ok(()));
        assert_eq!(check_exact(DOM, map, span, &rows[..], &FRAMES), Ok(()));
    }
}

/// The length of a map is the caller's choice, also none.
#[test]
fn maps_of_any_length_give_the_same_words() {
    let layout = LAYOUT.checked().unwrap();
    let mut arenas = [(); 2].map(|()| Arena::ZEROS);
    let (mut base, mut sup) = ([0; 2], []);
    let short = leaf_map_from_edges(&EDGES[..1], &FRAMES, DOM, &mut base, &mut sup).unwrap();
    encode(&mut arenas[0], short.authorized(&[]).unwrap(), &layout).unwrap();
    let (mut base, mut sup) = ([0; 512], [0; 512]);
    let long = leaf_map_from_edges(&EDGES[..1], &FRAMES, DOM, &mut base, &mut sup).unwrap();
    encode(&mut arenas[1], long.authorized(&[]).unwrap(), &layout).unwrap();
    assert!(arenas[0] == arenas[1]);
}
