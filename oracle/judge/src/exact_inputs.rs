//! Maps beside edges: by hand, and filled from the edges, as they are then or with a change.

use given_core::p2m::DomId;
use given_s2::leafmap::Span;

use crate::exact::{exact, spanned, Linked};
use crate::examples::{examples, Example};
use crate::fill::fill;
use crate::fill_inputs::{changed, crowded};
use crate::inputs::{altered, random, Random};
use crate::map_inputs::{bytes, set};
use crate::maps::MAP_LEN;
use crate::record_inputs::{edge_pairs, frame, kinds, leaf, place, tables, writable_leaf};
use crate::round::Round;

/// Changes of a map without entries or edges, and the answer to them. Frame 0 is the domain's table
/// of the span, and frame 1 that of the other span.
const EXAMPLES: &[Example<Linked>] = &[
    (&[0], |_| ()),
    (&[0], |x| x.map.clear()),
    (&[2], |x| x.map.resize(MAP_LEN + 1, 4)),
    (&[2], |x| x.map.resize(65_536 + 512, 0)),
    (&[3], |x| x.map[511] = 4),
    (&[3], |x| (x.map[0], x.map[5], x.map[6]) = (1, 4, 255)),
    (&[25, 3, 1, 0, 2], |x| x.edges = vec![writable_leaf(0, 1)]),
    (&[25, 3, 1, 2, 0], |x| x.map[1] = 2),
    (&[25, 3, 1, 1, 3], |x| {
        x.map[1] = 1;
        x.edges = vec![altered(leaf(0, 1), |edge| edge.execute = 1 << 31)];
    }),
    // The last edge counts, and of its flags writable.
    (&[25, 3, 1, 2, 1], |x| {
        x.map[1] = 2;
        x.edges = vec![writable_leaf(0, 1), leaf(0, 1), leaf(0, 2)];
    }),
    (&[0], |x| {
        x.map[1] = 2;
        x.edges = vec![altered(writable_leaf(0, 1), |edge| edge.execute = 1)];
    }),
    // The lowest frame comes first. The last of the map is checked, and no frame past it.
    (&[25, 3, 2, 1, 0], |x| (x.map[2], x.map[7]) = (1, 2)),
    (&[25, 3, 511, 0, 1], |x| x.edges = vec![leaf(0, 511)]),
    (&[0], |x| {
        x.edges = [512, 65_536, u32::MAX].map(|child| leaf(0, child)).to_vec();
    }),
    // Edges of the other span, of no span, of others and interior ones neither map a frame nor
    // take it back.
    (&[0], |x| {
        let others = [1, 2, 3, 4, 5, 65_536, u32::MAX].map(|parent| leaf(parent, 1));
        let interior = altered(leaf(0, 1), |edge| edge.leaf = 0);
        x.edges = [&others[..], &[interior]].concat();
    }),
    (&[0], |x| {
        x.map[1] = 2;
        x.edges = vec![writable_leaf(0, 1), leaf(1, 1), leaf(2, 1), leaf(3, 1)];
    }),
    (&[0], |x| {
        (x.dom, x.frames) = (0, vec![frame(65_536, x.kind())]);
        x.edges = [0, 1, u32::MAX].map(|parent| leaf(parent, 1)).to_vec();
    }),
    (&[25, 65_535, 1, 0, 1], |x| {
        let owners = [65_534, 65_535, 65_536, 65_537, u32::MAX];
        (x.dom, x.frames) = (65_535, owners.map(|owner| frame(owner, x.kind())).to_vec());
        x.edges = vec![leaf(0, 0), leaf(1, 1), leaf(2, 0), leaf(3, 0), leaf(4, 0)];
    }),
];

/// The numbers that are tried as a span: each of them names one.
const SPANS: &[u64] = &[
    0,
    1,
    2,
    3,
    4,
    (1 << 8) + 2,
    (1 << 16) + 2,
    1 << 31,
    (1 << 31) + 2,
    u32::MAX as u64,
];

/// The examples, numbers of the span, tables of any kind, and all pairs of a few edges beside all maps of two entries.
pub fn small_linked(span: Span) -> impl Iterator<Item = Linked> {
    let unmapped = move || without_edges(3, vec![0; MAP_LEN], span);
    // Read as the other span's, the map differs at frame 2.
    let numbers = SPANS.iter().map(|&code| code as u32);
    let of_number = numbers.filter(move |&code| spanned(code) == span);
    let of_number = of_number.map(move |code| {
        altered(unmapped(), |x| {
            x.span = code;
            x.edges = vec![leaf(0, 1), leaf(1, 2)];
        })
    });
    let of_kind = kinds().map(move |kind| {
        altered(unmapped(), |x| {
            x.frames[0].kind = kind;
            x.edges = vec![leaf(0, 1)];
        })
    });
    let maps = || (0..4).flat_map(|first| (0..4).map(move |second| vec![first, second]));
    let paired = edge_pairs().flat_map(move |edges| {
        maps().map(move |map| Linked {
            edges: edges.clone(),
            ..without_edges(0, map, span)
        })
    });
    examples(EXAMPLES, unmapped, exact)
        .chain(of_number)
        .chain(of_kind)
        .chain(paired)
}

fn without_edges(dom: DomId, map: Vec<u8>, span: Span) -> Linked {
    let mut frames = tables(dom);
    let span = match span {
        Span::Base => 1,
        Span::Super => {
            frames.swap(0, 1);
            2
        }
    };
    Linked {
        dom,
        map,
        span,
        edges: Vec::new(),
        frames,
    }
}

pub fn linked(span: Span, round: Round) -> impl Iterator<Item = Linked> {
    random(round.seeded(22), 60_000, move |random| beside(random, span))
}

/// The map of the span that the edges fill, as it is or with a change.
fn beside(random: &mut Random, span: Span) -> Linked {
    let x = match random.below(2) {
        0 => changed(random),
        _ => crowded(random),
    };
    let filled = fill(&x);
    let (mut map, span) = match span {
        Span::Base => (filled.base, base_code(random)),
        Span::Super => (filled.sup, 2),
    };
    change(random, &mut map);
    Linked {
        dom: x.dom,
        map,
        span,
        edges: x.edges,
        frames: x.frames,
    }
}

/// A number that names the base span.
fn base_code(random: &mut Random) -> u32 {
    match random.pick(SPANS) as u32 {
        2 => 1,
        code => code,
    }
}

fn change(random: &mut Random, map: &mut Vec<u8>) {
    let at = place(random, map.len().max(1));
    match random.below(8) {
        0 => *map = bytes(map.len(), || random.word() & 0x0303_0303_0303_0303),
        1 => set(map, at, 4 + random.below(252) as u8),
        2 => map.resize(MAP_LEN + 1 + at, 0),
        3 | 4 if at < map.len() => map[at] ^= 1 + random.below(3) as u8,
        _ => (),
    }
}
