//! `s2_walk`.

use std::hint::black_box;

use given_s2::arm64;

use crate::bench::scene::{scenes, Arena, ZEROS};
use crate::bench::{calls, Line};
use crate::encode;
use crate::layout::{INPUT_LIMIT, TABLES};
use crate::walk::fetched;

/// Addresses of scene S.
const ADDRESSES: [(&str, u64); 5] = [
    ("to a page", 0x8000_1234),
    ("to a block", 0xc040_0010),
    ("to an empty slot of table 4", 0x8000_2000),
    ("to an empty slot of table 1", 0x1_0000_0000),
    ("of an address past 2^39", INPUT_LIMIT),
];

pub fn lines() {
    let [_, _, (_, scene), ..] = scenes();
    let mut arena = ZEROS;
    let stored = encode::tables(&mut arena.0);
    arm64::encode(&scene.leaves, &scene.supers, &scene.layout, stored);
    let tables = std::array::from_fn(|table| scene.fields[TABLES][table]);
    for (input, ipa) in ADDRESSES {
        line(input, &arena, &tables, ipa);
    }
}

/// Both sides are lent the words and look the table of an address up among six.
fn line(input: &str, arena: &Arena, tables: &[u64; 6], ipa: u64) {
    let line = Line {
        call: "s2_walk",
        input,
        beside: "`walk`",
        alike: true,
    };
    let mut values = [0; 8];
    line.print(
        || {
            let (tables, words) = (black_box(tables), black_box(arena).0.as_flattened());
            let fetch = |pa, index| fetched(tables, pa, index).map_or(0, |at| words[at]);
            black_box(arm64::walk(tables[0], black_box(ipa), fetch)).is_some()
        },
        || {
            calls::walk(
                black_box(arena),
                black_box(tables),
                black_box(ipa),
                &mut values,
            )
        },
    );
}
