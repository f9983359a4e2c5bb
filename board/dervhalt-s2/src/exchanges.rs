//! No two numbers of a layout can be exchanged on the way into the library unnoticed.
//!
//! Each number has a refusal of its own, and the exemption, which no row reads, a word. Each test
//! asks for these answers; then it exchanges every two numbers before the call, and fails where all
//! its answers stay.

use std::fmt::Debug;
use std::string::{String, ToString};
use std::vec::Vec;

use crate::annex::written;
use crate::arena::Arena;
use crate::calls;
use crate::changed::{changed, Change};
use crate::layout::{Layout, Numbers};
use crate::leaf::Reach;
use crate::maps::{leaf_map_from_edges, Maps};
use crate::names::{Access, Check, Table};
use crate::records::Edge;
use crate::refusal::Refusal;
use crate::scene::{DOM, EDGES, FRAMES, LAYOUT};
use crate::update::{HALF_WAY, STEPS};

/// S with an image: all seventeen numbers differ.
const BASE: Layout = Layout {
    guest_image_pa: Some(0x1_4000_0000),
    ..LAYOUT
};

const fn unnameable(table: Table, pa: u64) -> Refusal {
    Refusal::TableUnnameable { table, pa }
}

const fn unaligned(window: Check, base: u64, align: u64) -> Refusal {
    Refusal::WindowUnaligned {
        window,
        base,
        align,
    }
}

const BLOCK: u64 = 0x20_0000;

/// A refusal of each number but the exemption, in their order. The image's presence is refused
/// where it stands in data's slot.
const REFUSED: [(Change, Refusal); 16] = [
    (|l| l.l1_pa = 0x101, unnameable(Table::L1, 0x101)),
    (|l| l.l2_code_pa = 0x102, unnameable(Table::L2Code, 0x102)),
    (|l| l.l2_data_pa = 0x103, unnameable(Table::L2Data, 0x103)),
    (|l| l.l3_data_pa = 0x104, unnameable(Table::L3Data, 0x104)),
    (|l| l.l2_sup_pa = 0x105, unnameable(Table::L2Sup, 0x105)),
    (|l| l.l2_dev_pa = 0x106, unnameable(Table::L2Dev, 0x106)),
    (
        |l| l.guest_image_pa = Some(0x8020_0000),
        Refusal::RegionsCollide { l1_index: 2 },
    ),
    (
        |l| l.guest_image_pa = Some(0x107),
        unaligned(Check::Image, 0x107, BLOCK),
    ),
    (
        |l| l.data_ipa_base = 0x108,
        unaligned(Check::DataIpa, 0x108, BLOCK),
    ),
    (
        |l| l.data_pa_base = 0x109,
        unaligned(Check::DataPa, 0x109, 4096),
    ),
    (
        |l| l.frame_size = 0x10a,
        Refusal::GranuleNotEmitted { frame_size: 0x10a },
    ),
    (
        |l| l.sup_ipa_base = 0x10b,
        unaligned(Check::SuperIpa, 0x10b, BLOCK),
    ),
    (
        |l| l.sup_pa_base = 0x10c,
        unaligned(Check::SuperPa, 0x10c, BLOCK),
    ),
    (
        |l| l.device_base = 0x10d,
        unaligned(Check::Device, 0x10d, BLOCK),
    ),
    (
        |l| l.device_len = 0x10e,
        Refusal::DeviceWindowUnaligned {
            base: 0x900_0000,
            len: 0x10e,
        },
    ),
    (
        |l| l.sup_frames = 0x10f << 43,
        Refusal::SuperFramesUncountable { count: 0x10f << 43 },
    ),
];

/// What `BASE` is encoded to with S's maps and super 3 for writing: table, index and word.
const WORDS: [(usize, usize, u64); 10] = [
    (1, 0x000, 0x0000_0000_4000_5003),
    (1, 0x002, 0x0000_0000_4000_2003),
    (1, 0x003, 0x0000_0000_4000_4003),
    (1, 0x005, 0x0000_0000_4000_1003),
    (2, 0x000, 0x0000_0001_4000_077D),
    (3, 0x000, 0x0000_0000_4000_3003),
    (4, 0x001, 0x0040_0000_5000_17FF),
    (5, 0x002, 0x0000_0000_6040_077D),
    (5, 0x003, 0x0040_0000_6060_07FD),
    (6, 0x048, 0x0040_0000_0900_04C1),
];

/// The one word of an exempt layout that differs.
const EXEMPT_WORD: (usize, usize, u64) = (5, 0x003, 0x0000_0000_6060_07FD);

/// Every two of so many places, the lower one first.
fn exchanges(places: usize) -> impl Iterator<Item = (usize, usize)> {
    (0..places).flat_map(move |second| (0..second).map(move |first| (first, second)))
}

/// Asks for the answers to some lists of numbers; then, with every two numbers exchanged, fails
/// where all answers stay.
fn notices<const N: usize, T: PartialEq + Debug>(
    answers: &[([u64; N], T)],
    ask: impl Fn(&[u64; N]) -> T,
) {
    for (numbers, answer) in answers {
        assert_eq!(ask(numbers), *answer);
    }
    for (first, second) in exchanges(N) {
        let noticed = answers.iter().any(|(numbers, answer)| {
            let mut exchanged = *numbers;
            exchanged.swap(first, second);
            ask(&exchanged) != *answer
        });
        assert!(noticed, "numbers {first} and {second} are exchanged");
    }
}

#[test]
fn all_differ() {
    let numbers = BASE.numbers();
    assert!(exchanges(17).all(|(first, second)| numbers[first] != numbers[second]));
    assert!(exchanges(16).all(|(first, second)| REFUSED[first].1 != REFUSED[second].1));
    assert_eq!(exchanges(17).count(), 136);
}

/// The refusals, and that `BASE` draws none.
fn refusals() -> Vec<(Numbers, Result<(), Refusal>)> {
    let refused = REFUSED.map(|(change, refusal)| (changed(&BASE, change).numbers(), Err(refusal)));
    let accepted = (BASE.numbers(), Ok(()));
    refused.into_iter().chain([accepted]).collect()
}

#[test]
fn validate_notices() {
    notices(&refusals(), |numbers| calls::validate(numbers).accepted());
}

#[test]
fn exposed_notices() {
    notices(&refusals(), |numbers| calls::exposed(numbers).accepted());
}

fn with_maps<T>(ask: impl FnOnce(Maps<'_>) -> T) -> T {
    let writable = Edge {
        child: 3,
        writable: true,
        ..EDGES[1]
    };
    let (mut base, mut sup) = ([0; 4], [0; 4]);
    let edges = [EDGES[0], EDGES[1], writable];
    let maps = leaf_map_from_edges(&edges, &FRAMES, DOM, &mut base, &mut sup);
    ask(maps.expect("the edges are accepted"))
}

fn encoded(maps: Maps<'_>) -> Arena {
    let mut arena = Arena::ZEROS;
    let answer = calls::encode(&mut arena.words, maps, &BASE.numbers());
    assert_eq!(answer.accepted(), Ok(()));
    arena
}

#[test]
fn verify_notices() {
    with_maps(|maps| {
        let arena = encoded(maps);
        notices(&refusals(), |numbers| {
            calls::verify(&arena.words, maps, numbers).accepted()
        });
    });
}

/// What is stored over zeros: the nonzero words.
type Stored = Result<Vec<(usize, usize, u64)>, Refusal>;

fn stored(words: &[u64]) -> Stored {
    let nonzero = |(_, word): &(usize, &u64)| **word != 0;
    let placed = |(at, word): (usize, &u64)| (at / 512 + 1, at % 512, *word);
    Ok(words
        .iter()
        .enumerate()
        .filter(nonzero)
        .map(placed)
        .collect())
}

/// The words, of the layout and of an exempt one.
fn words() -> [(Numbers, Stored); 2] {
    let exempt = changed(&BASE, |l| l.sup_wx_exempt = true);
    let mut exempt_words = WORDS;
    exempt_words[8] = EXEMPT_WORD;
    [
        (BASE.numbers(), Ok(WORDS.to_vec())),
        (exempt.numbers(), Ok(exempt_words.to_vec())),
    ]
}

#[test]
fn encode_notices() {
    with_maps(|maps| {
        notices(&words(), |numbers| {
            let mut arena = Arena::ZEROS;
            calls::encode(&mut arena.words, maps, numbers).accepted()?;
            stored(&arena.words)
        });
    });
}

#[test]
fn step_notices() {
    with_maps(|maps| {
        notices(&words(), |numbers| {
            let mut arena = Arena::ZEROS;
            for step in HALF_WAY..STEPS {
                calls::step(&mut arena.words, maps, numbers, step).accepted()?;
            }
            stored(&arena.words)
        });
    });
}

/// The page of `BASE` with the same maps.
const PAGE: &str = "\
0009000000 00091FFFFF 000009000000 RW -
0080001000 0080001FFF 000050001000 RW -
00C0400000 00C05FFFFF 000060400000 RO X
00C0600000 00C07FFFFF 000060600000 RW -
0140000000 01401FFFFF 000140000000 RO X
=======================================
";

/// The refusals, and the pages of the layout and of an exempt one.
fn pages() -> Vec<(Numbers, Result<String, Refusal>)> {
    let exempt = changed(&BASE, |l| l.sup_wx_exempt = true);
    let exempt_page = PAGE.replace("000060600000 RW -", "000060600000 RW X");
    let refused = |(numbers, answer): (Numbers, Result<(), Refusal>)| {
        (numbers, answer.map(|()| PAGE.to_string()))
    };
    refusals()
        .into_iter()
        .map(refused)
        .chain([(exempt.numbers(), Ok(exempt_page))])
        .collect()
}

/// A refused page leaves the buffer as it was.
#[test]
fn annex_notices() {
    with_maps(|maps| {
        notices(&pages(), |numbers| {
            let mut page = [7; 400];
            let answer = calls::annex(&mut page, maps, numbers);
            let text = written(&page, answer).map(|text| text.to_string());
            assert!(text.is_ok() || page == [7; 400]);
            text
        });
    });
}

/// By what one address in each window reaches.
#[test]
fn walk_notices() {
    let reaches = [
        (0x1_4000_0018, (0x1_4000_0018, Access::Ro, false)),
        (0x8000_1234, (0x5000_1234, Access::Rw, true)),
        (0xC040_0010, (0x6040_0010, Access::Ro, false)),
        (0x900_0018, (0x900_0018, Access::Rw, true)),
    ];
    let expected = reaches.map(|(_, (pa, access, xn))| Ok(Some(Reach { pa, access, xn })));
    with_maps(|maps| {
        let arena = encoded(maps);
        notices(&[(BASE.tables().numbers(), expected)], |tables| {
            reaches.map(|(ipa, _)| calls::walk(&arena.words, tables, ipa).told())
        });
    });
}
