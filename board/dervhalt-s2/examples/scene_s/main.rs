//! Document 01's scene S, as board code has it: maps from edges, tables, walks, the annex page and
//! an update.
//!
//! It prints what board/example.c prints, and stops where an answer is not the expected one.

mod scene;

use dervhalt_s2::{
    annex_page, check_exact, encode, leaf_map_from_edges, verify_encoding, walk, Access, Arena,
    CheckedLayout, Edge, Error, Maps, Progress, Reach, Span, Update, ANNEX_MAX,
};
use scene::{DOM, EDGES, FRAMES, LAYOUT};

/// The words that document 01 prints: table, index and word.
const WORDS: [(usize, usize, u64); 7] = [
    (1, 0x000, 0x0000_0000_4000_5003),
    (1, 0x002, 0x0000_0000_4000_2003),
    (1, 0x003, 0x0000_0000_4000_4003),
    (3, 0x000, 0x0000_0000_4000_3003),
    (4, 0x001, 0x0040_0000_5000_17FF),
    (5, 0x002, 0x0000_0000_6040_077D),
    (6, 0x048, 0x0040_0000_0900_04C1),
];

const fn reach(pa: u64, access: Access, xn: bool) -> Option<Reach> {
    Some(Reach { pa, access, xn })
}

/// The walks that document 01 tables.
const WALKS: [(u64, Option<Reach>); 8] = [
    (0x8000_1234, reach(0x5000_1234, Access::Rw, true)),
    (0x8000_0000, None),
    (0x8000_2000, None),
    (0xC040_0010, reach(0x6040_0010, Access::Ro, false)),
    (0xC080_0000, None),
    (0x900_0018, reach(0x900_0018, Access::Rw, true)),
    (0x920_0000, None),
    (0x80_8000_1234, None),
];

/// All that the guest reaches.
const PAGE: &str = "\
0009000000 00091FFFFF 000009000000 RW -
0080001000 0080001FFF 000050001000 RW -
00C0400000 00C05FFFFF 000060400000 RO X
=======================================
";

fn main() -> Result<(), Error> {
    LAYOUT.validate()?;
    println!("layout: accepted");
    let layout = LAYOUT.checked()?;
    println!("tables: in the output of no window");

    let (mut base, mut sup) = ([0; 512], [0; 4]);
    let maps = leaf_map_from_edges(&EDGES, &FRAMES, DOM, &mut base, &mut sup)?;
    print_maps(maps);
    for (map, span) in [(maps.base(), Span::Base), (maps.sup(), Span::Super)] {
        check_exact(DOM, map, span, &EDGES, &FRAMES)?;
    }
    let authorized = maps.authorized(&[])?;
    println!("maps: as the edges give them, and all frames are the domain's own");

    let mut arena = Arena::ZEROS;
    encode(&mut arena, authorized, &layout)?;
    print_words(&arena);
    verify_encoding(&arena, maps, &LAYOUT)?;
    println!("words: verified");
    for (ipa, expected) in WALKS {
        let reached = walk(&arena, &layout.tables(), ipa);
        assert_eq!(reached, expected);
        print_walk("walk", ipa, reached);
    }
    let mut page = [0; ANNEX_MAX];
    let page = annex_page(&mut page, authorized, &layout)?;
    assert_eq!(page, PAGE);
    println!("annex page: {} bytes", page.len());
    print!("{page}");
    update(&mut arena, &layout)
}

/// Takes from the guest that it may write frame 1.
fn update(arena: &mut Arena, layout: &CheckedLayout) -> Result<(), Error> {
    let edges = [
        Edge {
            writable: false,
            ..EDGES[0]
        },
        EDGES[1],
    ];
    let (mut base, mut sup) = ([0; 512], [0; 4]);
    let maps = leaf_map_from_edges(&edges, &FRAMES, DOM, &mut base, &mut sup)?;
    let ipa = WALKS[0].0;
    let mut update = Update::begin(arena, maps.authorized(&[])?, layout)?;
    loop {
        match update.step()? {
            Progress::Going => {}
            Progress::HalfWay => {
                invalidate();
                print_walk("update, half-way", ipa, update.walk(ipa));
            }
            Progress::Ended => {
                invalidate();
                print_walk("update, ended", ipa, update.walk(ipa));
                break;
            }
        }
    }
    verify_encoding(update.arena(), maps, layout.layout())?;
    println!("update: {} stores, verified", update.stores());
    Ok(())
}

/// Board code has here: DSB ISHST, TLBI VMALLS12E1IS, DSB ISH, ISB. This program has no walker but
/// its own.
fn invalidate() {}

fn print_maps(maps: Maps<'_>) {
    for span in [Span::Base, Span::Super] {
        for mfn in 0..512 {
            if let Some(perm) = maps.perm(span, mfn) {
                println!("maps: {span} {mfn} {perm}");
            }
        }
    }
}

fn print_words(arena: &Arena) {
    let nonzero = |at: &usize| arena.words[*at] != 0;
    let found: Vec<_> = (0..arena.words.len())
        .filter(nonzero)
        .map(|at| (at / 512 + 1, at % 512, arena.words[at]))
        .collect();
    assert_eq!(found, WORDS);
    for (table, index, word) in found {
        println!("{table:X} {index:03X} {word:016X}");
    }
}

fn print_walk(what: &str, ipa: u64, reached: Option<Reach>) {
    match reached {
        Some(reach) => println!("{what}: {ipa:#x} reaches {reach}"),
        None => println!("{what}: {ipa:#x} reaches nothing"),
    }
}
