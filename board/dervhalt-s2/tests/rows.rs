//! Rows 2 to 26, each by document 01's example, and 27: number, values and sentence. Row 1, which
//! the type of an arena rules out, is tested beside the calls.

mod changed;
mod made;
#[path = "../examples/scene_s/scene.rs"]
mod scene;

use changed::{changed, Change};
use dervhalt_s2::{
    annex_page, check_authorized_with, check_exact, encode, leaf_map_from_edges, verify_encoding,
    Access, Arena, Check, Decoded, Edge, Error, Frame, Grant, Layout, PageType, Perm, Progress,
    PtLevel, Refusal, Span, Table, Update, Window, MAP_LEN, STEPS,
};
use made::made;
use scene::{DOM, EDGES, FRAMES, LAYOUT};

fn refuses(answer: Result<(), Refusal>, number: u32, expected: Refusal, sentence: &str) {
    let refusal = answer.expect_err(sentence);
    assert_eq!(refusal, expected);
    assert_eq!(refusal.number(), number);
    assert_eq!(refusal.to_string(), sentence);
}

/// The row that refuses to make tables.
fn refusal_of(layout: &Layout, edges: &[Edge]) -> Result<(), Refusal> {
    made(layout, edges).map_err(|error| match error {
        Error::Refused(refusal) => refusal,
        Error::InReach { .. } | Error::NoArena { .. } => panic!("{error}"),
    })
}

fn filled(
    edges: &[Edge],
    frames: &[Frame],
    base: &mut [u8],
    sup: &mut [u8],
) -> Result<(), Refusal> {
    leaf_map_from_edges(edges, frames, DOM, base, sup).map(|_| ())
}

/// What verification says of S, or S with an image, after a change of one word.
fn verified(layout: &Layout, table: Table, index: usize, word: u64) -> Result<(), Refusal> {
    let (mut base, mut sup) = ([0; 8], [0; 8]);
    let maps = leaf_map_from_edges(&EDGES, &FRAMES, DOM, &mut base, &mut sup)?;
    let checked = layout.checked().expect("the layout is accepted");
    let mut arena = Arena::ZEROS;
    encode(&mut arena, maps.authorized(&[])?, &checked).expect("no row refuses");
    verify_encoding(&arena, maps, layout).expect("what is encoded is verified");
    arena.words[512 * (table as usize - 1) + index] = word;
    verify_encoding(&arena, maps, layout)
}

#[test]
fn row_2() {
    let (mut long, mut map) = ([7; MAP_LEN + 1], [7; MAP_LEN]);
    let answers = [
        filled(&EDGES, &FRAMES, &mut long, &mut map),
        filled(&EDGES, &FRAMES, &mut map, &mut long),
        check_authorized_with(DOM, &long, &FRAMES, &[]),
        check_exact(DOM, &long, Span::Base, &EDGES, &FRAMES),
    ];
    for answer in answers {
        let sentence = "a map has more than 512 entries";
        refuses(answer, 2, Refusal::MapLength, sentence);
    }
    assert_eq!((long, map), ([7; MAP_LEN + 1], [7; MAP_LEN]));
    assert_eq!(filled(&EDGES, &FRAMES, &mut map, &mut [0; 8]), Ok(()));
}

#[test]
fn row_3() {
    let map = [0, 2, 4];
    for (span, sentence) in [
        (Span::Base, "entry 2 of the base map is above 3"),
        (Span::Super, "entry 2 of the super map is above 3"),
    ] {
        let expected = Refusal::MapCode {
            map: span,
            position: 2,
        };
        let exact = check_exact(DOM, &map, span, &EDGES, &FRAMES);
        refuses(exact, 3, expected, sentence);
    }
    let base = check_exact(DOM, &map, Span::Base, &EDGES, &FRAMES);
    assert_eq!(check_authorized_with(DOM, &map, &FRAMES, &[]), base);
}

#[test]
fn rows_4_to_13() {
    for (number, change, expected, sentence) in LAYOUTS {
        let layout = changed(&LAYOUT, change);
        refuses(refusal_of(&layout, &EDGES), number, expected, sentence);
        if number != 13 {
            assert_eq!(layout.validate(), Err(expected));
            assert_eq!(layout.exposed_table(), Err(expected));
        }
    }
    assert_eq!(made(&LAYOUT, &EDGES), Ok(()));
}

const LAYOUTS: [(u32, Change, Refusal, &str); 10] = [
    (
        4,
        |l| l.device_len = 4096,
        Refusal::DeviceWindowUnaligned {
            base: 0x900_0000,
            len: 4096,
        },
        "the device window at 0x9000000 is 0x1000 bytes long, not whole blocks of 2 MiB",
    ),
    (
        5,
        |l| l.frame_size = 16_384,
        Refusal::GranuleNotEmitted { frame_size: 16_384 },
        "frames of 16384 bytes are asked for, and all have 4,096",
    ),
    (
        6,
        |l| l.sup_pa_base = 0x6000_1000,
        Refusal::WindowUnaligned {
            window: Check::SuperPa,
            base: 0x6000_1000,
            align: 0x20_0000,
        },
        "the super pa base 0x60001000 is not a multiple of 0x200000",
    ),
    (
        7,
        |l| l.l1_pa = 1 << 48,
        Refusal::TableUnnameable {
            table: Table::L1,
            pa: 1 << 48,
        },
        "table l1 at 0x1000000000000 is not at a multiple of 4,096 below 2^48",
    ),
    (
        8,
        |l| l.sup_frames = 1 << 43,
        Refusal::SuperFramesUncountable { count: 1 << 43 },
        "8796093022208 super frames are 2^43 or more: their bytes leave 64 bits",
    ),
    (
        9,
        |l| l.sup_frames = 513,
        Refusal::RegionCrossesL1 {
            l1_index: 3,
            span: 513 << 21,
        },
        "the window of 0x40200000 bytes in l1 slot 3 is past 2^39 or crosses its 1 GiB",
    ),
    (
        10,
        |l| l.data_pa_base = (1 << 48) - 4096,
        Refusal::OutputPastLimit {
            window: Window::Data,
            base: (1 << 48) - 4096,
        },
        "the output of the data window, from 0xfffffffff000 on, ends above 2^48",
    ),
    (
        11,
        |l| l.sup_ipa_base = 0x8020_0000,
        Refusal::RegionsCollide { l1_index: 2 },
        "two windows share l1 slot 2",
    ),
    (
        12,
        |l| l.sup_pa_base = 0x5000_0000,
        Refusal::WindowsOverlap,
        "the outputs of two windows overlap",
    ),
    (
        13,
        |l| l.l2_dev_pa = 0x4000_0000,
        Refusal::TablesEqual {
            first: Table::L1,
            second: Table::L2Dev,
        },
        "tables l1 and l2_dev have the same address",
    ),
];

#[test]
fn row_14() {
    let expected = Refusal::SuperUnbacked { position: 4 };
    let sentence = "super 4 is mapped and lies at or past sup_frames";
    let edge = Edge {
        child: 4,
        ..EDGES[1]
    };
    refuses(refusal_of(&LAYOUT, &[edge]), 14, expected, sentence);
}

#[test]
fn row_15() {
    let table = |level| Some(PageType::PageTable(level));
    let neither = [
        None,
        Some(PageType::Writable),
        table(PtLevel::L3),
        table(PtLevel::L4),
    ];
    for page_type in neither {
        let mut frames = FRAMES;
        frames[4] = Frame::new(Some(DOM), page_type);
        let (mut base, mut sup) = ([7; 4], [7; 4]);
        let answer = filled(&EDGES, &frames, &mut base, &mut sup);
        let sentence = "a leaf hangs off frame 4, which is a table of neither span";
        refuses(answer, 15, Refusal::UnsupportedSpan { parent: 4 }, sentence);
        assert_eq!((base, sup), ([0, 2, 0, 0], [0; 4]));
    }
}

#[test]
fn row_16() {
    let far = Edge {
        child: 512,
        ..EDGES[0]
    };
    let (mut base, mut sup) = ([7; 512], [7; 512]);
    let answer = filled(&[EDGES[1], far], &FRAMES, &mut base, &mut sup);
    let expected = Refusal::OutOfRange {
        mfn: 512,
        capacity: 512,
    };
    refuses(
        answer,
        16,
        expected,
        "frame 512 lies past its map of 512 entries",
    );
    assert_eq!((base, sup[2]), ([0; 512], 3));
}

#[test]
fn row_17() {
    let twice = Edge {
        child: 1,
        ..EDGES[1]
    };
    let (mut base, mut sup) = ([7; 4], [7; 4]);
    let answer = filled(&[EDGES[0], twice], &FRAMES, &mut base, &mut sup);
    let sentence = "frame 1 is mapped as base and as super";
    refuses(answer, 17, Refusal::SpanConflict { mfn: 1 }, sentence);
    assert_eq!((base, sup), ([0, 2, 0, 0], [0, 3, 0, 0]));
}

#[test]
fn row_18() {
    let mut expected = Refusal::BadTableEntry {
        table: Table::L1,
        index: 2,
        found: None,
        expected: 0x4000_2000,
    };
    let sentence = "word 2 of l1 leads to nothing, not to the table at 0x40002000";
    refuses(verified(&LAYOUT, Table::L1, 2, 0), 18, expected, sentence);
    if let Refusal::BadTableEntry { found, .. } = &mut expected {
        *found = Some(0x4000_3000);
    }
    let sentence = "word 2 of l1 leads to 0x40003000, not to the table at 0x40002000";
    refuses(
        verified(&LAYOUT, Table::L1, 2, 0x4000_3003),
        18,
        expected,
        sentence,
    );
}

#[test]
fn row_19() {
    const IMAGE_PA: u64 = 0x1_4000_0000;
    let expected_pa = IMAGE_PA;
    let layout = changed(&LAYOUT, |l| l.guest_image_pa = Some(IMAGE_PA));
    let expected = Refusal::BadImageBlock {
        found: None,
        expected_pa,
    };
    let sentence = "the image block maps nothing, not 0x140000000, Ro, executable";
    refuses(
        verified(&layout, Table::L2Code, 0, 0),
        19,
        expected,
        sentence,
    );
    let found = Some(Decoded {
        pa: expected_pa,
        access: Access::Rw,
        xn: false,
    });
    let expected = Refusal::BadImageBlock { found, expected_pa };
    let sentence =
        "the image block maps 0x140000000, Rw, executable, not 0x140000000, Ro, executable";
    refuses(
        verified(&layout, Table::L2Code, 0, 0x1_4000_07FD),
        19,
        expected,
        sentence,
    );
}

#[test]
fn row_20() {
    let expected = Some((0x5000_1000, Access::Rw));
    let refusal = Refusal::BadLeaf {
        mfn: 1,
        found: None,
        expected,
    };
    let sentence = "the word of frame 1 maps nothing, not 0x50001000, Rw";
    refuses(
        verified(&LAYOUT, Table::L3Data, 1, 0),
        20,
        refusal,
        sentence,
    );
    let found = Some(Decoded {
        pa: 0x5000_1000,
        access: Access::Ro,
        xn: true,
    });
    let refusal = Refusal::BadLeaf {
        mfn: 1,
        found,
        expected,
    };
    let sentence = "the word of frame 1 maps 0x50001000, Ro, never executed, not 0x50001000, Rw";
    refuses(
        verified(&LAYOUT, Table::L3Data, 1, 0x40_0000_5000_177F),
        20,
        refusal,
        sentence,
    );
}

#[test]
fn row_21() {
    let expected = Refusal::SpuriousDescriptor {
        table: Table::L2Data,
        index: 7,
        desc: 1,
    };
    let sentence = "word 7 of l2_data is 0x1, and nothing is mapped there";
    refuses(
        verified(&LAYOUT, Table::L2Data, 7, 1),
        21,
        expected,
        sentence,
    );
}

#[test]
fn row_22() {
    let expected = Refusal::BadDeviceBlock { index: 72, desc: 0 };
    let sentence = "word 72 of l2_dev is 0x0, not its device block";
    refuses(
        verified(&LAYOUT, Table::L2Dev, 72, 0),
        22,
        expected,
        sentence,
    );
}

#[test]
fn row_23() {
    for (owner, sentence) in [
        (None, "domain 3 maps frame 1 of nobody Rw without a grant"),
        (
            Some(5),
            "domain 3 maps frame 1 of domain 5 Rw without a grant",
        ),
    ] {
        let mut frames = FRAMES;
        frames[1] = Frame::new(owner, None);
        let expected = Refusal::UnauthorizedMapping {
            dom: DOM,
            mfn: 1,
            owner,
            perm: Perm::Rw,
        };
        let answer = check_authorized_with(DOM, &[0, 2], &frames, &[]);
        refuses(answer, 23, expected, sentence);
    }
    assert_eq!(check_authorized_with(DOM, &[0, 2], &FRAMES, &[]), Ok(()));
}

#[test]
fn row_24() {
    let mut frames = FRAMES;
    frames[1] = Frame::new(Some(5), None);
    let ask = |map, writable| {
        let grant = Grant {
            grantor: 5,
            grantee: DOM,
            frame: 1,
            writable,
        };
        check_authorized_with(DOM, map, &frames, &[grant.row()])
    };
    let expected = Refusal::WriteEscalation {
        dom: DOM,
        mfn: 1,
        owner: 5,
    };
    let sentence = "domain 3 maps frame 1 for writing, which domain 5 grants for reading";
    refuses(ask(&[0, 2], false), 24, expected, sentence);
    assert_eq!(ask(&[0, 2], true), Ok(()));
    assert_eq!(ask(&[0, 3], false), Ok(()));
}

#[test]
fn row_25() {
    let (mapped, expected) = (None, Some(Perm::Rw));
    let refusal = Refusal::Inexact {
        dom: DOM,
        mfn: 1,
        mapped,
        expected,
    };
    let sentence = "domain 3 maps frame 1 as nothing, and its edges give Rw";
    let answer = check_exact(DOM, &[0; 4], Span::Base, &EDGES, &FRAMES);
    refuses(answer, 25, refusal, sentence);
}

#[test]
fn row_26() {
    let (mut base, mut sup) = ([0; 8], [0; 8]);
    let maps = leaf_map_from_edges(&EDGES, &FRAMES, DOM, &mut base, &mut sup).unwrap();
    let mut arena = Arena::ZEROS;
    let (maps, layout) = (maps.authorized(&[]).unwrap(), LAYOUT.checked().unwrap());
    let mut update = Update::begin(&mut arena, maps, &layout).unwrap();
    while update.step().unwrap() != Progress::Ended {}
    let words = update.arena().clone();
    let answer = update.step().map(|_| ());
    let sentence = "the update has ended: its last step is 6,143";
    refuses(answer, 26, Refusal::StepPastLast, sentence);
    assert_eq!(update.stores(), STEPS);
    assert!(*update.arena() == words);
}

#[test]
fn row_27() {
    let (mut base, mut sup) = ([0; 8], [0; 8]);
    let maps = leaf_map_from_edges(&EDGES, &FRAMES, DOM, &mut base, &mut sup).unwrap();
    let (maps, layout) = (maps.authorized(&[]).unwrap(), LAYOUT.checked().unwrap());
    let mut page = [7; 159];
    let answer = annex_page(&mut page, maps, &layout).map(|_| ());
    let sentence = "the annex page is longer than the buffer that it is written into";
    refuses(answer, 27, Refusal::PageTooLong, sentence);
    assert_eq!(page, [7; 159]);
}
