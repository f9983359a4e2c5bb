//! p2m.rs: the owner and type of a frame, with the span that leafmap.rs reads from them, table
//! levels and page types.

use hv_core::p2m::{DomId, Mfn, PageType, PtLevel, System};
use hv_s2::leafmap::{span_of_table, Span};

use crate::function::{Answer, Fault, Function, Layer};
use crate::handed_words;
use crate::inputs::{altered, every, random, words, Random, Words, NOTHING};
use crate::port;
use crate::records::Frame;
use crate::round::Round;

const FRAME: u32 = 0;
const LEVEL: u32 = 1;
const PAGE_TYPE: u32 = 2;

/// Every `DomId` is a domain. The first number past them stands for nobody.
const DOMAINS: usize = 1 << 16;
pub const NOBODY: u64 = 1 << 16;

pub const LAYER: Layer = Layer {
    functions: FUNCTIONS,
    faults: &[FAULTS],
    wrapper_faults: handed_words::P2M,
};

const FUNCTIONS: &[Function] = &[
    Function {
        call: "frame",
        name: "frame",
        op: FRAME,
        original: frame,
        boundary: || Box::new(frame_boundary().filter(representable)),
        sweep: |round| Box::new(frames(round).filter(representable)),
        answers: FRAME_ANSWERS,
        least: 1,
        recorded: true,
    },
    Function {
        call: "frame",
        name: "frame, typed and unowned",
        op: FRAME,
        original: unowned_frame,
        boundary: || Box::new(frame_boundary().filter(|x| !representable(x))),
        sweep: |round| Box::new(frames(round).filter(|x| !representable(x))),
        answers: FRAME_ANSWERS,
        least: 1,
        recorded: false,
    },
    Function::of_code("level", LEVEL, level, LEVEL_ANSWERS),
    Function::of_code("page type", PAGE_TYPE, page_type, LEVEL_ANSWERS),
];

const FRAME_ANSWERS: &[Answer] = &[
    ("domain", |answer| answer[0] < NOBODY),
    ("nobody", |answer| answer[0] == NOBODY),
    ("base", |answer| answer[2] == 1),
    ("super", |answer| answer[2] == 2),
    ("no span", |answer| answer[2] == 0),
];

const LEVEL_ANSWERS: &[Answer] = &[
    ("none", |answer| answer[0] == 0),
    ("L1", |answer| answer[0] == 2),
    ("L2", |answer| answer[0] == 3),
    ("L3", |answer| answer[0] == 4),
    ("L4", |answer| answer[0] == 5),
];

fn rows(x: &Words) -> Vec<Frame> {
    let count = x[6].min(3) as usize;
    let row = |row: &[u64]| Frame {
        owner: row[0] as u32,
        kind: row[1] as u32,
    };
    x[..6].chunks(2).take(count).map(row).collect()
}

/// The row of the frame that is asked about.
fn asked(x: &Words) -> Option<Frame> {
    rows(x).get(x[7] as u32 as usize).copied()
}

/// Whether the original can hold these rows: it gives a type to owned frames only.
fn representable(x: &Words) -> bool {
    rows(x)
        .iter()
        .all(|row| row.domain().is_some() || type_of(row.kind).is_none())
}

fn frame(x: &Words) -> Words {
    let system = system(&rows(x));
    let mfn = x[7] as Mfn;
    let span = match span_of_table(&system, mfn) {
        Some(Span::Base) => 1,
        Some(Span::Super) => 2,
        None => 0,
    };
    words([owner(&system, mfn), kind(x), span])
}

/// Only the owner is the original's. The span goes by the kind, as it does where there is an owner.
fn unowned_frame(x: &Words) -> Words {
    let span = match kind(x) {
        2 => 1,
        3 => 2,
        _ => 0,
    };
    words([owner(&system(&rows(x)), x[7] as Mfn), kind(x), span])
}

fn owner(system: &System, mfn: Mfn) -> u64 {
    system.owner_of(mfn).map_or(NOBODY, u64::from)
}

/// The row's own: the original has types and no numbers for them.
fn kind(x: &Words) -> u64 {
    asked(x).map_or(0, |row| row.kind.into())
}

fn system(rows: &[Frame]) -> System {
    let mut system = System::new(DOMAINS, rows.len());
    for (mfn, row) in rows.iter().enumerate() {
        if let Some(owner) = row.domain() {
            allocate(&mut system, owner, mfn as Mfn, row.kind);
        }
    }
    system
}

fn allocate(system: &mut System, owner: DomId, mfn: Mfn, kind: u32) {
    system.allocate(owner, mfn).expect("the frame is free");
    match type_of(kind) {
        Some(PageType::PageTable(level)) => system.pin(owner, mfn, level),
        Some(PageType::Writable) => system.get_type(mfn, PageType::Writable),
        None => Ok(()),
    }
    .expect("the frame has no type yet");
}

fn level(x: &Words) -> Words {
    let Some(level) = level_of(x[0] as u32) else {
        return NOTHING;
    };
    words([
        kind_of(level),
        level.interior_child_type().map_or(0, code_of),
    ])
}

fn page_type(x: &Words) -> Words {
    let level = type_of(x[0] as u32).and_then(PageType::level);
    words([level.map_or(0, kind_of)])
}

fn level_of(kind: u32) -> Option<PtLevel> {
    match kind {
        2 => Some(PtLevel::L1),
        3 => Some(PtLevel::L2),
        4 => Some(PtLevel::L3),
        5 => Some(PtLevel::L4),
        _ => None,
    }
}

fn kind_of(level: PtLevel) -> u64 {
    match level {
        PtLevel::L1 => 2,
        PtLevel::L2 => 3,
        PtLevel::L3 => 4,
        PtLevel::L4 => 5,
    }
}

pub fn type_of(code: u32) -> Option<PageType> {
    match code {
        1 => Some(PageType::Writable),
        _ => level_of(code).map(PageType::PageTable),
    }
}

fn code_of(page_type: PageType) -> u64 {
    match page_type {
        PageType::Writable => 1,
        PageType::PageTable(level) => kind_of(level),
    }
}

/// Owner numbers at both ends of the domains, and numbers that are such modulo 2^32.
fn owners() -> Vec<u64> {
    let wide = 1 << 32;
    let numbers = [0, 1, 65_534, 65_535, 65_536, 65_537, 1 << 31, wide - 1];
    let wide = [wide, wide + 65_535, wide + 65_536, u64::MAX];
    numbers.into_iter().chain(wide).collect()
}

/// The kinds of a byte, and numbers that are kinds modulo 2^16 or 2^32.
fn kinds() -> Vec<u64> {
    let high = [1 << 16, 1 << 32, u64::MAX - 6];
    let wide = high
        .into_iter()
        .flat_map(|high| (0..=6).map(move |kind| high + kind));
    (0..=255).chain(wide).collect()
}

fn counts() -> Vec<u64> {
    vec![0, 1, 2, 3, 4, 1 << 32, u64::MAX]
}

/// Frames in and past a list, and numbers that are such modulo 2^32.
fn places() -> Vec<u64> {
    let wide = 1 << 32;
    vec![0, 1, 2, 3, 4, wide - 1, wide, wide + 1, u64::MAX]
}

/// Lists that start with one of these rows, followed by an L2 table and a frame of nobody.
fn lists(
    owners: Vec<u64>,
    kinds: Vec<u64>,
    counts: Vec<u64>,
    places: Vec<u64>,
) -> impl Iterator<Item = Words> {
    let [owner, l2, nobody, untyped] = [7, 3, NOBODY, 0].map(|number| vec![number]);
    every([owners, kinds, owner, l2, nobody, untyped, counts, places])
}

fn frame_boundary() -> impl Iterator<Item = Words> {
    let rows = lists(owners(), (0..=6).collect(), vec![1], vec![0]);
    rows.chain(lists(vec![65_535], vec![2], counts(), places()))
}

fn frames(round: Round) -> impl Iterator<Item = Words> {
    // Each row has its turn at each place of the list.
    let turned = |x: Words| (0..3).map(move |by| altered(x, |x| x[..6].rotate_right(2 * by)));
    round
        .once(|| lists(owners(), kinds(), counts(), places()))
        .flat_map(turned)
        .chain(random(round.seeded(2), 200_000, random_list))
}

fn random_list(random: &mut Random) -> Words {
    // Three rows of owner number and kind, their count and a frame.
    [2 * NOBODY, 8, 2 * NOBODY, 8, 2 * NOBODY, 8, 5, 5].map(|bound| random.below(bound))
}

const FAULTS: &[Fault] = &[
    Fault {
        name: "owner-65536-as-domain",
        slip: "the number just past the domains is cut to domain 0",
        op: FRAME,
        alter: |x, answer| {
            if asked(x).is_some_and(|row| row.owner == 65_536) {
                answer[0] = 0;
            }
        },
    },
    Fault {
        name: "owner-65535-as-nobody",
        slip: "the last domain is taken for nobody",
        op: FRAME,
        alter: |_, answer| {
            if answer[0] == 65_535 {
                answer[0] = NOBODY;
            }
        },
    },
    Fault {
        name: "kind-4-has-a-span",
        slip: "a leaf of an L3 table is taken for a super page",
        op: FRAME,
        alter: |_, answer| {
            if answer[1] == 4 {
                answer[2] = 2;
            }
        },
    },
    Fault {
        name: "list-one-longer",
        slip: "the frame just past the list is read as a row of it",
        op: FRAME,
        alter: |x, answer| {
            *answer = port::answer(FRAME, &altered(*x, |x| x[6] = x[6].saturating_add(1)));
        },
    },
    Fault {
        name: "interior-entry-under-l1",
        slip: "an interior entry of an L1 table leads to a writable page",
        op: LEVEL,
        alter: |_, answer| {
            if answer[0] == 2 {
                answer[1] = 1;
            }
        },
    },
    Fault {
        name: "writable-has-a-level",
        slip: "a writable page is taken for an L1 table",
        op: PAGE_TYPE,
        alter: |x, answer| {
            if x[0] == 1 {
                answer[0] = 2;
            }
        },
    },
];
