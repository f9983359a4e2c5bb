//! arm64.rs: `verify_encoding`, after the rows that document 01 has tested before an arena is read.
//!
//! Rows 1, 2 and 3 are not in the Rust: they are as in encode.rs. Rows 4 to 12 are as in layout.rs.
//! Rows 18 to 22 are answers of the unchanged Rust. Rows 13 and 14 are not tested.

use given_s2::arm64::{verify_encoding, Decoded, EncodingViolation, TablesRef};

use crate::encode::{rows_1_to_12, Scene, Table};
use crate::function::{answers, Answer, Function, Input, Layer};
use crate::handed_layouts;
use crate::inputs::{words, Outcome};
use crate::layout::{code, layout, row, ACCEPTED, LEAST, TABLES, TABLE_NAMES};
use crate::maps;
use crate::port_layouts;
use crate::verify_inputs::{
    damaged, encoded, every_place, example_arenas, filled, found, unbacked, unbacked_examples,
};
use crate::verify_slots::{any_slot, each_slot, DEVICE_SLOT, IMAGE_SLOT};
use crate::{verify_leaf_faults, verify_order_faults, verify_row_faults, verify_slot_faults};
use crate::{verify_table_faults, verify_value_faults, verify_word_faults};

/// A scene in the arena that may hold what it is encoded to.
#[derive(Clone)]
pub struct Arena(pub Scene);

/// The answers do not tell a page from a super, nor a super that is backed from one that is not, so
/// each table that is damaged has a function of its own to be counted by, and so have such supers.
pub const LAYER: Layer<Arena> = Layer {
    functions: &[
        Function {
            boundary: || Box::new(example_arenas()),
            sweep: |round| Box::new(found(round)),
            ..function("verify", ROWS)
        },
        Function {
            boundary: || Box::new(filled()),
            sweep: |round| Box::new(encoded(round)),
            least: 20_000,
            ..function("verify, as encoded", &[("accepted", row::<0>)])
        },
        of_table::<1>("verify, l1 damaged", TABLE_1),
        of_table::<2>("verify, l2_code damaged", TABLE_2),
        of_table::<3>("verify, l2_data damaged", TABLE_3),
        of_table::<4>("verify, l3_data damaged", TABLE_4),
        of_table::<5>("verify, l2_sup damaged", TABLE_5),
        of_table::<6>("verify, l2_dev damaged", TABLE_6),
        Function {
            boundary: || Box::new(each_slot()),
            sweep: |round| Box::new(any_slot(round)),
            ..function("verify, live slots", SLOTS)
        },
        Function {
            boundary: || Box::new(unbacked_examples()),
            sweep: |round| Box::new(unbacked(round)),
            ..function("verify, supers past the frames", UNBACKED)
        },
    ],
    faults: &[
        verify_row_faults::FAULTS,
        verify_table_faults::FAULTS,
        verify_slot_faults::FAULTS,
        verify_order_faults::FAULTS,
        verify_word_faults::FAULTS,
        verify_leaf_faults::FAULTS,
        verify_value_faults::FAULTS,
    ],
    wrapper_faults: handed_layouts::VERIFY,
};

const fn function(name: &'static str, answers: &'static [Answer]) -> Function<Arena> {
    Function {
        call: "s2_verify",
        name,
        op: (),
        original: verify,
        boundary: || Box::new(std::iter::empty()),
        sweep: |_| Box::new(std::iter::empty()),
        answers,
        least: LEAST,
        recorded: false,
    }
}

/// The function over arenas in which a word of this table is not as it is encoded.
const fn of_table<const TABLE: usize>(
    name: &'static str,
    answers: &'static [Answer],
) -> Function<Arena> {
    Function {
        boundary: || Box::new(every_place::<TABLE>()),
        sweep: |round| Box::new(damaged::<TABLE>(round)),
        ..function(name, answers)
    }
}

const ROWS: &[Answer] =
    answers!([("accepted", row::<0>)] 1 2 3 4 5 6 7 8 9 10 11 12 18 19 20 21 22);

const TABLE_1: &[Answer] = &[
    ("accepted", row::<0>),
    ("row 18 of l1, another table found", entry::<1, 1>),
    ("row 18 of l1, nothing found", entry::<1, 0>),
    ("row 21 of l1", spurious::<1>),
];

const TABLE_2: &[Answer] = &[
    ("accepted", row::<0>),
    ("row 19, another block found", image::<1>),
    ("row 19, nothing found", image::<0>),
    ("row 21 of l2_code", spurious::<2>),
];

const TABLE_3: &[Answer] = &[
    ("accepted", row::<0>),
    ("row 18 of l2_data, another table found", entry::<3, 1>),
    ("row 18 of l2_data, nothing found", entry::<3, 0>),
    ("row 21 of l2_data", spurious::<3>),
];

const TABLE_4: &[Answer] = &[
    ("accepted", row::<0>),
    ("row 20, another page found", leaf::<1>),
    ("row 20, nothing found", leaf::<0>),
    ("row 21 of l3_data", spurious::<4>),
];

const TABLE_5: &[Answer] = &[
    ("accepted", row::<0>),
    ("row 20, another super found", leaf::<1>),
    ("row 20, nothing found", leaf::<0>),
    ("row 21 of l2_sup", spurious::<5>),
];

const TABLE_6: &[Answer] = &[
    ("accepted", row::<0>),
    ("row 21 of l2_dev", spurious::<6>),
    ("row 22", row::<22>),
];

const SLOTS: &[Answer] = &[
    ("accepted", row::<0>),
    ("row 18 of l1, another table found", entry::<1, 1>),
    ("row 18 of l1, nothing found", entry::<1, 0>),
    ("row 21 of l1's first word", spare::<0>),
    ("row 21 at the slot of an absent image", spare::<IMAGE_SLOT>),
    (
        "row 21 at the slot of an absent device",
        spare::<DEVICE_SLOT>,
    ),
    ("row 21 of l1", spurious::<1>),
];

const UNBACKED: &[Answer] = &[
    ("accepted", row::<0>),
    ("row 20, another super found", leaf::<1>),
    ("row 20, nothing found", leaf::<0>),
];

fn entry<const TABLE: u64, const FOUND: u64>(answer: &[u64]) -> bool {
    answer[..2] == [18, TABLE] && answer[3] == FOUND
}

fn image<const FOUND: u64>(answer: &[u64]) -> bool {
    answer[..2] == [19, FOUND]
}

fn leaf<const FOUND: u64>(answer: &[u64]) -> bool {
    answer[0] == 20 && answer[2] == FOUND
}

fn spurious<const TABLE: u64>(answer: &[u64]) -> bool {
    answer[..2] == [21, TABLE]
}

/// At this place of l1.
fn spare<const PLACE: u64>(answer: &[u64]) -> bool {
    answer[..3] == [21, 1, PLACE]
}

impl Input for Arena {
    type Op = ();
    type Reply = Outcome;

    fn port(&self, (): ()) -> Outcome {
        port_layouts::verify(&self.0)
    }

    fn shown(&self) -> String {
        self.0.to_string()
    }
}

pub fn verify(x: &Arena) -> Outcome {
    rows_1_to_12(&x.0).unwrap_or_else(|| original(&x.0))
}

pub fn original(scene: &Scene) -> Outcome {
    let (all, []) = scene.arena.as_chunks() else {
        panic!("row 1 refuses any other arena");
    };
    let all = all.try_into().expect("row 1 refuses any other arena");
    let answer = verify_encoding(
        &maps::entries(&scene.base),
        &maps::entries(&scene.sup),
        &layout(&scene.fields),
        tables(all),
    );
    answer.map_or_else(refusal, |()| ACCEPTED)
}

/// The tables of an arena for the original, to be read.
pub fn tables(arena: &[Table; TABLES.end]) -> TablesRef<'_> {
    let [l1, l2_code, l2_data, l3_data, l2_sup, l2_dev] = arena;
    TablesRef {
        l1,
        l2_code,
        l2_data,
        l3_data,
        l2_sup,
        l2_dev,
    }
}

fn refusal(violation: EncodingViolation) -> Outcome {
    use EncodingViolation::*;
    match violation {
        BadTableEntry {
            table,
            index,
            found,
            expected,
        } => {
            let table = code(&TABLE_NAMES, table);
            let [flag, pa] = found.map_or([0, 0], |pa| [1, pa]);
            words([18, table, index as u64, flag, pa, expected])
        }
        BadImageBlock { found, expected_pa } => {
            let [flag, pa, access, xn] = decoded(found);
            words([19, flag, pa, access, xn, expected_pa])
        }
        BadLeaf {
            mfn,
            found,
            expected,
        } => {
            let [flag, pa, access, xn] = decoded(found);
            let [due, due_pa, due_access] = expected.map_or([0, 0, 0], |(pa, perm)| {
                [1, pa, maps::code(Some(perm)).into()]
            });
            words([
                20,
                mfn.into(),
                flag,
                pa,
                access,
                xn,
                due,
                due_pa,
                due_access,
            ])
        }
        SpuriousDescriptor { table, index, desc } => {
            words([21, code(&TABLE_NAMES, table), index as u64, desc])
        }
        BadDeviceBlock { index, desc } => words([22, index as u64, desc]),
        other => panic!("validate has accepted what is refused by {other:?}"),
    }
}

/// Whether there is a leaf, its address, its access, and whether it is never executed.
fn decoded(found: Option<Decoded>) -> [u64; 4] {
    found.map_or([0; 4], |leaf| {
        [
            1,
            leaf.pa,
            maps::code(Some(leaf.perm)).into(),
            leaf.xn.into(),
        ]
    })
}
