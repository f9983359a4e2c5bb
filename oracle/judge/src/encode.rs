//! arm64.rs: `encode`, after the rows that document 01 has tested before a word is stored.
//!
//! Rows 1, 2, 3, 13 and 14 are not in the Rust: they are computed here from document 01's table.
//! Rows 4 to 12 are as in layout.rs. The words of an accepted scene are the unchanged Rust's.

use std::fmt::{self, Display, Formatter};
use std::iter::once;
use std::ops::Range;

use given_s2::arm64::{self, Tables};

use crate::encode_inputs::{accepted_scenes, changed_scenes, filled_scenes, scenes};
use crate::function::{answers, Answer, Function, Input, Layer, Reply};
use crate::handed_layouts;
use crate::inputs::{hex, words, Outcome};
use crate::layout::{self, layout, pairs, row, Fields, ACCEPTED, LEAST, SUP_FRAMES, TABLES};
use crate::maps;
use crate::port_layouts;
use crate::{encode_row_faults, leaf_faults, store_faults, table_faults};

/// A layout with what is lent beside it.
#[derive(Clone)]
pub struct Scene {
    /// The arena as it is before the call. Any words may stand there.
    pub arena: Vec<u64>,
    pub base: Vec<u8>,
    pub sup: Vec<u8>,
    pub fields: Fields,
}

#[derive(Clone, PartialEq)]
pub struct Encoded {
    pub outcome: Outcome,
    /// The arena as it is after the call.
    pub arena: Vec<u64>,
}

/// The words of a table, and of an arena.
pub const TABLE_LEN: usize = 512;
pub const ARENA_LEN: usize = 3_072;

pub type Table = [u64; TABLE_LEN];

/// The words of a table, which has document 01's number, in an arena.
pub fn table(number: usize) -> Range<usize> {
    TABLE_LEN * (number - 1)..TABLE_LEN * number
}

pub const LAYER: Layer<Scene> = Layer {
    functions: &[
        Function {
            call: "s2_encode",
            name: "encode",
            op: (),
            original: encode,
            boundary: || Box::new(changed_scenes()),
            sweep: |round| Box::new(scenes(round)),
            answers: ANSWERS,
            least: LEAST,
            recorded: false,
        },
        Function {
            call: "s2_encode",
            name: "encode, no row refuses",
            op: (),
            original: encode,
            boundary: || Box::new(filled_scenes()),
            sweep: |round| Box::new(accepted_scenes(round)),
            answers: &[("accepted", row::<0>)],
            least: 20_000,
            recorded: false,
        },
    ],
    faults: &[
        encode_row_faults::FAULTS,
        store_faults::FAULTS,
        table_faults::FAULTS,
        leaf_faults::FAULTS,
    ],
    wrapper_faults: handed_layouts::ENCODE,
};

const ANSWERS: &[Answer] = answers!([("accepted", row::<0>)] 1 2 3 4 5 6 7 8 9 10 11 12 13 14);

impl Input for Scene {
    type Op = ();
    type Reply = Encoded;

    fn port(&self, (): ()) -> Encoded {
        port_layouts::encode(self)
    }

    fn shown(&self) -> String {
        self.to_string()
    }
}

impl Reply for Encoded {
    fn answers(&self) -> impl Iterator<Item = &[u64]> {
        once(&self.outcome[..])
    }

    fn shown(&self, other: &Self) -> String {
        hex(&self.outcome) + &differing(&self.arena, &other.arena)
    }
}

/// The first few words that differ, with their tables and indices.
pub fn differing(words: &[u64], others: &[u64]) -> String {
    let both = words.iter().zip(others).enumerate();
    let differing = both.filter(|(_, (word, other))| word != other).take(4);
    let shown = differing.map(|(place, (word, _))| {
        let (table, index) = (1 + place / TABLE_LEN, place % TABLE_LEN);
        format!(", {table} {index:03x} {word:016x}")
    });
    shown.collect()
}

pub fn encode(scene: &Scene) -> Encoded {
    let outcome = guard(scene);
    let arena = match outcome {
        ACCEPTED => emitted(scene),
        _ => scene.arena.clone(),
    };
    Encoded { outcome, arena }
}

/// What the unchanged Rust makes of the arena. It asks for rows 1 to 12, not for 13 and 14.
pub fn emitted(scene: &Scene) -> Vec<u64> {
    emitted_over(scene.arena.clone(), scene)
}

/// What it makes of zeros, whatever the arena holds.
pub fn target(scene: &Scene) -> Vec<u64> {
    emitted_over(vec![0; ARENA_LEN], scene)
}

fn emitted_over(mut arena: Vec<u64>, scene: &Scene) -> Vec<u64> {
    let (all, []) = arena.as_chunks_mut() else {
        panic!("row 1 refuses any other arena");
    };
    let all = all.try_into().expect("row 1 refuses any other arena");
    arm64::encode(
        &maps::entries(&scene.base),
        &maps::entries(&scene.sup),
        &layout(&scene.fields),
        tables(all),
    );
    arena
}

/// The tables of an arena for the original, to be stored into.
pub fn tables(arena: &mut [Table; TABLES.end]) -> Tables<'_> {
    let [l1, l2_code, l2_data, l3_data, l2_sup, l2_dev] = arena;
    Tables {
        l1,
        l2_code,
        l2_data,
        l3_data,
        l2_sup,
        l2_dev,
    }
}

/// The row that refuses the scene.
pub fn guard(scene: &Scene) -> Outcome {
    row_1(&scene.arena)
        .or_else(|| rows_2_to_14(scene))
        .unwrap_or(ACCEPTED)
}

/// The rows that are tested before an arena is read, too.
pub fn rows_1_to_12(scene: &Scene) -> Option<Outcome> {
    row_1(&scene.arena).or_else(|| rows_2_to_12(scene))
}

/// The rows that are tested where no arena is lent.
pub fn rows_2_to_14(scene: &Scene) -> Option<Outcome> {
    rows_2_to_12(scene)
        .or_else(|| row_13(&scene.fields))
        .or_else(|| row_14(scene))
}

fn rows_2_to_12(scene: &Scene) -> Option<Outcome> {
    row_2(scene)
        .or_else(|| row_3(scene))
        .or_else(|| Some(layout::validate(&scene.fields)).filter(|answer| *answer != ACCEPTED))
}

pub fn row_1(arena: &[u64]) -> Option<Outcome> {
    (arena.len() != ARENA_LEN).then_some(words([1]))
}

pub fn row_2(scene: &Scene) -> Option<Outcome> {
    let too_long = maps::too_long(&scene.base) || maps::too_long(&scene.sup);
    too_long.then_some(words([2]))
}

fn row_3(scene: &Scene) -> Option<Outcome> {
    maps::row_3(1, &scene.base).or_else(|| maps::row_3(2, &scene.sup))
}

pub fn row_13(x: &Fields) -> Option<Outcome> {
    pairs(TABLES.end)
        .find(|(first, second)| x[*first] == x[*second])
        .map(|(first, second)| words([13, 1 + first as u64, 1 + second as u64]))
}

pub fn row_14(scene: &Scene) -> Option<Outcome> {
    let mapped = |place: usize| scene.sup[place] != 0 && place as u64 >= scene.fields[SUP_FRAMES];
    let place = (0..scene.sup.len()).find(|place| mapped(*place))?;
    Some(words([14, place as u64]))
}

impl Display for Scene {
    fn fmt(&self, f: &mut Formatter) -> fmt::Result {
        let (base, sup) = (maps::shown(&self.base), maps::shown(&self.sup));
        let fields = hex(&self.fields);
        let len = self.arena.len();
        let old = self.arena.iter().filter(|word| **word != 0).count();
        write!(
            f,
            "arena {len} with {old} old words, base {base}, super {sup}, layout {fields}"
        )
    }
}
