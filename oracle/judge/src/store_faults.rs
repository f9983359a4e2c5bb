//! Slips of a port that encodes: in what it stores at all, in old words, in the arena of a refused
//! scene, and in the answer.

use crate::encode::{table, Encoded, Scene};
use crate::encode_inputs::{scene, unmap_past_frames};
use crate::encode_row_faults::fault;
use crate::function::{with, Fault};
use crate::layout::{ACCEPTED, BLOCK, L1_SPAN, PAGE, SUP_IPA, TABLES};
use crate::layout_inputs::SCENE;
use crate::port::UNWRITTEN;

pub const FAULTS: &[Fault<Scene>] = &[
    fault("stores-nothing", "no word is stored", |scene, reply| {
        reply.arena.clone_from(&scene.arena);
    }),
    fault(
        "stores-scene-s",
        "the words of document 01's scene S are stored, whatever the layout",
        |scene, reply| {
            if accepted(reply) {
                *reply = with(scene, scene_s);
            }
        },
    ),
    fault(
        "stores-first-half",
        "tables 4 to 6 are left as found",
        |scene, reply| {
            if accepted(reply) {
                let leaves = table(4).start..table(6).end;
                reply.arena[leaves.clone()].copy_from_slice(&scene.arena[leaves]);
            }
        },
    ),
    fault(
        "tables-exchanged",
        "l2_sup and l2_dev stand in each other's place",
        |_, reply| {
            if accepted(reply) {
                let (before, after) = reply.arena.split_at_mut(table(6).start);
                before[table(5)].swap_with_slice(after);
            }
        },
    ),
    fault("table-1-cleared", "l1 is cleared first", cleared::<1>),
    fault("table-2-cleared", "l2_code is cleared first", cleared::<2>),
    fault("table-3-cleared", "l2_data is cleared first", cleared::<3>),
    fault(
        "table-4-not-cleared",
        "old words stay in l3_data",
        kept::<4>,
    ),
    fault("table-5-not-cleared", "old words stay in l2_sup", kept::<5>),
    fault("table-6-not-cleared", "old words stay in l2_dev", kept::<6>),
    fault(
        "table-4-cleared-to-the-map",
        "old words stay in l3_data past the length of the base map",
        |scene, reply| {
            if accepted(reply) {
                let past = table(4).start + scene.base.len()..table(4).end;
                reply.arena[past.clone()].copy_from_slice(&scene.arena[past]);
            }
        },
    ),
    fault(
        "table-5-cleared-from-the-base",
        "old words stay in l2_sup below the first super",
        |scene, reply| {
            if accepted(reply) {
                let first = scene.fields[SUP_IPA] % L1_SPAN / BLOCK;
                let below = table(5).start..table(5).start + first as usize;
                reply.arena[below.clone()].copy_from_slice(&scene.arena[below]);
            }
        },
    ),
    fault(
        "old-words-kept",
        "in tables 1 to 3, a word is stored only in the place of a zero",
        |scene, reply| {
            for (word, old) in skeleton(scene, reply) {
                if old != 0 {
                    *word = old;
                }
            }
        },
    ),
    fault(
        "old-words-joined",
        "in tables 1 to 3, a word is joined to the old one",
        |scene, reply| skeleton(scene, reply).for_each(|(word, old)| *word |= old),
    ),
    fault(
        "refused-clears",
        "tables 4 to 6 are cleared before the layout is tested",
        |_, reply| {
            if (4..=14).contains(&reply.outcome[0]) {
                reply.arena[table(4).start..].fill(0);
            }
        },
    ),
    fault(
        "row-13-encodes",
        "the words are stored before the tables are compared",
        |scene, reply| {
            if reply.outcome[0] == 13 {
                reply.arena = with(scene, |scene| {
                    for (number, table) in (1..).zip(&mut scene.fields[TABLES]) {
                        *table = number * PAGE;
                    }
                    unmap_past_frames(scene);
                })
                .arena;
            }
        },
    ),
    fault(
        "row-14-encodes",
        "the words are stored before the supers are tested",
        |scene, reply| {
            if reply.outcome[0] == 14 {
                reply.arena = with(scene, unmap_past_frames).arena;
            }
        },
    ),
    fault("row-1-stores", "row 1 clears a word", one_word::<1>),
    fault("row-2-stores", "row 2 clears a word", one_word::<2>),
    fault("row-3-stores", "row 3 clears a word", one_word::<3>),
    fault("row-4-stores", "row 4 clears a word", one_word::<4>),
    fault("row-8-stores", "row 8 clears a word", one_word::<8>),
    fault("row-10-stores", "row 10 clears a word", one_word::<10>),
    fault("row-12-stores", "row 12 clears a word", one_word::<12>),
    fault("row-13-stores", "row 13 clears a word", one_word::<13>),
    fault("row-14-stores", "row 14 clears a word", one_word::<14>),
    fault(
        "encode-value-unwritten",
        "the last value is not written where the scene is accepted",
        |_, reply| {
            if accepted(reply) {
                reply.outcome[8] = UNWRITTEN;
            }
        },
    ),
    fault(
        "encode-values-left-out",
        "a refusal has its number and no values",
        |_, reply| reply.outcome[1..].fill(0),
    ),
    fault(
        "encode-values-unwritten",
        "a refusal does not write past the values that it carries",
        |_, reply| {
            if reply.outcome[0] == 9 {
                reply.outcome[3..].fill(UNWRITTEN);
            }
        },
    ),
    fault(
        "encode-values-reversed",
        "row 13 carries the second table first",
        |_, reply| {
            if reply.outcome[0] == 13 {
                reply.outcome.swap(1, 2);
            }
        },
    ),
    fault(
        "row-1-carries-the-length",
        "the length of the arena is carried",
        |scene, reply| {
            if reply.outcome[0] == 1 {
                reply.outcome[1] = scene.arena.len() as u64;
            }
        },
    ),
];

pub fn accepted(reply: &Encoded) -> bool {
    reply.outcome == ACCEPTED
}

/// Turns a scene into scene S, but for the old words.
fn scene_s(x: &mut Scene) {
    *x = Scene {
        arena: std::mem::take(&mut x.arena),
        ..scene(SCENE)
    };
}

fn cleared<const TABLE: usize>(scene: &Scene, reply: &mut Encoded) {
    if accepted(reply) {
        *reply = with(scene, |scene| scene.arena[table(TABLE)].fill(0));
    }
}

fn kept<const TABLE: usize>(scene: &Scene, reply: &mut Encoded) {
    if accepted(reply) {
        let words = reply.arena[table(TABLE)].iter_mut();
        let words = words.zip(&scene.arena[table(TABLE)]);
        for (word, old) in words.filter(|(word, _)| **word == 0) {
            *word = *old;
        }
    }
}

/// The words of tables 1 to 3 that are stored, each with the old one.
fn skeleton<'a>(
    scene: &'a Scene,
    reply: &'a mut Encoded,
) -> impl Iterator<Item = (&'a mut u64, u64)> {
    let words = reply.arena.iter_mut().zip(scene.arena.iter().copied());
    words
        .take(table(3).end)
        .filter(|(word, old)| **word != *old)
}

/// The row clears a word somewhere in the arena.
fn one_word<const ROW: u64>(_: &Scene, reply: &mut Encoded) {
    let len = reply.arena.len();
    if reply.outcome[0] == ROW && len > 0 {
        reply.arena[(ROW as usize * 997) % len] = 0;
    }
}
