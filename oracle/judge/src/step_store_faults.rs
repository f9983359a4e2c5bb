//! Slips of a port that steps: in the place of the store, in the word, in how many words are
//! stored, and in the arena of a refused step.

use crate::encode::{table, target, Encoded, Scene, ARENA_LEN, TABLE_LEN};
use crate::encode_inputs::{scene, unmap_past_frames};
use crate::function::{with, Fault};
use crate::layout::{ACCEPTED, EXEMPT};
use crate::layout_inputs::SCENE;
use crate::port_layouts;
use crate::step::{Step, HALF_WAY, STEPS};
use crate::step_row_faults::fault;

pub const FAULTS: &[Fault<Step>] = &[
    fault("step-idles", "no word is stored", |x, reply| {
        reply.arena.clone_from(&x.scene.arena);
    }),
    fault(
        "step-zeroes-nothing",
        "the first half stores no word",
        |x, reply| {
            if zeroing(x, reply) {
                reply.arena.clone_from(&x.scene.arena);
            }
        },
    ),
    fault(
        "step-keeps-the-old-word",
        "the second half stores no word",
        |x, reply| {
            if storing(x, reply) {
                reply.arena.clone_from(&x.scene.arena);
            }
        },
    ),
    fault(
        "step-zeroes-only",
        "the second half zeroes too",
        |x, reply| {
            if storing(x, reply) {
                reply.arena[place(x)] = 0;
            }
        },
    ),
    fault(
        "step-zeroes-never",
        "the first half stores the new words",
        |x, reply| {
            if zeroing(x, reply) {
                *reply = with(x, |x| x.number = STEPS - 1 - x.number);
            }
        },
    ),
    fault(
        "step-0-stores-all",
        "step 0 encodes, and all others idle",
        |x, reply| {
            if reply.outcome == ACCEPTED {
                reply.arena = match x.number {
                    0 => port_layouts::encode(&x.scene).arena,
                    _ => x.scene.arena.clone(),
                };
            }
        },
    ),
    fault(
        "step-0-zeroes-all",
        "step 0 zeroes all words",
        |x, reply| {
            if zeroing(x, reply) && x.number == 0 {
                reply.arena.fill(0);
            }
        },
    ),
    fault(
        "step-half-way-clears",
        "the first step after half-way clears tables 4 to 6, as an encoding does",
        |x, reply| {
            if storing(x, reply) && x.number == HALF_WAY {
                let word = reply.arena[place(x)];
                reply.arena[table(4).start..].fill(0);
                reply.arena[place(x)] = word;
            }
        },
    ),
    fault(
        "step-zeroes-downwards",
        "the first half starts with the last word",
        |x, reply| {
            if zeroing(x, reply) {
                *reply = with(x, |x| x.number = HALF_WAY - 1 - x.number);
            }
        },
    ),
    fault(
        "step-stores-upwards",
        "the second half starts with the first word",
        |x, reply| {
            if storing(x, reply) {
                *reply = with(x, |x| x.number = STEPS - 1 - (x.number - HALF_WAY));
            }
        },
    ),
    fault(
        "step-half-way-early",
        "the last step that zeroes stores the new word",
        |x, reply| {
            if zeroing(x, reply) && x.number == HALF_WAY - 1 {
                *reply = with(x, |x| x.number = HALF_WAY);
            }
        },
    ),
    fault(
        "step-half-way-late",
        "the first step after half-way zeroes",
        |x, reply| {
            if storing(x, reply) && x.number == HALF_WAY {
                reply.arena[place(x)] = 0;
            }
        },
    ),
    fault(
        "step-place-after",
        "the word is stored in the place after its own",
        |x, reply| moved(x, reply, 1),
    ),
    fault(
        "step-place-before",
        "the word is stored in the place before its own",
        |x, reply| moved(x, reply, ARENA_LEN - 1),
    ),
    fault(
        "step-table-after",
        "the word is stored in the table after its own",
        |x, reply| moved(x, reply, TABLE_LEN),
    ),
    fault(
        "step-word-of-the-place-after",
        "the word of the place after its own is stored",
        |x, reply| {
            if storing(x, reply) {
                reply.arena[place(x)] = target(&x.scene)[(place(x) + 1) % ARENA_LEN];
            }
        },
    ),
    fault(
        "step-two-words",
        "the word is stored in the next place too",
        |x, reply| {
            if reply.outcome == ACCEPTED {
                reply.arena[(place(x) + 1) % ARENA_LEN] = reply.arena[place(x)];
            }
        },
    ),
    fault(
        "step-zeroes-two",
        "the next word is zeroed with the one that is stored",
        |x, reply| {
            if storing(x, reply) && place(x) > 0 {
                reply.arena[place(x) - 1] = 0;
            }
        },
    ),
    fault(
        "step-over-old-words",
        "what encoding over the old words leaves is stored",
        |x, reply| {
            if storing(x, reply) {
                reply.arena[place(x)] = port_layouts::encode(&x.scene).arena[place(x)];
            }
        },
    ),
    fault(
        "step-old-word-joined",
        "the new word is joined to the old one",
        |x, reply| {
            if storing(x, reply) {
                reply.arena[place(x)] |= x.scene.arena[place(x)];
            }
        },
    ),
    fault(
        "step-stores-no-zero",
        "in the second half no zero is stored",
        |x, reply| {
            if storing(x, reply) && reply.arena[place(x)] == 0 {
                reply.arena[place(x)] = x.scene.arena[place(x)];
            }
        },
    ),
    fault(
        "step-stores-scene-s",
        "the words of document 01's scene S are stored, whatever the layout",
        |x, reply| made_of(x, reply, &scene(SCENE)),
    ),
    fault(
        "step-exemption-unread",
        "the words are those of a layout that is not exempt",
        |x, reply| {
            let mut scene = x.scene.clone();
            scene.fields[EXEMPT] = 0;
            made_of(x, reply, &scene);
        },
    ),
    fault(
        "step-maps-unread",
        "the words are those of empty maps",
        |x, reply| {
            let (base, sup) = (Vec::new(), Vec::new());
            let scene = Scene {
                base,
                sup,
                ..x.scene.clone()
            };
            made_of(x, reply, &scene);
        },
    ),
    fault(
        "step-short-map",
        "the last entry of the base map is not read",
        |x, reply| {
            let mut scene = x.scene.clone();
            scene.base.pop();
            made_of(x, reply, &scene);
        },
    ),
    fault(
        "step-refused-zeroes",
        "a refused step zeroes the word at its place",
        |x, reply| {
            let word = reply.arena.get_mut(x.number as usize);
            if let Some(word) = word.filter(|_| reply.outcome != ACCEPTED) {
                *word = 0;
            }
        },
    ),
    fault(
        "step-row-14-stores",
        "the word is stored before the supers are tested",
        |x, reply| {
            if reply.outcome[0] == 14 {
                reply.arena = with(x, |x| unmap_past_frames(&mut x.scene)).arena;
            }
        },
    ),
    fault(
        "step-row-26-stores",
        "a step past the last zeroes word 0",
        |_, reply| {
            if reply.outcome[0] == 26 {
                reply.arena[0] = 0;
            }
        },
    ),
];

fn zeroing(x: &Step, reply: &Encoded) -> bool {
    reply.outcome == ACCEPTED && x.number < HALF_WAY
}

fn storing(x: &Step, reply: &Encoded) -> bool {
    reply.outcome == ACCEPTED && x.number >= HALF_WAY
}

/// Where an accepted step stores.
fn place(x: &Step) -> usize {
    x.number.min(STEPS - 1 - x.number) as usize
}

/// Stores so many places further on.
fn moved(x: &Step, reply: &mut Encoded, by: usize) {
    if reply.outcome == ACCEPTED {
        let word = reply.arena[place(x)];
        reply.arena.clone_from(&x.scene.arena);
        reply.arena[(place(x) + by) % ARENA_LEN] = word;
    }
}

/// Stores what the other scene is encoded to.
fn made_of(x: &Step, reply: &mut Encoded, scene: &Scene) {
    if storing(x, reply) {
        reply.arena[place(x)] = target(scene)[place(x)];
    }
}
