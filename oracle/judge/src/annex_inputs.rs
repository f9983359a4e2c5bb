//! Scenes with a buffer for their page: of any length, and of lengths around the page's.

use crate::annex::Annexed;
use crate::annex_page::{page, LINE, LONGEST};
use crate::encode::Scene;
use crate::encode_inputs::{accepted_scene_over, any_fields, any_scene_over, filled_scenes};
use crate::inputs::{random, Random};
use crate::layout::{Fields, DEVICE_LEN, IMAGE_PRESENT, SUP_FRAMES};
use crate::layout_inputs::accepted;
use crate::maps::MAP_LEN;
use crate::round::Round;

pub fn without_arena(mut scene: Scene) -> Scene {
    scene.arena.clear();
    scene
}

/// The scene with a buffer of so many bytes. None of them is zero, and each differs from its
/// neighbours; the first follows from the number that is given besides.
pub fn lent(scene: Scene, len: usize, start: usize) -> Annexed {
    let bytes: Vec<u8> = (1..=u8::MAX).collect();
    let (before, from) = bytes.split_at(start % bytes.len());
    let mut buffer = [from, before].concat().repeat(len.div_ceil(bytes.len()));
    buffer.truncate(len);
    Annexed { scene, buffer }
}

/// The accepted scene with a buffer as long as its page, and up to a line more or less; none, and
/// as long as the longest page's.
pub fn around_the_page(scene: &Scene) -> Vec<Annexed> {
    let len = page(scene).len();
    let lens = [
        len,
        len - 1,
        len + 1,
        len - LINE,
        len + LINE,
        len.saturating_sub(LINE + 1),
        len + LINE + 1,
        0,
        LONGEST,
    ];
    let lent = |len| lent(scene.clone(), len, len);
    lens.map(lent).to_vec()
}

/// Scenes most of which a row refuses, each with a buffer of any length.
pub fn any(round: Round) -> impl Iterator<Item = Annexed> {
    random(round.seeded(101), 130_000, |random| {
        let fields = any_fields(random);
        let scene = any_scene_over(random, fields, Vec::new());
        let len = any_len(random);
        lent(scene, len, random.word() as usize)
    })
}

/// Some have room for few lines only, some for all.
fn any_len(random: &mut Random) -> usize {
    let len = match random.below(8) {
        0..=2 => random.below(8) * LINE as u64 + random.pick(&[0, 0, 1, 39]),
        3..=5 => random.below(LONGEST as u64 / 2),
        6 => random.below(LONGEST as u64),
        _ => LONGEST as u64,
    };
    len as usize
}

/// Every l1 and l2 slot, every length of a map and every number of device blocks, exempt and not,
/// with all entries mapped.
pub fn filled_around() -> impl Iterator<Item = Annexed> {
    // Those that differ in their arenas alone are one.
    let scenes = filled_scenes().filter(|scene| scene.arena[0] == 0);
    scenes.map(without_arena).flat_map(|scene| {
        let buffers = around_the_page(&scene);
        buffers.into_iter().take(3)
    })
}

/// Accepted scenes, such as reach nothing, and such as have the longest page.
pub fn around(round: Round) -> impl Iterator<Item = Annexed> {
    let accepted = random(round.seeded(102), 2_000, |random| {
        accepted_scene_over(random, Vec::new())
    });
    let empty = random(round.seeded(103), 220, empty);
    let longest = random(round.seeded(104), 220, longest);
    let scenes = accepted.chain(empty).chain(longest);
    scenes.flat_map(|scene| around_the_page(&scene))
}

/// An accepted scene that reaches nothing.
fn empty(random: &mut Random) -> Scene {
    let mut scene = accepted_scene_over(random, Vec::new());
    (scene.fields[IMAGE_PRESENT], scene.fields[DEVICE_LEN]) = (0, 0);
    scene.base.fill(0);
    scene.sup.fill(0);
    scene
}

/// A scene with all that there is to reach, of which no two neighbours in a map have equal access.
fn longest(random: &mut Random) -> Scene {
    let whole =
        |x: &Fields| x[IMAGE_PRESENT] != 0 && x[DEVICE_LEN] > 0 && x[SUP_FRAMES] == MAP_LEN as u64;
    let drawn = std::iter::repeat_with(|| accepted(random)).find(whole);
    Scene {
        arena: Vec::new(),
        fields: drawn.expect("some layouts are whole"),
        base: varied(random),
        sup: varied(random),
    }
}

/// A full map in which each entry differs from the one before.
fn varied(random: &mut Random) -> Vec<u8> {
    let mut place = 0;
    let mut next = || {
        place = (place + 1 + random.below(2)) % 3;
        1 + place as u8
    };
    (0..MAP_LEN).map(|_| next()).collect()
}
