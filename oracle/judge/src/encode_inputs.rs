//! Scenes that are refused by one or more of their rows, and accepted ones.

use crate::arenas::old_words;
use crate::encode::{Scene, ARENA_LEN};
use crate::inputs::{altered, random, Random};
use crate::layout::{
    Fields, BLOCK, DATA_IPA, DATA_PA, DEVICE, DEVICE_LEN, EXEMPT, IMAGE, IMAGE_PRESENT, L1,
    L1_SPAN, L2_CODE, L2_DATA, L2_DEV, L2_SUP, PAGE, SUP_FRAMES, SUP_IPA, SUP_PA, TABLES,
};
use crate::layout_inputs::{accepted, examples, moved, SCENE};
use crate::map_inputs::{map, set, spoil};
use crate::maps::MAP_LEN;
use crate::round::Round;

/// Changes of scene S around each row that `validate` does not have.
const CHANGES: &[fn(&mut Scene)] = &[
    |_| (),
    |scene| scene.arena.clear(),
    |scene| scene.arena.truncate(ARENA_LEN - 1),
    |scene| scene.arena.resize(ARENA_LEN + 1, 0),
    |scene| scene.base.clear(),
    |scene| scene.sup.clear(),
    |scene| scene.base.resize(MAP_LEN - 1, 0),
    |scene| scene.sup.resize(MAP_LEN - 1, 0),
    |scene| scene.base.resize(MAP_LEN + 1, 0),
    |scene| scene.sup.resize(MAP_LEN + 1, 0),
    |scene| set(&mut scene.base, 0, 4),
    |scene| set(&mut scene.sup, 0, 4),
    |scene| set(&mut scene.base, MAP_LEN - 1, u8::MAX),
    |scene| set(&mut scene.sup, MAP_LEN - 1, u8::MAX),
    |scene| set(&mut scene.base, MAP_LEN, 4),
    |scene| scene.fields[L2_DEV] = scene.fields[L1],
    |scene| scene.fields[L2_DATA] = scene.fields[L2_CODE],
    |scene| scene.fields[L2_SUP] = scene.fields[L2_CODE],
    |scene| scene.fields[SUP_FRAMES] = 0,
    |scene| scene.fields[SUP_FRAMES] = 2,
    |scene| scene.fields[SUP_FRAMES] = 512,
    |scene| set(&mut scene.sup, 3, 1),
    |scene| set(&mut scene.sup, 4, 1),
    |scene| set(&mut scene.sup, MAP_LEN - 1, 2),
];

/// The examples of layouts with any two of the changes: which row comes first shows.
pub fn changed_scenes() -> impl Iterator<Item = Scene> {
    examples().map(scene).flat_map(changed).flat_map(changed)
}

/// The scene with each of the changes.
fn changed(scene: Scene) -> impl Iterator<Item = Scene> {
    let changes = CHANGES.iter();
    changes.map(move |change| altered(scene.clone(), change))
}

/// A scene with the maps of scene S, in an arena without a zero.
pub fn scene(fields: Fields) -> Scene {
    let map = |place: usize, byte| altered(vec![0; MAP_LEN], |map| map[place] = byte);
    Scene {
        arena: vec![u64::MAX; ARENA_LEN],
        base: map(1, 2),
        sup: map(2, 3),
        fields,
    }
}

pub fn scenes(round: Round) -> impl Iterator<Item = Scene> {
    random(round.seeded(17), 130_000, any_scene)
}

pub fn any_scene(random: &mut Random) -> Scene {
    let fields = any_fields(random);
    let len = arena_len(random);
    let arena = old_words(random, len);
    any_scene_over(random, fields, arena)
}

/// A layout that is accepted, or near one.
pub fn any_fields(random: &mut Random) -> Fields {
    match random.below(4) {
        0 => accepted(random),
        _ => moved(random),
    }
}

/// Any maps for the layout.
pub fn any_scene_over(random: &mut Random, fields: Fields, arena: Vec<u64>) -> Scene {
    let mut scene = Scene {
        arena,
        base: map(random),
        sup: map(random),
        fields,
    };
    if random.below(4) == 0 {
        equate_tables(random, &mut scene.fields);
    }
    place_supers(random, &mut scene);
    spoil(random, &mut scene.base);
    spoil(random, &mut scene.sup);
    scene
}

fn arena_len(random: &mut Random) -> usize {
    match random.below(32) {
        0 => random.below(8_192) as usize,
        1 => random.pick(&[0, 1, 3_071, 3_073]) as usize,
        _ => ARENA_LEN,
    }
}

/// Gives two tables, or three, one address.
pub fn equate_tables(random: &mut Random, fields: &mut Fields) {
    let any = |random: &mut Random| random.below(TABLES.end as u64) as usize;
    let from = any(random);
    for _ in 0..=random.below(2) {
        fields[any(random)] = fields[from];
    }
}

/// Mostly clears what is mapped past the frames, but for an entry next to the last frame or
/// anywhere.
fn place_supers(random: &mut Random, scene: &mut Scene) {
    if random.below(8) > 0 {
        unmap_past_frames(scene);
    }
    let frames = scene.fields[SUP_FRAMES].min(MAP_LEN as u64) as usize;
    let byte = 1 + random.below(3) as u8;
    match random.below(8) {
        0 => set(&mut scene.sup, frames, byte),
        1 => set(&mut scene.sup, frames + 1, byte),
        2 => set(&mut scene.sup, frames.saturating_sub(1), byte),
        3 => set(&mut scene.sup, random.below(MAP_LEN as u64) as usize, byte),
        _ => (),
    }
}

/// Clears what row 14 refuses.
pub fn unmap_past_frames(scene: &mut Scene) {
    let frames = scene.fields[SUP_FRAMES].min(MAP_LEN as u64) as usize;
    if let Some(past) = scene.sup.get_mut(frames..) {
        past.fill(0);
    }
}

/// Every l1 and l2 slot, every length of a map and every number of device blocks, in arenas of
/// zeros and of ones, exempt and not. All entries are mapped.
pub fn filled_scenes() -> impl Iterator<Item = Scene> {
    let flags = [(0, 0), (0, 1), (u64::MAX, 0), (u64::MAX, 1)];
    (0..512).flat_map(move |n| flags.map(|(old, exempt)| filled_scene(n, old, exempt)))
}

/// The windows stand in four l1 slots, of which the first has the given number. The super and the
/// device window end with their 1 GiB.
fn filled_scene(n: u64, old: u64, exempt: u64) -> Scene {
    let slot = |window: u64| (n + window) % 512 * L1_SPAN;
    let rest = 512 - n;
    let mut x = SCENE;
    (x[IMAGE_PRESENT], x[IMAGE]) = (1, slot(0) + n * BLOCK);
    (x[DATA_IPA], x[DATA_PA]) = (slot(1) + (rest - 1) * BLOCK, (1 << 40) + n * PAGE);
    (x[SUP_IPA], x[SUP_PA]) = (slot(2) + n * BLOCK, (1 << 41) + n * BLOCK);
    (x[DEVICE], x[DEVICE_LEN]) = (slot(3) + n * BLOCK, rest * BLOCK);
    (x[EXEMPT], x[SUP_FRAMES]) = (exempt, rest);
    let full = |len| (0..len).map(|place| 1 + ((place + n) % 3) as u8).collect();
    Scene {
        arena: vec![old; ARENA_LEN],
        base: full(n + 1),
        sup: full(rest),
        fields: x,
    }
}

pub fn accepted_scenes(round: Round) -> impl Iterator<Item = Scene> {
    random(round.seeded(23), 25_000, accepted_scene)
}

pub fn accepted_scene(random: &mut Random) -> Scene {
    let arena = old_words(random, ARENA_LEN);
    accepted_scene_over(random, arena)
}

/// A layout and maps that no row refuses.
pub fn accepted_scene_over(random: &mut Random, arena: Vec<u64>) -> Scene {
    let mut scene = Scene {
        arena,
        base: accepted_map(random),
        sup: accepted_map(random),
        fields: accepted(random),
    };
    unmap_past_frames(&mut scene);
    scene
}

/// A map that row 2 does not refuse: empty, full, or with holes.
pub fn accepted_map(random: &mut Random) -> Vec<u8> {
    let mut map = map(random);
    map.truncate(MAP_LEN);
    match random.below(8) {
        0 => map.fill(0),
        1 | 2 => map.iter_mut().for_each(|byte| *byte = (*byte).max(1)),
        _ => (),
    }
    map
}
