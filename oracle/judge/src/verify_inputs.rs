//! Arenas as they are encoded, with a word changed, over old words, and of anything.

use crate::damage::{damage, place};
use crate::descriptors::{ACCESS, ACCESSED, ADDRESS, WORDS};
use crate::encode::{emitted, table, Scene, ARENA_LEN};
use crate::encode_inputs::{
    accepted_map, accepted_scene, changed_scenes, equate_tables, filled_scenes, scene, scenes,
    unmap_past_frames,
};
use crate::examples::{examples, Example};
use crate::inputs::{altered, random, Random};
use crate::layout::{
    validate, ACCEPTED, BLOCK, DEVICE_LEN, EXEMPT, IMAGE, IMAGE_PRESENT, L1, L2_DEV, OUTPUT_LIMIT,
    SUP_FRAMES, SUP_IPA, SUP_PA, TABLES,
};
use crate::layout_inputs::{accepted, SCENE};
use crate::map_inputs::set;
use crate::maps::MAP_LEN;
use crate::round::Round;
use crate::verify::{verify, Arena};

/// Document 01's examples of rows 18 to 22, with all that they carry, and what it says is accepted.
const EXAMPLES: &[Example<Arena>] = &[
    (&[0], |_| ()),
    (&[18, 1, 2, 0, 0, 0x4000_2000], |x| put(x, 1, 2, 0)),
    (&[18, 1, 2, 1, 0x4000_4000, 0x4000_2000], |x| {
        put(x, 1, 2, 0x4000_4003);
    }),
    (&[19, 0, 0, 0, 0, 0x1_4000_0000], |x| {
        (x.0.fields[IMAGE_PRESENT], x.0.fields[IMAGE]) = (1, 0x1_4000_0000);
        *x = over_zeros(x.0.clone());
        put(x, 2, 0, 0);
    }),
    (&[20, 1, 0, 0, 0, 0, 1, 0x5000_1000, 2], |x| put(x, 4, 1, 0)),
    (&[21, 3, 7, 1], |x| put(x, 3, 7, 1)),
    (&[22, 72, 0], |x| put(x, 6, 72, 0)),
    // The decoders read none of these words as anything: a block and a page that can only be
    // written in l3_data, tables in l2_sup and l2_dev, normal memory in l2_dev.
    (&[0], |x| put(x, 4, 0, 1)),
    (&[0], |x| put(x, 4, 0, 0x5000_0483)),
    (&[0], |x| put(x, 5, 7, 0x4000_4003)),
    (&[0], |x| put(x, 6, 7, 0x4000_3003)),
    (&[0], |x| put(x, 6, 7, 0x0040_0000_00e0_07fd)),
    // Neither the access flag of a page is read nor the access of a device.
    (&[0], |x| x.0.arena[table(4)][1] &= !ACCESSED),
    (&[0], |x| x.0.arena[table(6)][72] &= !ACCESS),
    // Rows 13 and 14 are not tested.
    (&[0], |x| {
        x.0.fields[L2_DEV] = x.0.fields[L1];
        *x = over_zeros(x.0.clone());
    }),
    (&[20, 4, 0, 0, 0, 0, 1, 0x6080_0000, 1], |x| x.0.sup[4] = 3),
    (&[0], |x| {
        x.0.sup[4] = 3;
        *x = over_zeros(x.0.clone());
    }),
];

pub fn example_arenas() -> impl Iterator<Item = Arena> {
    examples(EXAMPLES, || over_zeros(scene(SCENE)), verify)
}

fn put(x: &mut Arena, number: usize, index: usize, word: u64) {
    x.0.arena[table(number)][index] = word;
}

/// What the scene is encoded to from zeros.
pub fn over_zeros(mut scene: Scene) -> Arena {
    scene.arena.fill(0);
    over(scene)
}

fn over(scene: Scene) -> Arena {
    let arena = emitted(&scene);
    Arena(Scene { arena, ..scene })
}

/// Arenas that are damaged or encoded over old words, and the scenes of an encoding as they are.
/// Most slips show in the first of them.
pub fn found(round: Round) -> impl Iterator<Item = Arena> {
    let over_old = |random: &mut Random| over(accepted_scene(random));
    random(round.seeded(51), 25_000, damaged_anywhere)
        .chain(random(round.seeded(52), 10_000, over_old))
        .chain(round.once(changed_scenes).chain(scenes(round)).map(Arena))
}

/// Each l1 and l2 slot, each length of a map and each number of device blocks.
pub fn filled() -> impl Iterator<Item = Arena> {
    filled_scenes().map(over_zeros)
}

pub fn encoded(round: Round) -> impl Iterator<Item = Arena> {
    random(round.seeded(53), 22_000, any_encoded)
}

/// The encoding of an accepted layout. Rows 13 and 14 may refuse to encode it.
fn any_encoded(random: &mut Random) -> Arena {
    let mut scene = Scene {
        arena: vec![0; ARENA_LEN],
        base: accepted_map(random),
        sup: accepted_map(random),
        fields: accepted(random),
    };
    if random.below(2) == 0 {
        unmap_past_frames(&mut scene);
    }
    if random.below(8) == 0 {
        equate_tables(random, &mut scene.fields);
    }
    if random.below(4) == 0 {
        raise_supers(&mut scene);
    }
    over(scene)
}

/// Moves the output of the supers to the end of the outputs, if it meets no other there: the
/// address of a super past the frames is cut.
fn raise_supers(scene: &mut Scene) {
    let raised = altered(scene.fields, |x| {
        x[SUP_PA] = OUTPUT_LIMIT - x[SUP_FRAMES] * BLOCK;
    });
    if validate(&raised) == ACCEPTED {
        scene.fields = raised;
    }
}

/// Arenas in which a word of the table is damaged, or the entry of a leaf.
pub fn damaged<const TABLE: usize>(round: Round) -> impl Iterator<Item = Arena> {
    random(round.seeded(60 + TABLE as u64), 18_000, |random| {
        let mut x = any_encoded(random);
        damage_table(random, &mut x, TABLE);
        x
    })
}

/// One word to three, in any tables: which is told first shows.
fn damaged_anywhere(random: &mut Random) -> Arena {
    let mut x = any_encoded(random);
    for _ in 0..=random.below(3) {
        let number = 1 + random.below(6) as usize;
        damage_table(random, &mut x, number);
    }
    x
}

fn damage_table(random: &mut Random, Arena(scene): &mut Arena, number: usize) {
    let entry = random.below(MAP_LEN as u64) as usize;
    let byte = random.below(4) as u8;
    match (number, random.below(4)) {
        (4, 0) => set(&mut scene.base, entry, byte),
        (5, 0) => set(&mut scene.sup, entry, byte),
        _ => {
            let place = place(random, &scene.arena, number);
            damage(random, &mut scene.arena, place, &scene.fields[TABLES]);
        }
    }
}

/// Arenas of one scene in which a word of the table, at each place of it, is any of document 01's
/// words or none, with the address that stands there or with 0.
pub fn every_place<const TABLE: usize>() -> impl Iterator<Item = Arena> {
    let x = holed();
    table(TABLE).flat_map(move |place| {
        let address = x.0.arena[place] & ADDRESS;
        let same = WORDS.map(|word| word | address);
        let words = WORDS.into_iter().chain(same).chain([0, 1, 2, u64::MAX]);
        let x = x.clone();
        words.map(move |word| altered(x.clone(), |x| x.0.arena[place] = word))
    })
}

/// All windows are there, and the supers start in the middle of their 1 GiB. A fourth of the
/// entries of both maps are none, and supers are mapped past the frames.
fn holed() -> Arena {
    let fields = altered(SCENE, |x| {
        (x[IMAGE_PRESENT], x[IMAGE]) = (1, 0x1_4060_0000);
        (x[SUP_IPA], x[SUP_FRAMES]) = (x[SUP_IPA] + 100 * BLOCK, 300);
        x[DEVICE_LEN] = 64 * BLOCK;
        x[EXEMPT] = 1;
    });
    let map = || (0..MAP_LEN).map(|place| (place % 4) as u8).collect();
    over_zeros(Scene {
        base: map(),
        sup: map(),
        ..scene(fields)
    })
}

/// Scenes with a super at or past the frames: its word is there, or is not.
pub fn unbacked_examples() -> impl Iterator<Item = Arena> {
    let supers = 300..MAP_LEN;
    supers.flat_map(|entry| {
        let mut x = holed();
        x.0.sup[entry] = 2;
        let absent = x.clone();
        [over_zeros(x.0), absent]
    })
}

pub fn unbacked(round: Round) -> impl Iterator<Item = Arena> {
    random(round.seeded(54), 10_000, any_unbacked)
}

fn any_unbacked(random: &mut Random) -> Arena {
    let Arena(mut scene) = any_encoded(random);
    scene.fields[SUP_FRAMES] = random.below(scene.fields[SUP_FRAMES].min(511) + 1);
    scene.sup.resize(MAP_LEN, 0);
    let frames = scene.fields[SUP_FRAMES];
    let entry = frames + random.below(MAP_LEN as u64 - frames) / (1 + random.below(64));
    scene.sup[entry as usize] = 1 + random.below(3) as u8;
    let mut x = over_zeros(scene);
    let slot = (x.0.fields[SUP_IPA] / BLOCK + entry) % 512;
    let place = table(5).start + slot as usize;
    match random.below(4) {
        0 => x.0.arena[place] = 0,
        1 | 2 => damage(random, &mut x.0.arena, place, &x.0.fields[TABLES]),
        _ => (),
    }
    x
}
