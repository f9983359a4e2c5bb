//! Walks over arenas as they are encoded, with a word changed, and of any descriptors.

use std::rc::Rc;

use crate::damage::{damage, place};
use crate::descriptors::ring;
use crate::encode::{emitted, table, Scene, ARENA_LEN};
use crate::encode_inputs::{accepted_scene, filled_scenes, scene};
use crate::examples::{examples, Example};
use crate::inputs::{altered, random, Random};
use crate::layout::{Fields, OUTPUT_LIMIT, PAGE, TABLES};
use crate::layout_inputs::SCENE;
use crate::reach::Encoding;
use crate::round::Round;
use crate::walk::{walk, Walk};
use crate::walk_addresses::{addresses, alias, anywhere, through, LIMITS};

/// Document 01's walks of scene S, two more with a word changed, and row 1.
const EXAMPLES: &[Example<Walk>] = &[
    (&[0, 1, 0x5000_1234, 2, 1], |x| x.ipa = 0x8000_1234),
    (&[0, 0], |x| x.ipa = 0x8000_0000),
    (&[0, 0], |x| x.ipa = 0x8000_2000),
    (&[0, 1, 0x6040_0010, 1, 0], |x| x.ipa = 0xc040_0010),
    (&[0, 0], |x| x.ipa = 0xc080_0000),
    (&[0, 1, 0x900_0018, 2, 1], |x| x.ipa = 0x900_0018),
    (&[0, 0], |x| x.ipa = 0x920_0000),
    (&[0, 0], |x| x.ipa = 0x80_8000_1234),
    // Verification accepts both of these words.
    (&[0, 1, 0x5000_1234, 2, 1], |x| {
        Rc::make_mut(&mut x.arena)[table(5)][0] = 0x4000_3003;
        x.ipa = 0xc000_1234;
    }),
    (&[0, 1, 0x5000_1234, 2, 0], |x| {
        Rc::make_mut(&mut x.arena)[table(6)][0] = 0x5000_07fd;
        x.ipa = 0x1234;
    }),
    (&[1], |x| Rc::make_mut(&mut x.arena).clear()),
    (&[1], |x| Rc::make_mut(&mut x.arena).truncate(ARENA_LEN - 1)),
    (&[1], |x| Rc::make_mut(&mut x.arena).push(0)),
];

pub fn example_walks() -> impl Iterator<Item = Walk> {
    let scene_s = || {
        let scene = zeroed(scene(SCENE));
        Walk::new(emitted(&scene), &scene.fields)
    };
    examples(EXAMPLES, scene_s, walk)
}

/// Every l1 slot, every slot of the tables of level 2, and every length of a map.
pub fn filled_walks() -> impl Iterator<Item = Encoding> {
    let mut random = Random(41);
    filled_scenes()
        .filter(|scene| scene.arena[0] == 0)
        .flat_map(move |scene| encodings(&mut random, scene))
}

pub fn encoded_walks(round: Round) -> impl Iterator<Item = Encoding> {
    let walks = |random: &mut Random| {
        let scene = zeroed(accepted_scene(random));
        encodings(random, scene)
    };
    random(round.seeded(42), 1_000, walks).flatten()
}

fn zeroed(scene: Scene) -> Scene {
    altered(scene, |scene| scene.arena.fill(0))
}

fn encodings(random: &mut Random, scene: Scene) -> Vec<Encoding> {
    let walk = Walk::new(emitted(&scene), &scene.fields);
    let addresses = addresses(random, &scene.fields);
    let scene = Rc::new(scene);
    let encoding = |ipa| Encoding {
        scene: scene.clone(),
        walk: walk.at(ipa),
    };
    addresses.into_iter().map(encoding).collect()
}

/// Walks that read a changed word of an arena, or what the encoding has left there.
pub fn damaged_walks(round: Round) -> impl Iterator<Item = Walk> {
    random(round.seeded(43), 20_000, damaged).flatten()
}

fn damaged(random: &mut Random) -> Vec<Walk> {
    let scene = accepted_scene(random);
    let mut arena = emitted(&scene);
    let number = 1 + random.below(6) as usize;
    let place = place(random, &arena, number);
    damage(random, &mut arena, place, &scene.fields[TABLES]);
    if random.below(32) == 0 {
        let any = random.below(8_192);
        let len = random.pick(&[0, 1, 512, 3_071, 3_073, any]);
        arena.resize(len as usize, 0);
    }
    let walk = Walk::new(arena, &scene.fields);
    let mut through = || through(random, &scene.fields, place);
    let addresses = [through(), through(), through(), through(), through()];
    let alias = alias(random, addresses[0]);
    let addresses = addresses.into_iter().chain([alias, anywhere(random)]);
    addresses.map(|ipa| walk.at(ipa)).collect()
}

/// Walks over arenas in which every word may name a table, or the table that it stands in.
pub fn ringed_walks(round: Round) -> impl Iterator<Item = Walk> {
    random(round.seeded(44), 5_000, ringed).flatten()
}

fn ringed(random: &mut Random) -> Vec<Walk> {
    let tables = std::array::from_fn(|_| table_address(random));
    let walk = Walk {
        arena: Rc::new(ring(random, &tables)),
        tables,
        ipa: 0,
    };
    let addresses = std::iter::repeat_with(|| match random.below(16) {
        0 => {
            let address = anywhere(random);
            alias(random, address)
        }
        _ => anywhere(random),
    });
    let addresses = addresses.take(200).chain(LIMITS);
    addresses.map(|ipa| walk.at(ipa)).collect()
}

/// One of a few, so that tables often have the same, or one that no descriptor can name.
fn table_address(random: &mut Random) -> u64 {
    let address = random.below(6) * PAGE;
    match random.below(16) {
        0 => address + OUTPUT_LIMIT,
        1 => address + 1 + random.below(PAGE - 1),
        2 => random.word(),
        _ => address,
    }
}

impl Walk {
    /// A walk from the tables of a layout, at address 0.
    pub fn new(arena: Vec<u64>, x: &Fields) -> Self {
        Walk {
            arena: Rc::new(arena),
            tables: std::array::from_fn(|table| x[TABLES][table]),
            ipa: 0,
        }
    }

    /// The same tables at another address.
    pub fn at(&self, ipa: u64) -> Self {
        Walk {
            ipa,
            ..self.clone()
        }
    }
}
