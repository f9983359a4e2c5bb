//! Steps around the ends of both halves, of scenes that are refused and of accepted ones.

use crate::damage::place;
use crate::encode::{target, Scene};
use crate::encode_inputs::{
    accepted_scene, any_scene, changed_scenes, filled_scenes, scene, scenes,
};
use crate::examples::{examples, Example};
use crate::inputs::{random, Random};
use crate::layout::L2_DEV;
use crate::layout_inputs::SCENE;
use crate::map_inputs::set;
use crate::round::Round;
use crate::step::{step, Step, HALF_WAY, STEPS};

/// Steps of scene S by hand: row 26 comes last.
const EXAMPLES: &[Example<Step>] = &[
    (&[0], |x| x.number = 6_143),
    (&[26, 0], |x| x.number = 6_144),
    (&[26, 0], |x| x.number = u64::MAX),
    (&[1], |x| {
        x.number = 6_144;
        x.scene.arena.clear();
    }),
    (&[13, 1, 6], |x| {
        x.number = 6_144;
        x.scene.fields[L2_DEV] = x.scene.fields[0];
    }),
    (&[14, 4], |x| {
        x.number = 6_144;
        set(&mut x.scene.sup, 4, 1);
    }),
];

/// Around the ends of both halves, and numbers of which some bits are a step's.
const NUMBERS: [u64; 20] = [
    0,
    1,
    3_070,
    3_071,
    3_072,
    3_073,
    6_142,
    6_143,
    6_144,
    6_145,
    8_192,
    9_216,
    65_536,
    65_536 + 3_072,
    1 << 32,
    (1 << 32) + 1,
    (1 << 32) + 6_143,
    1 << 63,
    u64::MAX - 1,
    u64::MAX,
];

/// Every step of scene S, and one of each scene in which rows compete.
pub fn example_steps() -> impl Iterator<Item = Step> {
    let of_s = |number| Step {
        scene: scene(SCENE),
        number,
    };
    examples(EXAMPLES, move || of_s(0), step)
        .chain((0..STEPS).chain(NUMBERS).map(of_s))
        .chain(numbered(Random(81), changed_scenes()))
}

pub fn steps(round: Round) -> impl Iterator<Item = Step> {
    numbered(round.seeded(82), scenes(round))
}

pub fn any_step(random: &mut Random) -> Step {
    Step {
        scene: any_scene(random),
        number: number(random),
    }
}

fn numbered(mut random: Random, scenes: impl Iterator<Item = Scene>) -> impl Iterator<Item = Step> {
    scenes.map(move |scene| Step {
        scene,
        number: number(&mut random),
    })
}

fn number(random: &mut Random) -> u64 {
    match random.below(8) {
        0..3 => random.pick(&NUMBERS),
        3 => random.word() >> random.below(64),
        _ => random.below(STEPS),
    }
}

/// Every slot of a table and every length of a map, in arenas of zeros and of ones.
pub fn filled_zeroing() -> impl Iterator<Item = Step> {
    let mut random = Random(83);
    filled_scenes().map(move |scene| zeroing(&mut random, scene))
}

pub fn zeroing_steps(round: Round) -> impl Iterator<Item = Step> {
    random(round.seeded(84), 15_000, |random| {
        let scene = accepted_scene(random);
        zeroing(random, scene)
    })
}

fn zeroing(random: &mut Random, scene: Scene) -> Step {
    Step {
        scene,
        number: random.below(HALF_WAY),
    }
}

pub fn filled_storing() -> impl Iterator<Item = Step> {
    let mut random = Random(85);
    filled_scenes().map(move |scene| storing(&mut random, scene))
}

pub fn storing_steps(round: Round) -> impl Iterator<Item = Step> {
    random(round.seeded(86), 30_000, |random| {
        let scene = accepted_scene(random);
        storing(random, scene)
    })
}

/// A step that stores in any of the tables, half of the time a word that is not zero.
fn storing(random: &mut Random, scene: Scene) -> Step {
    let number = 1 + random.below(6) as usize;
    let place = place(random, &target(&scene), number);
    Step {
        scene,
        number: STEPS - 1 - place as u64,
    }
}
