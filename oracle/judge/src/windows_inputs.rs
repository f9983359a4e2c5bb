//! Addresses in and around the windows of layouts, accepted and refused.

use crate::encode_inputs::{accepted_scene_over, any_fields, any_scene_over, scene};
use crate::examples::{examples, Example};
use crate::inputs::{random, Random};
use crate::layout::{all_windows, BLOCK};
use crate::layout_inputs::SCENE;
use crate::round::Round;
use crate::walk_addresses::{addresses, anywhere};
use crate::windows::{window_reach, Windowed};

/// What document 01's walks of scene S reach.
const EXAMPLES: &[Example<Windowed>] = &[
    (&[0, 1, 0x5000_1234, 2, 1], |x| x.ipa = 0x8000_1234),
    (&[0, 0], |x| x.ipa = 0x8000_0000),
    (&[0, 0], |x| x.ipa = 0x8000_2000),
    (&[0, 1, 0x6040_0010, 1, 0], |x| x.ipa = 0xc040_0010),
    (&[0, 0], |x| x.ipa = 0xc080_0000),
    (&[0, 1, 0x900_0018, 2, 1], |x| x.ipa = 0x900_0018),
    (&[0, 0], |x| x.ipa = 0x920_0000),
    (&[0, 0], |x| x.ipa = 0x80_8000_1234),
];

pub fn of_scene_s() -> impl Iterator<Item = Windowed> {
    examples(EXAMPLES, || Windowed::new(scene(SCENE), 0), window_reach)
}

/// Many addresses of each accepted layout.
pub fn in_windows(round: Round) -> impl Iterator<Item = Windowed> {
    let windowed = |random: &mut Random| {
        let x = Windowed::new(accepted_scene_over(random, Vec::new()), 0);
        let addresses = addresses(random, &x.scene.fields).into_iter();
        addresses.map(|ipa| x.at(ipa)).collect::<Vec<_>>()
    };
    random(round.seeded(91), 2_000, windowed).flatten()
}

/// One address of each layout, most of which a row refuses.
pub fn refused_or_not(round: Round) -> impl Iterator<Item = Windowed> {
    random(round.seeded(92), 200_000, |random| {
        let fields = any_fields(random);
        let scene = any_scene_over(random, fields, Vec::new());
        let window = all_windows(&scene.fields)[random.below(4) as usize];
        let ipa = match random.below(4) {
            0 => anywhere(random),
            _ => window.ipa.wrapping_add(random.below(2 * BLOCK)),
        };
        Windowed::new(scene, ipa)
    })
}
