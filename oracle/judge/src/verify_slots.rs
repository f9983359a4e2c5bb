//! Which slots of l1 are live: an absent image or device has none, though its address names one, and
//! a place of a list that holds no slot makes none live. Each such answer is counted here; other
//! inputs show the slips too.

use crate::damage::damage;
use crate::encode_inputs::scene;
use crate::inputs::{altered, random, Random};
use crate::layout::{BLOCK, DEVICE, DEVICE_LEN, IMAGE, IMAGE_PRESENT, L1_SPAN, TABLES};
use crate::layout_inputs::SCENE;
use crate::round::Round;
use crate::verify::Arena;
use crate::verify_inputs::over_zeros;

/// The slots that the addresses of image and device name, present or not. Data's and super's are 2
/// and 3, and slot 0 is nobody's.
pub const IMAGE_SLOT: u64 = 5;
pub const DEVICE_SLOT: u64 = 7;

/// Scene S with its image and device there or not, each in its slot.
fn slotted(image: bool, device: bool) -> Arena {
    let fields = altered(SCENE, |x| {
        (x[IMAGE_PRESENT], x[IMAGE]) = (image.into(), IMAGE_SLOT * L1_SPAN);
        (x[DEVICE], x[DEVICE_LEN]) = (DEVICE_SLOT * L1_SPAN, u64::from(device) * BLOCK);
    });
    over_zeros(scene(fields))
}

/// A word that names a table, and one that does not, at each place of l1.
pub fn each_slot() -> impl Iterator<Item = Arena> {
    let bools = [false, true];
    let all = bools
        .into_iter()
        .flat_map(move |image| bools.map(|device| slotted(image, device)));
    all.flat_map(|x| {
        let words = [1, x.0.fields[TABLES.start] | 3];
        (0..512).flat_map(move |place| {
            words.map(|word| altered(x.clone(), |x| x.0.arena[place] = word))
        })
    })
}

/// One word of l1 or two, most at the slots that a window's address names and at the first.
pub fn any_slot(round: Round) -> impl Iterator<Item = Arena> {
    random(round.seeded(55), 24_000, |random: &mut Random| {
        let mut x = slotted(random.below(2) == 0, random.below(2) == 0);
        for _ in 0..=random.below(2) {
            let slots = [0, 2, 3, IMAGE_SLOT, DEVICE_SLOT, random.below(512)];
            let place = random.pick(&slots) as usize;
            damage(random, &mut x.0.arena, place, &x.0.fields[TABLES]);
        }
        x
    })
}
