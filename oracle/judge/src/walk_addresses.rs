//! The addresses that an arena is walked at.

use crate::encode::TABLE_LEN;
use crate::inputs::Random;
use crate::layout::{all_windows, Fields, Window, BLOCK, INPUT_LIMIT, L1_SPAN, PAGE};
use crate::layout_edges::around;

/// Addresses in and around every window, present or not, and a few anywhere; and some past the
/// limit that have the same low bits.
pub fn addresses(random: &mut Random, x: &Fields) -> Vec<u64> {
    let mut addresses = LIMITS.to_vec();
    for window in all_windows(x) {
        addresses.extend(edges(random, window));
        addresses.extend(inside(random, window));
    }
    for _ in 0..16 {
        addresses.push(anywhere(random));
    }
    for _ in 0..addresses.len() / 4 {
        let address = random.pick(&addresses);
        addresses.push(alias(random, address));
    }
    addresses
}

/// The ends of the input addresses and of 64 bits.
pub const LIMITS: [u64; 4] = [0, INPUT_LIMIT - 1, INPUT_LIMIT, u64::MAX];

/// The ends of a window and of its 1 GiB, a page and a block in it, and what is around them.
fn edges(random: &mut Random, window: Window) -> Vec<u64> {
    let slot = window.ipa / L1_SPAN * L1_SPAN;
    let within = |span: u64| window.ipa.wrapping_add(span);
    let drawn = random.below(window.span.max(1) as u64);
    [
        window.ipa,
        within(window.span as u64),
        within(drawn / BLOCK * BLOCK),
        within(drawn / PAGE * PAGE),
        slot,
        slot.wrapping_add(L1_SPAN),
    ]
    .into_iter()
    .flat_map(|point| around(point, &[1, PAGE, BLOCK]))
    .collect()
}

fn inside(random: &mut Random, window: Window) -> Vec<u64> {
    let offset = || random.below(window.span.max(1) as u64);
    std::iter::repeat_with(offset)
        .take(24)
        .map(|offset| window.ipa.wrapping_add(offset))
        .collect()
}

/// An address below the limit.
pub fn anywhere(random: &mut Random) -> u64 {
    random.below(INPUT_LIMIT)
}

/// An address past the limit that has the same low bits.
pub fn alias(random: &mut Random, address: u64) -> u64 {
    let multiple = match random.below(2) {
        0 => 1 << random.below(25),
        _ => 1 + random.below((1 << 25) - 1),
    };
    (address % INPUT_LIMIT).wrapping_add(multiple * INPUT_LIMIT)
}

/// An address at which a walk over what a layout is encoded to reads the word of this place.
pub fn through(random: &mut Random, x: &Fields, place: usize) -> u64 {
    let [image, data, sup, device] = all_windows(x).map(|window| window.ipa % INPUT_LIMIT);
    let (address, span) = match 1 + place / TABLE_LEN {
        1 => (0, INPUT_LIMIT),
        2 => (image, L1_SPAN),
        3 => (data, L1_SPAN),
        4 => (data, BLOCK),
        5 => (sup, L1_SPAN),
        _ => (device, L1_SPAN),
    };
    let (index, part) = ((place % TABLE_LEN) as u64, span / TABLE_LEN as u64);
    address / span * span + index * part + random.below(part)
}
