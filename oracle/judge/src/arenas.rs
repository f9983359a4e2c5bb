//! What an arena may hold before a call.

use crate::encode::{encode, Scene, ARENA_LEN};
use crate::encode_inputs::unmap_past_frames;
use crate::inputs::Random;
use crate::layout_inputs::accepted;
use crate::maps::MAP_LEN;

/// Zeros, ones, any words, a few words, or what another layout's encoding has left.
pub fn old_words(random: &mut Random, len: usize) -> Vec<u64> {
    let mut words = match random.below(8) {
        0 | 1 => vec![0; len],
        2 => vec![u64::MAX; len],
        3 => (0..len).map(|_| random.word()).collect(),
        4 => few_words(random, len),
        _ => stale_words(random),
    };
    words.resize(len, 0);
    words
}

fn few_words(random: &mut Random, len: usize) -> Vec<u64> {
    let mut words = vec![0; len];
    for _ in 0..random.below(len as u64 + 1) / 32 {
        words[random.below(len as u64) as usize] = random.word();
    }
    words
}

/// All that an accepted layout maps.
fn stale_words(random: &mut Random) -> Vec<u64> {
    let mut scene = Scene {
        arena: vec![0; ARENA_LEN],
        base: vec![1 + random.below(3) as u8; MAP_LEN],
        sup: vec![1 + random.below(3) as u8; MAP_LEN],
        fields: accepted(random),
    };
    unmap_past_frames(&mut scene);
    encode(&scene).arena
}
