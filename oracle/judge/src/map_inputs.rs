//! Maps of any length, and what is done to their entries.

use crate::inputs::Random;

/// A map of permissions, in which some entries or most are mapped.
pub fn map(random: &mut Random) -> Vec<u8> {
    let len = length(random);
    let dense = random.below(2) == 0;
    let mut entries = || match dense {
        true => random.word(),
        false => random.sparse(),
    };
    bytes(len, || entries() & 0x0303_0303_0303_0303)
}

/// A map of any bytes, as a map to be filled may be.
pub fn dirty(random: &mut Random) -> Vec<u8> {
    let len = length(random);
    bytes(len, || random.word())
}

fn length(random: &mut Random) -> usize {
    let len = match random.below(16) {
        0 => random.pick(&[513, 514]),
        1..=6 => random.pick(&[0, 1, 511, 512]),
        _ => random.below(513),
    };
    len as usize
}

/// As many bytes as asked for, from words.
pub fn bytes(len: usize, word: impl FnMut() -> u64) -> Vec<u8> {
    let mut bytes: Vec<u8> = std::iter::repeat_with(word)
        .take(len.div_ceil(8))
        .flat_map(u64::to_le_bytes)
        .collect();
    bytes.truncate(len);
    bytes
}

/// Sets an entry if the map has it.
pub fn set(map: &mut [u8], place: usize, byte: u8) {
    if let Some(entry) = map.get_mut(place) {
        *entry = byte;
    }
}

/// Now and then, plants bytes that are no permissions.
pub fn spoil(random: &mut Random, map: &mut [u8]) {
    if random.below(16) == 0 && !map.is_empty() {
        for _ in 0..=random.below(2) {
            let place = random.below(map.len() as u64) as usize;
            map[place] = random.pick(&[4, 5, 128, 255]) as u8;
        }
    }
}
