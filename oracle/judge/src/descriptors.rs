//! Words that a table may hold: of every type, with any access, and naming a table or not.

use crate::encode::ARENA_LEN;
use crate::inputs::Random;
use crate::layout::{OUTPUT_LIMIT, PAGE};

/// Document 01's words before the address is joined: table, pages, blocks, device.
pub const WORDS: [u64; 9] = [
    3,
    0x0040_0000_0000_07ff,
    0x0040_0000_0000_077f,
    0x77f,
    0x0040_0000_0000_07fd,
    0x0040_0000_0000_077d,
    0x77d,
    0x7fd,
    0x0040_0000_0000_04c1,
];

/// The bits of a word that hold an address.
pub const ADDRESS: u64 = OUTPUT_LIMIT - PAGE;

/// The bits of a word that hold the access, and the one of them that allows writing.
pub const ACCESS: u64 = 3 << 6;
pub const WRITABLE: u64 = 1 << 7;

/// The bits of a word that hold the type.
pub const TYPE: u64 = 3;

/// The bit that is clear where the first access faults.
pub const ACCESSED: u64 = 1 << 10;

pub const EXECUTE_NEVER: u64 = 1 << 54;

/// As many words as an arena has, any of which may name a table or its own.
pub fn ring(random: &mut Random, tables: &[u64]) -> Vec<u64> {
    let word = |_| descriptor(random, tables);
    (0..ARENA_LEN).map(word).collect()
}

/// Mostly one of document 01's words with one of the addresses; now and then with fields that no
/// encoding has.
pub fn descriptor(random: &mut Random, addresses: &[u64]) -> u64 {
    let address = match random.below(8) {
        0 => random.word(),
        _ => random.pick(addresses),
    };
    let word = address & ADDRESS | random.pick(&WORDS);
    match random.below(16) {
        0 => 0,
        1 => random.word(),
        2 => word ^ 1 << random.below(64),
        3 => word & !TYPE | random.below(4),
        4..=6 => word & !ACCESS | random.below(4) << 6,
        7 => word & !ACCESSED,
        8 => word ^ EXECUTE_NEVER,
        9 => word | random.word() << 48,
        _ => word,
    }
}
