//! What may have become of a word of an encoded arena.

use crate::descriptors::{descriptor, ACCESS, ACCESSED, ADDRESS, EXECUTE_NEVER, TYPE};
use crate::encode::{table, ARENA_LEN};
use crate::inputs::Random;
use crate::layout::PAGE;

/// A place in a table, which has document 01's number: half of the time one that is in use, if
/// there is any.
pub fn place(random: &mut Random, arena: &[u64], number: usize) -> usize {
    let any = table(number).start + random.below(512) as usize;
    match random.below(2) {
        0 => in_use(arena, number, any).unwrap_or(any),
        _ => any,
    }
}

/// The next place in use from this one on, in the same table.
fn in_use(arena: &[u64], number: usize, from: usize) -> Option<usize> {
    (from..table(number).end)
        .chain(table(number))
        .find(|place| arena[*place] != 0)
}

/// Puts another word there, or one that differs in a field, or another word of the arena.
pub fn damage(random: &mut Random, arena: &mut [u64], place: usize, tables: &[u64]) {
    let word = arena[place];
    arena[place] = match random.below(13) {
        0 | 1 => 0,
        2 => word ^ 1 << random.below(64),
        3 => word & !TYPE | random.below(4),
        4 => word & !ACCESS | random.below(4) << 6,
        5 => word ^ EXECUTE_NEVER,
        6 => word & !ACCESSED,
        7 => word ^ PAGE << random.below(36),
        8 => word | random.word() << 48,
        9 => arena[place ^ 1],
        10 => arena[random.below(ARENA_LEN as u64) as usize],
        11 => word & !ADDRESS | random.pick(tables) & ADDRESS,
        _ => descriptor(random, tables),
    };
}
