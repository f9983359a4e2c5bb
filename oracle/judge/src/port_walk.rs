//! The port's side of walks: the function of `libs2.a` that is lent an arena and the addresses of
//! its tables.

use crate::encode::TABLE_LEN;
use crate::fenced::Fenced;
use crate::inputs::Outcome;
use crate::layout::{L1_SPAN, OUTPUT_LIMIT, PAGE};
use crate::port::{outcome, UNWRITTEN};
use crate::walk::Walk;

extern "C" {
    pub fn s2_walk(
        arena: *const u64,
        arena_len: usize,
        tables: *const [u64; 6],
        ipa: u64,
        values: *mut u64,
    ) -> u32;
}

/// The answer to a walk. It fails if the call has changed the arena or the addresses, or what
/// stands around them.
pub fn walk(x: &Walk) -> Outcome {
    let mut arena = Fenced::new(&x.arena, UNWRITTEN);
    let mut tables = Fenced::new(&x.tables, fence(x));
    // SAFETY: the arena is as long as is said, six addresses are lent, and eight values are written.
    // What is lent may be written through, so that a store shows below.
    let outcome = outcome(|values| unsafe {
        s2_walk(
            arena.as_mut_ptr(),
            x.arena.len(),
            tables.as_mut_ptr().cast(),
            x.ipa,
            values,
        )
    });
    let unchanged = arena.lent() == Some(&x.arena[..]) && tables.lent() == Some(&x.tables[..]);
    assert!(unchanged, "s2_walk stores into or around what {x} lends");
    outcome
}

/// The address that the walk's first word names, if no table has it: read, it would lead on.
fn fence(x: &Walk) -> u64 {
    let first = x.arena.get((x.ipa / L1_SPAN) as usize % TABLE_LEN);
    let named = first.map(|word| word % OUTPUT_LIMIT - word % PAGE);
    named
        .filter(|pa| !x.tables.contains(pa))
        .unwrap_or(UNWRITTEN)
}
