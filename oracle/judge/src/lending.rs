//! An arena and two maps between fences, lent to one call or, one after another, to many.

use crate::fenced::{self, Fenced};
use crate::maps::NO_PERMISSION;
use crate::port::UNWRITTEN;

/// The byte of `Rw` in a map.
const RW: u8 = 2;

pub struct Lending {
    pub arena: Fenced<u64>,
    pub base: Fenced<u8>,
    sup: Fenced<u8>,
}

/// Where the arena and the maps start, and how much of them is lent. All may be written through, so
/// that a store shows.
pub struct Lent {
    pub arena: (*mut u64, usize),
    pub base: (*mut u8, usize),
    pub sup: (*mut u8, usize),
}

/// A map between entries that would be refused, or that would be encoded: by how many it maps.
fn fenced_map(map: &[u8]) -> Fenced<u8> {
    let mapped = map.iter().filter(|entry| **entry != 0).count();
    Fenced::new(map, [NO_PERMISSION, RW][mapped % 2])
}

impl Lending {
    pub fn new(arena: &[u64], base: &[u8], sup: &[u8]) -> Self {
        Lending {
            arena: Fenced::new(arena, UNWRITTEN),
            base: fenced_map(base),
            sup: fenced_map(sup),
        }
    }

    /// Lends other maps in the place of these.
    pub fn lend_maps(&mut self, base: &[u8], sup: &[u8]) {
        self.base = fenced_map(base);
        self.sup = fenced_map(sup);
    }

    /// As many words of the arena, or some of the fence after it too, and the maps whole.
    pub fn part(&mut self, arena_len: usize) -> Lent {
        assert!(arena_len <= self.arena.len() + fenced::LEN);
        let (base_len, sup_len) = (self.base.len(), self.sup.len());
        Lent {
            arena: (self.arena.as_mut_ptr(), arena_len),
            base: (self.base.as_mut_ptr(), base_len),
            sup: (self.sup.as_mut_ptr(), sup_len),
        }
    }

    /// Whether the maps are these, with their fences unchanged.
    pub fn holds(&self, base: &[u8], sup: &[u8]) -> bool {
        self.base.lent() == Some(base) && self.sup.lent() == Some(sup)
    }
}
