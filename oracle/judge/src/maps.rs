//! Leaf maps: their bytes, and the rows by which document 01 refuses them. The Rust has no such
//! rows.

use given_s2::leafmap::Perm;

use crate::inputs::{words, Outcome};

/// The most entries of a map.
pub const MAP_LEN: usize = 512;

/// A byte that row 3 refuses, and that is mapped where it is only asked whether it is.
pub const NO_PERMISSION: u8 = u8::MAX;

/// Whether row 2 refuses the map.
pub fn too_long(map: &[u8]) -> bool {
    map.len() > MAP_LEN
}

/// Row 3 for the lowest byte that is no permission, with the code of the map.
pub fn row_3(code: u64, map: &[u8]) -> Option<Outcome> {
    let place = map.iter().position(|byte| *byte > 3)?;
    Some(words([3, code, place as u64]))
}

/// The map as the original is lent it.
pub fn entries(map: &[u8]) -> Vec<Option<Perm>> {
    map.iter().copied().map(entry).collect()
}

/// The map as the original leaves it.
pub fn bytes(entries: &[Option<Perm>]) -> Vec<u8> {
    entries.iter().copied().map(code).collect()
}

fn entry(byte: u8) -> Option<Perm> {
    match byte {
        0 => None,
        1 => Some(Perm::Ro),
        2 => Some(Perm::Rw),
        3 => Some(Perm::Rx),
        _ => panic!("row 3 refuses the byte {byte}"),
    }
}

pub fn code(entry: Option<Perm>) -> u8 {
    match entry {
        None => 0,
        Some(Perm::Ro) => 1,
        Some(Perm::Rw) => 2,
        Some(Perm::Rx) => 3,
    }
}

/// The length of a map, and those of its entries that are not zero.
pub fn shown(map: &[u8]) -> String {
    let mapped = map.iter().enumerate().filter(|(_, byte)| **byte != 0);
    let mapped = mapped.map(|(place, byte)| format!(" {place}:{byte}"));
    format!("{}{}", map.len(), mapped.collect::<String>())
}
