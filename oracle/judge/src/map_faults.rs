//! Slips in row 3, of a port that reads a map.

use crate::inputs::Outcome;

/// A byte of 4 is accepted.
pub fn four_as_3(map: &mut [u8]) {
    map.iter_mut()
        .for_each(|byte| *byte -= u8::from(*byte == 4));
}

/// The last byte above 3 is reported.
pub fn report_last(map: &[u8], answer: &mut Outcome) {
    let last = map.iter().rposition(|byte| *byte > 3);
    if let Some(last) = last.filter(|_| answer[0] == 3) {
        answer[2] = last as u64;
    }
}
