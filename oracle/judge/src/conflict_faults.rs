//! Slips of a port in looking for frames that are in both maps.

use crate::fill::Filling;
use crate::fill_faults::fault;
use crate::function::{with, Fault};
use crate::layout::ACCEPTED;
use crate::map_inputs::set;

pub const FAULTS: &[Fault<Filling>] = &[
    fault(
        "fill-row-17-at-each-edge",
        "a conflict is refused as soon as it is stored",
        |x, filled| {
            let mut prefixes = (0..x.edges.len()).map(|count| with(x, |x| x.edges.truncate(count)));
            if let Some(early) = prefixes.find(|filled| filled.outcome[0] == 17) {
                *filled = early;
            }
        },
    ),
    fault(
        "fill-row-17-before-the-last-edge",
        "conflicts are looked for before the last edge is stored",
        |x, filled| {
            if filled.outcome[0] == 17 {
                filled.outcome = with(x, |x| _ = x.edges.pop()).outcome;
            }
        },
    ),
    fault(
        "fill-row-17-largest-first",
        "the last frame in both maps is reported",
        |_, filled| {
            let mut both = filled.base.iter().zip(&filled.sup);
            let last = both.rposition(|(base, sup)| *base != 0 && *sup != 0);
            if let Some(last) = last.filter(|_| filled.outcome[0] == 17) {
                filled.outcome[1] = last as u64;
            }
        },
    ),
    fault(
        "fill-row-17-not-tested",
        "a frame may be in both maps",
        |_, filled| {
            if filled.outcome[0] == 17 {
                filled.outcome = ACCEPTED;
            }
        },
    ),
    fault(
        "fill-row-17-last-frame",
        "the last frame that both maps have is not looked at",
        |x, filled| {
            let shared = x.base.len().min(x.sup.len()) as u64;
            if filled.outcome[..2] == [17, shared.saturating_sub(1)] {
                filled.outcome = ACCEPTED;
            }
        },
    ),
    fault(
        "fill-row-17-takes-back",
        "the refused frame is taken out of the super map",
        |_, filled| {
            if filled.outcome[0] == 17 {
                set(&mut filled.sup, filled.outcome[1] as usize, 0);
            }
        },
    ),
];
