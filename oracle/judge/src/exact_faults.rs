//! Slips of a port that checks maps against edges: in rows 2 and 3, in which edges count, and in
//! what is refused.

use crate::exact::Linked;
use crate::function::{with, Fault};
use crate::inputs::Outcome;
use crate::layout::ACCEPTED;
use crate::map_faults::{four_as_3, report_last};
use crate::maps::{self, MAP_LEN};
use crate::port::UNWRITTEN;
use crate::port_maps;
use crate::record_inputs::{L1, L2};
use crate::records::Form;

pub const FAULTS: &[Fault<Linked>] = &[
    fault(
        "exact-row-2-of-513",
        "the map may have one entry more",
        |x, answer| {
            if x.map.len() == MAP_LEN + 1 {
                *answer = with(x, |x| x.map.truncate(MAP_LEN));
            }
        },
    ),
    fault(
        "exact-row-3-before-row-2",
        "the bytes of a map that is too long are tested",
        |x, answer| *answer = maps::row_3(x.code(), &x.map).unwrap_or(*answer),
    ),
    fault(
        "exact-row-3-of-4",
        "a byte of 4 is accepted",
        |x, answer| *answer = with(x, |x| four_as_3(&mut x.map)),
    ),
    fault(
        "exact-row-3-highest",
        "the last byte above 3 is reported",
        |x, answer| report_last(&x.map, answer),
    ),
    fault(
        "exact-row-3-always-base",
        "the super map has the base map's code",
        |_, answer| {
            if answer[0] == 3 {
                answer[1] = 1;
            }
        },
    ),
    fault(
        "exact-row-3-when-reached",
        "a frame below the byte is refused first",
        |x, answer| {
            if answer[0] == 3 {
                let below = with(x, |x| x.map.truncate(answer[2] as usize));
                if below[0] == 25 {
                    *answer = below;
                }
            }
        },
    ),
    fault(
        "exact-other-span",
        "the edges of the other span are taken",
        |x, answer| {
            if answer[0] != 3 {
                *answer = with(x, |x| x.span = if x.span == 2 { 1 } else { 2 });
            }
        },
    ),
    fault(
        "exact-1-as-super",
        "a span of 1 is taken for super",
        |x, answer| {
            if x.span == 1 {
                *answer = with(x, |x| x.span = 2);
            }
        },
    ),
    fault(
        "exact-base-only-by-1",
        "a span that is another number than 1 is taken for super",
        |x, answer| {
            if x.span != 1 {
                *answer = with(x, |x| x.span = 2);
            }
        },
    ),
    fault(
        "exact-span-in-8-bits",
        "of the span the lowest byte is read",
        |x, answer| *answer = with(x, |x| x.span %= 256),
    ),
    fault(
        "exact-both-spans",
        "the edges of both spans are taken",
        |x, answer| {
            *answer = with(x, |x| {
                let kind = x.kind();
                let tables = x.frames.iter_mut();
                let either = tables.filter(|frame| [L1, L2].contains(&frame.kind));
                either.for_each(|frame| frame.kind = kind);
            });
        },
    ),
    fault(
        "exact-any-kind",
        "the kind of the parent is not tested",
        |x, answer| {
            *answer = with(x, |x| {
                let kind = x.kind();
                x.frames.iter_mut().for_each(|frame| frame.kind = kind);
            });
        },
    ),
    fault(
        "exact-first-edge",
        "the first edge that matches is taken",
        |x, answer| *answer = with(x, |x| x.edges.reverse()),
    ),
    fault(
        "exact-last-edge-unread",
        "the list of edges is read one short",
        |x, answer| *answer = with(x, |x| _ = x.edges.pop()),
    ),
    fault(
        "exact-unmapped-entries-skipped",
        "an entry of 0 is not compared",
        |x, answer| *answer = without(x, |answer| answer[3] == 0),
    ),
    fault(
        "exact-stale-entries-skipped",
        "an entry for which no edge matches is not compared",
        |x, answer| *answer = without(x, |answer| answer[4] == 0),
    ),
    fault(
        "exact-permissions-not-compared",
        "an entry is only compared for being mapped",
        |x, answer| *answer = without(x, |answer| answer[3] != 0 && answer[4] != 0),
    ),
    fault(
        "exact-last-entry-skipped",
        "the last entry of the map is not compared",
        |x, answer| {
            if answer[0] == 25 {
                *answer = with(x, |x| _ = x.map.pop());
            }
        },
    ),
    fault(
        "exact-highest-first",
        "the last frame that differs is reported",
        |x, answer| {
            let (mut left, mut next) = (x.clone(), *answer);
            while next[0] == 25 {
                *answer = next;
                left.map[next[2] as usize] = next[4] as u8;
                next = port_maps::exact(&left, Form::Rows);
            }
        },
    ),
    fault(
        "exact-values-exchanged",
        "what is due is carried before what is mapped",
        |_, answer| {
            if answer[0] == 25 {
                answer.swap(3, 4);
            }
        },
    ),
    fault(
        "exact-word-unwritten",
        "the last word of the answer is not written where the map is accepted",
        |_, answer| {
            if *answer == ACCEPTED {
                answer[8] = UNWRITTEN;
            }
        },
    ),
];

pub const fn fault(
    name: &'static str,
    slip: &'static str,
    alter: fn(&Linked, &mut Outcome),
) -> Fault<Linked> {
    Fault {
        name,
        slip,
        op: Form::Rows,
        alter,
    }
}

/// The port's answer after the entries that it refuses so are set to what is due.
fn without(x: &Linked, so: fn(&Outcome) -> bool) -> Outcome {
    let mut x = x.clone();
    loop {
        let answer = port_maps::exact(&x, Form::Rows);
        if answer[0] != 25 || !so(&answer) {
            return answer;
        }
        x.map[answer[2] as usize] = answer[4] as u8;
    }
}
