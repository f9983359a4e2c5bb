//! Slips of a port that checks maps against grants: in rows 2 and 3, in owners, and in what is
//! refused.

use crate::authorized::{anothers, nobodys, Granted};
use crate::function::{with, Fault};
use crate::inputs::{words, Outcome};
use crate::layout::ACCEPTED;
use crate::map_faults::{four_as_3, report_last};
use crate::maps::{self, MAP_LEN};
use crate::misread;
use crate::p2m::NOBODY;
use crate::port::UNWRITTEN;
use crate::port_maps;
use crate::record_inputs::frame;

pub const FAULTS: &[Fault<Granted>] = &[
    fault(
        "authorized-row-2-of-513",
        "the map may have one entry more",
        |x, answer| {
            if x.map.len() == MAP_LEN + 1 {
                *answer = with(x, |x| x.map.truncate(MAP_LEN));
            }
        },
    ),
    fault(
        "authorized-row-3-before-row-2",
        "the bytes of a map that is too long are tested",
        |x, answer| *answer = maps::row_3(1, &x.map).unwrap_or(*answer),
    ),
    fault(
        "authorized-row-3-of-4",
        "a byte of 4 is accepted",
        |x, answer| *answer = with(x, |x| four_as_3(&mut x.map)),
    ),
    fault(
        "authorized-row-3-highest",
        "the last byte above 3 is reported",
        |x, answer| report_last(&x.map, answer),
    ),
    fault(
        "authorized-row-3-when-reached",
        "a frame below the byte is refused first",
        |x, answer| {
            if answer[0] == 3 {
                let below = with(x, |x| x.map.truncate(answer[2] as usize));
                *answer = refused(&below).map_or(*answer, |_| below);
            }
        },
    ),
    fault(
        "authorized-last-entry-skipped",
        "the last entry of the map is not looked at",
        |x, answer| {
            if refused(answer).is_some() {
                *answer = with(x, |x| _ = x.map.pop());
            }
        },
    ),
    fault(
        "authorized-reading-as-nothing",
        "a map of Ro entries alone is taken for one that maps nothing",
        |x, answer| {
            if refused(answer).is_some() && x.map.iter().all(|byte| *byte < 2) {
                *answer = ACCEPTED;
            }
        },
    ),
    fault(
        "authorized-highest-first",
        "the last frame that is refused is reported",
        |x, answer| {
            let (mut left, mut next) = (x.clone(), *answer);
            while let Some(mfn) = refused(&next) {
                *answer = next;
                left.map[mfn] = 0;
                next = port_maps::authorized(&left);
            }
        },
    ),
    fault(
        "authorized-nobody-skipped",
        "a frame of nobody may be mapped",
        |x, answer| {
            *answer = without(x, |answer| nobodys(answer));
        },
    ),
    fault(
        "authorized-past-the-frames",
        "domain 0 owns the frame just past the list",
        |x, answer| *answer = with(x, |x| x.frames.push(frame(0, 0))),
    ),
    fault(
        "authorized-owner-65536-as-0",
        "owner 65,536 is taken for domain 0",
        |x, answer| *answer = with(x, |x| misread::nobody_as_domain_0(&mut x.frames)),
    ),
    fault(
        "authorized-owner-of-16-bits",
        "the high half of an owner's number is lost",
        |x, answer| *answer = with(x, |x| misread::owners_of_16_bits(&mut x.frames)),
    ),
    fault(
        "authorized-grant-to-oneself",
        "the owner needs a grant too",
        |x, answer| {
            let own = |mfn: &usize| {
                x.map[*mfn] != 0
                    && x.frames.get(*mfn).and_then(|frame| frame.domain()) == Some(x.dom)
            };
            let own = (0..x.map.len()).find(own);
            let lowest = own.filter(|own| refused(answer).is_none_or(|mfn| *own < mfn));
            if let Some(mfn) = lowest.filter(|_| ![2, 3].contains(&answer[0])) {
                let dom = x.dom.into();
                *answer = words([23, dom, mfn as u64, 1, dom, x.map[mfn].into()]);
            }
        },
    ),
    fault(
        "authorized-execute-as-write",
        "an Rx entry needs a grant for writing",
        |x, answer| {
            if *answer == ACCEPTED {
                *answer = with(x, |x| {
                    x.map
                        .iter_mut()
                        .for_each(|byte| *byte -= u8::from(*byte == 3));
                });
            }
        },
    ),
    fault(
        "authorized-row-24-as-23",
        "a write under a grant for reading is reported as having no grant",
        |_, answer| {
            if let [24, dom, mfn, owner, ..] = *answer {
                *answer = words([23, dom, mfn, 1, owner, 2]);
            }
        },
    ),
    fault(
        "authorized-row-23-as-24",
        "a write without any grant is reported as an escalation",
        |_, answer| {
            if let [23, dom, mfn, 1, owner, 2, ..] = *answer {
                *answer = words([24, dom, mfn, owner]);
            }
        },
    ),
    fault(
        "authorized-owner-without-flag",
        "the owner is carried alone, 65,536 for nobody",
        |_, answer| {
            if let [23, dom, mfn, owned, owner, perm, ..] = *answer {
                let owner = if owned == 0 { NOBODY } else { owner };
                *answer = words([23, dom, mfn, owner, perm]);
            }
        },
    ),
    fault(
        "authorized-nobody-by-number",
        "nobody is carried as 65,536 behind the flag",
        |_, answer| {
            if nobodys(answer) {
                answer[4] = NOBODY;
            }
        },
    ),
    fault(
        "authorized-domain-0-as-nobody",
        "domain 0 is carried as nobody",
        |_, answer| {
            if anothers(answer) && answer[4] == 0 {
                answer[3] = 0;
            }
        },
    ),
    fault(
        "authorized-row-24-with-flag",
        "a flag is carried before the owner that row 24 always has",
        |_, answer| {
            if let [24, dom, mfn, owner, ..] = *answer {
                *answer = words([24, dom, mfn, 1, owner]);
            }
        },
    ),
    fault(
        "authorized-word-unwritten",
        "the last word of the answer is not written where the map is accepted",
        |_, answer| {
            if *answer == ACCEPTED {
                answer[8] = UNWRITTEN;
            }
        },
    ),
];

pub const fn fault(
    name: &'static str,
    slip: &'static str,
    alter: fn(&Granted, &mut Outcome),
) -> Fault<Granted> {
    Fault {
        name,
        slip,
        op: (),
        alter,
    }
}

/// The frame that row 23 or 24 refuses.
pub fn refused(answer: &Outcome) -> Option<usize> {
    [23, 24].contains(&answer[0]).then_some(answer[2] as usize)
}

/// The port's answer after the entries that it refuses so are cleared.
fn without(x: &Granted, so: fn(&Outcome) -> bool) -> Outcome {
    let mut x = x.clone();
    loop {
        let answer = port_maps::authorized(&x);
        if !so(&answer) {
            return answer;
        }
        x.map[answer[2] as usize] = 0;
    }
}
