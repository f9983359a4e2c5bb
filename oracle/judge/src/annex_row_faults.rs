//! Slips of a port in the rows that refuse a page, above all in row 27.

use crate::annex::{Annexed, Written};
use crate::annex_faults::fault;
use crate::annex_page::{goes_on, page, runs_where, text, Neighbours, LINE, LONGEST};
use crate::annex_run_faults::next_output;
use crate::encode::{row_13, row_14, row_2};
use crate::encode_inputs::unmap_past_frames;
use crate::function::{with, Fault};
use crate::inputs::{words, Outcome};
use crate::layout::{row_10, ACCEPTED, SUP_FRAMES};
use crate::map_faults::{four_as_3, report_last};
use crate::maps::MAP_LEN;
use crate::port::UNWRITTEN;
use crate::port_layouts;

pub const FAULTS: &[Fault<Annexed>] = &[
    fault(
        "annex-row-27-if-exact",
        "a page as long as the buffer is refused",
        |x, reply| {
            if reply.written() == Some(x.buffer.len()) {
                refuse(x, reply, words([27]));
            }
        },
    ),
    fault(
        "annex-row-27-line-to-spare",
        "a page is refused that leaves less than a line",
        |x, reply| {
            if reply
                .written()
                .is_some_and(|len| x.buffer.len() < len + LINE)
            {
                refuse(x, reply, words([27]));
            }
        },
    ),
    fault(
        "annex-row-27-below-the-longest",
        "a buffer that is shorter than the longest page is refused",
        |x, reply| {
            if reply.settled() && x.buffer.len() < LONGEST {
                refuse(x, reply, words([27]));
            }
        },
    ),
    fault(
        "annex-row-27-by-pieces",
        "the buffer must have room for a line of each page and block",
        |x, reply| {
            let pieces = || text(&runs_where(&x.scene, |_| false)).len();
            if reply.written().is_some() && x.buffer.len() < pieces() {
                refuse(x, reply, words([27]));
            }
        },
    ),
    fault(
        "annex-row-27-cut-at-windows",
        "the buffer must have room for runs that end with their windows",
        |x, reply| {
            let cut = |two: &Neighbours| goes_on(two) && !two.in_two_windows(&x.scene);
            let needed = || text(&runs_where(&x.scene, cut)).len();
            if reply.written().is_some() && x.buffer.len() < needed() {
                refuse(x, reply, words([27]));
            }
        },
    ),
    fault(
        "annex-row-27-joined-at-windows",
        "the buffer must have room for runs that go on where windows meet, whatever the access",
        |x, reply| {
            let joined = |two: &Neighbours| {
                goes_on(two) || two.in_two_windows(&x.scene) && two.both(next_output)
            };
            cut_off(x, reply, |_| text(&runs_where(&x.scene, joined)).len());
        },
    ),
    fault(
        "annex-row-27-without-last-line",
        "only the lines before the last must have room",
        |x, reply| cut_off(x, reply, |page| page.len() - LINE),
    ),
    fault(
        "annex-row-27-last-line-feed",
        "the last line feed need not have room",
        |x, reply| cut_off(x, reply, |page| page.len() - 1),
    ),
    fault(
        "annex-row-27-of-nothing",
        "a page of its last line alone needs no room",
        |x, reply| {
            cut_off(x, reply, |page| match page.len() {
                LINE => 0,
                len => len,
            });
        },
    ),
    fault(
        "annex-row-27-left-out",
        "what has no room is left out",
        |x, reply| cut_off(x, reply, |_| 0),
    ),
    fault(
        "annex-row-27-by-the-line",
        "as many lines are written as have room",
        |x, reply| {
            if reply.outcome[0] == 27 {
                let len = x.buffer.len() / LINE * LINE;
                *reply = Written::page(x, &page(&x.scene)[..len]);
            }
        },
    ),
    fault(
        "annex-row-27-writes",
        "the lines that have room are written before row 27 refuses",
        |x, reply| {
            if reply.outcome[0] == 27 {
                let len = x.buffer.len() / LINE * LINE;
                reply.buffer[..len].copy_from_slice(&page(&x.scene)[..len]);
            }
        },
    ),
    fault(
        "annex-row-27-writes-bytes",
        "the bytes that have room are written before row 27 refuses",
        |x, reply| {
            if reply.outcome[0] == 27 {
                let len = x.buffer.len();
                reply.buffer.copy_from_slice(&page(&x.scene)[..len]);
            }
        },
    ),
    fault(
        "annex-row-27-writes-last-line",
        "the last line is written before row 27 refuses",
        |_, reply| {
            if let (27, Some(end)) = (reply.outcome[0], reply.buffer.last_chunk_mut::<LINE>()) {
                end.copy_from_slice(b"=======================================\n");
            }
        },
    ),
    fault(
        "annex-row-27-zeroes",
        "row 27 leaves zeros in the buffer",
        |_, reply| {
            if reply.outcome[0] == 27 {
                reply.buffer.fill(0);
            }
        },
    ),
    fault(
        "annex-row-27-carries",
        "row 27 carries the bytes of the page",
        |x, reply| {
            if reply.outcome[0] == 27 {
                reply.outcome[1] = page(&x.scene).len() as u64;
            }
        },
    ),
    fault(
        "annex-row-27-carries-the-buffer",
        "row 27 carries the bytes of the buffer",
        |x, reply| {
            if reply.outcome[0] == 27 {
                reply.outcome[1] = x.buffer.len() as u64;
            }
        },
    ),
    fault(
        "annex-row-27-values-unwritten",
        "row 27 does not write the values",
        |_, reply| {
            if reply.outcome[0] == 27 {
                reply.outcome[1..].fill(UNWRITTEN);
            }
        },
    ),
    fault(
        "annex-row-27-as-26",
        "a page that is too long is refused by 26",
        |_, reply| {
            if reply.outcome[0] == 27 {
                reply.outcome[0] = 26;
            }
        },
    ),
    fault(
        "annex-row-27-before-14",
        "the room is tested before the supers",
        |x, reply| {
            if reply.outcome[0] == 14 {
                let placed = with(x, |x| unmap_past_frames(&mut x.scene));
                if placed.outcome[0] == 27 {
                    *reply = placed;
                }
            }
        },
    ),
    fault(
        "annex-row-27-before-13",
        "the room is tested before the tables",
        |x, reply| {
            let room = x.buffer.len();
            if reply.outcome[0] == 13 && row_14(&x.scene).is_none() && page(&x.scene).len() > room {
                refuse(x, reply, words([27]));
            }
        },
    ),
    fault(
        "annex-row-27-first",
        "a buffer without room for a line is refused before all else",
        |x, reply| {
            if x.buffer.len() < LINE {
                refuse(x, reply, words([27]));
            }
        },
    ),
    fault(
        "annex-row-2-of-513",
        "a map may have one entry more",
        |x, reply| {
            if x.scene.base.len().max(x.scene.sup.len()) == MAP_LEN + 1 {
                *reply = with(x, |x| {
                    x.scene.base.truncate(MAP_LEN);
                    x.scene.sup.truncate(MAP_LEN);
                });
            }
        },
    ),
    fault(
        "annex-row-2-super-unbounded",
        "the length of the super map is not tested",
        |x, reply| *reply = with(x, |x| x.scene.sup.truncate(MAP_LEN)),
    ),
    fault("annex-row-3-of-4", "a byte of 4 is accepted", |x, reply| {
        *reply = with(x, |x| {
            four_as_3(&mut x.scene.base);
            four_as_3(&mut x.scene.sup);
        });
    }),
    fault(
        "annex-row-3-highest-position",
        "the last byte above 3 is reported",
        |x, reply| {
            if reply.outcome[..2] == [3, 1] {
                report_last(&x.scene.base, &mut reply.outcome);
            }
        },
    ),
    fault(
        "annex-row-3-before-row-2",
        "the bytes of the base map are tested before the lengths",
        |x, reply| {
            let place = x.scene.base.iter().position(|byte| *byte > 3);
            if let Some(place) = place.filter(|_| row_2(&x.scene).is_some()) {
                reply.outcome = words([3, 1, place as u64]);
            }
        },
    ),
    fault(
        "annex-row-3-after-row-12",
        "the bytes of the maps are tested after the layout",
        |x, reply| {
            let layout = port_layouts::validate(&x.scene.fields);
            if reply.outcome[0] == 3 && layout != ACCEPTED {
                reply.outcome = layout;
            }
        },
    ),
    fault(
        "annex-row-10-first",
        "the outputs are tested before the rest of the layout",
        |x, reply| {
            if (4..=12).contains(&reply.outcome[0]) {
                reply.outcome = row_10(&x.scene.fields).unwrap_or(reply.outcome);
            }
        },
    ),
    fault(
        "annex-row-13-left-out",
        "equal tables are not refused",
        |x, reply| {
            if reply.outcome[0] == 13 {
                *reply = Written::page(x, &page(&x.scene));
                reply.outcome = row_14(&x.scene).unwrap_or(reply.outcome);
            }
        },
    ),
    fault(
        "annex-row-14-left-out",
        "a super past the frames is not refused",
        |x, reply| {
            if reply.outcome[0] == 14 {
                *reply = Written::page(x, &page(&x.scene));
            }
        },
    ),
    fault(
        "annex-row-14-at-the-frames",
        "the super at sup_frames is not refused",
        |x, reply| {
            if reply.outcome[..2] == [14, x.scene.fields[SUP_FRAMES]] {
                *reply = Written::page(x, &page(&x.scene));
            }
        },
    ),
    fault(
        "annex-row-14-before-13",
        "row 14 comes before row 13",
        |x, reply| {
            if reply.outcome[0] == 13 {
                reply.outcome = row_14(&x.scene).unwrap_or(reply.outcome);
            }
        },
    ),
    fault(
        "annex-row-13-before-4",
        "the tables are compared before the layout is validated",
        |x, reply| {
            if (4..=12).contains(&reply.outcome[0]) {
                reply.outcome = row_13(&x.scene.fields).unwrap_or(reply.outcome);
            }
        },
    ),
    fault(
        "annex-row-1-tested",
        "without an arena, row 1 refuses",
        |x, reply| refuse(x, reply, words([1])),
    ),
    fault(
        "annex-refused-writes",
        "a refusal by another row leaves zeros in the buffer",
        |_, reply| {
            if !reply.settled() {
                reply.buffer.fill(0);
            }
        },
    ),
    fault(
        "annex-refused-values-left-out",
        "a refusal has its number and no values",
        |_, reply| {
            if reply.outcome[0] != 0 {
                reply.outcome[1..].fill(0);
            }
        },
    ),
];

fn refuse(x: &Annexed, reply: &mut Written, refusal: Outcome) {
    *reply = Written::refused(x, refusal);
}

/// Where row 27 refuses, accepts a buffer that has room for so much of the page, and writes what
/// there is room for.
fn cut_off(x: &Annexed, reply: &mut Written, needed: impl Fn(&[u8]) -> usize) {
    if reply.outcome[0] == 27 {
        let page = page(&x.scene);
        let room = x.buffer.len();
        if room >= needed(&page) {
            let outcome = words([0, page.len() as u64]);
            *reply = Written::new(outcome, page[..room].to_vec());
        }
    }
}
