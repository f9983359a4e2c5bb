//! Slips of a port that encodes in rows 1, 2, 3, 13 and 14.

use crate::encode::{row_13, row_14, row_2, Encoded, Scene, ARENA_LEN};
use crate::function::{with, Fault};
use crate::inputs::{altered, words};
use crate::layout::{pairs, ACCEPTED, IMAGE_PRESENT, L2_CODE, SUP_FRAMES, TABLES};
use crate::maps::MAP_LEN;
use crate::port_layouts;

pub const FAULTS: &[Fault<Scene>] = &[
    fault(
        "row-1-longer-arena",
        "an arena of more words is accepted",
        |scene, reply| {
            if scene.arena.len() > ARENA_LEN {
                *reply = with(scene, |scene| scene.arena.truncate(ARENA_LEN));
            }
        },
    ),
    fault(
        "row-1-after-row-2",
        "the maps' lengths are tested before the arena's",
        |scene, reply| reply.outcome = row_2(scene).unwrap_or(reply.outcome),
    ),
    fault(
        "row-2-of-513",
        "a map may have one entry more",
        |scene, reply| {
            if scene.base.len().max(scene.sup.len()) == MAP_LEN + 1 {
                *reply = with(scene, |scene| {
                    scene.base.truncate(MAP_LEN);
                    scene.sup.truncate(MAP_LEN);
                });
            }
        },
    ),
    fault(
        "row-2-super-unbounded",
        "the length of the super map is not tested",
        |scene, reply| *reply = with(scene, |scene| scene.sup.truncate(MAP_LEN)),
    ),
    fault(
        "row-2-carries-the-map",
        "the code of the map is carried",
        |_, reply| {
            if reply.outcome[0] == 2 {
                reply.outcome[1] = 1;
            }
        },
    ),
    fault("row-3-of-4", "a byte of 4 is accepted", |scene, reply| {
        *reply = with(scene, |scene| {
            for byte in scene.base.iter_mut().chain(&mut scene.sup) {
                *byte -= u8::from(*byte == 4);
            }
        });
    }),
    fault(
        "row-3-super-first",
        "the bytes of the super map are tested first",
        |scene, reply| {
            let place = scene.sup.iter().position(|byte| *byte > 3);
            if let Some(place) = place.filter(|_| reply.outcome[0] == 3) {
                reply.outcome = words([3, 2, place as u64]);
            }
        },
    ),
    fault(
        "row-3-highest-position",
        "the last byte above 3 is reported",
        |scene, reply| {
            let place = scene.base.iter().rposition(|byte| *byte > 3);
            if let Some(place) = place.filter(|_| reply.outcome[..2] == [3, 1]) {
                reply.outcome[2] = place as u64;
            }
        },
    ),
    fault(
        "row-3-after-row-12",
        "the bytes of the maps are tested after the layout",
        |scene, reply| {
            let layout = port_layouts::validate(&scene.fields);
            if reply.outcome[0] == 3 && layout != ACCEPTED {
                reply.outcome = layout;
            }
        },
    ),
    fault(
        "row-13-neighbours-alone",
        "a table is compared with the next one only",
        |scene, reply| {
            if reply.outcome[0] == 13 {
                let x = &scene.fields;
                let equal = (1..TABLES.end).find(|second| x[second - 1] == x[*second]);
                reply.outcome = equal
                    .map(|second| words([13, second as u64, 1 + second as u64]))
                    .or_else(|| row_14(scene))
                    .unwrap_or(ACCEPTED);
            }
        },
    ),
    fault(
        "row-13-lowest-second",
        "the pair with the lowest second table is reported",
        |scene, reply| {
            let x = &scene.fields;
            let equal = pairs(TABLES.end).filter(|(first, second)| x[*first] == x[*second]);
            let lowest = equal.min_by_key(|(_, second)| *second);
            if let Some((first, second)) = lowest.filter(|_| reply.outcome[0] == 13) {
                reply.outcome = words([13, 1 + first as u64, 1 + second as u64]);
            }
        },
    ),
    fault(
        "row-13-l2-code-unread",
        "the image's table is not compared where there is no image",
        |scene, reply| {
            if reply.outcome[0] == 13 && scene.fields[IMAGE_PRESENT] == 0 {
                // No table has an address that is not a page's.
                reply.outcome = row_13(&altered(scene.fields, |x| x[L2_CODE] = 1))
                    .or_else(|| row_14(scene))
                    .unwrap_or(ACCEPTED);
            }
        },
    ),
    fault(
        "row-13-before-row-4",
        "the tables are compared before the layout is validated",
        |scene, reply| {
            if (4..=12).contains(&reply.outcome[0]) {
                reply.outcome = row_13(&scene.fields).unwrap_or(reply.outcome);
            }
        },
    ),
    fault(
        "row-14-at-the-count",
        "a super may be mapped just past the frames",
        |scene, reply| {
            if reply.outcome[..2] == [14, scene.fields[SUP_FRAMES]] {
                let place = reply.outcome[1] as usize;
                *reply = with(scene, |scene| scene.sup[place] = 0);
            }
        },
    ),
    fault(
        "row-14-highest-position",
        "the last super past the frames is reported",
        |scene, reply| {
            let place = scene.sup.iter().rposition(|byte| *byte != 0);
            if let Some(place) = place.filter(|_| reply.outcome[0] == 14) {
                reply.outcome[1] = place as u64;
            }
        },
    ),
    fault(
        "row-14-before-row-13",
        "the supers are tested before the tables",
        |scene, reply| {
            if reply.outcome[0] == 13 {
                reply.outcome = row_14(scene).unwrap_or(reply.outcome);
            }
        },
    ),
];

pub const fn fault(
    name: &'static str,
    slip: &'static str,
    alter: fn(&Scene, &mut Encoded),
) -> Fault<Scene> {
    Fault {
        name,
        slip,
        op: (),
        alter,
    }
}
