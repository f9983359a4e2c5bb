//! Maps beside grants by hand, and all pairs of a few grants.

use crate::authorized::{authorized, Granted};
use crate::examples::{examples, Example};
use crate::inputs::altered;
use crate::maps::MAP_LEN;
use crate::record_inputs::frame;
use crate::records::Grant;

/// A grant of domain 5.
const fn grant(grantee: u32, frame: u32, writable: u32) -> Grant {
    Grant {
        grantor: 5,
        grantee,
        frame,
        writable,
    }
}

/// Changes of a map and the answer to them. Domain 3 has its own frame 1 mapped `Rw`; of the other
/// frames up to 7, domain 5 owns frame 2 and nobody frame 4.
const EXAMPLES: &[Example<Granted>] = &[
    (&[0], |_| ()),
    (&[0], |x| x.map.clear()),
    (&[2], |x| x.map.resize(MAP_LEN + 1, 4)),
    (&[2], |x| x.map.resize(65_536 + 512, 0)),
    (&[3, 1, 511], |x| x.map[511] = 4),
    // Every byte is looked at before any owner.
    (&[3, 1, 5], |x| (x.map[4], x.map[5], x.map[6]) = (1, 4, 255)),
    (&[23, 3, 1, 0, 0, 2], |x| x.frames[1].owner = 65_536),
    (&[23, 3, 4, 0, 0, 3], |x| x.map[4] = 3),
    (&[23, 3, 8, 0, 0, 1], |x| x.map[8] = 1),
    (&[23, 3, 511, 0, 0, 1], |x| x.map[511] = 1),
    (&[23, 0, 9, 0, 0, 2], |x| {
        (x.dom, x.map[1], x.map[9]) = (0, 0, 2);
    }),
    (&[23, 3, 2, 1, 5, 2], |x| x.map[2] = 2),
    (&[23, 3, 2, 1, 0, 1], |x| {
        (x.map[2], x.frames[2].owner) = (1, 0)
    }),
    (&[24, 3, 2, 5], |x| granted(x, 2, &[grant(3, 2, 0)])),
    (&[0], |x| granted(x, 2, &[grant(3, 2, 1 << 31)])),
    (&[0], |x| granted(x, 1, &[grant(3, 2, 1)])),
    (&[0], |x| granted(x, 3, &[grant(3, 2, 0)])),
    // Any grant that covers the access will do.
    (&[0], |x| granted(x, 2, &[grant(3, 2, 0), grant(3, 2, 1)])),
    (&[0], |x| granted(x, 2, &[grant(3, 2, 1), grant(3, 2, 0)])),
    (&[24, 3, 2, 5], |x| {
        granted(x, 2, &[grant(4, 2, 1), grant(3, 2, 0), grant(3, 3, 1)]);
    }),
    // Grants that differ in one number, also above its low half.
    (&[23, 3, 2, 1, 5, 1], |x| {
        granted(x, 1, &[grant(4, 2, 1), grant(3, 3, 1)]);
    }),
    (&[23, 3, 2, 1, 5, 1], |x| {
        granted(x, 1, &[grant(65_536 + 3, 2, 1), grant(3, 65_536 + 2, 1)]);
    }),
    (&[23, 3, 2, 1, 5, 1], |x| {
        let others = [3, 4, 65_536 + 5].map(|grantor| Grant {
            grantor,
            ..grant(3, 2, 1)
        });
        granted(x, 1, &others);
    }),
    // Nobody grants nothing.
    (&[23, 3, 4, 0, 0, 1], |x| {
        let nobody = Grant {
            grantor: 65_536,
            ..grant(3, 4, 1)
        };
        (x.map[4], x.grants) = (1, vec![nobody]);
    }),
    // The lowest frame comes first.
    (&[23, 3, 2, 1, 5, 1], |x| {
        (x.map[2], x.map[4], x.map[9]) = (1, 1, 1);
    }),
    (&[23, 65_535, 3, 0, 0, 1], |x| {
        let owners = [65_535, 65_535, 65_534, 65_536];
        (x.dom, x.frames) = (65_535, owners.map(|owner| frame(owner, 0)).to_vec());
        x.map[..4].copy_from_slice(&[2, 2, 1, 1]);
        x.grants = vec![Grant {
            grantor: 65_534,
            ..grant(65_535, 2, 0)
        }];
    }),
];

/// Maps frame 2 beside these grants.
fn granted(x: &mut Granted, entry: u8, grants: &[Grant]) {
    (x.map[2], x.grants) = (entry, grants.to_vec());
}

/// The examples, and all pairs of a few grants beside any entry of a frame.
pub fn small_granted() -> impl Iterator<Item = Granted> {
    examples(EXAMPLES, own_frame, authorized).chain(grant_pairs().flat_map(one_frame))
}

fn own_frame() -> Granted {
    let owners = [3, 3, 5, 3, 65_536, 3, 3, 3];
    Granted {
        dom: 3,
        map: altered(vec![0; MAP_LEN], |map| map[1] = 2),
        frames: owners.map(|owner| frame(owner, 0)).to_vec(),
        grants: Vec::new(),
    }
}

/// Every list of two of a few grants, which are of frame 0 or 1 and mostly to domain 0.
fn grant_pairs() -> impl Iterator<Item = [Grant; 2]> {
    let domains = [(1, 0), (2, 0), (65_537, 0), (1, 3), (1, 65_536)];
    let grants = domains.into_iter().flat_map(|(grantor, grantee)| {
        [(0, 0), (0, 2), (1, 0), (1, 2)].map(|(frame, writable)| Grant {
            grantor,
            ..grant(grantee, frame, writable)
        })
    });
    let second = grants.clone();
    grants.flat_map(move |first| second.clone().map(move |second| [first, second]))
}

/// The grants beside any entry of frame 0, whoever owns it.
fn one_frame(grants: [Grant; 2]) -> impl Iterator<Item = Granted> {
    let owners = [Some(0), Some(1), Some(65_536), Some(65_537), None];
    let entries = owners
        .into_iter()
        .flat_map(|owner| (0..4).map(move |entry| (owner, entry)));
    entries.map(move |(owner, entry)| Granted {
        dom: 0,
        map: vec![entry],
        frames: owner.map(|owner| frame(owner, 0)).into_iter().collect(),
        grants: grants.to_vec(),
    })
}
