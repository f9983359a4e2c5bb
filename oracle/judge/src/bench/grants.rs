//! `s2_authorized`.

use std::hint::black_box;

use given_s2::check::check_authorized_with;

use crate::authorized::Granted;
use crate::bench::scene::full;
use crate::bench::{calls, Line};
use crate::maps::{self, MAP_LEN};
use crate::record_inputs::frame;
use crate::records::{grants, system, Grant};

const DOM: u16 = 3;
const OTHER: u32 = 7;

pub fn lines() {
    line(
        "0 grants, no map",
        &Granted {
            map: vec![],
            ..granted(0)
        },
    );
    line(
        "0 grants, an empty map of 512",
        &Granted {
            map: vec![0; MAP_LEN],
            ..granted(0)
        },
    );
    for count in [0, 10, 100, 1_000] {
        line(
            &format!("{count} grants, a full map of 512"),
            &granted(count),
        );
    }
}

/// As many grants of another domain, of which the last are for frames of the map; all other frames
/// are the domain's own.
fn granted(count: usize) -> Granted {
    let foreign = count.min(MAP_LEN);
    let owner = |place: usize| if place < foreign { OTHER } else { DOM.into() };
    let grant = |number: usize| Grant {
        grantor: OTHER,
        grantee: DOM.into(),
        frame: (count - 1 - number) as u32,
        writable: 1,
    };
    Granted {
        dom: DOM,
        map: full(),
        frames: (0..MAP_LEN).map(|place| frame(owner(place), 1)).collect(),
        grants: (0..count).map(grant).collect(),
    }
}

fn line(input: &str, x: &Granted) {
    let line = Line {
        call: "s2_authorized",
        input,
        beside: "`check_authorized_with`",
        alike: true,
    };
    let system = system(&[], &x.frames);
    let grants = grants(&x.grants);
    let map = maps::entries(&x.map);
    let mut values = [0; 8];
    line.print(
        || {
            let (system, grants) = black_box((&system, &grants));
            black_box(check_authorized_with(
                black_box(x.dom),
                black_box(&map),
                |mfn| system.owner_of(mfn),
                |grantor, grantee, frame, writable| {
                    grants.authorizes(grantor, grantee, frame, writable)
                },
            ))
            .is_ok()
        },
        || calls::authorized(black_box(x), &mut values),
    );
}
