//! Maps that the owners do not allow become no tables, unless board code says that it answers for
//! them.

#[path = "../examples/scene_s/scene.rs"]
mod scene;

use dervhalt_s2::{
    encode, leaf_map_from_edges, walk, Arena, AuthorizedMaps, DomId, Edge, Frame, Grant, Maps, Mfn,
    Perm, Refusal,
};
use scene::{DOM, EDGES, FRAMES, LAYOUT};

const OTHER: DomId = 5;

/// S, with frames 1 and 2, which it maps as base 1 Rw and super 2 Rx, of owners.
fn frames(owner_of_1: DomId, owner_of_2: DomId) -> [Frame; 5] {
    let mut frames = FRAMES;
    frames[1] = Frame::new(Some(owner_of_1), None);
    frames[2] = Frame::new(Some(owner_of_2), None);
    frames
}

fn with_maps<T>(frames: &[Frame], edges: &[Edge], ask: impl FnOnce(Maps<'_>) -> T) -> T {
    let (mut base, mut sup) = ([0; 8], [0; 8]);
    let maps = leaf_map_from_edges(edges, frames, DOM, &mut base, &mut sup);
    ask(maps.expect("the edges are accepted"))
}

/// What S's maps draw, with grants of the other domain to this one.
fn answer(frames: &[Frame], grants: &[(Mfn, bool)]) -> Result<(), Refusal> {
    let row = |&(frame, writable): &(Mfn, bool)| {
        let grant = Grant {
            grantor: OTHER,
            grantee: DOM,
            frame,
            writable,
        };
        grant.row()
    };
    let rows: Vec<_> = grants.iter().map(row).collect();
    with_maps(frames, &EDGES, |maps| maps.authorized(&rows).map(|_| ()))
}

fn unauthorized(mfn: Mfn, perm: Perm) -> Result<(), Refusal> {
    Err(Refusal::UnauthorizedMapping {
        dom: DOM,
        mfn,
        owner: Some(OTHER),
        perm,
    })
}

/// Frame 2, of the super map, comes after frame 1, of the base map.
#[test]
fn both_maps_are_asked_the_base_map_first() {
    assert_eq!(answer(&FRAMES, &[]), Ok(()));
    let both = frames(OTHER, OTHER);
    assert_eq!(answer(&both, &[]), unauthorized(1, Perm::Rw));
    assert_eq!(answer(&both, &[(1, true)]), unauthorized(2, Perm::Rx));
    assert_eq!(answer(&frames(DOM, OTHER), &[]), unauthorized(2, Perm::Rx));
    assert_eq!(answer(&both, &[(1, true), (2, false)]), Ok(()));
    let escalation = Refusal::WriteEscalation {
        dom: DOM,
        mfn: 1,
        owner: OTHER,
    };
    assert_eq!(answer(&both, &[(1, false)]), Err(escalation));
    // The base map comes first though its frame is the higher one.
    let crossed = [
        Edge {
            child: 2,
            ..EDGES[0]
        },
        Edge {
            child: 1,
            ..EDGES[1]
        },
    ];
    let refused = with_maps(&both, &crossed, |maps| maps.authorized(&[]).map(|_| ()));
    assert_eq!(refused, unauthorized(2, Perm::Rw));
}

/// All four numbers of a grant differ, and no two can be exchanged.
#[test]
fn a_grant_says_what_its_fields_name() {
    let owned = frames(DOM, OTHER);
    let grant = Grant {
        grantor: OTHER,
        grantee: DOM,
        frame: 2,
        writable: true,
    };
    let wrong = [
        Grant {
            grantor: DOM,
            grantee: OTHER,
            ..grant
        },
        Grant {
            grantor: 2,
            frame: OTHER.into(),
            ..grant
        },
        Grant {
            grantee: 2,
            frame: DOM.into(),
            ..grant
        },
        Grant {
            grantor: 1,
            ..grant
        },
        Grant {
            grantee: 1,
            ..grant
        },
        Grant { frame: 1, ..grant },
    ];
    let ask = |grant: Grant| {
        with_maps(&owned, &EDGES, |maps| {
            maps.authorized(&[grant.row()]).map(|_| ())
        })
    };
    assert_eq!(ask(grant), Ok(()));
    for grant in wrong {
        assert_eq!(ask(grant), unauthorized(2, Perm::Rx));
    }
}

/// The same words, whoever vouches for the maps.
#[test]
fn assumed_maps_are_encoded_as_they_are() {
    let encoded = |maps: AuthorizedMaps<'_>| {
        let (mut arena, layout) = (Arena::ZEROS, LAYOUT.checked().unwrap());
        encode(&mut arena, maps, &layout).unwrap();
        arena
    };
    let checked = with_maps(&FRAMES, &EDGES, |maps| {
        encoded(maps.authorized(&[]).unwrap())
    });
    let assumed = with_maps(&frames(OTHER, OTHER), &EDGES, |maps| {
        assert_eq!(maps.assume_authorized().maps(), maps);
        assert_eq!(maps.dom(), DOM);
        encoded(maps.assume_authorized())
    });
    assert!(assumed == checked);
    assert!(walk(&assumed, &LAYOUT.tables(), 0x8000_1234).is_some());
}
