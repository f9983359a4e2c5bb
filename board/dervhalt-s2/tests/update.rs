//! Updates of tables in use: step by step, cut, and begun again.

#[path = "../examples/scene_s/scene.rs"]
mod scene;

use dervhalt_s2::{
    encode, leaf_map_from_edges, walk, Arena, AuthorizedMaps, CheckedLayout, Edge, Layout,
    Progress, Reach, Update, HALF_WAY, STEPS,
};
use scene::{DOM, EDGES, FRAMES, LAYOUT};

/// Where scenes S and `moved` have a leaf, and addresses beside these.
const ADDRESSES: [u64; 8] = [
    0x8000_1234,
    0x8000_2000,
    0xC040_0010,
    0xC060_0000,
    0x900_0018,
    0x920_0000,
    0x1_4000_0000,
    0x80_8000_1234,
];

type Reaches = [Option<Reach>; ADDRESSES.len()];

fn reaches(arena: &Arena) -> Reaches {
    ADDRESSES.map(|ipa| walk(arena, &LAYOUT.tables(), ipa))
}

/// S.
fn first() -> CheckedLayout {
    LAYOUT.checked().expect("the layout is accepted")
}

/// S with an image, with another output of data and with more supers.
fn moved() -> CheckedLayout {
    let layout = Layout {
        guest_image_pa: Some(0x1_4000_0000),
        data_pa_base: 0x7000_0000,
        sup_frames: 8,
        ..LAYOUT
    };
    layout.checked().expect("the layout is accepted")
}

/// Frame 1 can no more be written, and frame 3 is mapped as a super too.
fn fewer_rights() -> [Edge; 3] {
    let read = Edge {
        writable: false,
        ..EDGES[0]
    };
    [
        read,
        EDGES[1],
        Edge {
            child: 3,
            ..EDGES[1]
        },
    ]
}

fn with_maps<T>(edges: &[Edge], ask: impl FnOnce(AuthorizedMaps<'_>) -> T) -> T {
    let (mut base, mut sup) = ([0; 8], [0; 8]);
    let maps = leaf_map_from_edges(edges, &FRAMES, DOM, &mut base, &mut sup)
        .expect("the edges are accepted");
    ask(maps
        .authorized(&[])
        .expect("all frames are the domain's own"))
}

fn encoded(maps: AuthorizedMaps<'_>, layout: &CheckedLayout) -> Arena {
    let mut arena = Arena::ZEROS;
    encode(&mut arena, maps, layout).expect("no row refuses");
    arena
}

/// Makes so many steps, and holds every cut to what an update promises.
fn update(arena: &mut Arena, maps: AuthorizedMaps<'_>, layout: &CheckedLayout, steps: u64) {
    let (old, granted) = (reaches(arena), reaches(&encoded(maps, layout)));
    let mut before = arena.clone();
    let mut update = Update::begin(arena, maps, layout).expect("no row refuses");
    assert!(*update.arena() == before && update.stores() == 0);
    for stores in 1..=steps {
        let progress = update.step().expect("no row refuses");
        assert_eq!(update.stores(), stores);
        assert_eq!(progress == Progress::HalfWay, stores == HALF_WAY);
        assert_eq!(progress == Progress::Ended, stores == STEPS);
        let word = stored(stores);
        before.words[word] = update.arena().words[word];
        assert!(*update.arena() == before, "step {stores} stores one word");
        let whole = if stores < HALF_WAY { &old } else { &granted };
        allowed(stores, ADDRESSES.map(|ipa| update.walk(ipa)), whole);
    }
}

/// The place of an update's store.
fn stored(stores: u64) -> usize {
    let step = stores - 1;
    let word = if step < HALF_WAY {
        step
    } else {
        STEPS - 1 - step
    };
    word.try_into().unwrap()
}

/// An address reaches the whole answer or nothing, at half-way nothing, at the end the whole
/// answer.
fn allowed(stores: u64, found: Reaches, whole: &Reaches) {
    for (found, whole) in found.iter().zip(whole) {
        match stores {
            HALF_WAY => assert_eq!(*found, None),
            STEPS => assert_eq!(found, whole),
            _ => assert!(found.is_none() || found == whole, "after {stores} stores"),
        }
    }
}

#[test]
fn an_update_goes_from_one_scene_to_another() {
    let mut arena = with_maps(&EDGES, |maps| encoded(maps, &first()));
    with_maps(&fewer_rights(), |maps| {
        update(&mut arena, maps, &moved(), STEPS);
        assert!(arena == encoded(maps, &moved()));
    });
}

/// Cut in either half, at half-way and before its last store; then back to the first scene.
#[test]
fn a_cut_update_is_begun_again() {
    let old = with_maps(&EDGES, |maps| encoded(maps, &first()));
    for cut in [0, 3, 1600, HALF_WAY, 5000, STEPS - 1] {
        let mut arena = old.clone();
        with_maps(&fewer_rights(), |maps| {
            update(&mut arena, maps, &moved(), cut)
        });
        with_maps(&EDGES, |maps| update(&mut arena, maps, &first(), STEPS));
        assert!(arena == old);
    }
}

/// Nothing of the words found stays, whatever they are.
#[test]
fn an_update_begins_over_any_words() {
    let mut arena = Arena {
        words: [u64::MAX; 3072],
    };
    with_maps(&EDGES, |maps| {
        update(&mut arena, maps, &first(), STEPS);
        assert!(arena == encoded(maps, &first()));
    });
}
