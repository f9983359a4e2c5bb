//! Scenes as both sides are handed them.

use given_s2::arm64::Layout;
use given_s2::leafmap::Perm;

use crate::encode::{Table, TABLE_LEN};
use crate::inputs::altered;
use crate::layout::{
    layout, Fields, DEVICE, DEVICE_LEN, IMAGE, IMAGE_PRESENT, L1_SPAN, SUP_FRAMES, TABLES,
};
use crate::layout_inputs::SCENE;
use crate::lending::Lent;
use crate::maps::{self, MAP_LEN};

/// Each table stands at a whole page, as the machine asks.
#[repr(C, align(4096))]
pub struct Arena(pub [Table; TABLES.end]);

pub const ZEROS: Arena = Arena([[0; TABLE_LEN]; TABLES.end]);

pub struct Both {
    pub fields: Fields,
    base: Vec<u8>,
    sup: Vec<u8>,
    /// The same for the Rust.
    pub layout: Layout,
    pub leaves: Vec<Option<Perm>>,
    pub supers: Vec<Option<Perm>>,
}

impl Both {
    fn new(fields: Fields, base: Vec<u8>, sup: Vec<u8>) -> Self {
        let (leaves, supers) = (maps::entries(&base), maps::entries(&sup));
        Both {
            fields,
            base,
            sup,
            layout: layout(&fields),
            leaves,
            supers,
        }
    }

    pub fn maps(&self) -> (&[u8], &[u8]) {
        (&self.base, &self.sup)
    }

    pub fn lent(&self, arena: &mut Arena) -> Lent {
        let words = arena.0.as_flattened_mut();
        Lent {
            arena: (words.as_mut_ptr(), words.len()),
            base: (self.base.as_ptr().cast_mut(), self.base.len()),
            sup: (self.sup.as_ptr().cast_mut(), self.sup.len()),
        }
    }
}

/// The layout of scene S with an image, and each window as long as it can be.
pub const WHOLE: Fields = {
    let mut x = SCENE;
    x[IMAGE_PRESENT] = 1;
    x[IMAGE] = 0x1_4000_0000;
    x[DEVICE] = 0;
    x[DEVICE_LEN] = L1_SPAN;
    x[SUP_FRAMES] = MAP_LEN as u64;
    x
};

/// No maps, maps of 512 entries with nothing mapped, with one entry each and with all that there is
/// memory for.
pub fn scenes() -> [(&'static str, Both); 5] {
    let empty = || vec![0; MAP_LEN];
    let one = |place: usize, entry| altered(empty(), |map| map[place] = entry);
    let four = altered(empty(), |map| map[..4].copy_from_slice(&[1, 2, 3, 1]));
    [
        ("S, no maps", Both::new(SCENE, vec![], vec![])),
        ("S, empty maps of 512", Both::new(SCENE, empty(), empty())),
        (
            "S, one page and one super",
            Both::new(SCENE, one(1, 2), one(2, 3)),
        ),
        ("S, 512 pages and 4 supers", Both::new(SCENE, full(), four)),
        ("all words", Both::new(WHOLE, full(), full())),
    ]
}

/// All entries mapped, by each permission in turn.
pub fn full() -> Vec<u8> {
    (0..MAP_LEN).map(|place| 1 + (place % 3) as u8).collect()
}
