//! What an update makes tables of: a layout, and the edges that its maps are filled from.

use crate::encode::{guard, Scene, ARENA_LEN};
use crate::fill::{fill, Filled, Filling};
use crate::inputs::Random;
use crate::layout::{Fields, ACCEPTED};
use crate::map_inputs::bytes;
use crate::maps::MAP_LEN;
use crate::port_maps;
use crate::records::Form;

#[derive(Clone)]
pub struct Source {
    /// The edges, with whole maps to be filled.
    pub filling: Filling,
    /// The layout, the maps as the unchanged Rust fills them, and an arena of zeros.
    pub scene: Scene,
}

impl Source {
    /// It fails if a row refuses the edges or the layout.
    pub fn new(filling: Filling, fields: Fields) -> Self {
        let Filled { outcome, base, sup } = fill(&filling);
        assert_eq!(outcome, ACCEPTED, "no row refuses {filling}");
        let scene = Scene {
            arena: vec![0; ARENA_LEN],
            base,
            sup,
            fields,
        };
        assert_eq!(guard(&scene), ACCEPTED, "no row refuses {scene}");
        Source { filling, scene }
    }

    /// The maps as the port fills them from the edges, as long or short as no row refuses.
    pub fn filled(&self, random: &mut Random) -> Filled {
        let x = Filling {
            base: room(random, &self.scene.base),
            sup: room(random, &self.scene.sup),
            ..self.filling.clone()
        };
        let filled = port_maps::fill(&x, Form::Rows);
        assert_eq!(filled.outcome, ACCEPTED, "no row refuses {x}");
        filled
    }
}

/// A map of any bytes that has room for all that is mapped, often no more.
fn room(random: &mut Random, map: &[u8]) -> Vec<u8> {
    let last = map.iter().rposition(|byte| *byte != 0);
    let least = last.map_or(0, |last| last + 1);
    let len = match random.below(4) {
        0 => least,
        1 => MAP_LEN,
        _ => least + random.below((MAP_LEN - least) as u64 + 1) as usize,
    };
    bytes(len, || random.word())
}
