//! arm64.rs: `window_reach`, after the rows that document 01 has tested where no arena is lent.
//!
//! Rows 2, 3, 13 and 14 are not in the Rust: they are as in encode.rs. Rows 4 to 12 are as in
//! layout.rs. What an accepted layout grants is the unchanged Rust's answer.

use std::rc::Rc;

use crate::encode::{rows_2_to_14, Scene};
use crate::function::{answers, Answer, Function, Input, Layer};
use crate::handed::{exchanged_numbers, handed, maps_otherwise, values_moved};
use crate::inputs::Outcome;
use crate::layout::LEAST;
use crate::port_windows;
use crate::reach::granted;
use crate::walk::{leaf, NOTHING};
use crate::windows_faults::FAULTS;
use crate::windows_inputs::{in_windows, of_scene_s, refused_or_not};

/// An address that is looked up in the windows of a layout. Of the scene no arena is lent.
#[derive(Clone)]
pub struct Windowed {
    pub scene: Rc<Scene>,
    pub ipa: u64,
}

pub const LAYER: Layer<Windowed> = Layer {
    functions: &[Function {
        call: "probe_windows",
        name: "window_reach",
        op: (),
        original: window_reach,
        boundary: || Box::new(of_scene_s()),
        sweep: |round| Box::new(in_windows(round).chain(refused_or_not(round))),
        answers: ANSWERS,
        least: LEAST,
        recorded: false,
    }],
    faults: &[FAULTS],
    wrapper_faults: &[
        exchanged_numbers!("windows", x => x.scene_mut().fields),
        values_moved!((), "windows", reply => *reply),
        maps_otherwise!("windows", x => *x.scene_mut()),
        &[handed!((), "windows-handed-no-ipa", "the address is 0", x => x.ipa = 0)],
    ],
};

const ANSWERS: &[Answer] = answers!(
    [
        ("nothing", |answer| *answer == NOTHING),
        ("Ro", leaf::<1, 0>),
        ("Ro never", leaf::<1, 1>),
        ("Rw", leaf::<2, 0>),
        ("Rw never", leaf::<2, 1>),
    ]
    2 3 4 5 6 7 8 9 10 11 12 13 14
);

impl Windowed {
    pub fn new(mut scene: Scene, ipa: u64) -> Self {
        scene.arena.clear();
        Windowed {
            scene: Rc::new(scene),
            ipa,
        }
    }

    /// The same windows at another address.
    pub fn at(&self, ipa: u64) -> Self {
        Windowed {
            ipa,
            ..self.clone()
        }
    }

    pub fn scene_mut(&mut self) -> &mut Scene {
        Rc::make_mut(&mut self.scene)
    }
}

impl Input for Windowed {
    type Op = ();
    type Reply = Outcome;

    fn port(&self, (): ()) -> Outcome {
        port_windows::window_reach(self)
    }

    fn shown(&self) -> String {
        format!("{:#x}, {}", self.ipa, self.scene)
    }
}

pub fn window_reach(x: &Windowed) -> Outcome {
    rows_2_to_14(&x.scene).unwrap_or_else(|| granted(&x.scene, x.ipa))
}
