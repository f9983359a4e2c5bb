//! The port's side of layouts: the functions of `libs2.a` that are handed one.

use crate::encode::{Encoded, Scene};
use crate::fenced::Fenced;
use crate::inputs::Outcome;
use crate::layout::Fields;
use crate::lending::{Lending, Lent};
use crate::port::{outcome, UNWRITTEN};
use crate::step::Step;

extern "C" {
    pub fn s2_validate(layout: *const Fields, values: *mut u64) -> u32;
    pub fn s2_exposed(layout: *const Fields, values: *mut u64) -> u32;
}

/// Declares functions that are lent an arena and two maps before the layout.
macro_rules! declare_with_scene {
    ($($function:ident($arena:ty, $($after:ident: $last:ty),+);)*) => {
        extern "C" {
            $(pub fn $function(
                arena: $arena,
                arena_len: usize,
                base: *const u8,
                base_len: usize,
                sup: *const u8,
                sup_len: usize,
                layout: *const Fields,
                $($after: $last),+
            ) -> u32;)*
        }
    };
}

declare_with_scene! {
    s2_encode(*mut u64, values: *mut u64);
    s2_step(*mut u64, step: u64, values: *mut u64);
    s2_verify(*const u64, values: *mut u64);
}

pub fn validate(fields: &Fields) -> Outcome {
    // SAFETY: `s2_validate` reads a layout and writes eight values.
    lend_layout(fields, |layout, values| unsafe {
        s2_validate(layout, values)
    })
}

pub fn exposed(fields: &Fields) -> Outcome {
    // SAFETY: `s2_exposed` reads a layout and writes eight values.
    lend_layout(fields, |layout, values| unsafe {
        s2_exposed(layout, values)
    })
}

/// What a call answers. It fails if the call has changed the layout, or what stands around it.
pub fn lend_layout(fields: &Fields, call: impl FnOnce(*const Fields, *mut u64) -> u32) -> Outcome {
    let mut layout = Fenced::new(fields, UNWRITTEN);
    let lent = layout.as_mut_ptr().cast();
    let outcome = outcome(|values| call(lent, values));
    let unchanged = layout.lent() == Some(&fields[..]);
    assert!(unchanged, "a call stores into the layout {fields:x?}");
    outcome
}

/// Makes a call with the arena and each map, with its length, before the layout.
macro_rules! with_scene {
    ($function:ident, $lent:expr, $layout:expr, $($after:expr),+) => {{
        let Lent {
            arena: (arena, arena_len),
            base: (base, base_len),
            sup: (sup, sup_len),
        } = $lent;
        $function(arena, arena_len, base, base_len, sup, sup_len, $layout, $($after),+)
    }};
}

pub(crate) use with_scene;

pub fn encode(scene: &Scene) -> Encoded {
    // SAFETY: the arena and each map are as long as is said, a layout is lent, and eight values are
    // written.
    lend("s2_encode", scene, |lent, layout, values| unsafe {
        with_scene!(s2_encode, lent, layout, values)
    })
}

/// The answer to a scene. It fails if the call has changed the arena.
pub fn verify(scene: &Scene) -> Outcome {
    // SAFETY: the arena and each map are as long as is said, a layout is lent, and eight values are
    // written.
    let reply = lend("s2_verify", scene, |lent, layout, values| unsafe {
        with_scene!(s2_verify, lent, layout, values)
    });
    let unchanged = reply.arena == scene.arena;
    assert!(unchanged, "s2_verify stores into the arena of {scene}");
    reply.outcome
}

pub fn step(x: &Step) -> Encoded {
    // SAFETY: the arena and each map are as long as is said, a layout is lent, and eight values are
    // written.
    lend("s2_step", &x.scene, |lent, layout, values| unsafe {
        with_scene!(s2_step, lent, layout, x.number, values)
    })
}

/// What a step is handed with an arena and maps that stay lent from call to call.
#[derive(Clone, Copy)]
pub struct Call {
    pub arena_len: usize,
    pub fields: Fields,
    pub number: u64,
}

pub fn step_in(lending: &mut Lending, call: Call) -> Outcome {
    let lent = lending.part(call.arena_len);
    // SAFETY: the arena and each map are as long as is said, a layout is lent, and eight values are
    // written.
    lend_layout(&call.fields, |layout, values| unsafe {
        with_scene!(s2_step, lent, layout, call.number, values)
    })
}

/// What a call answers and leaves in the arena. It fails if the call has changed a map or the
/// layout, or what stands around what it was lent.
fn lend(
    name: &str,
    scene: &Scene,
    call: impl FnOnce(Lent, *const Fields, *mut u64) -> u32,
) -> Encoded {
    let mut lending = Lending::new(&scene.arena, &scene.base, &scene.sup);
    let lent = lending.part(scene.arena.len());
    let outcome = lend_layout(&scene.fields, |layout, values| call(lent, layout, values));
    let unchanged = lending.holds(&scene.base, &scene.sup);
    assert!(unchanged, "{name} stores into the maps of {scene}");
    match lending.arena.lent() {
        Some(arena) => Encoded {
            outcome,
            arena: arena.to_vec(),
        },
        None => panic!("{name} stores around the arena of {scene}"),
    }
}
