//! The calls of `libs2.a`, with nothing around what they are lent and nothing made for them, so that
//! the call alone is timed. Each returns whether it accepts.

use std::hint::black_box;

use crate::authorized::Granted;
use crate::bench::scene::{Arena, Both};
use crate::exact::Linked;
use crate::fill::Filling;
use crate::inputs::Words;
use crate::layout::Fields;
use crate::lending::Lent;
use crate::port_annex::s2_annex;
use crate::port_layouts::{s2_encode, s2_exposed, s2_step, s2_validate, s2_verify, with_scene};
use crate::port_maps::{s2_authorized, Exact, Fill};
use crate::port_walk::s2_walk;

/// The values are stored, though nobody reads them.
fn accepts(number: u32, values: &mut Words) -> bool {
    black_box(values);
    number == 0
}

pub fn validate(fields: &Fields, values: &mut Words) -> bool {
    // SAFETY: a layout is lent, and eight values are written.
    let number = unsafe { s2_validate(fields, values.as_mut_ptr()) };
    accepts(number, values)
}

pub fn exposed(fields: &Fields, values: &mut Words) -> bool {
    // SAFETY: a layout is lent, and eight values are written.
    let number = unsafe { s2_exposed(fields, values.as_mut_ptr()) };
    accepts(number, values)
}

pub fn encode(scene: &Both, arena: &mut Arena, values: &mut Words) -> bool {
    let lent = scene.lent(arena);
    // SAFETY: the arena and each map are as long as is said, and eight values are written.
    let number = unsafe { with_scene!(s2_encode, lent, &scene.fields, values.as_mut_ptr()) };
    accepts(number, values)
}

pub fn step(scene: &Both, arena: &mut Arena, step: u64, values: &mut Words) -> bool {
    let lent = scene.lent(arena);
    // SAFETY: the arena and each map are as long as is said, and eight values are written.
    let number = unsafe { with_scene!(s2_step, lent, &scene.fields, step, values.as_mut_ptr()) };
    accepts(number, values)
}

pub fn verify(scene: &Both, arena: &mut Arena, values: &mut Words) -> bool {
    let lent = scene.lent(arena);
    // SAFETY: the arena and each map are as long as is said, and eight values are written.
    let number = unsafe { with_scene!(s2_verify, lent, &scene.fields, values.as_mut_ptr()) };
    accepts(number, values)
}

/// Whether the page has room.
pub fn annex(scene: &Both, page: &mut [u8], values: &mut Words) -> bool {
    let (base, sup) = scene.maps();
    // SAFETY: the buffer and each map are as long as is said, and eight values are written.
    let number = unsafe {
        s2_annex(
            page.as_mut_ptr(),
            page.len(),
            base.as_ptr(),
            base.len(),
            sup.as_ptr(),
            sup.len(),
            &scene.fields,
            values.as_mut_ptr(),
        )
    };
    accepts(number, values)
}

/// Whether the address reaches something.
pub fn walk(arena: &Arena, tables: &[u64; 6], ipa: u64, values: &mut Words) -> bool {
    let words = arena.0.as_flattened();
    // SAFETY: the arena is as long as is said, six addresses are lent, and eight values are written.
    let number = unsafe {
        s2_walk(
            words.as_ptr(),
            words.len(),
            tables,
            ipa,
            values.as_mut_ptr(),
        )
    };
    accepts(number, values) && values[0] == 1
}

/// The edges are lent in the form of the call.
pub fn fill<E>(call: Fill<E>, edges: &[E], x: &mut Filling, values: &mut Words) -> bool {
    // SAFETY: each list and map is as long as is said, and eight values are written.
    let number = unsafe {
        call(
            edges.as_ptr(),
            edges.len(),
            x.frames.as_ptr(),
            x.frames.len(),
            x.dom,
            x.base.as_mut_ptr(),
            x.base.len(),
            x.sup.as_mut_ptr(),
            x.sup.len(),
            values.as_mut_ptr(),
        )
    };
    accepts(number, values)
}

/// The edges are lent in the form of the call.
pub fn exact<E>(call: Exact<E>, edges: &[E], x: &Linked, values: &mut Words) -> bool {
    // SAFETY: the map and each list are as long as is said, and eight values are written.
    let number = unsafe {
        call(
            x.dom,
            x.map.as_ptr(),
            x.map.len(),
            x.span,
            edges.as_ptr(),
            edges.len(),
            x.frames.as_ptr(),
            x.frames.len(),
            values.as_mut_ptr(),
        )
    };
    accepts(number, values)
}

pub fn authorized(x: &Granted, values: &mut Words) -> bool {
    // SAFETY: the map and each list are as long as is said, and eight values are written.
    let number = unsafe {
        s2_authorized(
            x.dom,
            x.map.as_ptr(),
            x.map.len(),
            x.frames.as_ptr(),
            x.frames.len(),
            x.grants.as_ptr(),
            x.grants.len(),
            values.as_mut_ptr(),
        )
    };
    accepts(number, values)
}
