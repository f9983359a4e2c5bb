//! The twelve calls of `libs2.a`, as include/dervhalt_s2.h declares them, and every `unsafe` line
//! of this crate.
//!
//! What the header asks of pointers holds here by types: a reference is aligned and not null, a
//! slice is as long as it says, and what a call may write is borrowed mutably, so that it overlaps
//! nothing else that is lent.

use core::ptr;

use crate::answer::Answer;
use crate::arena::{Arena, ARENA_LEN};
use crate::layout::{Numbers, TableNumbers};
use crate::maps::Maps;
use crate::names::Span;
use crate::records::{DomId, Edge, EdgeRow, Edges, Frame, GrantRow};

/// Declares calls that are lent an arena or a page, and two maps, before the layout.
macro_rules! declare_with_maps {
    ($($call:ident($first:ident: $lent:ty, $($after:ident: $last:ty),+);)*) => {
        extern "C" {
            $(fn $call(
                $first: $lent,
                len: usize,
                base: *const u8,
                base_len: usize,
                sup: *const u8,
                sup_len: usize,
                layout: &Numbers,
                $($after: $last),+
            ) -> u32;)*
        }
    };
}

declare_with_maps! {
    s2_encode(arena: *mut u64, values: &mut [u64; 8]);
    s2_step(arena: *mut u64, step: u64, values: &mut [u64; 8]);
    s2_verify(arena: *const u64, values: &mut [u64; 8]);
    s2_annex(page: *mut u8, values: &mut [u64; 8]);
}

/// Declares calls that fill both maps from edges of one form.
macro_rules! declare_filling {
    ($($call:ident($edge:ty);)*) => {
        extern "C" {
            $(fn $call(
                edges: *const $edge,
                edge_count: usize,
                frames: *const Frame,
                frame_count: usize,
                dom: u16,
                base: *mut u8,
                base_len: usize,
                sup: *mut u8,
                sup_len: usize,
                values: &mut [u64; 8],
            ) -> u32;)*
        }
    };
}

/// Declares calls that hold a map to edges of one form.
macro_rules! declare_exact {
    ($($call:ident($edge:ty);)*) => {
        extern "C" {
            $(fn $call(
                dom: u16,
                map: *const u8,
                map_len: usize,
                span: u32,
                edges: *const $edge,
                edge_count: usize,
                frames: *const Frame,
                frame_count: usize,
                values: &mut [u64; 8],
            ) -> u32;)*
        }
    };
}

declare_filling! {
    s2_fill(EdgeRow);
    s2_fill_edges(Edge);
}

declare_exact! {
    s2_exact(EdgeRow);
    s2_exact_edges(Edge);
}

extern "C" {
    fn s2_validate(layout: &Numbers, values: &mut [u64; 8]) -> u32;

    fn s2_exposed(layout: &Numbers, values: &mut [u64; 8]) -> u32;

    fn s2_walk(
        arena: *const u64,
        arena_len: usize,
        tables: &TableNumbers,
        ipa: u64,
        values: &mut [u64; 8],
    ) -> u32;

    fn s2_authorized(
        dom: u16,
        map: *const u8,
        map_len: usize,
        frames: *const Frame,
        frame_count: usize,
        grants: *const GrantRow,
        grant_count: usize,
        values: &mut [u64; 8],
    ) -> u32;
}

/// Makes a call with the pointer and length of an arena or a page, and of both maps, before the
/// layout.
macro_rules! with_maps {
    ($call:ident, $lent:expr, $len:expr, $maps:expr, $numbers:expr, $($after:expr),+) => {{
        let (base, sup) = ($maps.base(), $maps.sup());
        $call(
            $lent, $len, base.as_ptr(), base.len(), sup.as_ptr(), sup.len(), $numbers,
            $($after),+
        )
    }};
}

pub fn validate(numbers: &Numbers) -> Answer {
    // SAFETY: seventeen numbers are read, and eight values are written.
    answer(|values| unsafe { s2_validate(numbers, values) })
}

pub fn exposed(numbers: &Numbers) -> Answer {
    // SAFETY: seventeen numbers are read, and eight values are written.
    answer(|values| unsafe { s2_exposed(numbers, values) })
}

pub fn encode(arena: &mut [u64], maps: Maps<'_>, numbers: &Numbers) -> Answer {
    let (len, words) = (arena.len(), arena.as_mut_ptr());
    // SAFETY: the arena and each map are as long as is said, and eight values are written.
    answer(|values| unsafe { with_maps!(s2_encode, words, len, maps, numbers, values) })
}

pub fn step(arena: &mut [u64], maps: Maps<'_>, numbers: &Numbers, step: u64) -> Answer {
    let (len, words) = (arena.len(), arena.as_mut_ptr());
    // SAFETY: the arena and each map are as long as is said, and eight values are written.
    answer(|values| unsafe { with_maps!(s2_step, words, len, maps, numbers, step, values) })
}

pub fn verify(arena: &[u64], maps: Maps<'_>, numbers: &Numbers) -> Answer {
    let (words, len) = (arena.as_ptr(), arena.len());
    // SAFETY: the arena and each map are as long as is said, and eight values are written.
    answer(|values| unsafe { with_maps!(s2_verify, words, len, maps, numbers, values) })
}

pub fn annex(page: &mut [u8], maps: Maps<'_>, numbers: &Numbers) -> Answer {
    let (len, bytes) = (page.len(), page.as_mut_ptr());
    // SAFETY: the page and each map are as long as is said, and eight values are written.
    answer(|values| unsafe { with_maps!(s2_annex, bytes, len, maps, numbers, values) })
}

pub fn walk(arena: &[u64], tables: &TableNumbers, ipa: u64) -> Answer {
    let (words, len) = (arena.as_ptr(), arena.len());
    // SAFETY: the arena is as long as is said, six addresses are read, and eight values are written.
    answer(|values| unsafe { s2_walk(words, len, tables, ipa, values) })
}

/// Makes a call that is lent edges, by their form, between the parameters before and after them.
macro_rules! with_edges {
    ($edges:expr, $rows:ident, $records:ident, [$($before:expr),*], $($after:expr),+) => {
        match $edges {
            Edges::Rows(edges) => {
                $rows($($before,)* edges.as_ptr(), edges.len(), $($after),+)
            }
            Edges::Records(edges) => {
                $records($($before,)* edges.as_ptr(), edges.len(), $($after),+)
            }
        }
    };
}

pub fn fill(
    edges: Edges<'_>,
    frames: &[Frame],
    dom: DomId,
    base: &mut [u8],
    sup: &mut [u8],
) -> Answer {
    let (owners, count) = (frames.as_ptr(), frames.len());
    let (base_len, base) = (base.len(), base.as_mut_ptr());
    let (sup_len, sup) = (sup.len(), sup.as_mut_ptr());
    // SAFETY: each list and map is as long as is said, and eight values are written.
    answer(|values| unsafe {
        with_edges!(
            edges,
            s2_fill,
            s2_fill_edges,
            [],
            owners,
            count,
            dom,
            base,
            base_len,
            sup,
            sup_len,
            values
        )
    })
}

pub fn exact(dom: DomId, map: &[u8], span: Span, edges: Edges<'_>, frames: &[Frame]) -> Answer {
    let span = span as u32;
    let (entries, len) = (map.as_ptr(), map.len());
    let (owners, count) = (frames.as_ptr(), frames.len());
    // SAFETY: the map and each list are as long as is said, and eight values are written.
    answer(|values| unsafe {
        with_edges!(
            edges,
            s2_exact,
            s2_exact_edges,
            [dom, entries, len, span],
            owners,
            count,
            values
        )
    })
}

pub fn authorized(dom: DomId, map: &[u8], frames: &[Frame], grants: &[GrantRow]) -> Answer {
    // SAFETY: the map and each list are as long as is said, and eight values are written.
    answer(|values| unsafe {
        s2_authorized(
            dom,
            map.as_ptr(),
            map.len(),
            frames.as_ptr(),
            frames.len(),
            grants.as_ptr(),
            grants.len(),
            values,
        )
    })
}

// An arena is its words and nothing else.
const _: () = assert!(size_of::<Arena>() == size_of::<[u64; ARENA_LEN]>());

/// Words as an arena, if they are as many and begin where one can.
pub fn arena_over(words: &mut [u64]) -> Option<&mut Arena> {
    let words: &mut [u64; ARENA_LEN] = words.try_into().ok()?;
    let arena = ptr::from_mut(words).cast::<Arena>();
    // SAFETY: it is aligned, its bytes are those of the words, and the one borrow becomes the other.
    arena.is_aligned().then(|| unsafe { &mut *arena })
}

fn answer(call: impl FnOnce(&mut [u64; 8]) -> u32) -> Answer {
    let mut values = [0; 8];
    let number = call(&mut values);
    Answer { number, values }
}
