//! The port's side of filling and checking maps: the functions that `libs2.a` exports.
//!
//! Each call fails if it has changed what it was lent for reading, or what stands around it.

use crate::authorized::{authorized as original, Granted};
use crate::exact::Linked;
use crate::fenced::Fenced;
use crate::fill::{Filled, Filling};
use crate::inputs::Outcome;
use crate::maps::NO_PERMISSION;
use crate::port::outcome;
use crate::records::{Edge, EdgeRecord, Form, Frame, Grant};

extern "C" {
    pub fn s2_fill(
        edges: *const Edge,
        edge_count: usize,
        frames: *const Frame,
        frame_count: usize,
        dom: u16,
        base: *mut u8,
        base_len: usize,
        sup: *mut u8,
        sup_len: usize,
        values: *mut u64,
    ) -> u32;

    pub fn s2_fill_edges(
        edges: *const EdgeRecord,
        edge_count: usize,
        frames: *const Frame,
        frame_count: usize,
        dom: u16,
        base: *mut u8,
        base_len: usize,
        sup: *mut u8,
        sup_len: usize,
        values: *mut u64,
    ) -> u32;

    pub fn s2_authorized(
        dom: u16,
        map: *const u8,
        map_len: usize,
        frames: *const Frame,
        frame_count: usize,
        grants: *const Grant,
        grant_count: usize,
        values: *mut u64,
    ) -> u32;

    pub fn s2_exact(
        dom: u16,
        map: *const u8,
        map_len: usize,
        span: u32,
        edges: *const Edge,
        edge_count: usize,
        frames: *const Frame,
        frame_count: usize,
        values: *mut u64,
    ) -> u32;

    pub fn s2_exact_edges(
        dom: u16,
        map: *const u8,
        map_len: usize,
        span: u32,
        edges: *const EdgeRecord,
        edge_count: usize,
        frames: *const Frame,
        frame_count: usize,
        values: *mut u64,
    ) -> u32;
}

/// A call that fills, with edges of one form.
pub type Fill<E> = unsafe extern "C" fn(
    *const E,
    usize,
    *const Frame,
    usize,
    u16,
    *mut u8,
    usize,
    *mut u8,
    usize,
    *mut u64,
) -> u32;

/// A call that checks a map against edges of one form.
pub type Exact<E> = unsafe extern "C" fn(
    u16,
    *const u8,
    usize,
    u32,
    *const E,
    usize,
    *const Frame,
    usize,
    *mut u64,
) -> u32;

pub fn fill(x: &Filling, form: Form) -> Filled {
    match form {
        Form::Rows => fill_by(s2_fill, x, |edge| edge),
        Form::Records => fill_by(s2_fill_edges, x, Edge::record),
    }
}

pub fn exact(x: &Linked, form: Form) -> Outcome {
    match form {
        Form::Rows => exact_by(s2_exact, x, |edge| edge),
        Form::Records => exact_by(s2_exact_edges, x, Edge::record),
    }
}

/// The call is lent the edges in the form that `lent` gives them.
fn fill_by<E: Copy + PartialEq>(call: Fill<E>, x: &Filling, lent: fn(Edge) -> E) -> Filled {
    let given: Vec<E> = x.edges.iter().copied().map(lent).collect();
    let mut edges = Fenced::new(&given, lent(refused_edge(x)));
    let mut frames = Fenced::new(&x.frames, table(x.dom, 4));
    let mut base = Fenced::new(&x.base, NO_PERMISSION);
    let mut sup = Fenced::new(&x.sup, NO_PERMISSION);
    // SAFETY: each list and map is as long as is said, and eight values are written.
    let outcome = outcome(|values| unsafe {
        call(
            edges.as_mut_ptr(),
            given.len(),
            frames.as_mut_ptr(),
            x.frames.len(),
            x.dom,
            base.as_mut_ptr(),
            x.base.len(),
            sup.as_mut_ptr(),
            x.sup.len(),
            values,
        )
    });
    let unchanged = edges.lent() == Some(&given[..]) && frames.lent() == Some(&x.frames[..]);
    assert!(unchanged, "a filling stores into the lists of {x}");
    let filled = |map: Fenced<u8>| match map.lent() {
        Some(map) => map.to_vec(),
        None => panic!("a filling stores around the maps of {x}"),
    };
    Filled {
        outcome,
        base: filled(base),
        sup: filled(sup),
    }
}

pub fn authorized(x: &Granted) -> Outcome {
    let mut map = Fenced::new(&x.map, NO_PERMISSION);
    let mut frames = Fenced::new(&x.frames, table(x.dom, 2));
    let mut grants = Fenced::new(&x.grants, missing_grant(x));
    // SAFETY: the map and each list are as long as is said, and eight values are written.
    let outcome = outcome(|values| unsafe {
        s2_authorized(
            x.dom,
            map.as_mut_ptr(),
            x.map.len(),
            frames.as_mut_ptr(),
            x.frames.len(),
            grants.as_mut_ptr(),
            x.grants.len(),
            values,
        )
    });
    let unchanged = map.lent() == Some(&x.map[..])
        && frames.lent() == Some(&x.frames[..])
        && grants.lent() == Some(&x.grants[..]);
    assert!(unchanged, "s2_authorized stores into {x}");
    outcome
}

fn exact_by<E: Copy + PartialEq>(call: Exact<E>, x: &Linked, lent: fn(Edge) -> E) -> Outcome {
    let given: Vec<E> = x.edges.iter().copied().map(lent).collect();
    let mut map = Fenced::new(&x.map, NO_PERMISSION);
    let mut edges = Fenced::new(&given, lent(other_edge(x)));
    let mut frames = Fenced::new(&x.frames, table(x.dom, x.kind()));
    // SAFETY: the map and each list are as long as is said, and eight values are written.
    let outcome = outcome(|values| unsafe {
        call(
            x.dom,
            map.as_mut_ptr(),
            x.map.len(),
            x.span,
            edges.as_mut_ptr(),
            given.len(),
            frames.as_mut_ptr(),
            x.frames.len(),
            values,
        )
    });
    let unchanged = map.lent() == Some(&x.map[..])
        && edges.lent() == Some(&given[..])
        && frames.lent() == Some(&x.frames[..]);
    assert!(unchanged, "a check stores into {x}");
    outcome
}

/// A page table of the domain: past the frames, nobody owns one.
fn table(dom: u16, kind: u32) -> Frame {
    let owner = dom.into();
    Frame { owner, kind }
}

/// An edge that is refused, if the domain owns a frame at all.
fn refused_edge(x: &Filling) -> Edge {
    let owned = |frame: &Frame| frame.domain() == Some(x.dom);
    Edge {
        parent: x.frames.iter().position(owned).unwrap_or(0) as u32,
        slot: 0,
        child: u32::MAX,
        writable: 1,
        leaf: 1,
        execute: 0,
    }
}

/// An edge that asks for another entry at frame 0, if the domain has a table of the span.
fn other_edge(x: &Linked) -> Edge {
    let counted = |frame: &Frame| *frame == table(x.dom, x.kind());
    Edge {
        parent: x.frames.iter().position(counted).unwrap_or(0) as u32,
        slot: 0,
        child: 0,
        writable: (x.map.first() != Some(&2)).into(),
        leaf: 1,
        execute: 0,
    }
}

/// The grant without which row 23 or 24 refuses a domain's frame.
fn missing_grant(x: &Granted) -> Grant {
    let (mfn, owner) = match original(x) {
        [23, _, mfn, 1, owner, ..] | [24, _, mfn, owner, ..] => (mfn, owner),
        _ => (0, 0),
    };
    Grant {
        grantor: owner as u32,
        grantee: x.dom.into(),
        frame: mfn as u32,
        writable: 1,
    }
}
