//! Slips in reading edges and frames, of a port that fills maps and of one that checks them against
//! edges.

use given_core::p2m::DomId;

use crate::exact::Linked;
use crate::exact_faults;
use crate::fill::Filling;
use crate::fill_faults;
use crate::function::{with, Fault};
use crate::record_inputs::{frame, L2, L3};
use crate::records::{Edge, Frame};

pub const FILL: &[Fault<Filling>] = &[
    fill_faults::fault(
        "fill-execute-first",
        "writable with execute gives Rx",
        |x, reply| *reply = with(x, |x| execute_first(&mut x.edges)),
    ),
    fill_faults::fault(
        "fill-interior-edges",
        "edges that are no leaves are not skipped",
        |x, reply| *reply = with(x, |x| all_leaves(&mut x.edges)),
    ),
    fill_faults::fault(
        "fill-child-from-slot",
        "the slot is taken for the child",
        |x, reply| *reply = with(x, |x| child_from_slot(&mut x.edges)),
    ),
    fill_faults::fault(
        "fill-parent-of-16-bits",
        "the high half of the parent is lost",
        |x, reply| *reply = with(x, |x| parents_of_16_bits(&mut x.edges)),
    ),
    fill_faults::fault(
        "fill-child-of-16-bits",
        "the high half of the child is lost",
        |x, reply| *reply = with(x, |x| children_of_16_bits(&mut x.edges)),
    ),
    fill_faults::fault(
        "fill-yes-only-by-1",
        "a flag that is another number than 1 is taken for no",
        |x, reply| *reply = with(x, |x| yes_only_by_1(&mut x.edges)),
    ),
    fill_faults::fault(
        "fill-foreign-parents",
        "edges of others' tables are not skipped",
        |x, reply| *reply = with(x, |x| all_owned(&mut x.frames, x.dom)),
    ),
    fill_faults::fault(
        "fill-owner-65536-as-0",
        "owner 65,536 is taken for domain 0",
        |x, reply| *reply = with(x, |x| nobody_as_domain_0(&mut x.frames)),
    ),
    fill_faults::fault(
        "fill-owner-of-16-bits",
        "the high half of an owner's number is lost",
        |x, reply| *reply = with(x, |x| owners_of_16_bits(&mut x.frames)),
    ),
    fill_faults::fault(
        "fill-past-the-frames",
        "domain 0 owns the frame just past the list",
        |x, reply| *reply = with(x, |x| x.frames.push(frame(0, 0))),
    ),
    fill_faults::fault(
        "fill-kind-4-as-super",
        "a leaf of an L3 table is taken for a super page",
        |x, reply| *reply = with(x, |x| l3_as_super(&mut x.frames)),
    ),
    fill_faults::fault(
        "fill-kind-of-8-bits",
        "kind 258 is taken for 2",
        |x, reply| *reply = with(x, |x| kinds_of_8_bits(&mut x.frames)),
    ),
];

pub const EXACT: &[Fault<Linked>] = &[
    exact_faults::fault(
        "exact-execute-first",
        "writable with execute gives Rx",
        |x, reply| *reply = with(x, |x| execute_first(&mut x.edges)),
    ),
    exact_faults::fault(
        "exact-interior-edges",
        "edges that are no leaves are taken too",
        |x, reply| *reply = with(x, |x| all_leaves(&mut x.edges)),
    ),
    exact_faults::fault(
        "exact-child-from-slot",
        "the slot is taken for the child",
        |x, reply| *reply = with(x, |x| child_from_slot(&mut x.edges)),
    ),
    exact_faults::fault(
        "exact-parent-of-16-bits",
        "the high half of the parent is lost",
        |x, reply| *reply = with(x, |x| parents_of_16_bits(&mut x.edges)),
    ),
    exact_faults::fault(
        "exact-child-of-16-bits",
        "the high half of the child is lost",
        |x, reply| *reply = with(x, |x| children_of_16_bits(&mut x.edges)),
    ),
    exact_faults::fault(
        "exact-yes-only-by-1",
        "a flag that is another number than 1 is taken for no",
        |x, reply| *reply = with(x, |x| yes_only_by_1(&mut x.edges)),
    ),
    exact_faults::fault(
        "exact-foreign-parents",
        "the owner of the parent is not tested",
        |x, reply| *reply = with(x, |x| all_owned(&mut x.frames, x.dom)),
    ),
    exact_faults::fault(
        "exact-owner-65536-as-0",
        "owner 65,536 is taken for domain 0",
        |x, reply| *reply = with(x, |x| nobody_as_domain_0(&mut x.frames)),
    ),
    exact_faults::fault(
        "exact-owner-of-16-bits",
        "the high half of an owner's number is lost",
        |x, reply| *reply = with(x, |x| owners_of_16_bits(&mut x.frames)),
    ),
    exact_faults::fault(
        "exact-past-the-frames",
        "domain 0 owns a table just past the list",
        |x, reply| *reply = with(x, |x| x.frames.push(frame(0, x.kind()))),
    ),
    exact_faults::fault(
        "exact-kind-4-as-super",
        "a leaf of an L3 table is taken for a super page",
        |x, reply| *reply = with(x, |x| l3_as_super(&mut x.frames)),
    ),
    exact_faults::fault(
        "exact-kind-of-8-bits",
        "kind 258 is taken for 2",
        |x, reply| *reply = with(x, |x| kinds_of_8_bits(&mut x.frames)),
    ),
];

fn execute_first(edges: &mut [Edge]) {
    for edge in edges.iter_mut().filter(|edge| edge.execute != 0) {
        edge.writable = 0;
    }
}

fn all_leaves(edges: &mut [Edge]) {
    edges.iter_mut().for_each(|edge| edge.leaf = 1);
}

fn child_from_slot(edges: &mut [Edge]) {
    edges.iter_mut().for_each(|edge| edge.child = edge.slot);
}

fn parents_of_16_bits(edges: &mut [Edge]) {
    edges.iter_mut().for_each(|edge| edge.parent %= 1 << 16);
}

fn children_of_16_bits(edges: &mut [Edge]) {
    edges.iter_mut().for_each(|edge| edge.child %= 1 << 16);
}

/// Takes a number other than 1 for no.
fn yes_only_by_1(edges: &mut [Edge]) {
    for edge in edges {
        for flag in [&mut edge.writable, &mut edge.leaf, &mut edge.execute] {
            *flag = (*flag == 1).into();
        }
    }
}

fn all_owned(frames: &mut [Frame], dom: DomId) {
    frames.iter_mut().for_each(|frame| frame.owner = dom.into());
}

pub fn nobody_as_domain_0(frames: &mut [Frame]) {
    for frame in frames.iter_mut().filter(|frame| frame.owner == 65_536) {
        frame.owner = 0;
    }
}

pub fn owners_of_16_bits(frames: &mut [Frame]) {
    frames.iter_mut().for_each(|frame| frame.owner %= 1 << 16);
}

fn kinds_of_8_bits(frames: &mut [Frame]) {
    frames.iter_mut().for_each(|frame| frame.kind %= 1 << 8);
}

fn l3_as_super(frames: &mut [Frame]) {
    for frame in frames.iter_mut().filter(|frame| frame.kind == L3) {
        frame.kind = L2;
    }
}
