//! Edges, frames and grants: as the port is lent them, and as the original reads them.

use std::fmt::{self, Debug, Formatter};

use given_core::grant;
use given_core::p2m::{self, DomId, System};

use crate::p2m::type_of;

/// How edges are lent.
#[derive(Clone, Copy, PartialEq, Default)]
pub enum Form {
    /// Six numbers each.
    #[default]
    Rows,
    /// A record each.
    Records,
}

/// A row. Of the last three, zero is no and all else yes.
#[repr(C)]
#[derive(Clone, Copy, PartialEq)]
pub struct Edge {
    pub parent: u32,
    pub slot: u32,
    pub child: u32,
    pub writable: u32,
    pub leaf: u32,
    pub execute: u32,
}

/// A record, byte for byte: a flag is 1 or 0, and the padding is any byte.
#[repr(C)]
#[derive(Clone, Copy, PartialEq)]
pub struct EdgeRecord {
    parent: u32,
    slot: u32,
    child: u32,
    writable: u8,
    leaf: u8,
    execute: u8,
    padding: u8,
}

impl Edge {
    /// Whether it is writable, a leaf and executable.
    fn flags(self) -> [bool; 3] {
        [self.writable, self.leaf, self.execute].map(|number| number != 0)
    }

    pub fn record(self) -> EdgeRecord {
        let [writable, leaf, execute] = self.flags().map(u8::from);
        EdgeRecord {
            parent: self.parent,
            slot: self.slot,
            child: self.child,
            writable,
            leaf,
            execute,
            padding: u8::MAX,
        }
    }
}

#[repr(C)]
#[derive(Clone, Copy, PartialEq)]
pub struct Frame {
    pub owner: u32,
    pub kind: u32,
}

#[repr(C)]
#[derive(Clone, Copy, PartialEq)]
pub struct Grant {
    pub grantor: u32,
    pub grantee: u32,
    pub frame: u32,
    pub writable: u32,
}

impl Frame {
    pub fn domain(self) -> Option<DomId> {
        domain(self.owner)
    }
}

/// The domain of a number. A number that is too large for one is nobody.
fn domain(number: u32) -> Option<DomId> {
    number.try_into().ok()
}

/// The edges and frames for the original.
pub fn system(edges: &[Edge], frames: &[Frame]) -> System {
    System {
        edges: edges.iter().copied().map(link_edge).collect(),
        frames: frames.iter().copied().map(given_frame).collect(),
    }
}

fn link_edge(edge: Edge) -> p2m::Edge {
    let [writable, leaf, execute] = edge.flags();
    (edge.parent, edge.slot, edge.child, writable, leaf, execute)
}

fn given_frame(frame: Frame) -> p2m::Frame {
    p2m::Frame {
        owner: frame.domain(),
        page_type: type_of(frame.kind),
    }
}

/// The grants for the original. One from or to a number that is no domain grants nothing.
pub fn grants(grants: &[Grant]) -> grant::System {
    grant::System(grants.iter().copied().filter_map(active).collect())
}

fn active(grant: Grant) -> Option<grant::Grant> {
    Some(grant::Grant {
        grantor: domain(grant.grantor)?,
        grantee: domain(grant.grantee)?,
        frame: grant.frame,
        writable: grant.writable != 0,
    })
}

// The numbers alone: a printed list of records is long as it is.

impl Debug for Edge {
    fn fmt(&self, f: &mut Formatter) -> fmt::Result {
        let Edge {
            parent,
            slot,
            child,
            writable,
            leaf,
            execute,
        } = self;
        write!(f, "{parent} {slot} {child} {writable} {leaf} {execute}")
    }
}

impl Debug for Frame {
    fn fmt(&self, f: &mut Formatter) -> fmt::Result {
        write!(f, "{}:{}", self.owner, self.kind)
    }
}

impl Debug for Grant {
    fn fmt(&self, f: &mut Formatter) -> fmt::Result {
        let Grant {
            grantor,
            grantee,
            frame,
            writable,
        } = self;
        write!(f, "{grantor} {grantee} {frame} {writable}")
    }
}
