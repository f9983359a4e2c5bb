//! hv-core with another `p2m::System`, one that says what it is given.
//!
//! The original `System` makes edges by its own rules, and check.rs reads them from nowhere else.
//! With this one it is asked about any edges, owners and types.

pub use hv_core::{grant, hypervisor};

pub mod p2m {
    pub use hv_core::p2m::{DomId, Mfn, PageType, PtLevel};

    /// Parent, slot, child, writable, leaf and execute, as the original has it.
    pub type Edge = (Mfn, u32, Mfn, bool, bool, bool);

    pub struct Frame {
        pub owner: Option<DomId>,
        pub page_type: Option<PageType>,
    }

    pub struct System {
        pub edges: Vec<Edge>,
        pub frames: Vec<Frame>,
    }

    impl System {
        pub fn link_edges(&self) -> Vec<Edge> {
            self.edges.clone()
        }

        pub fn owner_of(&self, mfn: Mfn) -> Option<DomId> {
            self.frame(mfn)?.owner
        }

        pub fn current_type(&self, mfn: Mfn) -> Option<PageType> {
            self.frame(mfn)?.page_type
        }

        pub fn frame_count(&self) -> usize {
            self.frames.len()
        }

        fn frame(&self, mfn: Mfn) -> Option<&Frame> {
            self.frames.get(mfn as usize)
        }
    }
}

/// The state that check.rs reads.
pub struct Hypervisor {
    pub p2m: p2m::System,
    pub grant: grant::System,
}

impl Hypervisor {
    pub fn p2m(&self) -> &p2m::System {
        &self.p2m
    }

    pub fn grant(&self) -> &grant::System {
        &self.grant
    }

    /// Every `DomId` is a domain.
    pub fn domain_count(&self) -> usize {
        1 << 16
    }
}
