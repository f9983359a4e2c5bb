//! As much of hv-core as hv-s2 refers to: the original p2m.rs, and stand-ins for the rest.

// The original's comments link to modules that are not here.
#![allow(rustdoc::broken_intra_doc_links)]

include!(concat!(env!("OUT_DIR"), "/originals.rs"));

pub mod hypervisor {
    pub use crate::p2m::DomId;
}

pub mod grant {
    use crate::p2m::{DomId, Mfn};

    /// `grantor` lets `grantee` read `frame`, and write it if `writable`.
    pub struct Grant {
        pub grantor: DomId,
        pub grantee: DomId,
        pub frame: Mfn,
        pub writable: bool,
    }

    /// The active grants.
    pub struct System(pub Vec<Grant>);

    impl System {
        /// Whether a grant covers this access. A writable grant covers a read as well.
        pub fn authorizes(
            &self,
            grantor: DomId,
            grantee: DomId,
            frame: Mfn,
            writable: bool,
        ) -> bool {
            self.0.iter().any(|grant| {
                (grant.grantor, grant.grantee, grant.frame) == (grantor, grantee, frame)
                    && (grant.writable || !writable)
            })
        }
    }
}

/// The state that check.rs reads.
pub struct Hypervisor {
    pub p2m: p2m::System,
    pub grant: grant::System,
}

impl Hypervisor {
    pub fn p2m(&self) -> &p2m::System {
        &self.p2m
    }

    pub fn grant(&self) -> &grant::System {
        &self.grant
    }

    pub fn domain_count(&self) -> usize {
        self.p2m.domain_count()
    }
}
