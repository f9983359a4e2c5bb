//! hv-s2's stage-2 modules: the originals, unchanged.

// Their comments link to modules that are not here.
#![allow(rustdoc::broken_intra_doc_links)]

include!(concat!(env!("OUT_DIR"), "/originals.rs"));
