//! Stage-2 translation tables for board code: the calls of `libs2.a`, with types.
//!
//! The calls are proved, each for every input. This crate is not: it turns types into the numbers
//! and slices that the calls are lent, and their answers into types. Board code has duties that no
//! type keeps: the table at the end of this page has each with its reason.
//!
//! # From edges to tables
//!
//! ```
//! use dervhalt_s2::*;
//!
//! let layout = Layout {
//!     l1_pa: 0x4000_0000,
//!     l2_code_pa: 0x4000_1000,
//!     l2_data_pa: 0x4000_2000,
//!     l3_data_pa: 0x4000_3000,
//!     l2_sup_pa: 0x4000_4000,
//!     l2_dev_pa: 0x4000_5000,
//!     guest_image_pa: None,
//!     data_ipa_base: 0x8000_0000,
//!     data_pa_base: 0x5000_0000,
//!     frame_size: 4096,
//!     sup_ipa_base: 0xC000_0000,
//!     sup_pa_base: 0x6000_0000,
//!     device_base: 0x900_0000,
//!     device_len: 0x20_0000,
//!     sup_wx_exempt: false,
//!     sup_frames: 4,
//! };
//! // Domain 3 has the page table 0, which maps frame 1 for writing.
//! let frames = [
//!     Frame::new(Some(3), Some(PageType::PageTable(PtLevel::L1))),
//!     Frame::new(Some(3), Some(PageType::Writable)),
//! ];
//! let edge = Edge { parent: 0, slot: 0, child: 1, writable: true, leaf: true, execute: false };
//! let (mut base, mut sup) = ([0; MAP_LEN], [0; 4]);
//! let maps = leaf_map_from_edges(&[edge], &frames, 3, &mut base, &mut sup)?;
//!
//! // Tables are made of maps that the owners allow, and of a layout that hands out no table.
//! let mut arena = Arena::ZEROS;
//! encode(&mut arena, maps.authorized(&[])?, &layout.checked()?)?;
//! let reach = Reach { pa: 0x5000_1234, access: Access::Rw, xn: true };
//! assert_eq!(walk(&arena, &layout.tables(), 0x8000_1234), Some(reach));
//! assert_eq!(walk(&arena, &layout.tables(), 0x8000_2000), None);
//!
//! // A guest that is given its own tables could map itself anything.
//! let handed_out = Layout { data_pa_base: 0x4000_0000, ..layout };
//! assert_eq!(
//!     handed_out.checked().unwrap_err().to_string(),
//!     "table l1 at 0x40000000 lies in the output of the data window: \
//!      the guest could write its own tables",
//! );
//! # Ok::<(), Error>(())
//! ```
//!
//! # Stores and the compiler
//!
//! The hardware reads the words while they are borrowed. Every store is made inside a call of the
//! library, which the Rust compiler cannot see into and so neither moves nor leaves out.
//!
//! # Answers that cannot be
//!
//! The contracts rule out a row past 27 and a code without a name. Where one comes all the same,
//! the program is linked with another library than this crate was written for. The crate then
//! panics with a sentence that has the whole answer: no caller could mend it, and going on would be
//! to trust unchecked tables.
//!
#![doc = include_str!("../../README.md")]
#![no_std]
#![deny(missing_docs, unsafe_code)]

mod annex;
mod answer;
mod arena;
#[allow(unsafe_code)]
mod calls;
mod error;
mod layout;
mod leaf;
mod maps;
mod names;
mod records;
mod refusal;
mod update;

#[cfg(test)]
extern crate self as dervhalt_s2;
#[cfg(test)]
extern crate std;

#[cfg(test)]
#[path = "../tests/changed/mod.rs"]
mod changed;
#[cfg(test)]
mod exchanges;
#[cfg(test)]
mod ruled_out;
#[cfg(test)]
#[path = "../examples/scene_s/scene.rs"]
mod scene;

pub use annex::{annex_page, ANNEX_MAX};
pub use arena::{encode, verify_encoding, walk, Arena, ARENA_LEN};
pub use error::Error;
pub use layout::{CheckedLayout, Exposed, Layout, Tables};
pub use leaf::{Decoded, Reach};
pub use maps::{
    check_authorized_with, check_exact, leaf_map_from_edges, AuthorizedMaps, Maps, MAP_LEN,
};
pub use names::{Access, Check, Perm, Span, Table, Window};
pub use records::{DomId, Edge, EdgeRow, Edges, Frame, Grant, GrantRow, Mfn, PageType, PtLevel};
pub use refusal::Refusal;
pub use update::{Progress, Update, HALF_WAY, STEPS};

/// The value of VTCR_EL2 that the tables are made for: 4 KB granule, 39-bit input, start level 1,
/// 40-bit output, 8-bit VMID.
pub const VTCR_EL2: u64 = 0x8002_3559;
