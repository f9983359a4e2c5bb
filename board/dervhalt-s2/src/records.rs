//! Edges, frames and grants, as the calls are lent them.

/// A domain.
pub type DomId = u16;

/// A frame's number.
pub type Mfn = u32;

/// An edge: entry `slot` of table `parent` names frame `child`.
#[repr(C)]
#[derive(Clone, Copy, PartialEq, Eq, Debug)]
pub struct Edge {
    /// The frame of the table.
    pub parent: Mfn,
    /// The entry of the table. No call reads it.
    pub slot: u32,
    /// The frame that the entry names.
    pub child: Mfn,
    /// Whether the guest may write through the entry. It wins over `execute`.
    pub writable: bool,
    /// Whether the entry maps the frame; else it names a table below.
    pub leaf: bool,
    /// Whether the guest may execute through the entry.
    pub execute: bool,
}

/// An edge as a row of numbers: parent, slot, child, writable, leaf, execute. Of the last three,
/// zero is no and all else yes.
pub type EdgeRow = [u32; 6];

/// A list of edges, in the order in which they were made: a later one overwrites.
///
/// Board code that has its edges from a model holds records. Rows are for edges that come from
/// outside, as a block of 32-bit numbers: any number may stand in a row, while a `bool` that is
/// neither 0 nor 1 would be undefined.
#[derive(Clone, Copy, PartialEq, Eq, Debug)]
pub enum Edges<'a> {
    /// Records.
    Records(&'a [Edge]),
    /// Rows of numbers.
    Rows(&'a [EdgeRow]),
}

/// Edges from a slice and from an array of one form.
macro_rules! edges_from {
    ($($edge:ty => $form:ident;)*) => {
        $(
            impl<'a> From<&'a [$edge]> for Edges<'a> {
                fn from(edges: &'a [$edge]) -> Edges<'a> {
                    Edges::$form(edges)
                }
            }

            impl<'a, const N: usize> From<&'a [$edge; N]> for Edges<'a> {
                fn from(edges: &'a [$edge; N]) -> Edges<'a> {
                    Edges::$form(edges)
                }
            }
        )*
    };
}

edges_from! {
    Edge => Records;
    EdgeRow => Rows;
}

/// The level of a page table in the model of frames: L1 is the lowest. A leaf under L1 is a base
/// page and one under L2 a super page; leaves under L3 and L4 have no span, and row 15 refuses
/// them.
#[derive(Clone, Copy, PartialEq, Eq, Debug)]
pub enum PtLevel {
    /// Its entries map base pages.
    L1,
    /// Its leaves map super pages.
    L2,
    /// No leaf of it is mapped.
    L3,
    /// No leaf of it is mapped.
    L4,
}

/// What a frame is used as.
#[derive(Clone, Copy, PartialEq, Eq, Debug)]
pub enum PageType {
    /// Writable memory.
    Writable,
    /// A page table.
    PageTable(PtLevel),
}

/// A frame: who owns it and what it is used as. Its number is its place in the list; past the list
/// nobody owns one.
#[repr(C)]
#[derive(Clone, Copy, PartialEq, Eq, Debug)]
pub struct Frame {
    owner: u32,
    kind: u32,
}

impl Frame {
    /// Above all domains.
    const NOBODY: u32 = 65_536;

    /// A frame of an owner, or of nobody, of a type or of none.
    pub const fn new(owner: Option<DomId>, page_type: Option<PageType>) -> Frame {
        Frame {
            owner: match owner {
                Some(dom) => dom as u32,
                None => Frame::NOBODY,
            },
            kind: match page_type {
                None => 0,
                Some(PageType::Writable) => 1,
                Some(PageType::PageTable(PtLevel::L1)) => 2,
                Some(PageType::PageTable(PtLevel::L2)) => 3,
                Some(PageType::PageTable(PtLevel::L3)) => 4,
                Some(PageType::PageTable(PtLevel::L4)) => 5,
            },
        }
    }
}

/// A grant: `grantor` lets `grantee` reach a frame. The calls are lent its [`row`](Grant::row).
///
/// ```
/// use dervhalt_s2::{Grant, GrantRow};
///
/// const GRANTS: [GrantRow; 1] =
///     [Grant { grantor: 5, grantee: 3, frame: 1, writable: true }.row()];
/// ```
#[derive(Clone, Copy, PartialEq, Eq, Debug)]
pub struct Grant {
    /// Who owns the frame: the grant of anybody else counts for nothing.
    pub grantor: DomId,
    /// Who may reach it.
    pub grantee: DomId,
    /// The frame.
    pub frame: Mfn,
    /// Whether for writing too, or for reading alone.
    pub writable: bool,
}

impl Grant {
    /// The row that the calls are lent.
    pub const fn row(self) -> GrantRow {
        GrantRow([
            self.grantor as u32,
            self.grantee as u32,
            self.frame,
            self.writable as u32,
        ])
    }
}

/// A grant as the calls are lent it. [`Grant::row`] alone makes one, so that no two of its numbers
/// are exchanged.
#[repr(transparent)]
#[derive(Clone, Copy, PartialEq, Eq, Debug)]
pub struct GrantRow([u32; 4]);
