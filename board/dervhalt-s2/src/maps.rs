//! Leaf maps: made from edges, and held to ownership, grants and edges.

use crate::calls;
use crate::names::{Perm, Span};
use crate::records::{DomId, Edges, Frame, GrantRow, Mfn};
use crate::refusal::Refusal;

/// The most entries of a map.
pub const MAP_LEN: usize = 512;

/// Both leaf maps of a domain, as [`leaf_map_from_edges`] has filled them. There is no other way to
/// make them: what an update promises, it promises of maps that are filled from edges.
///
/// They keep the domain and the frames that they were filled for, so that they are
/// [`authorized`](Maps::authorized) for no other domain and by no other list.
///
/// An entry is a byte: 0 unmapped, 1 `Ro`, 2 `Rw`, 3 `Rx`.
#[derive(Clone, Copy, PartialEq, Eq, Debug)]
pub struct Maps<'a> {
    dom: DomId,
    frames: &'a [Frame],
    base: &'a [u8],
    sup: &'a [u8],
}

impl<'a> Maps<'a> {
    /// Maps of any bytes, nobody's, for tests of what filled maps rule out.
    #[cfg(test)]
    pub(crate) fn of_bytes(base: &'a [u8], sup: &'a [u8]) -> Maps<'a> {
        Maps {
            dom: 0,
            frames: &[],
            base,
            sup,
        }
    }

    /// The domain whose maps they are. Nothing else says for which guest's arena and layout they
    /// are.
    pub fn dom(self) -> DomId {
        self.dom
    }

    /// The entries of base pages.
    pub fn base(self) -> &'a [u8] {
        self.base
    }

    /// The entries of super pages.
    pub fn sup(self) -> &'a [u8] {
        self.sup
    }

    /// How a frame is mapped; past the map it is not.
    pub fn perm(self, span: Span, mfn: Mfn) -> Option<Perm> {
        let map = match span {
            Span::Base => self.base,
            Span::Super => self.sup,
        };
        let at = usize::try_from(mfn).ok()?;
        map.get(at).copied().and_then(Perm::of_entry)
    }

    /// The maps as what tables are made of, if the domain may reach every frame in them, since it
    /// owns it or its owner grants it: rows 23 and 24, of the base map and then of the super map.
    /// No frame is in both.
    ///
    /// ```
    /// use dervhalt_s2::*;
    ///
    /// // Frame 1 is domain 5's, and domain 3 maps it.
    /// let table = Some(PageType::PageTable(PtLevel::L1));
    /// let frames = [Frame::new(Some(3), table), Frame::new(Some(5), None)];
    /// let edge = Edge { parent: 0, slot: 0, child: 1, writable: true, leaf: true, execute: false };
    /// let (mut base, mut sup) = ([0; 8], [0; 8]);
    /// let maps = leaf_map_from_edges(&[edge], &frames, 3, &mut base, &mut sup)?;
    /// assert_eq!(
    ///     maps.authorized(&[]).unwrap_err().to_string(),
    ///     "domain 3 maps frame 1 of domain 5 Rw without a grant",
    /// );
    /// let grant = Grant { grantor: 5, grantee: 3, frame: 1, writable: true };
    /// assert_eq!(maps.authorized(&[grant.row()])?.maps(), maps);
    /// # Ok::<(), Refusal>(())
    /// ```
    pub fn authorized(self, grants: &[GrantRow]) -> Result<AuthorizedMaps<'a>, Refusal> {
        for map in [self.base, self.sup] {
            check_authorized_with(self.dom, map, self.frames, grants)?;
        }
        Ok(AuthorizedMaps(self))
    }

    /// The maps as what tables are made of, without the check: for board code whose frames do not
    /// tell the owners. It answers for what the check would have found, a frame that is neither the
    /// domain's own nor granted to it; nothing asks again.
    pub fn assume_authorized(self) -> AuthorizedMaps<'a> {
        AuthorizedMaps(self)
    }
}

/// Both leaf maps of a domain that may reach every frame in them, as [`Maps::authorized`] has found
/// it or [`Maps::assume_authorized`] takes it to be: what tables are made of. Nothing else makes
/// them:
///
/// ```
/// # use dervhalt_s2::{AuthorizedMaps, Maps};
/// fn of<'a>(maps: Maps<'a>) -> AuthorizedMaps<'a> {
///     maps.assume_authorized()
/// }
/// ```
///
/// ```compile_fail,E0423
/// # use dervhalt_s2::{AuthorizedMaps, Maps};
/// fn of<'a>(maps: Maps<'a>) -> AuthorizedMaps<'a> {
///     AuthorizedMaps(maps)
/// }
/// ```
///
/// ```compile_fail,E0277
/// # use dervhalt_s2::{AuthorizedMaps, Maps};
/// fn of<'a>(maps: Maps<'a>) -> AuthorizedMaps<'a> {
///     maps.into()
/// }
/// ```
#[derive(Clone, Copy, PartialEq, Eq, Debug)]
pub struct AuthorizedMaps<'a>(Maps<'a>);

impl<'a> AuthorizedMaps<'a> {
    /// The maps.
    pub fn maps(self) -> Maps<'a> {
        self.0
    }
}

/// Fills both maps with the leaves of the tables that a domain owns: rows 2 and 15 to 17.
///
/// The caller chooses the maps' lengths, up to [`MAP_LEN`]. Both are cleared first. In the order of
/// the edges, one that is no leaf, or whose parent the domain doesn't own, is skipped; a later one
/// overwrites. Where 15 or 16 refuses, the lent bytes hold the edges before the failing one, where
/// 17 does, all edges; 2 changes nothing.
///
/// ```
/// use dervhalt_s2::{leaf_map_from_edges, Edge, Frame, PageType, Perm, PtLevel, Refusal, Span};
///
/// let frames = [Frame::new(Some(3), Some(PageType::PageTable(PtLevel::L1)))];
/// let edge = Edge { parent: 0, slot: 0, child: 1, writable: true, leaf: true, execute: false };
/// let (mut base, mut sup) = ([0; 8], [0; 8]);
/// let maps = leaf_map_from_edges(&[edge], &frames, 3, &mut base, &mut sup)?;
/// assert_eq!(maps.perm(Span::Base, 1), Some(Perm::Rw));
/// assert_eq!(maps.perm(Span::Base, 2), None);
/// # Ok::<(), Refusal>(())
/// ```
pub fn leaf_map_from_edges<'a, 'e>(
    edges: impl Into<Edges<'e>>,
    frames: &'a [Frame],
    dom: DomId,
    base: &'a mut [u8],
    sup: &'a mut [u8],
) -> Result<Maps<'a>, Refusal> {
    calls::fill(edges.into(), frames, dom, base, sup).accepted()?;
    Ok(Maps {
        dom,
        frames,
        base,
        sup,
    })
}

/// Whether a domain may reach every frame that a map maps, since it owns it or its owner grants it:
/// rows 2, 3, 23 and 24. The lowest frame comes first.
pub fn check_authorized_with(
    dom: DomId,
    map: &[u8],
    frames: &[Frame],
    grants: &[GrantRow],
) -> Result<(), Refusal> {
    calls::authorized(dom, map, frames, grants).accepted()
}

/// Whether a map is what a domain's edges give for its span: rows 2, 3 and 25. The lowest frame
/// comes first.
pub fn check_exact<'e>(
    dom: DomId,
    map: &[u8],
    span: Span,
    edges: impl Into<Edges<'e>>,
    frames: &[Frame],
) -> Result<(), Refusal> {
    calls::exact(dom, map, span, edges.into(), frames).accepted()
}
