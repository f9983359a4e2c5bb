//! The words of the six tables: encoding, walk and verification.

use crate::calls;
use crate::error::Error;
use crate::layout::{CheckedLayout, Layout, Tables};
use crate::leaf::Reach;
use crate::maps::{AuthorizedMaps, Maps};
use crate::refusal::Refusal;

/// The words of an arena: six tables of 512.
pub const ARENA_LEN: usize = 3072;

/// The words of tables l1, l2_code, l2_data, l3_data, l2_sup and l2_dev, one after the other, as
/// the hardware reads them. It is aligned as a table has to be, and as long as six tables: board
/// code has it as a static, whose address it gives to the layout, or [`over`](Arena::over) memory
/// that it reserves.
#[repr(C, align(4096))]
#[derive(Clone, PartialEq, Eq, Debug)]
pub struct Arena {
    /// Word i of table n, counted from 0, is word 512 * n + i.
    pub words: [u64; ARENA_LEN],
}

impl Arena {
    /// Tables that map nothing.
    pub const ZEROS: Arena = Arena {
        words: [0; ARENA_LEN],
    };

    /// An arena in memory that the caller reserves: 3,072 words, the first at a multiple of 4,096.
    ///
    /// The words stay as they are found. [`encode`] begins with zeros, which the caller stores.
    ///
    /// ```
    /// use dervhalt_s2::{Arena, Error, ARENA_LEN};
    ///
    /// #[repr(align(4096))]
    /// struct Reserved([u64; 8192]);
    ///
    /// let mut reserved = Reserved([7; 8192]);
    /// let arena = Arena::over(&mut reserved.0[512..][..ARENA_LEN])?;
    /// arena.words.fill(0);
    /// assert!(Arena::over(&mut reserved.0[1..][..ARENA_LEN]).is_err());
    /// # Ok::<(), Error>(())
    /// ```
    pub fn over(words: &mut [u64]) -> Result<&mut Arena, Error> {
        let (len, address) = (words.len(), words.as_ptr().addr());
        calls::arena_over(words).ok_or(Error::NoArena { len, address })
    }
}

/// Makes the tables of a layout and two maps: rows 13 and 14. None of rows 1 to 12 refuses an
/// [`Arena`], filled maps and a [`CheckedLayout`].
///
/// It is for tables that no walker reads yet: its stores come in no promised order, and before a
/// guest runs on them translations cached under its VMID are invalidated. Tables that are in use are
/// changed by an [`Update`](crate::Update). It clears tables 4 to 6; in 1 to 3 old words
/// remain unless overwritten, so begin with [`Arena::ZEROS`]. A refusal changes nothing.
///
/// Maps come to it by [`Maps::authorized`], so that a guest is mapped no frame by mistake that is
/// neither its own nor granted to it:
///
/// ```
/// # use dervhalt_s2::{encode, Arena, CheckedLayout, Maps, Refusal};
/// fn tables(arena: &mut Arena, maps: Maps<'_>, layout: &CheckedLayout) -> Result<(), Refusal> {
///     encode(arena, maps.authorized(&[])?, layout)
/// }
/// ```
///
/// ```compile_fail,E0308
/// # use dervhalt_s2::{encode, Arena, CheckedLayout, Maps, Refusal};
/// fn tables(arena: &mut Arena, maps: Maps<'_>, layout: &CheckedLayout) -> Result<(), Refusal> {
///     encode(arena, maps, layout)
/// }
/// ```
///
/// A layout comes to it by [`Layout::checked`]:
///
/// ```
/// # use dervhalt_s2::{encode, Arena, AuthorizedMaps, Error, Layout};
/// fn tables(arena: &mut Arena, maps: AuthorizedMaps<'_>, layout: &Layout) -> Result<(), Error> {
///     Ok(encode(arena, maps, &layout.checked()?)?)
/// }
/// ```
///
/// ```compile_fail,E0308
/// # use dervhalt_s2::{encode, Arena, AuthorizedMaps, Error, Layout};
/// fn tables(arena: &mut Arena, maps: AuthorizedMaps<'_>, layout: &Layout) -> Result<(), Error> {
///     Ok(encode(arena, maps, layout)?)
/// }
/// ```
pub fn encode(
    arena: &mut Arena,
    maps: AuthorizedMaps<'_>,
    layout: &CheckedLayout,
) -> Result<(), Refusal> {
    let numbers = layout.layout().numbers();
    calls::encode(&mut arena.words, maps.maps(), &numbers).accepted()
}

/// What an address of the guest reaches, `None` for nothing.
///
/// Over tables that were encoded from zeros, or updated to the end, DDI 0487's translation reaches
/// the same (theorems `demand-2-encoded` and `demand-3`); docs/DIFFERENCES.md lists the words that
/// both read differently.
pub fn walk(arena: &Arena, tables: &Tables, ipa: u64) -> Option<Reach> {
    let answer = calls::walk(&arena.words, &tables.numbers(), ipa);
    match answer.told() {
        Ok(reach) => reach,
        // Row 1 alone refuses a walk, and an arena has its length.
        Err(_) => answer.outside_contract(),
    }
}

/// Whether the words are what the layout and the maps are encoded to: rows 4 to 12 and 18 to 22.
///
/// It accepts words that the decoders read as nothing and does not read a device's access. So its
/// yes does not bound what a walk reaches.
pub fn verify_encoding(arena: &Arena, maps: Maps<'_>, layout: &Layout) -> Result<(), Refusal> {
    calls::verify(&arena.words, maps, &layout.numbers()).accepted()
}
