//! What the calls that make tables, or their annex page, answer.

use dervhalt_s2::{
    annex_page, encode, leaf_map_from_edges, Arena, Edge, Error, Layout, Refusal, Update, ANNEX_MAX,
};

use crate::scene::{DOM, FRAMES};

/// A checked layout's encoding, the beginning of an update and the annex page, which answer the
/// same. A refused one stores nothing.
pub fn made(layout: &Layout, edges: &[Edge]) -> Result<(), Error> {
    let layout = layout.checked()?;
    let (mut base, mut sup) = ([0; 8], [0; 8]);
    let maps = leaf_map_from_edges(edges, &FRAMES, DOM, &mut base, &mut sup)?.authorized(&[])?;
    let mut arena = Arena::ZEROS;
    let begun = Update::begin(&mut arena, maps, &layout).map(|_| ());
    assert!(arena == Arena::ZEROS);
    let encoded = encode(&mut arena, maps, &layout);
    assert_eq!(encoded, begun);
    assert_eq!(encoded.is_err(), arena == Arena::ZEROS);
    let mut page = [7; ANNEX_MAX];
    let listed = annex_page(&mut page, maps, &layout).map(|_| ());
    assert_eq!(listed, encoded);
    assert_eq!(listed.is_err(), page == [7; ANNEX_MAX]);
    // Row 27 comes last.
    let listed = annex_page(&mut [], maps, &layout).map(|_| ());
    assert_eq!(listed, encoded.and(Err(Refusal::PageTooLong)));
    Ok(encoded?)
}
