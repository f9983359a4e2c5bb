//! The annex page: what a guest reaches, on paper.

use core::str;

use crate::answer::Answer;
use crate::calls;
use crate::layout::CheckedLayout;
use crate::maps::AuthorizedMaps;
use crate::refusal::Refusal;

/// The bytes of the longest annex page: 1,026 lines and the last.
pub const ANNEX_MAX: usize = 41_080;

/// Writes the annex page of a layout and two maps into a buffer, and gives it as text: rows 13 and
/// 14, then 27, where the page is longer than the buffer. None of rows 2 to 12 refuses filled maps
/// and a [`CheckedLayout`], and 27 refuses no buffer of [`ANNEX_MAX`] bytes.
///
/// The page lists every address that reaches something over the tables that
/// [`encode`](crate::encode) makes of the same layout and maps from zeros, and no other. It reads
/// no tables: of those that a guest runs on it speaks only if they were made of the same.
///
/// Each line is one longest run of addresses with continuous output and equal access, in address
/// order: the first and the last address, the output of the first, `RO` or `RW`, and `X` where it
/// is executable, else `-`. The last line is 39 equals signs. Every line has 40 bytes, with its
/// line feed.
///
/// The page is the front of the buffer. What stands behind it stays, and a refusal leaves the whole
/// buffer as it was.
///
/// ```
/// # use dervhalt_s2::*;
/// use dervhalt_s2::{annex_page, ANNEX_MAX};
///
/// # let layout = Layout {
/// #     l1_pa: 0x4000_0000, l2_code_pa: 0x4000_1000, l2_data_pa: 0x4000_2000,
/// #     l3_data_pa: 0x4000_3000, l2_sup_pa: 0x4000_4000, l2_dev_pa: 0x4000_5000,
/// #     guest_image_pa: None, data_ipa_base: 0x8000_0000, data_pa_base: 0x5000_0000,
/// #     frame_size: 4096, sup_ipa_base: 0xC000_0000, sup_pa_base: 0x6000_0000,
/// #     device_base: 0x900_0000, device_len: 0x20_0000, sup_wx_exempt: false, sup_frames: 4,
/// # };
/// # let frames = [
/// #     Frame::new(Some(3), Some(PageType::PageTable(PtLevel::L1))), Frame::new(Some(3), None),
/// # ];
/// # let edge = Edge { parent: 0, slot: 0, child: 1, writable: true, leaf: true, execute: false };
/// # let (mut base, mut sup) = ([0; 8], [0; 8]);
/// # let maps = leaf_map_from_edges(&[edge], &frames, 3, &mut base, &mut sup)?;
/// let mut page = [0; ANNEX_MAX];
/// let text = annex_page(&mut page, maps.authorized(&[])?, &layout.checked()?)?;
/// assert_eq!(
///     text,
///     "0009000000 00091FFFFF 000009000000 RW -\n\
///      0080001000 0080001FFF 000050001000 RW -\n\
///      =======================================\n",
/// );
/// # Ok::<(), Error>(())
/// ```
pub fn annex_page<'p>(
    page: &'p mut [u8],
    maps: AuthorizedMaps<'_>,
    layout: &CheckedLayout,
) -> Result<&'p str, Refusal> {
    let numbers = layout.layout().numbers();
    let answer = calls::annex(page, maps.maps(), &numbers);
    written(page, answer)
}

/// The front of the buffer that the answer says is written.
pub(crate) fn written(page: &[u8], answer: Answer) -> Result<&str, Refusal> {
    let len: usize = answer.told()?;
    let text = page.get(..len).and_then(|page| str::from_utf8(page).ok());
    Ok(text.unwrap_or_else(|| answer.outside_contract()))
}
