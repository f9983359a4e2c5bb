//! The port's side of the annex page: the function of `libs2.a` that writes it.

use crate::annex::{Annexed, Written};
use crate::fenced::Fenced;
use crate::layout::Fields;
use crate::lending::Lending;
use crate::port_layouts::lend_layout;

extern "C" {
    pub fn s2_annex(
        page: *mut u8,
        page_len: usize,
        base: *const u8,
        base_len: usize,
        sup: *const u8,
        sup_len: usize,
        layout: *const Fields,
        values: *mut u64,
    ) -> u32;
}

/// What stands before and after the buffer.
const FENCE: u8 = 0xa5;

/// What the call answers and leaves in the buffer. It fails if the call has changed a map or the
/// layout, or what stands around what it was lent.
pub fn annex(x: &Annexed) -> Written {
    let mut page = Fenced::new(&x.buffer, FENCE);
    let (start, len) = (page.as_mut_ptr(), page.len());
    let mut lending = Lending::new(&[], &x.scene.base, &x.scene.sup);
    let lent = lending.part(0);
    let (base, sup) = (lent.base, lent.sup);
    // SAFETY: the buffer and each map are as long as is said, a layout is lent, and eight values
    // are written.
    let outcome = lend_layout(&x.scene.fields, |layout, values| unsafe {
        s2_annex(start, len, base.0, base.1, sup.0, sup.1, layout, values)
    });
    let unchanged = lending.holds(&x.scene.base, &x.scene.sup);
    assert!(unchanged, "s2_annex stores into a map of {}", x.scene);
    match page.lent() {
        Some(buffer) => Written::new(outcome, buffer.to_vec()),
        None => panic!("s2_annex stores around the buffer of {}", x.scene),
    }
}
