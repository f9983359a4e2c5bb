//! The port's side of `window_reach`: the function of `libprobe_windows.a`.

use crate::fenced::Fenced;
use crate::inputs::Outcome;
use crate::lending::Lending;
use crate::port::UNWRITTEN;
use crate::windows::Windowed;

extern "C" {
    fn probe_windows(
        numbers: *const u64,
        base: *const u8,
        base_len: usize,
        sup: *const u8,
        sup_len: usize,
        ipa: u64,
        out: *mut u64,
    );
}

/// What the windows grant an address. It fails if the call has changed a map, or what stands around
/// it or the answer.
pub fn window_reach(x: &Windowed) -> Outcome {
    let mut out = Fenced::new(&[UNWRITTEN; 9], UNWRITTEN);
    let mut lending = Lending::new(&[], &x.scene.base, &x.scene.sup);
    let lent = lending.part(0);
    // SAFETY: the maps are as long as is said, 17 numbers are read and nine are written.
    unsafe {
        probe_windows(
            x.scene.fields.as_ptr(),
            lent.base.0,
            lent.base.1,
            lent.sup.0,
            lent.sup.1,
            x.ipa,
            out.as_mut_ptr(),
        );
    };
    let unchanged = lending.holds(&x.scene.base, &x.scene.sup);
    assert!(unchanged, "probe_windows stores into a map of {}", x.scene);
    let answer = out.lent().expect("nine numbers are stored, no more");
    answer.try_into().expect("nine numbers")
}
