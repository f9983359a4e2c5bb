//! The update of tables that are in use, one store a call.

use crate::arena::{walk, Arena, ARENA_LEN};
use crate::calls;
use crate::layout::CheckedLayout;
use crate::leaf::Reach;
use crate::maps::AuthorizedMaps;
use crate::refusal::Refusal;

/// The stores of an update.
pub const STEPS: u64 = 2 * HALF_WAY;

/// The stores of an update's first half.
pub const HALF_WAY: u64 = ARENA_LEN as u64;

/// An update of tables that are in use, from what they hold to what a layout and two maps are
/// encoded to.
///
/// It borrows the arena, so that nothing else stores there while it goes on, and keeps its layout
/// and maps. Each [`step`](Update::step) makes one store. Up to half-way an address reaches what it
/// reached before or nothing; from there on what it is granted or nothing; after the last store
/// what it is granted. To drop an update is to cut it: what was stored remains, and a new one
/// begins at step 0, over the words that it finds.
///
/// ```
/// # use dervhalt_s2::*;
/// use dervhalt_s2::{Progress, Update};
///
/// # fn invalidate() {}
/// # let layout = Layout {
/// #     l1_pa: 0x4000_0000, l2_code_pa: 0x4000_1000, l2_data_pa: 0x4000_2000,
/// #     l3_data_pa: 0x4000_3000, l2_sup_pa: 0x4000_4000, l2_dev_pa: 0x4000_5000,
/// #     guest_image_pa: None, data_ipa_base: 0x8000_0000, data_pa_base: 0x5000_0000,
/// #     frame_size: 4096, sup_ipa_base: 0xC000_0000, sup_pa_base: 0x6000_0000,
/// #     device_base: 0x900_0000, device_len: 0x20_0000, sup_wx_exempt: false, sup_frames: 4,
/// # };
/// # let frames = [
/// #     Frame::new(Some(3), Some(PageType::PageTable(PtLevel::L1))), Frame::new(Some(3), None),
/// # ];
/// # let edge = Edge { parent: 0, slot: 0, child: 1, writable: true, leaf: true, execute: false };
/// # let (mut base, mut sup) = ([0; 8], [0; 8]);
/// # let maps = leaf_map_from_edges(&[edge], &frames, 3, &mut base, &mut sup)?;
/// # let mut arena = Arena::ZEROS;
/// let mut update = Update::begin(&mut arena, maps.authorized(&[])?, &layout.checked()?)?;
/// loop {
///     match update.step()? {
///         Progress::Going => {}
///         // DSB ISHST; TLBI VMALLS12E1IS; DSB ISH; ISB
///         Progress::HalfWay => invalidate(),
///         Progress::Ended => break invalidate(),
///     }
/// }
/// assert!(update.walk(0x8000_1234).is_some());
/// # Ok::<(), Error>(())
/// ```
///
/// Two updates of an arena come one after the other, and never at once:
///
/// ```
/// # use dervhalt_s2::{Arena, AuthorizedMaps, CheckedLayout, Refusal, Update};
/// # type Made = Result<(), Refusal>;
/// fn two(arena: &mut Arena, maps: AuthorizedMaps<'_>, layout: &CheckedLayout) -> Made {
///     let mut first = Update::begin(arena, maps, layout)?;
///     let _ = first.step()?;
///     let mut second = Update::begin(arena, maps, layout)?;
///     let _ = second.step()?;
///     Ok(())
/// }
/// ```
///
/// ```compile_fail,E0499
/// # use dervhalt_s2::{Arena, AuthorizedMaps, CheckedLayout, Refusal, Update};
/// # type Made = Result<(), Refusal>;
/// fn two(arena: &mut Arena, maps: AuthorizedMaps<'_>, layout: &CheckedLayout) -> Made {
///     let mut first = Update::begin(arena, maps, layout)?;
///     let mut second = Update::begin(arena, maps, layout)?;
///     let _ = first.step()?;
///     let _ = second.step()?;
///     Ok(())
/// }
/// ```
#[derive(Debug)]
pub struct Update<'a> {
    arena: &'a mut Arena,
    maps: AuthorizedMaps<'a>,
    layout: CheckedLayout,
    stores: u64,
}

/// How far an update is after a step, and what board code does before the next one.
#[derive(Clone, Copy, PartialEq, Eq, Debug)]
#[must_use = "at half-way and at the end, cached translations have to be invalidated"]
pub enum Progress {
    /// Nothing: the next step may follow at once.
    Going,
    /// All words are zero. DSB ISHST, TLBI VMALLS12E1IS, DSB ISH, ISB: translations of the old
    /// words are cached still.
    HalfWay,
    /// All words are stored. The same, before the next update begins.
    Ended,
}

impl<'a> Update<'a> {
    /// Begins an update, without a store: rows 13 and 14, as for [`encode`](crate::encode).
    pub fn begin(
        arena: &'a mut Arena,
        maps: AuthorizedMaps<'a>,
        layout: &CheckedLayout,
    ) -> Result<Update<'a>, Refusal> {
        let numbers = layout.layout().numbers();
        // A step past the last tests all rows before its own, and stores nothing.
        let answer = calls::step(&mut arena.words, maps.maps(), &numbers, STEPS);
        match answer.accepted() {
            Err(Refusal::StepPastLast) => Ok(Update {
                arena,
                maps,
                layout: *layout,
                stores: 0,
            }),
            Err(refusal) => Err(refusal),
            Ok(()) => answer.outside_contract(),
        }
    }

    /// Makes the next store. Past the last one row 26 refuses, and no other row ever does: what
    /// they test does not change after the update has begun.
    pub fn step(&mut self) -> Result<Progress, Refusal> {
        let (maps, numbers) = (self.maps.maps(), self.layout.layout().numbers());
        calls::step(&mut self.arena.words, maps, &numbers, self.stores).accepted()?;
        self.stores += 1;
        Ok(match self.stores {
            HALF_WAY => Progress::HalfWay,
            STEPS => Progress::Ended,
            _ => Progress::Going,
        })
    }

    /// The stores since it began.
    pub fn stores(&self) -> u64 {
        self.stores
    }

    /// The words at this cut.
    pub fn arena(&self) -> &Arena {
        self.arena
    }

    /// What an address reaches at this cut.
    pub fn walk(&self, ipa: u64) -> Option<Reach> {
        walk(self.arena, &self.layout.tables(), ipa)
    }
}
