//! Document 01's scene S: its layout, and two edges that give base 1 Rw and super 2 Rx.

use dervhalt_s2::{DomId, Edge, Frame, Layout, PageType, PtLevel};

pub const LAYOUT: Layout = Layout {
    l1_pa: 0x4000_0000,
    l2_code_pa: 0x4000_1000,
    l2_data_pa: 0x4000_2000,
    l3_data_pa: 0x4000_3000,
    l2_sup_pa: 0x4000_4000,
    l2_dev_pa: 0x4000_5000,
    guest_image_pa: None,
    data_ipa_base: 0x8000_0000,
    data_pa_base: 0x5000_0000,
    frame_size: 4096,
    sup_ipa_base: 0xC000_0000,
    sup_pa_base: 0x6000_0000,
    device_base: 0x900_0000,
    device_len: 0x20_0000,
    sup_wx_exempt: false,
    sup_frames: 4,
};

pub const DOM: DomId = 3;

/// The domain owns frames 1 to 4; its tables are 3 and 4.
pub const FRAMES: [Frame; 5] = [
    Frame::new(None, None),
    Frame::new(Some(DOM), Some(PageType::Writable)),
    Frame::new(Some(DOM), None),
    Frame::new(Some(DOM), Some(PageType::PageTable(PtLevel::L1))),
    Frame::new(Some(DOM), Some(PageType::PageTable(PtLevel::L2))),
];

/// Frame 1 is a page for writing, frame 2 a block of code.
pub const EDGES: [Edge; 2] = [
    Edge {
        parent: 3,
        slot: 0,
        child: 1,
        writable: true,
        leaf: true,
        execute: false,
    },
    Edge {
        parent: 4,
        slot: 0,
        child: 2,
        writable: false,
        leaf: true,
        execute: true,
    },
];
