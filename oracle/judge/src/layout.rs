//! arm64.rs, the layout: `validate`, with the rows that document 01 adds to it.
//!
//! Rows 4 to 7, 9, 11 and 12 are answers of the unchanged Rust. Rows 8 and 10 are not in the Rust:
//! they are computed here from document 01's table.

use std::ops::Range;

use given_s2::arm64::{EncodingViolation, Layout};

use crate::function::{answers, Answer, Function, Input, Layer};
use crate::handed_layouts;
use crate::inputs::{hex, words, Outcome};
use crate::layout_faults::FAULTS;
use crate::layout_inputs::{examples, layouts, within_rows};
use crate::port_layouts;
use crate::undefined::defined;

/// A layout in the order in which the port is handed it: document 01's sixteen fields, and just
/// before the image's address whether there is an image.
pub type Fields = [u64; 17];

/// The places of the fields. The tables come first.
pub const TABLES: Range<usize> = 0..6;
pub const L1: usize = 0;
pub const L2_CODE: usize = 1;
pub const L2_DATA: usize = 2;
pub const L3_DATA: usize = 3;
pub const L2_SUP: usize = 4;
pub const L2_DEV: usize = 5;
pub const IMAGE_PRESENT: usize = 6;
pub const IMAGE: usize = 7;
pub const DATA_IPA: usize = 8;
pub const DATA_PA: usize = 9;
pub const FRAME_SIZE: usize = 10;
pub const SUP_IPA: usize = 11;
pub const SUP_PA: usize = 12;
pub const DEVICE: usize = 13;
pub const DEVICE_LEN: usize = 14;
pub const EXEMPT: usize = 15;
pub const SUP_FRAMES: usize = 16;

/// Sizes and limits as document 01 has them: what is computed from them owes nothing to the Rust.
pub const PAGE: u64 = 1 << 12;
pub const BLOCK: u64 = 1 << 21;
pub const L1_SPAN: u64 = 1 << 30;
pub const INPUT_LIMIT: u64 = 1 << 39;
pub const OUTPUT_LIMIT: u64 = 1 << 48;
pub const SUP_FRAMES_LIMIT: u64 = 1 << 43;

pub const ACCEPTED: Outcome = [0; 9];

pub const LAYER: Layer<Fields> = Layer {
    functions: &[Function {
        call: "s2_validate",
        name: "validate",
        op: (),
        original: validate,
        boundary: || Box::new(examples().chain(within_rows())),
        sweep: |round| Box::new(layouts(round)),
        answers: ANSWERS,
        least: LEAST,
        recorded: true,
    }],
    faults: &[FAULTS],
    wrapper_faults: handed_layouts::VALIDATE,
};

const ANSWERS: &[Answer] = answers!([("accepted", row::<0>)] 4 5 6 7 8 9 10 11 12);

/// Whether an answer is this row's. Row 0 is none: the layout is accepted.
pub fn row<const NUMBER: u64>(answer: &[u64]) -> bool {
    answer[0] == NUMBER
}

/// How many inputs must have each of the answers.
pub const LEAST: u64 = 1_000;

impl Input for Fields {
    type Op = ();
    type Reply = Outcome;

    fn port(&self, (): ()) -> Outcome {
        port_layouts::validate(self)
    }

    fn shown(&self) -> String {
        hex(self)
    }
}

/// The answer that is due: the Rust's, with rows 8 and 10 put in their places.
pub fn validate(x: &Fields) -> Outcome {
    match original(x) {
        Some(answer) if (4..=7).contains(&answer[0]) => answer,
        _ if x[SUP_FRAMES] >= SUP_FRAMES_LIMIT => words([8, x[SUP_FRAMES]]),
        Some(answer) if answer[0] == 9 => answer,
        answer => row_10(x)
            .or(answer)
            .unwrap_or_else(|| panic!("no row explains why the Rust stops at {}", hex(x))),
    }
}

/// The Rust's own answer, or nothing where one of its sums or products overflows.
fn original(x: &Fields) -> Option<Outcome> {
    let layout = layout(x);
    let answer = defined(|| layout.validate())?;
    Some(answer.map_or_else(refusal, |()| ACCEPTED))
}

/// The first window whose output ends above the limit.
pub fn row_10(x: &Fields) -> Option<Outcome> {
    windows(x)
        .find(|window| window.output_end() > OUTPUT_LIMIT.into())
        .map(|window| words([10, window.code, window.pa]))
}

pub fn layout(x: &Fields) -> Layout {
    Layout {
        l1_pa: x[L1],
        l2_code_pa: x[L2_CODE],
        l2_data_pa: x[L2_DATA],
        l3_data_pa: x[L3_DATA],
        l2_sup_pa: x[L2_SUP],
        l2_dev_pa: x[L2_DEV],
        guest_image_pa: (x[IMAGE_PRESENT] != 0).then_some(x[IMAGE]),
        data_ipa_base: x[DATA_IPA],
        data_pa_base: x[DATA_PA],
        frame_size: x[FRAME_SIZE],
        sup_ipa_base: x[SUP_IPA],
        sup_pa_base: x[SUP_PA],
        device_base: x[DEVICE],
        device_len: x[DEVICE_LEN],
        sup_wx_exempt: x[EXEMPT] != 0,
        sup_frames: x[SUP_FRAMES],
    }
}

fn refusal(violation: EncodingViolation) -> Outcome {
    use EncodingViolation::*;
    match violation {
        DeviceWindowUnaligned { base, len } => words([4, base, len]),
        GranuleNotEmitted { frame_size } => words([5, frame_size]),
        WindowUnaligned {
            window,
            base,
            align,
        } => words([6, code(&CHECKS, window), base, align]),
        TableUnnameable { table, pa } => words([7, code(&TABLE_NAMES, table), pa]),
        RegionCrossesL1 { l1_index, span } => words([9, l1_index as u64, span]),
        RegionsCollide { l1_index } => words([11, l1_index as u64]),
        WindowsOverlap { space: "pa" } => words([12]),
        // Among them an overlap of inputs, which rows 9 and 11 leave no room for.
        other => panic!("validate cannot answer {other:?}"),
    }
}

/// The Rust's names in the order of document 01's codes, which start at 1.
const CHECKS: [&str; 6] = [
    "data ipa",
    "data pa",
    "super ipa",
    "super pa",
    "guest image",
    "device",
];
pub const TABLE_NAMES: [&str; 6] = ["l1", "l2_code", "l2_data", "l3_data", "l2_sup", "l2_dev"];

pub fn code(names: &[&str], name: &str) -> u64 {
    let place = names.iter().position(|known| *known == name);
    1 + place.unwrap_or_else(|| panic!("document 01 does not number {name}")) as u64
}

/// A range of input addresses and the outputs that they are mapped to.
#[derive(Clone, Copy)]
pub struct Window {
    pub code: u64,
    pub present: bool,
    pub ipa: u64,
    pub pa: u64,
    /// Wide enough for any number of super frames.
    pub span: u128,
}

impl Window {
    pub fn l1_index(&self) -> u64 {
        self.ipa / L1_SPAN % 512
    }

    pub fn output_end(&self) -> u128 {
        u128::from(self.pa) + self.span
    }
}

/// Image, data, super and device.
pub fn all_windows(x: &Fields) -> [Window; 4] {
    let window = |code, present, ipa, pa, span| Window {
        code,
        present,
        ipa,
        pa,
        span,
    };
    let (image, device, device_len) = (x[IMAGE], x[DEVICE], x[DEVICE_LEN]);
    let sup_span = u128::from(x[SUP_FRAMES]) * u128::from(BLOCK);
    [
        window(1, x[IMAGE_PRESENT] != 0, image, image, BLOCK.into()),
        window(2, true, x[DATA_IPA], x[DATA_PA], (512 * PAGE).into()),
        window(3, true, x[SUP_IPA], x[SUP_PA], sup_span),
        window(4, device_len > 0, device, device, device_len.into()),
    ]
}

pub fn windows(x: &Fields) -> impl Iterator<Item = Window> {
    all_windows(x).into_iter().filter(|window| window.present)
}

/// All pairs of different places below the count: the lowest first, then the lowest second.
pub fn pairs(count: usize) -> impl Iterator<Item = (usize, usize)> {
    (0..count).flat_map(move |first| (first + 1..count).map(move |second| (first, second)))
}
