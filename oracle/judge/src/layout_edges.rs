//! Where the answer to a layout changes.

use crate::layout::{
    all_windows, windows, Fields, Window, BLOCK, DATA_IPA, DATA_PA, DEVICE, DEVICE_LEN, EXEMPT,
    FRAME_SIZE, IMAGE, IMAGE_PRESENT, INPUT_LIMIT, L1_SPAN, OUTPUT_LIMIT, PAGE, SUP_FRAMES,
    SUP_IPA, SUP_PA, TABLES,
};

/// Values of a field where an answer changes, and those next to them.
pub fn edges(x: &Fields, field: usize) -> Vec<u64> {
    let [image, data, sup, device] = all_windows(x);
    let identity = |window| [input_edges(x, window), output_edges(x, window)].concat();
    match field {
        IMAGE => identity(image),
        DATA_IPA => input_edges(x, data),
        DATA_PA => output_edges(x, data),
        FRAME_SIZE => FRAME_SIZES.to_vec(),
        SUP_IPA => input_edges(x, sup),
        SUP_PA => output_edges(x, sup),
        DEVICE => identity(device),
        DEVICE_LEN => device_lens(x, device),
        EXEMPT | IMAGE_PRESENT => FLAGS.to_vec(),
        SUP_FRAMES => frame_counts(x, sup),
        table => table_edges(x, table),
    }
}

const FRAME_SIZES: [u64; 12] = [
    0,
    1,
    2_048,
    4_095,
    4_096,
    4_097,
    8_192,
    16_384,
    65_536,
    (1 << 32) + 4_096,
    1 << 63,
    u64::MAX,
];

/// All that is not zero is yes, wherever the bit is.
pub const FLAGS: [u64; 6] = [0, 1, 2, 1 << 32, 1 << 63, u64::MAX];

/// The ends of a table's addresses, the middle of a page, and the other tables.
fn table_edges(x: &Fields, table: usize) -> Vec<u64> {
    let ends = [0, OUTPUT_LIMIT, 0_u64.wrapping_sub(PAGE)];
    let near = ends.into_iter().chain([x[table]]);
    near.flat_map(|point| around(point, &[1, PAGE / 2, PAGE]))
        .chain(x[TABLES].iter().copied())
        .collect()
}

/// Where a window leaves its 1 GiB or the input addresses, and where it meets another.
fn input_edges(x: &Fields, window: Window) -> Vec<u64> {
    let span = window.span as u64;
    let slot_end = (window.ipa / L1_SPAN + 1).wrapping_mul(L1_SPAN);
    let ends = [slot_end, INPUT_LIMIT]
        .into_iter()
        .flat_map(|end| [end, end.wrapping_sub(span), end.wrapping_sub(BLOCK)]);
    // These have the l1 index of the window as it is.
    let same_index = [INPUT_LIMIT, OUTPUT_LIMIT, 1 << 63].map(|high| window.ipa ^ high);
    let met = others(x, window).flat_map(|other| {
        let same_slot = other.ipa / L1_SPAN * L1_SPAN + window.ipa % L1_SPAN;
        let after = other.ipa.wrapping_add(other.span as u64);
        [same_slot, other.ipa, after, other.ipa.wrapping_sub(span)]
    });
    ends.flat_map(|end| around(end, &[BLOCK]))
        .chain(same_index)
        .chain(met)
        .chain(around(window.ipa, &[1, PAGE, BLOCK, L1_SPAN]))
        .collect()
}

/// Where a window's output leaves the output addresses or 64 bits, and where it meets another's.
fn output_edges(x: &Fields, window: Window) -> Vec<u64> {
    let span = window.span as u64;
    // Zero is also 2^64.
    let ends = [OUTPUT_LIMIT, 0]
        .into_iter()
        .flat_map(|end| [end, end.wrapping_sub(span)]);
    let met = others(x, window).flat_map(|other| {
        let inside = |part| other.pa.wrapping_add(part);
        let middle = inside(other.span as u64 / 2 / BLOCK * BLOCK);
        let before = other.pa.wrapping_sub(span);
        [before, other.pa, middle, inside(other.span as u64)]
    });
    ends.chain(met)
        .flat_map(|point| around(point, &[PAGE, BLOCK]))
        .chain(around(window.pa, &[1, PAGE, BLOCK]))
        .collect()
}

fn device_lens(x: &Fields, device: Window) -> Vec<u64> {
    let room = L1_SPAN - device.ipa % L1_SPAN;
    let met = others(x, device).map(|other| other.pa.wrapping_sub(device.pa));
    [0, BLOCK, L1_SPAN, INPUT_LIMIT, OUTPUT_LIMIT, 1 << 63, room]
        .into_iter()
        .chain(met)
        .flat_map(|len| around(len, &[1, PAGE, BLOCK]))
        .collect()
}

fn frame_counts(x: &Fields, sup: Window) -> Vec<u64> {
    let room = (L1_SPAN - sup.ipa % L1_SPAN) / BLOCK;
    let met = others(x, sup).map(|other| other.pa.wrapping_sub(sup.pa) / BLOCK);
    let powers = [18, 42, 43, 44, 63].map(|bits| 1 << bits);
    [0, 512, room]
        .into_iter()
        .chain(powers)
        .chain(met)
        .flat_map(|count| around(count, &[1]))
        .collect()
}

fn others(x: &Fields, window: Window) -> impl Iterator<Item = Window> {
    windows(x).filter(move |other| other.code != window.code)
}

/// The point, and what is one unit below and above.
pub fn around(point: u64, units: &[u64]) -> Vec<u64> {
    let neighbours = units
        .iter()
        .flat_map(|unit| [point.wrapping_sub(*unit), point.wrapping_add(*unit)]);
    [point].into_iter().chain(neighbours).collect()
}
