//! Scenes whose windows meet: one ends with its 1 GiB, and the next starts there.

use crate::annex::Annexed;
use crate::annex_inputs::{lent, without_arena};
use crate::annex_page::{page, LINE};
use crate::encode::{rows_2_to_14, Scene};
use crate::encode_inputs::{accepted_map, scene, unmap_past_frames};
use crate::inputs::{random, Random};
use crate::layout::{
    all_windows, Fields, BLOCK, DATA_IPA, DATA_PA, DEVICE, DEVICE_LEN, EXEMPT, IMAGE,
    IMAGE_PRESENT, INPUT_LIMIT, L1_SPAN, PAGE, SUP_FRAMES, SUP_IPA, SUP_PA,
};
use crate::layout_edges::FLAGS;
use crate::layout_inputs::{accepted, SCENE};
use crate::map_inputs::set;
use crate::maps::MAP_LEN;
use crate::round::Round;

/// A window, by its place among all of them.
type Place = usize;

const IMAGE_WINDOW: Place = 0;
const DATA_WINDOW: Place = 1;
const SUPER_WINDOW: Place = 2;
const DEVICE_WINDOW: Place = 3;
const WINDOWS: [Place; 4] = [IMAGE_WINDOW, DATA_WINDOW, SUPER_WINDOW, DEVICE_WINDOW];

/// Puts a window at an address. Where data or super go, its output is so much above that; an image
/// or a device is its own output.
fn put(x: &mut Fields, window: Place, ipa: u64, above: u64) {
    let output = ipa.wrapping_add(above);
    match window {
        IMAGE_WINDOW => x[IMAGE] = ipa,
        DATA_WINDOW => (x[DATA_IPA], x[DATA_PA]) = (ipa, output),
        SUPER_WINDOW => (x[SUP_IPA], x[SUP_PA]) = (ipa, output),
        _ => x[DEVICE] = ipa,
    }
}

/// The field of the output of a window that is not its own.
fn output(window: Place) -> Option<usize> {
    match window {
        DATA_WINDOW => Some(DATA_PA),
        SUPER_WINDOW => Some(SUP_PA),
        _ => None,
    }
}

/// Puts windows one after another, the first in this l1 slot. One between two others must be 1 GiB
/// long. Their outputs go on too.
fn chain(x: &mut Fields, windows: &[Place], slot: u64, above: u64) {
    let above = match windows.iter().all(|window| output(*window).is_some()) {
        true => above,
        false => 0,
    };
    let second = (slot + 1) * L1_SPAN;
    let first = second - all_windows(x)[windows[0]].span as u64;
    put(x, windows[0], first, above);
    for (place, window) in (0..).zip(&windows[1..]) {
        put(x, *window, second + place * L1_SPAN, above);
    }
}

/// Sets the entries, of the windows that have a map, on both sides of where two meet.
fn set_entries(scene: &mut Scene, first: Place, second: Place, entries: [u8; 2]) {
    let last_super = scene.fields[SUP_FRAMES] as usize - 1;
    match first {
        DATA_WINDOW => set(&mut scene.base, MAP_LEN - 1, entries[0]),
        SUPER_WINDOW => set(&mut scene.sup, last_super, entries[0]),
        _ => (),
    }
    match second {
        DATA_WINDOW => set(&mut scene.base, 0, entries[1]),
        SUPER_WINDOW => set(&mut scene.sup, 0, entries[1]),
        _ => (),
    }
}

/// The scene with a buffer of the length that follows from the page's.
fn with_buffer(scene: Scene, len: impl FnOnce(usize) -> usize) -> Annexed {
    let page_len = match rows_2_to_14(&scene) {
        None => page(&scene).len(),
        Some(_) => LINE,
    };
    lent(scene, len(page_len), page_len)
}

/// Each two windows at both ends of the addresses and between, with every entry on both sides,
/// exempt and not, and outputs that go on or leave a gap. Nothing else is mapped.
pub fn seams() -> impl Iterator<Item = Annexed> {
    let pairs = WINDOWS.into_iter().flat_map(|first| {
        let others = WINDOWS.into_iter().filter(move |other| *other != first);
        others.map(move |second| [first, second])
    });
    pairs.flat_map(|pair| {
        (0..3 * 2 * 2 * 16).map(move |number| {
            let (slot, rest) = ([0, 5, 510][number % 3], number / 3);
            let (exempt, gap) = (rest % 2, rest / 2 % 2);
            let entries = [rest / 4 % 4, rest / 16].map(|entry| entry as u8);
            let scene = seam(pair, slot, exempt as u64, gap as u64 * BLOCK, entries);
            with_buffer(scene, |len| len)
        })
    })
}

fn seam(pair: [Place; 2], slot: u64, exempt: u64, gap: u64, entries: [u8; 2]) -> Scene {
    let [first, second] = pair;
    let mut scene = without_arena(scene(SCENE));
    scene.base.fill(0);
    scene.sup.fill(0);
    let x = &mut scene.fields;
    x[IMAGE_PRESENT] = pair.contains(&IMAGE_WINDOW).into();
    x[DEVICE_LEN] = BLOCK * u64::from(pair.contains(&DEVICE_WINDOW));
    x[EXEMPT] = exempt;
    // Windows that do not meet another are far away.
    put(x, DATA_WINDOW, 20 * L1_SPAN, 0);
    put(x, SUPER_WINDOW, 21 * L1_SPAN, 0);
    chain(x, &pair, slot, 3 * INPUT_LIMIT);
    match (output(first), output(second)) {
        (_, Some(output)) => x[output] += gap,
        (Some(output), None) => x[output] -= gap,
        _ => (),
    }
    set_entries(&mut scene, first, second, entries);
    scene
}

/// The buffers are as long as the page, or a byte or a line longer or shorter.
pub fn meeting(round: Round) -> impl Iterator<Item = Annexed> {
    random(round.seeded(105), 46_000, |random| {
        let scene = meeting_scene(random);
        with_buffer(scene, |len| match random.below(9) {
            0 => len - 1,
            1 => len - LINE,
            2 => len + 1,
            3 => len + LINE,
            _ => len,
        })
    })
}

/// An accepted layout of which two or three windows are moved so that they meet, mostly with
/// outputs that go on and with equal access.
fn meeting_scene(random: &mut Random) -> Scene {
    let mut x = accepted(random);
    let windows = met(random, &mut x);
    let slot = match random.below(4) {
        0 => random.pick(&[0, 509]),
        _ => random.below(510),
    };
    for window in WINDOWS {
        // Each has eight slots of its own, of which the chain takes none.
        let slot = (slot + 5 + 8 * window as u64 + random.below(8)) % 512;
        let ipa = slot * L1_SPAN + all_windows(&x)[window].ipa % L1_SPAN;
        put(&mut x, window, ipa, random.below(512) * INPUT_LIMIT);
    }
    chain(&mut x, &windows, slot, random.below(512) * INPUT_LIMIT);
    if random.below(4) == 0 {
        move_output(random, &mut x, &windows);
    }
    if random.below(4) > 0 {
        x[EXEMPT] = 0;
    }
    mapped(random, x, &windows)
}

/// Draws the windows that meet, in address order, and makes them as long as is needed.
fn met(random: &mut Random, x: &mut Fields) -> Vec<Place> {
    let mut windows = WINDOWS.to_vec();
    for place in (1..windows.len()).rev() {
        windows.swap(place, random.below(place as u64 + 1) as usize);
    }
    // The access of an image is never a device's.
    if !windows[..2].iter().any(|window| output(*window).is_some()) {
        windows.swap(1, 2);
    }
    let middle = [SUPER_WINDOW, DEVICE_WINDOW].contains(&windows[1]);
    let three = middle && random.below(2) == 0;
    windows.truncate(if three { 3 } else { 2 });
    if windows.contains(&IMAGE_WINDOW) {
        x[IMAGE_PRESENT] = random.pick(&FLAGS[1..]);
    }
    x[SUP_FRAMES] = x[SUP_FRAMES].max(1);
    if windows.contains(&DEVICE_WINDOW) {
        x[DEVICE_LEN] = x[DEVICE_LEN].max(BLOCK);
    }
    match three.then_some(windows[1]) {
        Some(SUPER_WINDOW) => x[SUP_FRAMES] = MAP_LEN as u64,
        Some(_) => x[DEVICE_LEN] = L1_SPAN,
        None => (),
    }
    windows
}

/// Moves the output of one of the windows that have another than their input.
fn move_output(random: &mut Random, x: &mut Fields, windows: &[Place]) {
    let outputs: Vec<_> = windows
        .iter()
        .filter_map(|window| output(*window))
        .collect();
    if outputs.is_empty() {
        return;
    }
    let output = outputs[random.below(outputs.len() as u64) as usize];
    let far = match output {
        DATA_PA => random.pick(&[PAGE, BLOCK, INPUT_LIMIT]),
        _ => random.pick(&[BLOCK, INPUT_LIMIT]),
    };
    x[output] = match random.below(2) {
        0 => x[output].wrapping_add(far),
        _ => x[output].wrapping_sub(far),
    };
}

/// Maps with one entry on both sides of where windows meet, mostly one that can go on.
fn mapped(random: &mut Random, fields: Fields, windows: &[Place]) -> Scene {
    let entry = match windows {
        _ if windows.contains(&IMAGE_WINDOW) => 3,
        _ if windows.contains(&DEVICE_WINDOW) => 2,
        _ => 1 + random.below(3) as u8,
    };
    let mut scene = Scene {
        arena: Vec::new(),
        base: map_around(random, entry),
        sup: map_around(random, entry),
        fields,
    };
    for pair in windows.windows(2) {
        let other = random.pick(&[0, 0, 1, 2, 3]) as u8;
        let entries = match random.below(5) {
            0 => [entry, other],
            1 => [other, entry],
            _ => [entry, entry],
        };
        set_entries(&mut scene, pair[0], pair[1], entries);
    }
    unmap_past_frames(&mut scene);
    scene
}

/// A whole map of this entry, of any entries, or of none.
fn map_around(random: &mut Random, entry: u8) -> Vec<u8> {
    let mut map = match random.below(3) {
        0 => vec![entry; MAP_LEN],
        1 => accepted_map(random),
        _ => Vec::new(),
    };
    map.resize(MAP_LEN, 0);
    map
}
