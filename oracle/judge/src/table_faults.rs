//! Slips of a port that encodes: in the words of tables 1 to 3, of the image and of the device
//! window.

use crate::encode::{table, Encoded, Scene};
use crate::encode_row_faults::fault;
use crate::function::{with, Fault};
use crate::layout::{
    all_windows, BLOCK, DATA_IPA, DEVICE, DEVICE_LEN, IMAGE, IMAGE_PRESENT, L1, L1_SPAN, L2_DATA,
    L2_DEV, L2_SUP, L3_DATA, PAGE,
};
use crate::leaf_faults::leaves;
use crate::store_faults::accepted;

pub const FAULTS: &[Fault<Scene>] = &[
    fault("l1-no-image", "no l1 word names l2_code", l1_left::<0>),
    fault("l1-no-data", "no l1 word names l2_data", l1_left::<1>),
    fault("l1-no-super", "no l1 word names l2_sup", l1_left::<2>),
    fault("l1-no-device", "no l1 word names l2_dev", l1_left::<3>),
    fault(
        "l1-image-astray",
        "the image's l1 word names l2_data",
        l1_astray::<0, L2_DATA>,
    ),
    fault(
        "l1-data-astray",
        "data's l1 word names l3_data",
        l1_astray::<1, L3_DATA>,
    ),
    fault(
        "l1-super-astray",
        "the l1 word of the super window names l2_dev",
        l1_astray::<2, L2_DEV>,
    ),
    fault(
        "l1-device-astray",
        "the l1 word of the device window names l2_sup",
        l1_astray::<3, L2_SUP>,
    ),
    fault("l1-itself", "data's l1 word names l1", l1_astray::<1, L1>),
    fault(
        "l1-one-slot-on",
        "data's l1 word stands in the next slot",
        |scene, reply| {
            if let Some(slot) = l1_slot::<1>(scene, reply) {
                reply.arena[(slot + 1) % 512] = reply.arena[slot];
                reply.arena[slot] = scene.arena[slot];
            }
        },
    ),
    fault(
        "l1-tables-of-32-bits",
        "the high half of a table's address is lost",
        |scene, reply| {
            if let Some(slot) = l1_slot::<2>(scene, reply) {
                reply.arena[slot] %= 1 << 32;
            }
        },
    ),
    fault(
        "l1-as-block",
        "data's l1 word is a block",
        |scene, reply| {
            if let Some(slot) = l1_slot::<1>(scene, reply) {
                reply.arena[slot] &= !2;
            }
        },
    ),
    fault(
        "table-3-no-word",
        "no word of l2_data names l3_data",
        |scene, reply| {
            if let Some(place) = data_place(scene, reply) {
                reply.arena[place] = scene.arena[place];
            }
        },
    ),
    fault(
        "table-3-slot-0",
        "the word of l2_data stands in slot 0",
        |scene, reply| {
            if let Some(place) = data_place(scene, reply) {
                let word = std::mem::replace(&mut reply.arena[place], scene.arena[place]);
                reply.arena[table(3).start] = word;
            }
        },
    ),
    fault(
        "table-3-astray",
        "the word of l2_data names l2_data",
        |scene, reply| {
            if let Some(place) = data_place(scene, reply) {
                reply.arena[place] = scene.fields[L2_DATA] | 3;
            }
        },
    ),
    fault(
        "image-writable",
        "the image's block is Rw",
        |scene, reply| image_word(scene, reply, |word| word | 1 << 7),
    ),
    fault(
        "image-never-executed",
        "the image's block is execute never",
        |scene, reply| image_word(scene, reply, |word| word | 1 << 54),
    ),
    fault(
        "image-one-page-on",
        "the image's block has the address of the page after",
        |scene, reply| image_word(scene, reply, |word| word + PAGE),
    ),
    fault(
        "image-one-block-on",
        "the image's block has the address of the block after",
        |scene, reply| image_word(scene, reply, |word| word + BLOCK),
    ),
    fault(
        "image-slot-0",
        "the image's block stands in slot 0",
        |scene, reply| {
            if let Some(place) = image_place(scene, reply) {
                let word = std::mem::replace(&mut reply.arena[place], scene.arena[place]);
                reply.arena[table(2).start] = word;
            }
        },
    ),
    fault(
        "image-no-block",
        "l2_code is left as found",
        |scene, reply| {
            if let Some(place) = image_place(scene, reply) {
                reply.arena[place] = scene.arena[place];
            }
        },
    ),
    fault(
        "image-where-none",
        "an absent image is mapped where its address is",
        |scene, reply| {
            if accepted(reply) {
                *reply = with(scene, |scene| scene.fields[IMAGE_PRESENT] = 1);
            }
        },
    ),
    fault(
        "encode-image-only-by-1",
        "an image whose presence is another number than 1 is not mapped",
        |scene, reply| {
            if accepted(reply) && scene.fields[IMAGE_PRESENT] > 1 {
                *reply = with(scene, |scene| scene.fields[IMAGE_PRESENT] = 0);
            }
        },
    ),
    fault(
        "image-at-0-absent",
        "an image at address 0 is not mapped",
        |scene, reply| {
            if accepted(reply) && scene.fields[IMAGE] == 0 {
                *reply = with(scene, |scene| scene.fields[IMAGE_PRESENT] = 0);
            }
        },
    ),
    fault(
        "device-executable",
        "the device's blocks may be executed",
        |_, reply| leaves::<6>(reply, |word| word & !(1 << 54)),
    ),
    fault(
        "device-read-only",
        "the device's blocks are Ro",
        |_, reply| leaves::<6>(reply, |word| word & !(1 << 7)),
    ),
    fault(
        "device-as-memory",
        "the device's blocks are normal memory",
        |_, reply| leaves::<6>(reply, |word| word | 0x33c),
    ),
    fault(
        "device-one-block-on",
        "the device's blocks have the addresses of those after",
        |_, reply| leaves::<6>(reply, |word| word + BLOCK),
    ),
    fault(
        "device-one-block-less",
        "the last block of the device window is not mapped",
        |scene, reply| {
            if let Some((_, last)) = device_places(scene, reply) {
                reply.arena[last] = 0;
            }
        },
    ),
    fault(
        "device-one-block-more",
        "the block after the device window is mapped",
        |scene, reply| {
            if let Some((_, last)) =
                device_places(scene, reply).filter(|(_, last)| last % 512 < 511)
            {
                reply.arena[last + 1] = reply.arena[last] + BLOCK;
            }
        },
    ),
    fault(
        "device-one-block-alone",
        "only the first block of the device window is mapped",
        |scene, reply| {
            if let Some((first, _)) = device_places(scene, reply) {
                reply.arena[first + 1..].fill(0);
            }
        },
    ),
    fault(
        "device-from-slot-0",
        "the device's blocks stand from slot 0 on",
        |scene, reply| {
            if let Some((first, _)) = device_places(scene, reply) {
                reply.arena[table(6)].rotate_left(first - table(6).start);
            }
        },
    ),
    fault(
        "device-where-none",
        "a device window of no length is mapped where its base is",
        |scene, reply| {
            if accepted(reply) && scene.fields[DEVICE_LEN] == 0 {
                let slot = scene.fields[DEVICE] / L1_SPAN % 512;
                reply.arena[slot as usize] = scene.fields[L2_DEV] | 3;
            }
        },
    ),
];

/// The slot of a window's l1 word, if it has one.
fn l1_slot<const WINDOW: usize>(scene: &Scene, reply: &Encoded) -> Option<usize> {
    let window = all_windows(&scene.fields)[WINDOW];
    (accepted(reply) && window.present).then_some(window.l1_index() as usize)
}

fn l1_left<const WINDOW: usize>(scene: &Scene, reply: &mut Encoded) {
    if let Some(slot) = l1_slot::<WINDOW>(scene, reply) {
        reply.arena[slot] = scene.arena[slot];
    }
}

fn l1_astray<const WINDOW: usize, const TABLE: usize>(scene: &Scene, reply: &mut Encoded) {
    if let Some(slot) = l1_slot::<WINDOW>(scene, reply) {
        reply.arena[slot] = scene.fields[TABLE] | 3;
    }
}

/// The place of the slot that an address has in a table of level 2.
pub fn l2_place(number: usize, address: u64) -> usize {
    table(number).start + (address / BLOCK % 512) as usize
}

/// The place of the word that names l3_data.
fn data_place(scene: &Scene, reply: &Encoded) -> Option<usize> {
    accepted(reply).then_some(l2_place(3, scene.fields[DATA_IPA]))
}

/// The place of the image's block.
fn image_place(scene: &Scene, reply: &Encoded) -> Option<usize> {
    let present = scene.fields[IMAGE_PRESENT] != 0;
    (accepted(reply) && present).then_some(l2_place(2, scene.fields[IMAGE]))
}

fn image_word(scene: &Scene, reply: &mut Encoded, change: fn(u64) -> u64) {
    if let Some(place) = image_place(scene, reply) {
        reply.arena[place] = change(reply.arena[place]);
    }
}

/// The places of the first and of the last device block.
fn device_places(scene: &Scene, reply: &Encoded) -> Option<(usize, usize)> {
    let (base, len) = (scene.fields[DEVICE], scene.fields[DEVICE_LEN]);
    (accepted(reply) && len > 0).then(|| (l2_place(6, base), l2_place(6, base + len - BLOCK)))
}
