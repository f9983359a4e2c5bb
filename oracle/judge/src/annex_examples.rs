//! Scenes by hand, of which the page is known, and scenes that rows refuse.

use std::iter::once_with;

use crate::annex::Annexed;
use crate::annex_inputs::{around_the_page, lent, without_arena};
use crate::annex_page::{last_line, page, LINE, LONGEST};
use crate::encode::Scene;
use crate::encode_inputs::{changed_scenes, scene};
use crate::inputs::altered;
use crate::layout::{
    BLOCK, DATA_IPA, DATA_PA, DEVICE, DEVICE_LEN, EXEMPT, IMAGE, IMAGE_PRESENT, L1_SPAN,
    OUTPUT_LIMIT, SUP_FRAMES, SUP_IPA, SUP_PA,
};
use crate::layout_inputs::SCENE;
use crate::maps::MAP_LEN;

/// The lines of scene S, whose windows do not meet.
const DEVICE_OF_S: &str = "0009000000 00091FFFFF 000009000000 RW -";
const PAGE_OF_S: &str = "0080001000 0080001FFF 000050001000 RW -";
const SUPER_OF_S: &str = "00C0400000 00C05FFFFF 000060400000 RO X";

/// A change of scene S, and the lines before the last one that it then has.
type Example = (fn(&mut Scene), &'static [&'static str]);

const EXAMPLES: &[Example] = &[
    (|_| (), &[DEVICE_OF_S, PAGE_OF_S, SUPER_OF_S]),
    (nothing_reached, &[]),
    (|s| s.base.clear(), &[DEVICE_OF_S, SUPER_OF_S]),
    (|s| s.sup.clear(), &[DEVICE_OF_S, PAGE_OF_S]),
    (|s| s.fields[DEVICE_LEN] = 0, &[PAGE_OF_S, SUPER_OF_S]),
    // Neighbours of one window: two of equal access, one that differs, and a hole before the last.
    (
        |s| s.base[1..7].copy_from_slice(&[2, 2, 1, 3, 0, 3]),
        &[
            DEVICE_OF_S,
            "0080001000 0080002FFF 000050001000 RW -",
            "0080003000 0080003FFF 000050003000 RO -",
            "0080004000 0080004FFF 000050004000 RO X",
            "0080006000 0080006FFF 000050006000 RO X",
            SUPER_OF_S,
        ],
    ),
    (
        |s| s.sup[..4].copy_from_slice(&[1, 1, 2, 3]),
        &[
            DEVICE_OF_S,
            PAGE_OF_S,
            "00C0000000 00C03FFFFF 000060000000 RO -",
            "00C0400000 00C05FFFFF 000060400000 RW -",
            "00C0600000 00C07FFFFF 000060600000 RO X",
        ],
    ),
    // The exemption is the supers' alone.
    (
        |s| (s.fields[EXEMPT], s.sup[2]) = (1, 2),
        &[
            DEVICE_OF_S,
            PAGE_OF_S,
            "00C0400000 00C05FFFFF 000060400000 RW X",
        ],
    ),
    // The first and the last address, and the last output.
    (
        |s| {
            (s.fields[SUP_IPA], s.fields[SUP_FRAMES]) = (511 * L1_SPAN, 512);
            s.sup.fill(1);
            s.fields[DEVICE] = 0;
            s.fields[DATA_PA] = OUTPUT_LIMIT - BLOCK;
            s.base[511] = 1;
        },
        &[
            "0000000000 00001FFFFF 000000000000 RW -",
            "0080001000 0080001FFF FFFFFFE01000 RW -",
            "00801FF000 00801FFFFF FFFFFFFFF000 RO -",
            "7FC0000000 7FFFFFFFFF 000060000000 RO -",
        ],
    ),
    (
        data_before_super,
        &[
            DEVICE_OF_S,
            "00BFFFF000 00C01FFFFF 00005FFFF000 RW -",
            SUPER_OF_S,
        ],
    ),
    // The same with a hole, another output, and one that differs in write, in execute or in both.
    (
        |s| altered_after(s, data_before_super, |s| s.sup[0] = 0),
        &[
            DEVICE_OF_S,
            "00BFFFF000 00BFFFFFFF 00005FFFF000 RW -",
            SUPER_OF_S,
        ],
    ),
    (
        |s| altered_after(s, data_before_super, |s| s.fields[SUP_PA] += BLOCK),
        &[
            DEVICE_OF_S,
            "00BFFFF000 00BFFFFFFF 00005FFFF000 RW -",
            "00C0000000 00C01FFFFF 000060200000 RW -",
            "00C0400000 00C05FFFFF 000060600000 RO X",
        ],
    ),
    (
        |s| altered_after(s, data_before_super, |s| s.base[511] = 1),
        &[
            DEVICE_OF_S,
            "00BFFFF000 00BFFFFFFF 00005FFFF000 RO -",
            "00C0000000 00C01FFFFF 000060000000 RW -",
            SUPER_OF_S,
        ],
    ),
    (
        |s| altered_after(s, data_before_super, |s| s.fields[EXEMPT] = 1),
        &[
            DEVICE_OF_S,
            "00BFFFF000 00BFFFFFFF 00005FFFF000 RW -",
            "00C0000000 00C01FFFFF 000060000000 RW X",
            SUPER_OF_S,
        ],
    ),
    (
        |s| altered_after(s, data_before_super, |s| s.base[511] = 3),
        &[
            DEVICE_OF_S,
            "00BFFFF000 00BFFFFFFF 00005FFFF000 RO X",
            "00C0000000 00C01FFFFF 000060000000 RW -",
            SUPER_OF_S,
        ],
    ),
    // Image before super and before data, and after them.
    (
        |s| {
            image_at(s, 4 * L1_SPAN - BLOCK);
            (s.fields[SUP_IPA], s.fields[SUP_PA]) = (4 * L1_SPAN, 4 * L1_SPAN);
            s.sup[..3].copy_from_slice(&[3, 3, 2]);
        },
        &[
            DEVICE_OF_S,
            PAGE_OF_S,
            "00FFE00000 01003FFFFF 0000FFE00000 RO X",
            "0100400000 01005FFFFF 000100400000 RW -",
        ],
    ),
    (
        |s| {
            image_at(s, 2 * L1_SPAN - BLOCK);
            s.fields[DATA_PA] = 2 * L1_SPAN;
            s.base[..2].copy_from_slice(&[3, 1]);
        },
        &[
            DEVICE_OF_S,
            "007FE00000 0080000FFF 00007FE00000 RO X",
            "0080001000 0080001FFF 000080001000 RO -",
            SUPER_OF_S,
        ],
    ),
    (
        |s| {
            image_at(s, 5 * L1_SPAN);
            let start = 5 * L1_SPAN - 4 * BLOCK;
            (s.fields[SUP_IPA], s.fields[SUP_PA]) = (start, start);
            s.sup[3] = 3;
        },
        &[
            DEVICE_OF_S,
            PAGE_OF_S,
            "013FC00000 01401FFFFF 00013FC00000 RO X",
        ],
    ),
    (
        |s| {
            image_at(s, 3 * L1_SPAN);
            s.fields[SUP_IPA] = 8 * L1_SPAN;
            let start = 3 * L1_SPAN - BLOCK;
            (s.fields[DATA_IPA], s.fields[DATA_PA]) = (start, start);
            s.base[509..].copy_from_slice(&[3, 1, 3]);
        },
        &[
            DEVICE_OF_S,
            "00BFE01000 00BFE01FFF 0000BFE01000 RW -",
            "00BFFFD000 00BFFFDFFF 0000BFFFD000 RO X",
            "00BFFFE000 00BFFFEFFF 0000BFFFE000 RO -",
            "00BFFFF000 00C01FFFFF 0000BFFFF000 RO X",
            "0200400000 02005FFFFF 000060400000 RO X",
        ],
    ),
    // Device before data and before super, and after them.
    (
        |s| {
            s.fields[DEVICE] = 2 * L1_SPAN - BLOCK;
            s.fields[DATA_PA] = 2 * L1_SPAN;
            s.base[0] = 2;
        },
        &["007FE00000 0080001FFF 00007FE00000 RW -", SUPER_OF_S],
    ),
    (
        |s| {
            s.fields[DEVICE] = 4 * L1_SPAN - BLOCK;
            (s.fields[SUP_IPA], s.fields[SUP_PA]) = (4 * L1_SPAN, 4 * L1_SPAN);
            s.sup[0] = 2;
        },
        &[
            PAGE_OF_S,
            "00FFE00000 01001FFFFF 0000FFE00000 RW -",
            "0100400000 01005FFFFF 000100400000 RO X",
        ],
    ),
    (
        |s| {
            (s.fields[DEVICE], s.fields[DEVICE_LEN]) = (4 * L1_SPAN, 2 * BLOCK);
            let start = 4 * L1_SPAN - BLOCK;
            (s.fields[DATA_IPA], s.fields[DATA_PA]) = (start, start);
            s.fields[SUP_IPA] = 8 * L1_SPAN;
            s.base[510..].copy_from_slice(&[2, 2]);
        },
        &[
            "00FFE01000 00FFE01FFF 0000FFE01000 RW -",
            "00FFFFE000 01003FFFFF 0000FFFFE000 RW -",
            "0200400000 02005FFFFF 000060400000 RO X",
        ],
    ),
    (
        |s| {
            s.fields[DEVICE] = 4 * L1_SPAN;
            let start = 4 * L1_SPAN - 4 * BLOCK;
            (s.fields[SUP_IPA], s.fields[SUP_PA]) = (start, start);
            s.sup[3] = 2;
        },
        &[
            PAGE_OF_S,
            "00FFC00000 00FFDFFFFF 0000FFC00000 RO X",
            "00FFE00000 01001FFFFF 0000FFE00000 RW -",
        ],
    ),
    // Data after super.
    (
        |s| {
            (s.fields[SUP_FRAMES], s.sup[511]) = (512, 1);
            s.fields[DATA_IPA] = s.fields[SUP_IPA] + L1_SPAN;
            s.fields[DATA_PA] = s.fields[SUP_PA] + L1_SPAN;
            s.base[..2].copy_from_slice(&[1, 1]);
        },
        &[
            DEVICE_OF_S,
            SUPER_OF_S,
            "00FFE00000 0100001FFF 00009FE00000 RO -",
        ],
    ),
    // Three windows: device, a super of 1 GiB, data.
    (
        |s| {
            s.fields[DEVICE] = L1_SPAN - BLOCK;
            (s.fields[SUP_IPA], s.fields[SUP_PA]) = (L1_SPAN, L1_SPAN);
            s.fields[SUP_FRAMES] = 512;
            s.fields[DATA_PA] = 2 * L1_SPAN;
            s.sup.fill(2);
            s.base[..3].copy_from_slice(&[2, 2, 0]);
        },
        &["003FE00000 0080001FFF 00003FE00000 RW -"],
    ),
    // An image and a device that meet differ in access.
    (
        |s| {
            s.fields[DEVICE] = L1_SPAN - BLOCK;
            image_at(s, L1_SPAN);
        },
        &[
            "003FE00000 003FFFFFFF 00003FE00000 RW -",
            "0040000000 00401FFFFF 000040000000 RO X",
            PAGE_OF_S,
            SUPER_OF_S,
        ],
    ),
];

fn nothing_reached(s: &mut Scene) {
    s.fields[DEVICE_LEN] = 0;
    s.base.fill(0);
    s.sup.fill(0);
}

/// Page 511 and super 0 meet, both Rw.
fn data_before_super(s: &mut Scene) {
    s.fields[DATA_IPA] = s.fields[SUP_IPA] - BLOCK;
    s.fields[DATA_PA] = s.fields[SUP_PA] - BLOCK;
    s.base[1] = 0;
    s.base[511] = 2;
    s.sup[0] = 2;
}

fn altered_after(s: &mut Scene, first: fn(&mut Scene), then: fn(&mut Scene)) {
    first(s);
    then(s);
}

fn image_at(s: &mut Scene, image: u64) {
    (s.fields[IMAGE_PRESENT], s.fields[IMAGE]) = (1, image);
}

/// The examples, each with buffers of many lengths.
pub fn examples() -> impl Iterator<Item = Annexed> {
    example_scenes().flat_map(|scene| around_the_page(&scene))
}

/// The changed scenes, and one of the longest page. It fails if one has another page.
pub fn example_scenes() -> impl Iterator<Item = Scene> {
    let scenes = EXAMPLES.iter().map(|(change, lines)| {
        let scene = altered(without_arena(scene(SCENE)), change);
        let due: String = lines.iter().map(|line| format!("{line}\n")).collect();
        let found = String::from_utf8(page(&scene)).expect("text");
        assert_eq!(found, due + &last_line(), "{scene}");
        scene
    });
    scenes.chain(once_with(of_the_longest_page))
}

/// Scene S with an image, 512 supers, and full maps of which each entry differs from the next.
fn of_the_longest_page() -> Scene {
    let mut scene = without_arena(scene(SCENE));
    image_at(&mut scene, 5 * L1_SPAN);
    scene.fields[SUP_FRAMES] = MAP_LEN as u64;
    scene.base = [1, 2].repeat(MAP_LEN / 2);
    scene.sup = [2, 1].repeat(MAP_LEN / 2);
    assert_eq!(page(&scene).len(), LONGEST);
    scene
}

/// The examples of layouts with any two of the changes around a row, with room for no line and for
/// all of them.
pub fn refused_examples() -> impl Iterator<Item = Annexed> {
    changed_scenes()
        .map(without_arena)
        .flat_map(|scene| [LINE - 1, 10 * LINE].map(|len| lent(scene.clone(), len, len)))
}
