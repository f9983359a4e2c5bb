//! The layouts that both sides are asked about.

use crate::inputs::{altered, random, Random};
use crate::layout::{
    validate, Fields, BLOCK, DATA_IPA, DATA_PA, DEVICE, DEVICE_LEN, EXEMPT, FRAME_SIZE, IMAGE,
    IMAGE_PRESENT, INPUT_LIMIT, L1, L1_SPAN, L2_CODE, L2_DATA, L2_DEV, L2_SUP, L3_DATA,
    OUTPUT_LIMIT, PAGE, SUP_FRAMES, SUP_FRAMES_LIMIT, SUP_IPA, SUP_PA, TABLES,
};
use crate::layout_edges::{edges, FLAGS};
use crate::round::Round;

/// Scene S of document 01.
pub const SCENE: Fields = [
    0x4000_0000,
    0x4000_1000,
    0x4000_2000,
    0x4000_3000,
    0x4000_4000,
    0x4000_5000,
    0,
    0,
    0x8000_0000,
    0x5000_0000,
    0x1000,
    0xc000_0000,
    0x6000_0000,
    0x900_0000,
    0x20_0000,
    0,
    4,
];

/// Fields of scene S and what they are changed to.
type Changes = &'static [(usize, u64)];

/// Changes of scene S and the row that refuses them, 0 for none: document 01's example of each row,
/// the edges that it says are accepted, and what stands next to them.
const EXAMPLES: [(u64, Changes); 20] = [
    (4, &[(DEVICE_LEN, 4_096)]),
    (5, &[(FRAME_SIZE, 16_384)]),
    (6, &[(SUP_PA, 0x6000_1000)]),
    (7, &[(L1, OUTPUT_LIMIT)]),
    (8, &[(SUP_FRAMES, SUP_FRAMES_LIMIT)]),
    (9, &[(SUP_FRAMES, SUP_FRAMES_LIMIT - 1)]),
    (9, &[(SUP_FRAMES, 513)]),
    (10, &[(DATA_PA, OUTPUT_LIMIT - 4_096)]),
    (11, &[(SUP_IPA, 0x8020_0000)]),
    (12, &[(SUP_PA, 0x5000_0000)]),
    (0, &[]),
    (0, &[(SUP_FRAMES, 512)]),
    (0, &[(DATA_PA, OUTPUT_LIMIT - BLOCK)]),
    (10, &[(DATA_PA, OUTPUT_LIMIT - BLOCK + PAGE)]),
    (0, &[(SUP_FRAMES, 0), (SUP_PA, 0x5000_0000)]),
    // Strictly inside data's output, even a window of no frames overlaps.
    (
        12,
        &[
            (SUP_FRAMES, 0),
            (SUP_PA, 0x5000_0000),
            (DATA_PA, 0x4fff_f000),
        ],
    ),
    (0, &[(SUP_FRAMES, 0), (SUP_PA, OUTPUT_LIMIT)]),
    (9, &[(SUP_FRAMES, 0), (SUP_IPA, INPUT_LIMIT)]),
    // Neither an absent window's address nor the exemption is read.
    (
        0,
        &[(DEVICE_LEN, 0), (DEVICE, u64::MAX), (IMAGE, 1), (EXEMPT, 2)],
    ),
    (0, &[(IMAGE_PRESENT, 2), (IMAGE, 0x1_4000_0000)]),
];

/// One for each other check, table and window that a refusal tells of.
const TOLD: [(u64, Changes); 14] = [
    (6, &[(DATA_IPA, 0x8000_1000)]),
    (6, &[(DATA_PA, 0x5000_0001)]),
    (6, &[(SUP_IPA, 0xc010_0000)]),
    (6, &[(IMAGE_PRESENT, 1), (IMAGE, 0x1_4010_0000)]),
    (6, &[(DEVICE, 0x900_1000)]),
    (7, &[(L2_CODE, 0x4000_1001)]),
    (7, &[(L2_DATA, 0x4000_2800)]),
    (7, &[(L3_DATA, OUTPUT_LIMIT + PAGE)]),
    (7, &[(L2_SUP, 1 << 63)]),
    (7, &[(L2_DEV, u64::MAX)]),
    (9, &[(IMAGE_PRESENT, 1), (IMAGE, INPUT_LIMIT)]),
    (9, &[(DATA_IPA, INPUT_LIMIT)]),
    (9, &[(DEVICE, INPUT_LIMIT)]),
    (10, &[(SUP_PA, OUTPUT_LIMIT - BLOCK)]),
];

/// Two neighbours of one row fail, in S with an image: the first words of the answer, which are the
/// first's. An image or a device that row 10 would refuse is refused by row 9.
const WITHIN: [(&[u64], Changes); 19] = [
    (&[6, 1], &[(DATA_IPA, 0x8000_1000), (DATA_PA, 0x5000_0800)]),
    (&[6, 2], &[(DATA_PA, 0x5000_0800), (SUP_IPA, 0xc000_1000)]),
    (&[6, 3], &[(SUP_IPA, 0xc000_1000), (SUP_PA, 0x6000_1000)]),
    (&[6, 4], &[(SUP_PA, 0x6000_1000), (IMAGE, 0x4020_1000)]),
    (&[6, 5], &[(IMAGE, 0x4020_1000), (DEVICE, 0x900_1000)]),
    (&[7, 1], &[(L1, 0x4000_0001), (L2_CODE, OUTPUT_LIMIT)]),
    (&[7, 2], &[(L2_CODE, OUTPUT_LIMIT), (L2_DATA, 0x4000_2800)]),
    (&[7, 3], &[(L2_DATA, 0x4000_2800), (L3_DATA, OUTPUT_LIMIT)]),
    (&[7, 4], &[(L3_DATA, OUTPUT_LIMIT), (L2_SUP, 0x4000_4002)]),
    (&[7, 5], &[(L2_SUP, 0x4000_4002), (L2_DEV, OUTPUT_LIMIT)]),
    (
        &[9, 0],
        &[(IMAGE, INPUT_LIMIT), (DATA_IPA, INPUT_LIMIT + L1_SPAN)],
    ),
    (
        &[9, 1],
        &[(DATA_IPA, INPUT_LIMIT + L1_SPAN), (SUP_FRAMES, 513)],
    ),
    (
        &[9, 3],
        &[(SUP_FRAMES, 513), (DEVICE, INPUT_LIMIT + 2 * L1_SPAN)],
    ),
    (&[10, 2], &[(DATA_PA, OUTPUT_LIMIT), (SUP_PA, OUTPUT_LIMIT)]),
    // Pair by pair: image with data, with super, with device, data with super, with device, super
    // with device.
    (&[12], &[(IMAGE, 0x5000_0000), (SUP_IPA, 0x4040_0000)]),
    (&[12], &[(IMAGE, 0x6000_0000), (DEVICE, 0x4040_0000)]),
    (&[11, 1], &[(DEVICE, 0x4040_0000), (SUP_IPA, 0x8020_0000)]),
    (&[12], &[(SUP_PA, 0x5000_0000), (DEVICE, 0x8040_0000)]),
    (&[12], &[(DATA_PA, 0x900_0000), (SUP_IPA, 0x20_0000)]),
];

pub fn examples() -> impl Iterator<Item = Fields> {
    let list = EXAMPLES.into_iter().chain(TOLD);
    list.map(|(row, changes)| example(SCENE, &[row], changes))
}

/// Layouts that fail two checks of one row.
pub fn within_rows() -> impl Iterator<Item = Fields> {
    let image = altered(SCENE, |x| {
        (x[IMAGE_PRESENT], x[IMAGE]) = (1, 0x4020_0000);
    });
    let list = WITHIN.into_iter();
    list.map(move |(answer, changes)| example(image, answer, changes))
}

/// The changed layout. It fails if the answer is another.
fn example(mut x: Fields, answer: &[u64], changes: Changes) -> Fields {
    for (field, value) in changes {
        x[*field] = *value;
    }
    assert_eq!(
        validate(&x)[..answer.len()],
        *answer,
        "document 01 gives the answer to {changes:x?}"
    );
    x
}

/// Layouts near scene S, with an image and without one, and random ones.
pub fn layouts(round: Round) -> impl Iterator<Item = Fields> {
    let image = altered(SCENE, |x| {
        (x[IMAGE], x[IMAGE_PRESENT]) = (0x1_4000_0000, 1);
    });
    round
        .once(move || [SCENE, image].into_iter().flat_map(twice_moved))
        .chain(random(round.seeded(13), 200_000, moved))
        .chain(random(round.seeded(14), 50_000, crowded))
        .chain(random(round.seeded(15), 10_000, any))
}

/// How many random layouts of each answer are recorded.
const SAMPLE: u64 = 20;

/// Layouts to record: the examples, those that fail twice, and the first few random ones of each
/// answer.
pub fn recorded() -> impl Iterator<Item = Fields> {
    let mut left = [SAMPLE; 13];
    let wanted = move |x: &Fields| {
        let left = &mut left[validate(x)[0] as usize];
        let wanted = *left > 0;
        *left = left.saturating_sub(1);
        wanted
    };
    let few = random(Random(16), 20_000, moved).filter(wanted);
    examples().chain(within_rows()).chain(few)
}

/// The layout with any two of its fields moved to an edge.
fn twice_moved(x: Fields) -> impl Iterator<Item = Fields> {
    let once = (0..x.len()).flat_map(move |field| at_edges(x, field).map(move |x| (field, x)));
    once.flat_map(|(first, x)| (first + 1..x.len()).flat_map(move |field| at_edges(x, field)))
}

fn at_edges(x: Fields, field: usize) -> impl Iterator<Item = Fields> {
    let edges = edges(&x, field).into_iter();
    edges.map(move |value| altered(x, |x| x[field] = value))
}

/// An accepted layout with up to three fields moved to an edge, so that rows compete.
pub fn moved(random: &mut Random) -> Fields {
    let mut x = accepted(random);
    for _ in 0..random.pick(&[0, 1, 1, 1, 2, 2, 3]) {
        let field = random.below(x.len() as u64) as usize;
        x[field] = random.pick(&edges(&x, field));
    }
    x
}

/// A layout that no row refuses: each window has an l1 slot of its own and its output a gigabyte
/// of its own.
pub fn accepted(random: &mut Random) -> Fields {
    let [image, device, data, sup, slots @ ..] = distinct::<6>(random, slot);
    let [data_output, sup_output] = slots.map(|slot| gigabyte(random, slot));
    let mut x = [0; 17];
    x[TABLES].copy_from_slice(&distinct::<6>(random, table));
    x[FRAME_SIZE] = PAGE;
    x[EXEMPT] = random.pick(&FLAGS);
    x[IMAGE_PRESENT] = random.pick(&[0, 0, 0, 1, 2, 1 << 63]);
    x[IMAGE] = match x[IMAGE_PRESENT] {
        0 => random.word(),
        _ => placed(random, image, BLOCK, BLOCK),
    };
    x[DATA_IPA] = placed(random, data, BLOCK, BLOCK);
    x[DATA_PA] = placed(random, data_output, BLOCK, PAGE);
    x[SUP_FRAMES] = sometimes(random, &[0, 1, 511, 512], |random| random.below(513));
    x[SUP_IPA] = placed(random, sup, x[SUP_FRAMES] * BLOCK, BLOCK);
    x[SUP_PA] = placed(random, sup_output, x[SUP_FRAMES] * BLOCK, BLOCK);
    x[DEVICE_LEN] = BLOCK
        * sometimes(random, &[0, 1, 512], |random| {
            random.below(513) >> random.below(8)
        });
    x[DEVICE] = match x[DEVICE_LEN] {
        0 => random.word(),
        len => placed(random, device, len, BLOCK),
    };
    x
}

/// One of the special values in half of the cases.
fn sometimes(random: &mut Random, special: &[u64], draw: fn(&mut Random) -> u64) -> u64 {
    match random.below(2) {
        0 => random.pick(special),
        _ => draw(random),
    }
}

/// Drawn again until no two are equal.
fn distinct<const N: usize>(random: &mut Random, draw: fn(&mut Random) -> u64) -> [u64; N] {
    loop {
        let drawn = std::array::from_fn(|_| draw(random));
        let equal = |i: usize| drawn[..i].contains(&drawn[i]);
        if !(0..N).any(equal) {
            return drawn;
        }
    }
}

fn slot(random: &mut Random) -> u64 {
    sometimes(random, &[0, 1, 2, 3, 4, 5, 6, 7, 510, 511], |random| {
        random.below(512)
    })
}

fn table(random: &mut Random) -> u64 {
    sometimes(random, &[0, 1, 2, 3, 4, 5, 6, 7], |random| {
        random.word() >> 28
    }) * PAGE
}

/// A gigabyte of the outputs, congruent to a slot: distinct slots have distinct gigabytes.
fn gigabyte(random: &mut Random, slot: u64) -> u64 {
    512 * sometimes(random, &[0, 511], |random| random.below(512)) + slot
}

/// An aligned address in a gigabyte such that the span fits, often at one of its ends.
fn placed(random: &mut Random, gigabyte: u64, span: u64, align: u64) -> u64 {
    // An address of no span is in the gigabyte too.
    let last = (L1_SPAN - span.max(align)) / align;
    let place = match random.below(4) {
        0 => 0,
        1 => last,
        _ => random.below(last + 1),
    };
    gigabyte * L1_SPAN + place * align
}

/// A layout in so little room that its windows often meet.
fn crowded(random: &mut Random) -> Fields {
    let mut x = [0; 17];
    for field in &mut x {
        *field = random.below(3) * L1_SPAN + random.below(3) * BLOCK;
    }
    for table in &mut x[TABLES] {
        *table = random.below(16) * PAGE;
    }
    x[DATA_PA] += random.below(3) * PAGE;
    x[FRAME_SIZE] = PAGE;
    x[DEVICE_LEN] %= L1_SPAN;
    x[SUP_FRAMES] = random.below(4);
    x[IMAGE_PRESENT] = random.below(2);
    x
}

/// Words of any width. Half of the layouts have what rows 4 and 5 ask for.
fn any(random: &mut Random) -> Fields {
    let mut x = std::array::from_fn(|_| random.word() >> random.below(64));
    if random.below(2) == 0 {
        x[FRAME_SIZE] = PAGE;
        x[DEVICE_LEN] &= !(BLOCK - 1);
    }
    x
}
