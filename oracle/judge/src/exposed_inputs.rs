//! Layouts with tables in their windows, next to them, and where only an input is.

use crate::examples::{examples, Example};
use crate::exposed::{exposed, Exposed};
use crate::inputs::{random, Random};
use crate::layout::{
    all_windows, BLOCK, IMAGE, IMAGE_PRESENT, L1, L2_CODE, L2_DATA, L2_DEV, L2_SUP, L3_DATA,
    OUTPUT_LIMIT, PAGE, SUP_FRAMES, TABLES,
};
use crate::layout_inputs::{accepted, SCENE};
use crate::round::Round;

/// Changes of scene S, whose tables lie in no window.
const EXAMPLES: &[Example<Exposed>] = &[
    (&[0, 0, 0, 0], |_| ()),
    (&[7, 1, OUTPUT_LIMIT], |x| x.0[L1] = OUTPUT_LIMIT),
    (&[0, 1, 1, 2], |x| x.0[L1] = 0x5000_0000),
    (&[0, 0, 0, 0], |x| x.0[L1] = 0x4fff_f000),
    (&[0, 1, 6, 2], |x| x.0[L2_DEV] = 0x501f_f000),
    (&[0, 0, 0, 0], |x| x.0[L2_DEV] = 0x5020_0000),
    (&[0, 1, 2, 3], |x| x.0[L2_CODE] = 0x607f_f000),
    (&[0, 0, 0, 0], |x| x.0[L2_CODE] = 0x6080_0000),
    (&[0, 1, 4, 4], |x| x.0[L3_DATA] = 0x900_0000),
    (&[0, 0, 0, 0], |x| x.0[L3_DATA] = 0x8000_0000),
    (&[0, 1, 3, 1], |x| {
        (x.0[IMAGE_PRESENT], x.0[IMAGE], x.0[L2_DATA]) = (2, 0x1_4000_0000, 0x1_4010_0000);
    }),
    (&[0, 0, 0, 0], |x| {
        (x.0[IMAGE], x.0[L2_DATA]) = (0x1_4000_0000, 0x1_4010_0000);
    }),
    (&[0, 0, 0, 0], |x| {
        (x.0[SUP_FRAMES], x.0[L2_SUP]) = (0, 0x6000_0000);
    }),
    // The lowest table comes first, whatever its window.
    (&[0, 1, 1, 4], |x| {
        (x.0[L1], x.0[L2_SUP]) = (0x900_1000, 0x5000_0000);
    }),
];

pub fn example_layouts() -> impl Iterator<Item = Exposed> {
    examples(EXAMPLES, || Exposed(SCENE), exposed)
}

pub fn around_windows(round: Round) -> impl Iterator<Item = Exposed> {
    random(round.seeded(71), 50_000, around_window)
}

/// A layout with some tables near a window's output, or near its input, of a present window or not.
fn around_window(random: &mut Random) -> Exposed {
    let mut x = accepted(random);
    if x[IMAGE_PRESENT] == 0 {
        x[IMAGE] = random.below(OUTPUT_LIMIT / BLOCK) * BLOCK;
    }
    for _ in 0..=random.below(3) {
        let window = all_windows(&x)[random.below(4) as usize];
        let span = window.span as u64;
        let base = match random.below(8) {
            0 => window.ipa,
            _ => window.pa,
        };
        let near = [0, span, span.wrapping_sub(PAGE), 0_u64.wrapping_sub(PAGE)];
        let offset = match random.below(2) {
            0 => random.pick(&near),
            _ => random.below(span.max(PAGE)),
        };
        let table = random.below(TABLES.end as u64) as usize;
        x[table] = base.wrapping_add(offset) % OUTPUT_LIMIT / PAGE * PAGE;
    }
    Exposed(x)
}
