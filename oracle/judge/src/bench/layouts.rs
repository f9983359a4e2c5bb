//! `s2_validate` and `s2_exposed`.

use std::hint::black_box;

use crate::bench::scene::WHOLE;
use crate::bench::{calls, Line};
use crate::inputs::altered;
use crate::layout::{layout, Fields, DEVICE_LEN, PAGE, SUP_PA};
use crate::layout_inputs::SCENE;

pub fn lines() {
    let refused_first = altered(SCENE, |x| x[DEVICE_LEN] = PAGE);
    let refused_last = altered(SCENE, |x| x[SUP_PA] = 0x5000_0000);
    validate("S", &SCENE);
    validate("S, an image and the longest windows", &WHOLE);
    validate("refused by row 4, the first", &refused_first);
    validate("refused by row 12, the last", &refused_last);
    exposed("S", &SCENE);
    exposed("S, an image and the longest windows", &WHOLE);
}

fn validate(input: &str, fields: &Fields) {
    let line = Line {
        call: "s2_validate",
        input,
        beside: "`validate`",
        alike: true,
    };
    let mut values = [0; 8];
    let layout = layout(fields);
    line.print(
        || black_box(black_box(&layout).validate()).is_ok(),
        || calls::validate(black_box(fields), &mut values),
    );
}

/// The Rust does not look for exposed tables.
fn exposed(input: &str, fields: &Fields) {
    let line = Line {
        call: "s2_exposed",
        input,
        beside: "`validate` alone",
        alike: false,
    };
    let mut values = [0; 8];
    let layout = layout(fields);
    line.print(
        || black_box(black_box(&layout).validate()).is_ok(),
        || calls::exposed(black_box(fields), &mut values),
    );
}
