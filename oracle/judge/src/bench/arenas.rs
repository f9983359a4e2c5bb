//! `s2_encode`, `s2_step` and `s2_verify`.

use std::hint::black_box;

use given_s2::arm64::{self, verify_encoding};

use crate::bench::scene::{scenes, Arena, Both, ZEROS};
use crate::bench::{calls, Line};
use crate::step::STEPS;
use crate::{encode, verify};

pub fn lines() {
    let scenes = scenes();
    for (input, scene) in &scenes {
        encode_line(input, scene);
    }
    for (input, scene) in &scenes {
        for (place, number) in NUMBERS {
            step_line(&format!("{place}; {input}"), scene, number);
        }
    }
    for (input, scene) in &scenes {
        update_line(input, scene);
    }
    for (input, scene) in &scenes {
        verify_line(input, scene);
    }
}

/// The first step zeroes a word, the other stores that of a page.
const NUMBERS: [(&str, u64); 2] = [("step 0", 0), ("step 4,606", STEPS - 1 - (3 * 512 + 1))];

/// What board code would call for the same answer: `validate` before `encode`.
fn guarded(scene: &Both, arena: &mut Arena) -> bool {
    let valid = black_box(scene.layout.validate()).is_ok();
    if valid {
        encode_by_rust(scene, arena);
    }
    valid
}

fn encode_by_rust(scene: &Both, arena: &mut Arena) {
    let Both {
        layout,
        leaves,
        supers,
        ..
    } = scene;
    arm64::encode(leaves, supers, layout, encode::tables(&mut arena.0));
}

fn encode_line(input: &str, scene: &Both) {
    let line = Line {
        call: "s2_encode",
        input,
        beside: "`validate` and `encode`",
        alike: true,
    };
    let (mut rust, mut port) = (ZEROS, ZEROS);
    let mut values = [0; 8];
    line.print(
        || guarded(black_box(scene), black_box(&mut rust)),
        || calls::encode(black_box(scene), black_box(&mut port), &mut values),
    );
    assert!(rust.0 == port.0, "{input}: other words");
}

/// The Rust has no step.
fn step_line(input: &str, scene: &Both, number: u64) {
    let line = Line {
        call: "s2_step",
        input,
        beside: "`validate` alone",
        alike: false,
    };
    let mut port = ZEROS;
    let mut values = [0; 8];
    line.print(
        || black_box(black_box(&scene.layout).validate()).is_ok(),
        || {
            calls::step(
                black_box(scene),
                black_box(&mut port),
                black_box(number),
                &mut values,
            )
        },
    );
}

/// The Rust has no update: it stores all words at once.
fn update_line(input: &str, scene: &Both) {
    let line = Line {
        call: "s2_step",
        input: &format!("all 6,144 steps; {input}"),
        beside: "`validate` and `encode`, once",
        alike: false,
    };
    let (mut rust, mut port) = (ZEROS, ZEROS);
    let mut values = [0; 8];
    line.print(
        || guarded(black_box(scene), black_box(&mut rust)),
        || (0..STEPS).all(|n| calls::step(black_box(scene), black_box(&mut port), n, &mut values)),
    );
    assert!(rust.0 == port.0, "{input}: other words");
}

fn verify_line(input: &str, scene: &Both) {
    let line = Line {
        call: "s2_verify",
        input,
        beside: "`verify_encoding`",
        alike: true,
    };
    let mut arena = ZEROS;
    encode_by_rust(scene, &mut arena);
    let mut lent = Arena(arena.0);
    let mut values = [0; 8];
    let Both {
        layout,
        leaves,
        supers,
        ..
    } = scene;
    line.print(
        || {
            let tables = verify::tables(&black_box(&arena).0);
            black_box(verify_encoding(leaves, supers, black_box(layout), tables)).is_ok()
        },
        || calls::verify(black_box(scene), black_box(&mut lent), &mut values),
    );
}
