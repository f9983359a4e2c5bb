//! `s2_annex`.

use std::hint::black_box;

use crate::annex_page::{LINE, LONGEST};
use crate::bench::scene::{scenes, Both, ZEROS};
use crate::bench::{calls, Line};
use crate::diff_lines::grouped;

pub fn lines() {
    for (input, scene) in &scenes() {
        line(input, scene);
    }
}

/// The Rust has no page, and the one in annex_page.rs is made to be read, not to be fast. The port's
/// own encoding goes through the same pages and blocks.
fn line(input: &str, scene: &Both) {
    let mut page = [0; LONGEST];
    let mut values = [0; 8];
    assert!(
        calls::annex(scene, &mut page, &mut values),
        "{input}: no page"
    );
    let runs = match values[0] / LINE as u64 - 1 {
        1 => "1 run".into(),
        runs => grouped(runs) + " runs",
    };
    let line = Line {
        call: "s2_annex",
        input: &format!("a page of {runs}; {input}"),
        beside: "not the Rust: the port's `s2_encode`",
        alike: false,
    };
    let mut arena = ZEROS;
    line.print(
        || calls::encode(black_box(scene), black_box(&mut arena), &mut [0; 8]),
        || calls::annex(black_box(scene), black_box(&mut page), &mut values),
    );
}
