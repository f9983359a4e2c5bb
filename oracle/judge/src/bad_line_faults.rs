//! Slips of an `s2dump` in telling of a bad line.

use crate::dump_faults::{bad_line_fault, with};
use crate::function::Fault;
use crate::programs::Text;
use crate::scene_text::{lines, scene};

pub const FAULTS: &[Fault<Text>] = &[
    bad_line_fault(
        "dump-words-before-bad-line",
        "the scene of the lines before a bad one is printed first",
        |text, printed| {
            let good = with(text, |text| text.0.truncate(good_lines(&text.0)));
            printed.stdout.splice(..0, good.stdout);
        },
    ),
    bad_line_fault(
        "dump-words-for-bad-line",
        "the scene of the lines before a bad one is printed alone",
        |text, printed| *printed = with(text, |text| text.0.truncate(good_lines(&text.0))),
    ),
    bad_line_fault(
        "dump-bad-line-for-each",
        "after a bad line the program reads on",
        |text, printed| {
            let bad = lines(&text.0).filter(|line| scene(line).is_none() || line.is_empty());
            printed.stdout = b"BAD LINE\n".repeat(bad.count());
            let good = with(text, keep_good_lines).stdout;
            printed.stdout.extend(good);
        },
    ),
    bad_line_fault(
        "dump-bad-line-number",
        "the number of the bad line is printed",
        |text, printed| {
            let number = 1 + lines(&text.0[..good_lines(&text.0)]).count();
            printed.stdout = format!("BAD LINE {number}\n").into_bytes();
        },
    ),
    bad_line_fault(
        "dump-bad-line-without-line-feed",
        "the line that tells of a bad one does not end",
        |_, printed| _ = printed.stdout.pop(),
    ),
    bad_line_fault(
        "dump-bad-line-lower-case",
        "a bad line is told in lower case",
        |_, printed| printed.stdout.make_ascii_lowercase(),
    ),
    bad_line_fault(
        "dump-bad-line-status",
        "a bad line is a failure",
        |_, printed| printed.status = Some(1),
    ),
    bad_line_fault(
        "dump-bad-line-crash",
        "a bad line ends the program by a signal",
        |_, printed| printed.status = None,
    ),
    bad_line_fault(
        "dump-bad-line-skipped",
        "a bad line is not told",
        |text, printed| *printed = with(text, keep_good_lines),
    ),
    bad_line_fault(
        "dump-refused-before-bad-line",
        "a scene that is refused is not told to have a bad line",
        |text, printed| {
            let good = with(text, keep_good_lines);
            if good.refused().is_some() {
                *printed = good;
            }
        },
    ),
];

/// The length of the lines before the first bad one.
fn good_lines(text: &[u8]) -> usize {
    let lines = text.split_inclusive(|byte| *byte == b'\n');
    let good = lines.take_while(|line| scene(line).is_some());
    good.map(<[u8]>::len).sum()
}

/// Leaves out the lines that are bad.
pub fn keep_good_lines(text: &mut Text) {
    let lines = text.0.split_inclusive(|byte| *byte == b'\n');
    let good = lines.filter(|line| scene(line).is_some());
    text.0 = good.flatten().copied().collect();
}
