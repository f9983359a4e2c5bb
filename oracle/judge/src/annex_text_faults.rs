//! Slips of an `s2annex`. It reads as `s2dump` does, whose slips in reading stand with that.

use crate::annex_page::{LINE, LONGEST};
use crate::bad_line_faults::keep_good_lines;
use crate::function::{with_op, Fault};
use crate::programs::{Lines, Printed, Program, Text};
use crate::reading_faults::{finished_lines, replaced, reversed_lines};

pub const FAULTS: &[Fault<Text>] = &[
    fault(
        "annex-text-words",
        "the words are printed that the scene is encoded to",
        |text, printed| {
            let words = with_op(text, (Program::Dump, Lines::Good), |_| ());
            printed.stdout = words.stdout;
        },
    ),
    fault(
        "annex-text-whole-buffer",
        "after the page the rest of the buffer is printed",
        |_, printed| {
            if printed.accepted() {
                printed.stdout.resize(LONGEST, 0);
            }
        },
    ),
    fault(
        "annex-text-bytes-after",
        "how long the page is stands after it",
        |_, printed| {
            if printed.accepted() {
                let len = format!("{}\n", printed.stdout.len());
                printed.stdout.extend(len.into_bytes());
            }
        },
    ),
    fault(
        "annex-text-without-last-line",
        "the last line is not printed",
        |_, printed| {
            if printed.accepted() {
                printed.stdout.truncate(printed.stdout.len() - LINE);
            }
        },
    ),
    fault(
        "annex-text-without-last-line-feed",
        "the last line does not end",
        |_, printed| {
            if printed.accepted() {
                printed.stdout.pop();
            }
        },
    ),
    fault(
        "annex-text-nothing-silent",
        "where nothing is reached nothing is printed",
        |_, printed| {
            if printed.stdout.starts_with(b"=") {
                printed.stdout.clear();
            }
        },
    ),
    fault(
        "annex-text-64-lines",
        "no more than 64 lines are printed",
        |_, printed| printed.stdout.truncate(64 * LINE),
    ),
    fault(
        "annex-text-refused-hexadecimal",
        "the row's number is printed in hexadecimal",
        |_, printed| {
            if let Some(row) = printed.refused() {
                printed.stdout = format!("REFUSED {row:X}\n").into_bytes();
            }
        },
    ),
    fault(
        "annex-text-refused-status",
        "a refused scene is a failure",
        |_, printed| {
            if printed.refused().is_some() {
                printed.status = Some(1);
            }
        },
    ),
    fault(
        "annex-text-refused-last-line",
        "of a refused scene the last line of a page is printed",
        |_, printed| {
            if printed.refused().is_some() {
                printed.stdout.extend([b'='; LINE - 1]);
                printed.stdout.push(b'\n');
            }
        },
    ),
    fault(
        "annex-text-first-line-counts",
        "a later line does not replace an earlier one",
        |text, printed| *printed = with(text, reversed_lines),
    ),
    fault(
        "annex-text-unfinished-line-left-out",
        "a last line without a line feed is not read",
        |text, printed| {
            if !text.0.ends_with(b"\n") {
                *printed = with(text, finished_lines);
            }
        },
    ),
    fault(
        "annex-text-supers-as-pages",
        "supers are put in the base map",
        |text, printed| *printed = with(text, |text| text.0 = replaced(&text.0, b'U', b'B')),
    ),
    bad_line_fault(
        "annex-text-page-before-bad-line",
        "the page of the good lines is printed before a bad one is told",
        |text, printed| {
            let good = with(text, keep_good_lines);
            printed.stdout.splice(..0, good.stdout);
        },
    ),
    bad_line_fault(
        "annex-text-bad-line-skipped",
        "a bad line is not told",
        |text, printed| *printed = with(text, keep_good_lines),
    ),
    bad_line_fault(
        "annex-text-bad-line-status",
        "a bad line is a failure",
        |_, printed| printed.status = Some(1),
    ),
    bad_line_fault(
        "annex-text-bad-line-without-line-feed",
        "the line that tells of a bad one does not end",
        |_, printed| _ = printed.stdout.pop(),
    ),
];

pub const fn fault(
    name: &'static str,
    slip: &'static str,
    alter: fn(&Text, &mut Printed),
) -> Fault<Text> {
    Fault {
        name,
        slip,
        op: (Program::Annex, Lines::Good),
        alter,
    }
}

pub const fn bad_line_fault(
    name: &'static str,
    slip: &'static str,
    alter: fn(&Text, &mut Printed),
) -> Fault<Text> {
    Fault {
        op: (Program::Annex, Lines::Bad),
        ..fault(name, slip, alter)
    }
}

/// What is printed when the text is read after a change.
pub fn with(text: &Text, change: impl FnOnce(&mut Text)) -> Printed {
    with_op(text, (Program::Annex, Lines::Good), change)
}
