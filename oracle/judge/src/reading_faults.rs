//! Slips of an `s2dump` in the lines that it reads.

use crate::dump_faults::{bad_line_fault, fault, with};
use crate::function::Fault;
use crate::programs::{Printed, Text};
use crate::scene_text::lines;

pub const FAULTS: &[Fault<Text>] = &[
    fault(
        "read-empty-silent",
        "of an empty input nothing is printed",
        |text, printed| {
            if text.0.is_empty() {
                printed.stdout.clear();
            }
        },
    ),
    fault(
        "read-first-line-counts",
        "a later line does not replace an earlier one",
        |text, printed| {
            *printed = with(text, reversed_lines);
        },
    ),
    fault(
        "read-unfinished-line-left-out",
        "a last line without a line feed is not read",
        |text, printed| {
            if !text.0.ends_with(b"\n") {
                *printed = with(text, finished_lines);
            }
        },
    ),
    fault(
        "read-after-the-last-line",
        "what follows the last line feed is read as an empty line",
        |text, printed| {
            if text.0.ends_with(b"\n") {
                *printed = with(text, |text| text.0.push(b'\n'));
            }
        },
    ),
    bad_line_fault(
        "read-lower-case",
        "lower case is read as upper case",
        |text, printed| reread(text, printed, |line| line.to_ascii_uppercase()),
    ),
    bad_line_fault(
        "read-carriage-returns",
        "a carriage return before the line feed is not read",
        |text, printed| {
            reread(text, printed, |line| {
                line.strip_suffix(b"\r").unwrap_or(line).to_vec()
            });
        },
    ),
    bad_line_fault(
        "read-space-before",
        "space before a line is not read",
        |text, printed| reread(text, printed, |line| line.trim_ascii_start().to_vec()),
    ),
    bad_line_fault(
        "read-space-after",
        "space after a line is not read",
        |text, printed| reread(text, printed, |line| line.trim_ascii_end().to_vec()),
    ),
    bad_line_fault(
        "read-more-spaces",
        "several spaces are read as one",
        |text, printed| {
            reread(text, printed, |line| {
                let parts = line.split(|byte| *byte == b' ');
                parts
                    .filter(|part| !part.is_empty())
                    .collect::<Vec<_>>()
                    .join(&b' ')
            });
        },
    ),
    bad_line_fault("read-tabs", "a tab is read as a space", |text, printed| {
        reread(text, printed, |line| replaced(line, b'\t', b' '))
    }),
    bad_line_fault(
        "read-empty-lines",
        "empty lines are left out",
        |text, printed| drop_lines(text, printed, |line| line.is_empty()),
    ),
    bad_line_fault(
        "read-comments",
        "lines of other letters are left out",
        |text, printed| {
            drop_lines(text, printed, |line| {
                line.first().is_some_and(|letter| !b"LBU".contains(letter))
            });
        },
    ),
    bad_line_fault(
        "read-more-parts",
        "what follows the second number is not read",
        |text, printed| {
            reread(text, printed, |line| {
                let parts: Vec<_> = line.splitn(4, |byte| *byte == b' ').collect();
                parts[..parts.len().min(3)].join(&b' ')
            });
        },
    ),
    bad_line_fault(
        "read-missing-value",
        "a value that is missing is read as 0",
        |text, printed| {
            reread(text, printed, |line| {
                let parts = line.split(|byte| *byte == b' ').count();
                [line, if parts == 2 { b" 0" } else { b"" }].concat()
            });
        },
    ),
    bad_line_fault(
        "read-no-digits",
        "a number of no digits is read as 0",
        |text, printed| {
            reread(text, printed, |line| {
                [line, if line.ends_with(b" ") { b"0" } else { b"" }].concat()
            });
        },
    ),
    bad_line_fault(
        "read-up-to-nul",
        "a line ends at a zero byte",
        |text, printed| {
            reread(text, printed, |line| {
                let mut parts = line.split(|byte| *byte == 0);
                parts.next().unwrap_or_default().to_vec()
            });
        },
    ),
    bad_line_fault(
        "read-seven-bits",
        "the high bit of a byte is lost",
        |text, printed| {
            reread(text, printed, |line| {
                line.iter().map(|byte| byte & 0x7f).collect()
            });
        },
    ),
    bad_line_fault(
        "read-64-kilobytes",
        "only the lines in the first 65,536 bytes are read",
        |text, printed| {
            if text.0.len() > 65_536 {
                *printed = with(text, |text| {
                    text.0.truncate(65_536);
                    finished_lines(text);
                });
            }
        },
    ),
    bad_line_fault(
        "read-long-lines-cut",
        "what a line has past 20 bytes is not read",
        |text, printed| {
            reread(text, printed, |line| line[..line.len().min(20)].to_vec());
        },
    ),
];

pub fn reversed_lines(text: &mut Text) {
    let mut lines: Vec<_> = lines(&text.0).collect();
    lines.reverse();
    text.0 = joined(&lines);
}

/// Leaves out a last line without a line feed.
pub fn finished_lines(text: &mut Text) {
    let finished = text.0.iter().rposition(|byte| *byte == b'\n');
    text.0.truncate(finished.map_or(0, |place| place + 1));
}

/// What is printed after a change of each line, if that changes any.
pub fn reread(text: &Text, printed: &mut Printed, change: impl Fn(&[u8]) -> Vec<u8>) {
    let changed = lines(&text.0).map(change).collect::<Vec<_>>();
    if !changed.iter().eq(lines(&text.0)) {
        *printed = with(text, |text| text.0 = joined(&changed));
    }
}

pub fn drop_lines(text: &Text, printed: &mut Printed, dropped: fn(&[u8]) -> bool) {
    if lines(&text.0).any(dropped) {
        *printed = with(text, |text| {
            let kept: Vec<_> = lines(&text.0).filter(|line| !dropped(line)).collect();
            text.0 = joined(&kept);
        });
    }
}

/// The lines with their line feeds.
fn joined<T: AsRef<[u8]>>(lines: &[T]) -> Vec<u8> {
    lines
        .iter()
        .flat_map(|line| [line.as_ref(), b"\n"].concat())
        .collect()
}

pub fn replaced(line: &[u8], from: u8, to: u8) -> Vec<u8> {
    let replace = |byte: &u8| if *byte == from { to } else { *byte };
    line.iter().map(replace).collect()
}
