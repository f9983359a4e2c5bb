//! Slips of an `s2dump` in the numbers that it reads: fields, positions and codes.

use crate::dump_faults::{bad_line_fault, fault, with};
use crate::function::Fault;
use crate::programs::{Printed, Text};
use crate::reading_faults::{drop_lines, replaced, reread};
use crate::scene_text::lines;

pub const FAULTS: &[Fault<Text>] = &[
    fault(
        "read-leading-zeros",
        "a number may not start with a zero",
        |text, printed| {
            let zero = |number: &[u8]| number.len() > 1 && number[0] == b'0';
            let mut numbers = lines(&text.0).flat_map(|line| line.split(|byte| *byte == b' '));
            if numbers.any(zero) {
                *printed = with(text, |text| text.0.push(b'\r'));
            }
        },
    ),
    fault(
        "read-15-digits",
        "a number may have no more than 15 digits",
        |text, printed| {
            let mut numbers = lines(&text.0).flat_map(|line| line.split(|byte| *byte == b' '));
            if numbers.any(|number| number.len() == 16) {
                *printed = with(text, |text| text.0.push(b'\r'));
            }
        },
    ),
    bad_line_fault(
        "read-more-digits",
        "of more than sixteen digits, the last sixteen are read",
        |text, printed| {
            numbers(text, printed, |_, number| {
                number[number.len().saturating_sub(16)..].to_vec()
            })
        },
    ),
    bad_line_fault(
        "read-more-zeros",
        "zeros before a number do not count as digits",
        |text, printed| {
            numbers(text, printed, |_, number| {
                let first = number.iter().position(|digit| *digit != b'0');
                number[first.unwrap_or(number.len().saturating_sub(1))..].to_vec()
            });
        },
    ),
    bad_line_fault(
        "read-field-0",
        "a line of field 0 is left out",
        |text, printed| drop_lines(text, printed, |line| line.starts_with(b"L 0 ")),
    ),
    bad_line_fault(
        "read-field-11",
        "a line of field 11 is left out",
        |text, printed| drop_lines(text, printed, |line| line.starts_with(b"L 11 ")),
    ),
    bad_line_fault(
        "read-field-of-8-bits",
        "of a field's number only the low byte is read",
        |text, printed| {
            numbers(text, printed, |place, number| match place {
                (b'L', 1) if number.len() > 2 => number[number.len() - 2..].to_vec(),
                _ => number.to_vec(),
            });
        },
    ),
    fault(
        "read-field-decimal",
        "field 10 is read as field A",
        |text, printed| {
            reread(text, printed, |line| match line.strip_prefix(b"L 10 ") {
                Some(value) => [b"L A ", value].concat(),
                None => line.to_vec(),
            });
        },
    ),
    fault(
        "read-image-at-0-absent",
        "an image at 0 is none",
        |text, printed| {
            let images = lines(&text.0).filter(|line| line.starts_with(b"L 7 "));
            if images.last() == Some(b"L 7 0") {
                drop_lines(text, printed, |line| line.starts_with(b"L 7 "));
            }
        },
    ),
    bad_line_fault(
        "read-exemption-of-2",
        "an exemption of 2 is read as 1",
        |text, printed| {
            reread(text, printed, |line| match line {
                b"L F 2" => b"L F 1".to_vec(),
                _ => line.to_vec(),
            })
        },
    ),
    fault(
        "read-supers-as-pages",
        "supers are put in the base map",
        |text, printed| reread(text, printed, |line| replaced(line, b'U', b'B')),
    ),
    bad_line_fault(
        "read-position-200",
        "a position just past a map is left out",
        |text, printed| drop_lines(text, printed, |line| line.starts_with(b"B 200 ")),
    ),
    bad_line_fault(
        "read-position-of-9-bits",
        "a position is cut to nine bits",
        |text, printed| {
            numbers(text, printed, |place, number| match place {
                (b'B' | b'U', 1) => cut(number, 0x1ff),
                _ => number.to_vec(),
            });
        },
    ),
    bad_line_fault(
        "read-code-of-2-bits",
        "a code is cut to two bits",
        |text, printed| {
            numbers(text, printed, |place, number| match place {
                (b'B' | b'U', 2) => cut(number, 3),
                _ => number.to_vec(),
            });
        },
    ),
];

/// What is printed after a change of each number, which is told the letter of its line and its own
/// place in it.
fn numbers(text: &Text, printed: &mut Printed, change: fn((u8, usize), &[u8]) -> Vec<u8>) {
    reread(text, printed, |line| {
        let letter = line.first().copied().unwrap_or(0);
        let parts = line.split(|byte| *byte == b' ').enumerate();
        let parts = parts.map(|(place, part)| match place {
            0 => part.to_vec(),
            _ => change((letter, place), part),
        });
        parts.collect::<Vec<_>>().join(&b' ')
    });
}

/// The number with only some of its bits, if it is one.
fn cut(number: &[u8], bits: u64) -> Vec<u8> {
    let value = str::from_utf8(number).ok();
    let value = value.and_then(|digits| u64::from_str_radix(digits, 16).ok());
    value.map_or(number.to_vec(), |value| {
        format!("{:X}", value & bits).into_bytes()
    })
}
