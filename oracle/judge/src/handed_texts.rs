//! Slips of the code here that runs the programs.

use crate::function::Fault;
use crate::programs::Text;
use crate::{annex_text_faults, dump_faults};

/// Faults in what a program is fed and in what is read of it.
macro_rules! fed_otherwise {
    ($call:literal, $faults:ident) => {
        &[
            $faults::fault(
                concat!($call, "-handed-no-text"),
                "nothing is fed",
                |text, printed| *printed = $faults::with(text, |text| text.0.clear()),
            ),
            $faults::fault(
                concat!($call, "-handed-short-text"),
                "the last byte is not fed",
                |text, printed| *printed = $faults::with(text, |text| _ = text.0.pop()),
            ),
            $faults::fault(
                concat!($call, "-handed-back-short"),
                "the last byte that is printed is not read",
                |_, printed| _ = printed.stdout.pop(),
            ),
            $faults::fault(
                concat!($call, "-handed-back-no-status"),
                "the exit status is not read",
                |_, printed| printed.status = None,
            ),
            $faults::bad_line_fault(
                concat!($call, "-bad-lines-handed-no-text"),
                "nothing is fed",
                |text, printed| *printed = $faults::with(text, |text| text.0.clear()),
            ),
            $faults::bad_line_fault(
                concat!($call, "-bad-lines-handed-short-text"),
                "the last byte is not fed",
                |text, printed| *printed = $faults::with(text, |text| _ = text.0.pop()),
            ),
        ]
    };
}

pub const DUMP: &[&[Fault<Text>]] = &[fed_otherwise!("dump", dump_faults)];

pub const ANNEX: &[&[Fault<Text>]] = &[fed_otherwise!("annex-text", annex_text_faults)];
