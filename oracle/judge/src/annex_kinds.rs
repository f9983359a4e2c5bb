//! Of which kind the answer to a page is: how much of the buffer it takes, how many lines it has,
//! and what becomes of a run where two windows meet.

use crate::annex_page::{Run, LONGEST, MOST_LINES};
use crate::function::{answers, Answer};
use crate::inputs::{words, Outcome};
use crate::layout::{row, windows, Fields, Window};

/// The answer, and what is said below.
pub type Told = [u64; 14];

/// The bytes of the page, written or not, and those that are lent.
const LEN: usize = 9;
const LENT: usize = 10;

/// A bit for each two windows that a run goes on across.
const CROSSED: usize = 11;

/// A bit for each reason why none goes on where two windows meet.
const STOPPED: usize = 12;

/// Where so many windows or more hold parts of one run.
const MOST_WINDOWS: usize = 13;

pub const ROWS: &[Answer] = answers!([("page", row::<0>)] 2 3 4 5 6 7 8 9 10 11 12 13 14 27);

pub const AROUND: &[Answer] = &[
    ("as long as the buffer", left::<0>),
    ("a byte left", left::<1>),
    ("a line left", left::<40>),
    ("in the longest page's bytes", |told| {
        row::<0>(told) && told[LENT] == LONGEST as u64
    }),
    ("row 27, a byte missing", missing::<1>),
    ("row 27, a line missing", missing::<40>),
    ("row 27, a line and a byte missing", missing::<41>),
    ("row 27, nothing lent", |told| {
        row::<27>(told) && told[LENT] == 0
    }),
    ("the last line alone", lines::<0>),
    ("1,026 lines", lines::<MOST_LINES>),
];

pub const MEETING: &[Answer] = &[
    ("image to data", crossed::<1, 2>),
    ("image to super", crossed::<1, 3>),
    ("data to image", crossed::<2, 1>),
    ("data to super", crossed::<2, 3>),
    ("data to device", crossed::<2, 4>),
    ("super to image", crossed::<3, 1>),
    ("super to data", crossed::<3, 2>),
    ("super to device", crossed::<3, 4>),
    ("device to data", crossed::<4, 2>),
    ("device to super", crossed::<4, 3>),
    ("across three windows", |told| {
        row::<0>(told) && told[MOST_WINDOWS] == 3
    }),
    ("nothing before", stopped::<NOTHING_BEFORE>),
    ("nothing after", stopped::<NOTHING_AFTER>),
    ("another output", stopped::<OUTPUT>),
    ("another write", stopped::<WRITE>),
    ("another execute", stopped::<EXECUTE>),
    ("another write and execute", stopped::<ACCESS>),
];

/// Why a run stops: what is not reached, or all in which the next one differs.
const NOTHING_BEFORE: u64 = 0;
const NOTHING_AFTER: u64 = 1;
const OUTPUT: u64 = 2;
const WRITE: u64 = 3;
const EXECUTE: u64 = 4;
const ACCESS: u64 = 5;
const MORE: u64 = 6;

fn left<const BYTES: u64>(told: &[u64]) -> bool {
    row::<0>(told) && told[LENT] == told[LEN] + BYTES
}

fn missing<const BYTES: u64>(told: &[u64]) -> bool {
    row::<27>(told) && told[LENT] + BYTES == told[LEN]
}

fn lines<const LINES: usize>(told: &[u64]) -> bool {
    row::<0>(told) && told[LEN] == 40 * (LINES as u64 + 1)
}

fn crossed<const FIRST: u64, const SECOND: u64>(told: &[u64]) -> bool {
    row::<0>(told) && told[CROSSED] & pair(FIRST, SECOND) != 0
}

fn stopped<const REASON: u64>(told: &[u64]) -> bool {
    row::<0>(told) && told[STOPPED] & 1 << REASON != 0
}

/// The bit of two windows, which have these codes.
fn pair(first: u64, second: u64) -> u64 {
    1 << (4 * (first - 1) + second - 1)
}

/// What is told where no row before 27 refuses.
pub fn told(x: &Fields, runs: &[Run], outcome: Outcome, len: usize, lent: usize) -> Told {
    let mut told: Told = words(outcome);
    (told[LEN], told[LENT]) = (len as u64, lent as u64);
    for (first, second) in meeting(x) {
        match runs.iter().find(|run| run.crosses(second.ipa)) {
            Some(run) => {
                told[CROSSED] |= pair(first.code, second.code);
                told[MOST_WINDOWS] = told[MOST_WINDOWS].max(run.windows(x));
            }
            None => told[STOPPED] |= 1 << reason(runs, second.ipa),
        }
    }
    told
}

/// The windows that end where another starts, with that one.
fn meeting(x: &Fields) -> impl Iterator<Item = (Window, Window)> + '_ {
    filled(x).flat_map(|first| {
        let end = first.ipa + first.span as u64;
        let next = filled(x).filter(move |second| second.ipa == end);
        next.map(move |second| (first, second))
    })
}

/// The windows but for one of no frames.
fn filled(x: &Fields) -> impl Iterator<Item = Window> {
    windows(x).filter(|window| window.span > 0)
}

/// Why no run goes on across an address.
fn reason(runs: &[Run], address: u64) -> u64 {
    let before = runs.iter().find(|run| run.last + 1 == address);
    let after = runs.iter().find(|run| run.first == address);
    let (Some(before), Some(after)) = (before, after) else {
        return [NOTHING_BEFORE, NOTHING_AFTER][usize::from(before.is_some())];
    };
    let output = before.reach.pa + (address - before.first) != after.reach.pa;
    let write = before.reach.perm != after.reach.perm;
    match (output, write, before.reach.xn != after.reach.xn) {
        (true, false, false) => OUTPUT,
        (false, true, false) => WRITE,
        (false, false, true) => EXECUTE,
        (false, true, true) => ACCESS,
        _ => MORE,
    }
}

impl Run {
    fn crosses(&self, address: u64) -> bool {
        self.first < address && address <= self.last
    }

    /// How many windows hold parts of the run.
    fn windows(&self, x: &Fields) -> u64 {
        let holding = filled(x).filter(|window| {
            let end = window.ipa + window.span as u64;
            window.ipa <= self.last && self.first < end
        });
        holding.count() as u64
    }
}
