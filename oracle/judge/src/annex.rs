//! The annex page of request M-100, written into a lent buffer.
//!
//! The Rust has no such function. Rows 2 to 14 are as in encode.rs, where no arena is lent. Row 27
//! is computed here from the request, and the page in annex_page.rs.

use std::iter::once;

use crate::annex_examples::{examples, refused_examples};
use crate::annex_inputs::{any, around, filled_around};
use crate::annex_kinds::{told, Told, AROUND, MEETING, ROWS};
use crate::annex_page::{runs, text, LINE};
use crate::annex_seams::{meeting, seams};
use crate::encode::{rows_2_to_14, Scene};
use crate::function::{Function, Input, Layer, Reply};
use crate::handed_annex;
use crate::inputs::{hex, words, Outcome};
use crate::layout::LEAST;
use crate::port_annex;
use crate::{annex_faults, annex_line_faults, annex_row_faults, annex_run_faults};

/// A scene whose page is asked for. No arena is lent.
#[derive(Clone)]
pub struct Annexed {
    pub scene: Scene,
    /// The buffer as it is before the call.
    pub buffer: Vec<u8>,
}

#[derive(Clone)]
pub struct Written {
    pub outcome: Outcome,
    /// The buffer as it is after the call.
    pub buffer: Vec<u8>,
    /// There to tell the kinds: the port tells no more than its answer.
    told: Told,
}

pub const LAYER: Layer<Annexed> = Layer {
    functions: &[
        Function {
            call: "s2_annex",
            name: "annex",
            op: (),
            original: annex,
            boundary: || Box::new(examples().chain(refused_examples())),
            sweep: |round| Box::new(any(round)),
            answers: ROWS,
            least: LEAST,
            recorded: false,
        },
        Function {
            call: "s2_annex",
            name: "annex, by the buffer's length",
            op: (),
            original: annex,
            boundary: || Box::new(filled_around()),
            sweep: |round| Box::new(around(round)),
            answers: AROUND,
            least: LEAST,
            recorded: false,
        },
        Function {
            call: "s2_annex",
            name: "annex, windows that meet",
            op: (),
            original: annex,
            boundary: || Box::new(seams()),
            sweep: |round| Box::new(meeting(round)),
            answers: MEETING,
            least: LEAST,
            recorded: false,
        },
    ],
    faults: &[
        annex_run_faults::FAULTS,
        annex_line_faults::FAULTS,
        annex_row_faults::FAULTS,
        annex_faults::FAULTS,
    ],
    wrapper_faults: handed_annex::FAULTS,
};

impl Input for Annexed {
    type Op = ();
    type Reply = Written;

    fn port(&self, (): ()) -> Written {
        port_annex::annex(self)
    }

    fn shown(&self) -> String {
        format!("a buffer of {}, {}", self.buffer.len(), self.scene)
    }
}

impl PartialEq for Written {
    fn eq(&self, other: &Self) -> bool {
        self.outcome == other.outcome && self.buffer == other.buffer
    }
}

impl Reply for Written {
    fn answers(&self) -> impl Iterator<Item = &[u64]> {
        once(&self.told[..])
    }

    fn shown(&self, other: &Self) -> String {
        hex(&self.outcome) + &differing(&self.buffer, &other.buffer)
    }
}

/// The first line's room in which the buffers differ.
fn differing(bytes: &[u8], others: &[u8]) -> String {
    let mut places = 0..bytes.len().max(others.len());
    match places.find(|place| bytes.get(*place) != others.get(*place)) {
        None => String::new(),
        Some(place) => {
            let start = place / LINE * LINE;
            let line = bytes.chunks(LINE).nth(place / LINE).unwrap_or_default();
            format!(", from byte {start} on \"{}\"", line.escape_ascii())
        }
    }
}

impl Written {
    pub fn new(outcome: Outcome, buffer: Vec<u8>) -> Self {
        Written {
            outcome,
            buffer,
            told: words(outcome),
        }
    }

    /// A refusal leaves the buffer whole.
    pub fn refused(x: &Annexed, refusal: Outcome) -> Self {
        Written::new(refusal, x.buffer.clone())
    }

    /// The page is the front part of the buffer, and the rest stays; row 27 where it is longer.
    pub fn page(x: &Annexed, page: &[u8]) -> Self {
        if page.len() > x.buffer.len() {
            return Written::refused(x, words([27]));
        }
        let mut buffer = x.buffer.clone();
        buffer[..page.len()].copy_from_slice(page);
        Written::new(words([0, page.len() as u64]), buffer)
    }
}

pub fn annex(x: &Annexed) -> Written {
    if let Some(refusal) = rows_2_to_14(&x.scene) {
        return Written::refused(x, refusal);
    }
    let runs = runs(&x.scene);
    let page = text(&runs);
    let mut written = Written::page(x, &page);
    let (outcome, lent) = (written.outcome, x.buffer.len());
    written.told = told(&x.scene.fields, &runs, outcome, page.len(), lent);
    written
}
