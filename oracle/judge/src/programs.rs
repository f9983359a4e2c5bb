//! The programs that read a scene as text, and what they print alike.
//!
//! What they read, and how they tell of a bad line and of a refused scene, is document 01's section
//! "Proved and printed". What they print of an accepted scene stands in dump.rs and annex_text.rs.

use std::iter::once;

use crate::encode::{guard, Scene};
use crate::function::{Answer, Input, Reply};
use crate::port_programs;
use crate::scene_text::scene;

/// What a program reads.
#[derive(Clone)]
pub struct Text(pub Vec<u8>);

#[derive(Clone, PartialEq)]
pub struct Printed {
    /// The number of the row that refuses the scene, 0 for none, or `BAD_LINE`.
    number: [u64; 1],
    /// The exit status, if it ended by itself.
    pub status: Option<i32>,
    pub stdout: Vec<u8>,
}

const BAD_LINE: u64 = u64::MAX;

#[derive(Clone, Copy, PartialEq)]
pub enum Program {
    Dump,
    Annex,
}

/// The texts are compared apart, so that a slip is looked for where it shows.
#[derive(Clone, Copy, PartialEq)]
pub enum Lines {
    Good,
    Bad,
}

pub const BAD: &[Answer] = &[("BAD LINE", |answer| answer[0] == BAD_LINE)];

impl Input for Text {
    type Op = (Program, Lines);
    type Reply = Printed;

    fn port(&self, (program, _): (Program, Lines)) -> Printed {
        port_programs::run(program, self)
    }

    fn shown(&self) -> String {
        shortened(&self.0)
    }
}

impl Reply for Printed {
    fn answers(&self) -> impl Iterator<Item = &[u64]> {
        once(&self.number[..])
    }

    fn shown(&self, _: &Self) -> String {
        format!("status {:?}, {}", self.status, shortened(&self.stdout))
    }
}

impl Printed {
    pub fn new(status: Option<i32>, stdout: Vec<u8>) -> Self {
        Printed {
            number: [number(&stdout)],
            status,
            stdout,
        }
    }

    /// Whether the scene is accepted.
    pub fn accepted(&self) -> bool {
        self.number == [0]
    }

    /// The row that refuses the scene.
    pub fn refused(&self) -> Option<u64> {
        let [number] = self.number;
        (1..BAD_LINE).contains(&number).then_some(number)
    }
}

fn number(stdout: &[u8]) -> u64 {
    match str::from_utf8(stdout).unwrap_or_default().trim_end() {
        "BAD LINE" => BAD_LINE,
        line => match line.strip_prefix("REFUSED ") {
            Some(row) => row.parse().unwrap_or(0),
            None => 0,
        },
    }
}

/// What a program prints that prints this of an accepted scene.
pub fn printed(text: &Text, accepted: fn(&Scene) -> String) -> Printed {
    let stdout = match scene(&text.0) {
        Some(scene) => match guard(&scene)[0] {
            0 => accepted(&scene),
            row => format!("REFUSED {row}\n"),
        },
        None => "BAD LINE\n".into(),
    };
    Printed::new(Some(0), stdout.into_bytes())
}

/// The start of a text on one line.
fn shortened(text: &[u8]) -> String {
    const SHOWN: usize = 2_000;
    let start = text[..text.len().min(SHOWN)].escape_ascii();
    match text.len().saturating_sub(SHOWN) {
        0 => format!("\"{start}\""),
        more => format!("\"{start}\" and {more} bytes more"),
    }
}
