//! Recorded calls on leaf maps, each small enough for a line: maps of eight entries, four edges,
//! five frames and two grants.

use std::array;
use std::iter::empty;

use given_core::p2m::DomId;
use given_s2::leafmap::Span;

use crate::authorized::{anothers, authorized, nobodys, Granted};
use crate::exact::{exact, spanned, Linked};
use crate::fill::{fill, Filling};
use crate::function::{Answer, Function, Layer};
use crate::inputs::{random, Outcome, Random, Words};
use crate::layout::row;
use crate::p2m::NOBODY;
use crate::record::digits;
use crate::records::{Edge, Form, Frame, Grant};
use crate::tally::Tally;

/// As the program replay_maps reads it: which call it is, the domain, the span, base and super,
/// four edges, five frames and two grants.
type Call = [u64; 16];

const CALLS: usize = 600;

/// How many calls must have each kind of answer.
const LEAST: u64 = 5;

const FILL: u64 = 1;
const AUTHORIZED: u64 = 2;
const EXACT: u64 = 3;

const FILLED: &[Answer] = &[
    ("accepted", row::<0>),
    ("row 15", row::<15>),
    ("row 16", row::<16>),
    ("row 17", row::<17>),
];

const REACHED: &[Answer] = &[
    ("accepted", row::<0>),
    ("row 3", row::<3>),
    ("row 23 of nobody's frame", nobodys),
    ("row 23 of a domain's frame", anothers),
    ("row 24", row::<24>),
];

const COMPARED: &[Answer] = &[
    ("accepted", row::<0>),
    ("row 3", row::<3>),
    ("row 25", row::<25>),
];

/// The recorded fillings, from records.
pub static FILLINGS: [Layer<Filling>; 1] = [Layer {
    functions: &[Function {
        call: "s2_fill_edges",
        name: "recorded fill, from records",
        op: Form::Records,
        original: fill,
        boundary: || Box::new(calls().filter(|call| call[0] == FILL).map(filling)),
        sweep: |_| Box::new(empty()),
        answers: FILLED,
        least: LEAST,
        recorded: true,
    }],
    faults: &[],
    wrapper_faults: &[],
}];

/// The recorded checks against edges, from records.
pub static LINKED: [Layer<Linked>; 1] = [Layer {
    functions: &[Function {
        call: "s2_exact_edges",
        name: "recorded check_exact, from records",
        op: Form::Records,
        original: exact,
        boundary: || Box::new(calls().filter(|call| call[0] == EXACT).map(beside_edges)),
        sweep: |_| Box::new(empty()),
        answers: COMPARED,
        least: LEAST,
        recorded: true,
    }],
    faults: &[],
    wrapper_faults: &[],
}];

/// The lines to be read, and those to be written.
pub fn lines() -> Result<(String, String), String> {
    let (mut stdin, mut stdout) = (String::new(), String::new());
    let mut tallies = [
        Tally::new("recorded fill", FILLED),
        Tally::new("recorded check_authorized_with", REACHED),
        Tally::new("recorded check_exact", COMPARED),
    ];
    for call in calls() {
        let (outcome, maps) = answer(call);
        tallies[call[0] as usize - 1].count(&outcome);
        stdin += &format!("{}\n", digits(&call));
        stdout += &format!("{}\n", digits(&outcome));
        for map in maps {
            stdout += &format!("{}\n", digits(&map));
        }
    }
    tallies
        .iter()
        .try_for_each(|tally| tally.complete(LEAST))
        .map(|()| (stdin, stdout))
}

fn calls() -> impl Iterator<Item = Call> {
    random(Random(15), CALLS, call)
}

/// The answer, and after a filling both maps.
fn answer(call: Call) -> (Outcome, Vec<Words>) {
    match call[0] {
        FILL => {
            let filled = fill(&filling(call));
            let maps = [filled.base, filled.sup].map(|map| entries(&map));
            (filled.outcome, maps.into())
        }
        AUTHORIZED => (authorized(&granted(call)), Vec::new()),
        _ => (exact(&beside_edges(call)), Vec::new()),
    }
}

fn granted(call: Call) -> Granted {
    Granted {
        dom: call[1] as DomId,
        map: call[3].to_le_bytes().into(),
        frames: frames(&call),
        grants: call[14..].iter().copied().map(grant).collect(),
    }
}

fn beside_edges(call: Call) -> Linked {
    Linked {
        dom: call[1] as DomId,
        map: call[3].to_le_bytes().into(),
        span: call[2] as u32,
        edges: edges(&call),
        frames: frames(&call),
    }
}

fn filling(call: Call) -> Filling {
    Filling {
        edges: edges(&call),
        frames: frames(&call),
        dom: call[1] as DomId,
        base: call[3].to_le_bytes().into(),
        sup: call[4].to_le_bytes().into(),
    }
}

fn entries(map: &[u8]) -> Words {
    array::from_fn(|place| map[place].into())
}

fn frames(call: &Call) -> Vec<Frame> {
    call[9..14].iter().copied().map(frame).collect()
}

fn edges(call: &Call) -> Vec<Edge> {
    call[5..9].iter().copied().map(edge).collect()
}

fn edge(number: u64) -> Edge {
    let [parent, slot, low, high, writable, leaf, execute, _] = number.to_le_bytes().map(u32::from);
    Edge {
        parent,
        slot,
        child: low + 256 * high,
        writable,
        leaf,
        execute,
    }
}

fn frame(number: u64) -> Frame {
    Frame {
        owner: number as u32,
        kind: (number >> 32) as u32,
    }
}

fn grant(number: u64) -> Grant {
    Grant {
        grantor: number as u32 % (1 << 20),
        grantee: (number >> 20) as u32 % (1 << 20),
        frame: (number >> 40) as u32 % (1 << 16),
        writable: (number >> 56) as u32,
    }
}

fn call(random: &mut Random) -> Call {
    let dom = random.pick(&[3, 3, 0, 65_535]);
    let mut call = [0; 16];
    call[..3].copy_from_slice(&[1 + random.below(3), dom, random.pick(&[0, 1, 2, 2, 3])]);
    call[5..9].fill_with(|| edge_number(random));
    call[9..14].fill_with(|| {
        random.pick(&[dom, dom, dom, dom ^ 1, NOBODY]) | random.pick(&[1, 2, 3, 4]) << 32
    });
    // A table of each span, so that most edges count, and another's frame, which grants are about.
    call[9] = dom | 2 << 32;
    call[10] = dom | 3 << 32;
    call[11] = dom ^ 1;
    call[14..].fill_with(|| grant_number(random, dom));
    call[3] = match call[0] {
        FILL => random.word(),
        EXACT if random.below(2) == 0 => linked(call),
        _ => map_number(random),
    };
    call[4] = random.word();
    call
}

fn edge_number(random: &mut Random) -> u64 {
    let child = random.pick(&[0, 0, 0, 0, 1, 1, 1, 2, 2, 7, 8, 65_535]);
    let writable = random.pick(&[0, 1, 255]);
    let leaf = random.pick(&[0, 1, 1, 1, 2]);
    let execute = random.pick(&[0, 0, 1]);
    random.pick(&[0, 0, 0, 1, 1, 1, 2, 3, 4, 5])
        | random.below(256) << 8
        | child << 16
        | writable << 32
        | leaf << 40
        | execute << 48
}

fn grant_number(random: &mut Random, dom: u64) -> u64 {
    let grantor = random.pick(&[dom ^ 1, dom ^ 1, dom, NOBODY]);
    let grantee = random.pick(&[dom, dom, dom ^ 1]);
    grantor | grantee << 20 | random.pick(&[2, 2, 2, 3]) << 40 | random.below(2) << 56
}

/// Few frames are mapped, all of them inside the list; now and then a byte is no permission.
fn map_number(random: &mut Random) -> u64 {
    let mut map = [0; 8];
    map[2] = random.below(4) as u8;
    map[random.below(5) as usize] = random.below(4) as u8;
    if random.below(6) == 0 {
        map[random.below(8) as usize] = random.below(8) as u8;
    }
    u64::from_le_bytes(map)
}

/// The map that the edges of the span fill.
fn linked(call: Call) -> u64 {
    let filled = fill(&filling(call));
    let map = match spanned(call[2] as u32) {
        Span::Base => filled.base,
        Span::Super => filled.sup,
    };
    u64::from_le_bytes(map.try_into().expect("eight entries"))
}
