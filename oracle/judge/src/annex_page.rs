//! The page of request M-100: the longest runs of addresses with continuous output and equal
//! access, a line for each.
//!
//! It is written from document 01 and the request alone; the Rust has no page. What an address
//! reaches is what the unchanged `window_reach` says. An address and the one before it are in one
//! run, or a run ends and another starts between them: each run is found by its two ends, and no
//! piece is put to another.

use given_s2::arm64::{window_reach, Reach};
use given_s2::leafmap::Perm;

use crate::encode::Scene;
use crate::layout::{layout, windows, Window, BLOCK, PAGE};
use crate::maps;

/// The bytes of a line.
pub const LINE: usize = 40;

/// The lines of the longest page before its last one: 512 pages, 512 supers, image and device.
pub const MOST_LINES: usize = 1_026;

/// The bytes of the longest page.
pub const LONGEST: usize = (MOST_LINES + 1) * LINE;

/// A longest run of addresses, with what its first reaches.
#[derive(Clone, Copy)]
pub struct Run {
    pub first: u64,
    pub last: u64,
    pub reach: Reach,
}

/// What an address reaches, and what the one before it does.
pub struct Neighbours {
    pub address: u64,
    pub before: Option<Reach>,
    pub here: Option<Reach>,
}

/// The page of an accepted scene.
pub fn page(scene: &Scene) -> Vec<u8> {
    text(&runs(scene))
}

/// The runs of an accepted scene, in address order.
pub fn runs(scene: &Scene) -> Vec<Run> {
    let all = neighbours(scene);
    let even = all.windows(2).all(|two| {
        let distance = two[1].address - 1 - two[0].address;
        two[1].before == two[0].here.map(|reach| further(reach, distance))
    });
    assert!(even, "a page or block of {scene} is not reached evenly");
    apart_where(&all, goes_on)
}

/// The runs, if neighbours belong to one run as is said.
pub fn runs_where(scene: &Scene, joined: impl Fn(&Neighbours) -> bool) -> Vec<Run> {
    apart_where(&neighbours(scene), joined)
}

/// All neighbours of which one may be in another run than the other, or in none.
fn neighbours(scene: &Scene) -> Vec<Neighbours> {
    let layout = layout(&scene.fields);
    let (base, sup) = (maps::entries(&scene.base), maps::entries(&scene.sup));
    let reach = |address| window_reach(&layout, &base, &sup, address);
    let mut borders: Vec<u64> = windows(&scene.fields).flat_map(borders).collect();
    borders.sort();
    borders.dedup();
    let neighbours = borders.into_iter().map(|address| Neighbours {
        address,
        before: address.checked_sub(1).and_then(reach),
        here: reach(address),
    });
    neighbours.collect()
}

/// Where the pages or blocks of a window start, and where the last of them ends.
fn borders(window: Window) -> impl Iterator<Item = u64> {
    let part = match window.code {
        2 => PAGE,
        _ => BLOCK,
    };
    let parts = window.span as u64 / part;
    (0..=parts).map(move |number| window.ipa + number * part)
}

/// Whether the run of the address before goes on.
pub fn goes_on(two: &Neighbours) -> bool {
    let next = two.before.map(|reach| further(reach, 1));
    two.here.is_some() && two.here == next
}

/// What is reached so many bytes further on, with the same access.
fn further(reach: Reach, distance: u64) -> Reach {
    let pa = reach.pa + distance;
    Reach { pa, ..reach }
}

/// A run starts at an address that is reached and is not joined to the one before, and ends at one
/// that the next is not joined to.
fn apart_where(all: &[Neighbours], joined: impl Fn(&Neighbours) -> bool) -> Vec<Run> {
    let apart: Vec<_> = all.iter().filter(|two| !joined(two)).collect();
    let firsts = apart.iter().filter(|two| two.here.is_some());
    let lasts = apart.iter().filter(|two| two.before.is_some());
    assert_eq!(firsts.clone().count(), lasts.clone().count());
    let ends = firsts.zip(lasts);
    let runs = ends.filter_map(|(first, last)| {
        Some(Run {
            first: first.address,
            last: last.address - 1,
            reach: first.here?,
        })
    });
    runs.collect()
}

/// A line for each of the runs, and the last line.
pub fn text(runs: &[Run]) -> Vec<u8> {
    let lines = runs.iter().map(line).chain([last_line()]);
    lines.collect::<String>().into_bytes()
}

pub fn line(run: &Run) -> String {
    let Run { first, last, reach } = run;
    let (access, execute) = (access(reach), execute(reach));
    format!(
        "{first:010X} {last:010X} {:012X} {access} {execute}\n",
        reach.pa
    )
}

pub fn access(reach: &Reach) -> &'static str {
    match reach.perm {
        Perm::Ro => "RO",
        Perm::Rw => "RW",
        Perm::Rx => panic!("an access is Ro or Rw"),
    }
}

pub fn execute(reach: &Reach) -> char {
    match reach.xn {
        true => '-',
        false => 'X',
    }
}

pub fn last_line() -> String {
    "=".repeat(LINE - 1) + "\n"
}
