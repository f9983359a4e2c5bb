//! Slips of a port in the runs of a page: where they end, and in which order they are.

use given_s2::arm64::Reach;

use crate::annex::{Annexed, Written};
use crate::annex_faults::{by, fault};
use crate::annex_page::{goes_on, runs, runs_where, Neighbours, Run};
use crate::encode::Scene;
use crate::function::Fault;
use crate::layout::{windows, Window, BLOCK, INPUT_LIMIT};

pub const FAULTS: &[Fault<Annexed>] = &[
    fault(
        "annex-cut-at-windows",
        "no run goes on into another window",
        |x, reply| {
            joined(x, reply, |two| {
                goes_on(two) && !two.in_two_windows(&x.scene)
            })
        },
    ),
    fault(
        "annex-cut-image-data",
        "no run goes on from image to data",
        cut_between::<1, 2>,
    ),
    fault(
        "annex-cut-image-super",
        "no run goes on from image to super",
        cut_between::<1, 3>,
    ),
    fault(
        "annex-cut-data-image",
        "no run goes on from data to image",
        cut_between::<2, 1>,
    ),
    fault(
        "annex-cut-data-super",
        "no run goes on from data to super",
        cut_between::<2, 3>,
    ),
    fault(
        "annex-cut-data-device",
        "no run goes on from data to device",
        cut_between::<2, 4>,
    ),
    fault(
        "annex-cut-super-image",
        "no run goes on from super to image",
        cut_between::<3, 1>,
    ),
    fault(
        "annex-cut-super-data",
        "no run goes on from super to data",
        cut_between::<3, 2>,
    ),
    fault(
        "annex-cut-super-device",
        "no run goes on from super to device",
        cut_between::<3, 4>,
    ),
    fault(
        "annex-cut-device-data",
        "no run goes on from device to data",
        cut_between::<4, 2>,
    ),
    fault(
        "annex-cut-device-super",
        "no run goes on from device to super",
        cut_between::<4, 3>,
    ),
    fault(
        "annex-cut-everywhere",
        "each page and each block has a line",
        |x, reply| joined(x, reply, |_| false),
    ),
    fault(
        "annex-cut-at-blocks",
        "a run ends with its 2 MiB",
        |x, reply| {
            joined(x, reply, |two| {
                goes_on(two) && !two.address.is_multiple_of(BLOCK)
            });
        },
    ),
    fault(
        "annex-cut-after-two-windows",
        "a run goes on into one more window, not into two",
        |x, reply| {
            let middle = |window: &Window| {
                let (start, end) = (window.ipa, window.ipa + window.span as u64);
                let whole = |run: &Run| run.first < start && end <= run.last;
                runs(&x.scene).iter().any(whole)
            };
            if let Some(window) = windows(&x.scene.fields).find(middle) {
                let end = window.ipa + window.span as u64;
                joined(x, reply, |two| goes_on(two) && two.address != end);
            }
        },
    ),
    fault(
        "annex-over-output",
        "a run goes on over another output",
        |x, reply| joined(x, reply, |two| two.both(equal_access)),
    ),
    fault(
        "annex-over-write",
        "a run goes on over another write",
        |x, reply| {
            joined(x, reply, |two| {
                two.both(|one, next| next_output(one, next) && one.xn == next.xn)
            })
        },
    ),
    fault(
        "annex-over-execute",
        "a run goes on over another execute",
        |x, reply| {
            joined(x, reply, |two| {
                two.both(|one, next| next_output(one, next) && one.perm == next.perm)
            })
        },
    ),
    fault(
        "annex-over-access-at-windows",
        "where windows meet, access is not compared",
        |x, reply| {
            joined(x, reply, |two| {
                goes_on(two) || two.in_two_windows(&x.scene) && two.both(next_output)
            });
        },
    ),
    fault(
        "annex-over-output-at-windows",
        "where windows meet, outputs are not compared",
        |x, reply| {
            joined(x, reply, |two| {
                goes_on(two) || two.in_two_windows(&x.scene) && two.both(equal_access)
            });
        },
    ),
    fault(
        "annex-over-holes",
        "a run goes on after addresses that are not reached",
        |x, reply| {
            by(x, reply, |scene| {
                let mut joined: Vec<Run> = Vec::new();
                for run in runs(scene) {
                    match joined.last_mut() {
                        Some(one) if in_line(one, &run) => one.last = run.last,
                        _ => joined.push(run),
                    }
                }
                joined
            });
        },
    ),
    fault(
        "annex-window-order",
        "the runs are in the order of the windows",
        |x, reply| {
            by(x, reply, |scene| {
                let mut runs = runs(scene);
                runs.sort_by_key(|run| window_of(scene, run.first));
                runs
            });
        },
    ),
    fault(
        "annex-output-order",
        "the runs are in the order of their outputs",
        |x, reply| {
            by(x, reply, |scene| {
                let mut runs = runs(scene);
                runs.sort_by_key(|run| run.reach.pa);
                runs
            });
        },
    ),
    fault(
        "annex-highest-first",
        "the runs are in the opposite order",
        |x, reply| by(x, reply, |scene| runs(scene).into_iter().rev().collect()),
    ),
    fault(
        "annex-first-run-left-out",
        "the first run is left out",
        |x, reply| by(x, reply, |scene| runs(scene).into_iter().skip(1).collect()),
    ),
    fault(
        "annex-last-run-left-out",
        "the last run is left out",
        |x, reply| {
            by(x, reply, |scene| {
                let mut runs = runs(scene);
                runs.pop();
                runs
            });
        },
    ),
    fault(
        "annex-at-2-39-left-out",
        "a run that ends with the addresses is left out",
        |x, reply| {
            by(x, reply, |scene| {
                let ended = runs(scene).into_iter();
                ended.filter(|run| run.last + 1 < INPUT_LIMIT).collect()
            });
        },
    ),
    fault(
        "annex-at-0-left-out",
        "a run that starts with the addresses is left out",
        |x, reply| {
            by(x, reply, |scene| {
                let runs = runs(scene).into_iter();
                runs.filter(|run| run.first > 0).collect()
            });
        },
    ),
    fault(
        "annex-1024-runs",
        "no more than 1,024 runs are written",
        |x, reply| {
            by(x, reply, |scene| {
                runs(scene).into_iter().take(1_024).collect()
            })
        },
    ),
];

/// Writes the page of the runs to which neighbours belong together as is said.
fn joined(x: &Annexed, reply: &mut Written, joined: impl Fn(&Neighbours) -> bool) {
    by(x, reply, |scene| runs_where(scene, joined));
}

fn cut_between<const FIRST: u64, const SECOND: u64>(x: &Annexed, reply: &mut Written) {
    joined(x, reply, |two| {
        goes_on(two) && two.windows(&x.scene) != [Some(FIRST), Some(SECOND)]
    });
}

impl Neighbours {
    /// The codes of the windows that hold the address before and this one.
    fn windows(&self, scene: &Scene) -> [Option<u64>; 2] {
        let before = self.address.checked_sub(1);
        [before, Some(self.address)].map(|address| window_of(scene, address?))
    }

    pub fn in_two_windows(&self, scene: &Scene) -> bool {
        let [before, here] = self.windows(scene);
        before != here
    }

    /// Whether both are reached, and what they reach is as is asked.
    pub fn both(&self, asked: impl Fn(&Reach, &Reach) -> bool) -> bool {
        let both = self.before.as_ref().zip(self.here.as_ref());
        both.is_some_and(|(before, here)| asked(before, here))
    }
}

/// The code of the window that holds an address.
pub fn window_of(scene: &Scene, address: u64) -> Option<u64> {
    let holds = |window: &Window| (window.ipa..window.ipa + window.span as u64).contains(&address);
    windows(&scene.fields).find(holds).map(|window| window.code)
}

pub fn next_output(one: &Reach, next: &Reach) -> bool {
    one.pa + 1 == next.pa
}

fn equal_access(one: &Reach, next: &Reach) -> bool {
    (one.perm, one.xn) == (next.perm, next.xn)
}

/// Whether both runs are part of one mapping, whatever stands between them.
fn in_line(one: &Run, next: &Run) -> bool {
    let away = |run: &Run| run.reach.pa.wrapping_sub(run.first);
    away(one) == away(next) && equal_access(&one.reach, &next.reach)
}
