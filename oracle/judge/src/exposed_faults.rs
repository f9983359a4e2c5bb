//! Slips of a port that looks for tables in windows.

use crate::encode::row_13;
use crate::exposed::{first, holds, Exposed};
use crate::function::{with, Fault};
use crate::inputs::{words, Outcome};
use crate::layout::{all_windows, row_10, Window, ACCEPTED, BLOCK, IMAGE_PRESENT, TABLES};
use crate::port::UNWRITTEN;

pub const FAULTS: &[Fault<Exposed>] = &[
    fault("exposed-none", "no table is told", |_, answer| {
        if answer[0] == 0 {
            *answer = ACCEPTED;
        }
    }),
    fault(
        "exposed-highest-table",
        "the last table that lies in a window is told",
        |x, answer| {
            for table in &x.0[TABLES] {
                let last = first(&x.0, |window, other| {
                    other == *table && holds(window, other)
                });
                if answer[0] == 0 && last != ACCEPTED {
                    *answer = last;
                }
            }
        },
    ),
    fault(
        "exposed-window-first",
        "the table in the lowest window is told",
        |x, answer| {
            let told = all_windows(&x.0).map(|window| {
                first(&x.0, |other, table| {
                    other.code == window.code && holds(other, table)
                })
            });
            if let Some(told) = told.into_iter().find(|told| *told != ACCEPTED) {
                if answer[0] == 0 {
                    *answer = told;
                }
            }
        },
    ),
    fault(
        "exposed-absent-image",
        "a table is told where an absent image would be",
        |x, answer| by(x, answer, |window, table| holds(&present(window), table)),
    ),
    fault(
        "exposed-image-only-by-1",
        "an image whose presence is another number than 1 is taken for absent",
        |x, answer| {
            if x.0[IMAGE_PRESENT] > 1 {
                *answer = with(x, |x| x.0[IMAGE_PRESENT] = 0);
            }
        },
    ),
    fault(
        "exposed-end-included",
        "a table just past a window lies in it",
        |x, answer| {
            by(x, answer, |window, table| {
                holds(window, table) || window.present && u128::from(table) == window.output_end()
            });
        },
    ),
    fault(
        "exposed-start-excluded",
        "a table at the start of a window does not lie in it",
        |x, answer| {
            by(x, answer, |window, table| {
                holds(window, table) && table != window.pa
            });
        },
    ),
    fault(
        "exposed-inputs",
        "the tables are looked for in the inputs",
        |x, answer| {
            by(x, answer, |window, table| {
                let pa = window.ipa;
                holds(&Window { pa, ..*window }, table)
            });
        },
    ),
    fault(
        "exposed-512-supers",
        "the super window is taken for 1 GiB",
        |x, answer| {
            by(x, answer, |window, table| {
                let span = match window.code {
                    3 => 512 * u128::from(BLOCK),
                    _ => window.span,
                };
                holds(&Window { span, ..*window }, table)
            });
        },
    ),
    fault(
        "exposed-first-block",
        "only the first block of a window is looked at",
        |x, answer| {
            by(x, answer, |window, table| {
                holds(window, table) && table - window.pa < BLOCK
            });
        },
    ),
    fault(
        "exposed-image-unread",
        "the image's window is not looked at",
        unread::<1>,
    ),
    fault(
        "exposed-data-unread",
        "data's window is not looked at",
        unread::<2>,
    ),
    fault(
        "exposed-super-unread",
        "the super window is not looked at",
        unread::<3>,
    ),
    fault(
        "exposed-device-unread",
        "the device window is not looked at",
        unread::<4>,
    ),
    fault("exposed-l1-unread", "l1 is not looked for", |x, answer| {
        without(x, answer, 0)
    }),
    fault(
        "exposed-l2-code-unread",
        "l2_code is not looked for where there is no image",
        |x, answer| {
            if x.0[IMAGE_PRESENT] == 0 {
                without(x, answer, 1);
            }
        },
    ),
    fault(
        "exposed-l2-dev-unread",
        "l2_dev is not looked for",
        |x, answer| without(x, answer, 5),
    ),
    fault(
        "exposed-refused",
        "a table is told in a layout that is refused",
        |x, answer| {
            if answer[0] != 0 && first(&x.0, holds) != ACCEPTED {
                *answer = first(&x.0, holds);
            }
        },
    ),
    fault(
        "exposed-row-10-first",
        "the outputs are tested before all else",
        |x, answer| *answer = row_10(&x.0).unwrap_or(*answer),
    ),
    fault(
        "exposed-row-13-tested",
        "equal tables are refused",
        |x, answer| {
            if answer[0] == 0 {
                *answer = row_13(&x.0).unwrap_or(*answer);
            }
        },
    ),
    fault(
        "exposed-as-a-refusal",
        "the number of the table is returned",
        |_, answer| {
            if let [0, 1, table, window, ..] = *answer {
                *answer = words([table, window]);
            }
        },
    ),
    fault(
        "exposed-without-flag",
        "the table is the first value",
        |_, answer| {
            if let [0, 1, table, window, ..] = *answer {
                *answer = words([0, table, window]);
            }
        },
    ),
    fault(
        "exposed-exchanged",
        "the window is carried before the table",
        |_, answer| {
            if answer[0] == 0 {
                answer.swap(2, 3);
            }
        },
    ),
    fault(
        "exposed-codes-from-0",
        "the tables are counted from 0",
        |_, answer| {
            if answer[..2] == [0, 1] {
                answer[2] -= 1;
            }
        },
    ),
    fault(
        "exposed-values-left-out",
        "a refusal has its number and no values",
        |_, answer| {
            if answer[0] != 0 {
                answer[1..].fill(0);
            }
        },
    ),
    fault(
        "exposed-values-unwritten",
        "no value is written where no table lies in a window",
        |_, answer| {
            if *answer == ACCEPTED {
                answer[1..].fill(UNWRITTEN);
            }
        },
    ),
];

const fn fault(
    name: &'static str,
    slip: &'static str,
    alter: fn(&Exposed, &mut Outcome),
) -> Fault<Exposed> {
    Fault {
        name,
        slip,
        op: (),
        alter,
    }
}

/// Tells what another test of a table and a window finds.
fn by(x: &Exposed, answer: &mut Outcome, holds: impl Fn(&Window, u64) -> bool) {
    if answer[0] == 0 {
        *answer = first(&x.0, holds);
    }
}

fn present(window: &Window) -> Window {
    Window {
        present: true,
        ..*window
    }
}

fn unread<const WINDOW: u64>(x: &Exposed, answer: &mut Outcome) {
    by(x, answer, |window, table| {
        window.code != WINDOW && holds(window, table)
    });
}

/// Tells what is found without a table.
fn without(x: &Exposed, answer: &mut Outcome, table: usize) {
    let held = |window: &Window, address| holds(window, address) && address != x.0[table];
    by(x, answer, held);
}
