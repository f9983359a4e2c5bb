//! Slips of a port in the lines of a page.

use given_s2::arm64::Reach;

use crate::annex::{Annexed, Written};
use crate::annex_faults::{fault, rewritten};
use crate::annex_page::{access, execute, last_line, line, runs, Run, LINE};
use crate::annex_run_faults::window_of;
use crate::function::Fault;
use crate::layout::EXEMPT;

/// Where access stands in a line, after the numbers.
const ACCESS: usize = 35;

pub const FAULTS: &[Fault<Annexed>] = &[
    fault(
        "annex-lower-case-digits",
        "digits are in lower case",
        |x, reply| {
            relined(x, reply, |run| {
                let line = line(run);
                let (numbers, access) = line.split_at(ACCESS);
                numbers.to_ascii_lowercase() + access
            });
        },
    ),
    fault(
        "annex-lower-case-access",
        "access is in lower case",
        |x, reply| {
            relined(x, reply, |run| {
                let line = line(run);
                let (numbers, access) = line.split_at(ACCESS);
                numbers.to_string() + &access.to_ascii_lowercase()
            });
        },
    ),
    fault(
        "annex-numbers-short",
        "numbers have no zeros before them",
        |x, reply| {
            renumbered(x, reply, |first, last, output| {
                format!("{first:X} {last:X} {output:X}")
            });
        },
    ),
    fault(
        "annex-spaces-for-zeros",
        "numbers have spaces before them",
        |x, reply| {
            renumbered(x, reply, |first, last, output| {
                format!("{first:10X} {last:10X} {output:12X}")
            });
        },
    ),
    fault("annex-decimal", "addresses are decimal", |x, reply| {
        renumbered(x, reply, |first, last, output| {
            format!("{first:010} {last:010} {output:012X}")
        });
    }),
    fault(
        "annex-output-of-10-digits",
        "the output has ten digits",
        |x, reply| {
            renumbered(x, reply, |first, last, output| {
                format!("{first:010X} {last:010X} {output:010X}")
            });
        },
    ),
    fault(
        "annex-output-of-40-bits",
        "the output is cut to forty bits",
        |x, reply| {
            relined(x, reply, |run| {
                line(&reaching(run, run.reach.pa % (1 << 40)))
            })
        },
    ),
    fault(
        "annex-last-exclusive",
        "the address after the last is told",
        |x, reply| {
            relined(x, reply, |run| {
                let last = run.last + 1;
                line(&Run { last, ..*run })
            });
        },
    ),
    fault(
        "annex-size-for-last",
        "the size is told in the place of the last address",
        |x, reply| {
            relined(x, reply, |run| {
                let last = run.last - run.first + 1;
                line(&Run { last, ..*run })
            });
        },
    ),
    fault(
        "annex-last-page",
        "the start of the last page is told for the last address",
        |x, reply| {
            relined(x, reply, |run| {
                let last = run.last & !0xfff;
                line(&Run { last, ..*run })
            });
        },
    ),
    fault(
        "annex-output-of-last",
        "the output of the last address is told",
        |x, reply| {
            relined(x, reply, |run| {
                line(&reaching(run, run.reach.pa + (run.last - run.first)))
            });
        },
    ),
    fault(
        "annex-output-is-input",
        "the first address is told for its output",
        |x, reply| relined(x, reply, |run| line(&reaching(run, run.first))),
    ),
    fault(
        "annex-output-first",
        "the output stands before the addresses",
        |x, reply| {
            renumbered(x, reply, |first, last, output| {
                format!("{output:012X} {first:010X} {last:010X}")
            });
        },
    ),
    fault(
        "annex-last-first",
        "the last address stands before the first",
        |x, reply| {
            relined(x, reply, |run| {
                let (first, last) = (run.last, run.first);
                line(&Run {
                    first,
                    last,
                    ..*run
                })
            });
        },
    ),
    fault(
        "annex-execute-first",
        "execute stands before access",
        |x, reply| {
            relined(x, reply, |run| {
                let numbers = &line(run)[..ACCESS];
                format!("{numbers}{} {}\n", execute(&run.reach), access(&run.reach))
            });
        },
    ),
    fault("annex-rw-as-ro", "RW is told as RO", |x, reply| {
        relined(x, reply, |run| line(run).replace("RW", "RO"))
    }),
    fault(
        "annex-rx",
        "what can be executed is told as RX",
        |x, reply| relined(x, reply, |run| line(run).replace("RO X", "RX X")),
    ),
    fault(
        "annex-never-as-x",
        "X is told of what is never executed",
        |x, reply| {
            relined(x, reply, |run| {
                let line = line(run);
                match run.reach.xn {
                    true => line.replace('-', "X"),
                    false => line.replace('X', "-"),
                }
            });
        },
    ),
    fault(
        "annex-exempt-data",
        "the exemption is the pages' too",
        |x, reply| {
            let exempt = x.scene.fields[EXEMPT] != 0;
            relined(x, reply, |run| match window_of(&x.scene, run.first) {
                Some(2) if exempt => line(run).replace("RW -", "RW X"),
                _ => line(run),
            });
        },
    ),
    fault(
        "annex-dot",
        "a dot stands for the minus sign",
        |x, reply| relined(x, reply, |run| line(run).replace('-', ".")),
    ),
    fault(
        "annex-two-spaces",
        "two spaces stand before access",
        |x, reply| relined(x, reply, |run| line(run).replace(" R", "  R")),
    ),
    fault("annex-tabs", "tabs stand between the fields", |x, reply| {
        relined(x, reply, |run| line(run).replace(' ', "\t"))
    }),
    fault(
        "annex-no-spaces",
        "nothing stands between the fields",
        |x, reply| relined(x, reply, |run| line(run).replace(' ', "")),
    ),
    fault(
        "annex-zero-bytes",
        "lines end with a zero byte",
        |x, reply| relined(x, reply, |run| line(run).replace('\n', "\0")),
    ),
    fault(
        "annex-carriage-returns",
        "lines end as in DOS",
        |x, reply| {
            rewritten(x, reply, |page| {
                let lines = page.split_inclusive(|byte| *byte == b'\n');
                let lines = lines.map(|line| [&line[..line.len() - 1], b"\r\n"].concat());
                lines.collect::<Vec<_>>().concat()
            });
        },
    ),
    fault(
        "annex-no-last-line",
        "the last line is left out",
        |x, reply| last_lined(x, reply, |_| String::new()),
    ),
    fault(
        "annex-40-signs",
        "the last line has forty equals signs",
        |x, reply| last_lined(x, reply, |line| format!("={line}")),
    ),
    fault(
        "annex-38-signs",
        "the last line has 38 equals signs",
        |x, reply| last_lined(x, reply, |line| line[1..].into()),
    ),
    fault(
        "annex-minus-signs",
        "the last line is of minus signs",
        |x, reply| last_lined(x, reply, |line| line.replace('=', "-")),
    ),
    fault(
        "annex-40-signs-alone",
        "the last line has a fortieth sign in the place of the line feed",
        |x, reply| last_lined(x, reply, |line| line.replace('\n', "=")),
    ),
    fault(
        "annex-last-line-unfinished",
        "the last line has no line feed",
        |x, reply| last_lined(x, reply, |line| line.trim_end().into()),
    ),
    fault(
        "annex-last-line-twice",
        "the last line is written twice",
        |x, reply| last_lined(x, reply, |line| line.repeat(2)),
    ),
    fault(
        "annex-last-line-at-the-front",
        "the last line is the first",
        |x, reply| {
            rewritten(x, reply, |page| {
                let (lines, last) = page.split_at(page.len() - LINE);
                [last, lines].concat()
            });
        },
    ),
    fault(
        "annex-nothing-for-nothing",
        "where nothing is reached the page has no line at all",
        |x, reply| {
            rewritten(x, reply, |page| match page.len() {
                LINE => Vec::new(),
                _ => page.to_vec(),
            });
        },
    ),
];

/// Writes other lines in the place of all but the last.
fn relined(x: &Annexed, reply: &mut Written, line: impl Fn(&Run) -> String) {
    rewritten(x, reply, |_| {
        let lines: String = runs(&x.scene).iter().map(line).collect();
        (lines + &last_line()).into_bytes()
    });
}

/// Writes other numbers into these lines.
fn renumbered(x: &Annexed, reply: &mut Written, numbers: fn(u64, u64, u64) -> String) {
    relined(x, reply, |run| {
        let numbers = numbers(run.first, run.last, run.reach.pa);
        format!("{numbers} {}", &line(run)[ACCESS..])
    });
}

/// Writes another last line.
fn last_lined(x: &Annexed, reply: &mut Written, last: fn(&str) -> String) {
    rewritten(x, reply, |page| {
        let lines = &page[..page.len() - LINE];
        [lines, last(&last_line()).as_bytes()].concat()
    });
}

/// The run with another output.
fn reaching(run: &Run, pa: u64) -> Run {
    let reach = Reach { pa, ..run.reach };
    Run { reach, ..*run }
}
