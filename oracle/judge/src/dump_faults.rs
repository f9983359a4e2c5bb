//! Slips of an `s2dump` in what it prints.

use crate::encode::{table, ARENA_LEN, TABLE_LEN};
use crate::function::{with_op, Fault};
use crate::programs::{Lines, Printed, Program, Text};
use crate::scene_text::lines;

pub const FAULTS: &[Fault<Text>] = &[
    fault(
        "dump-lower-case",
        "words are printed in lower case",
        |_, printed| {
            if printed.accepted() {
                printed.stdout.make_ascii_lowercase();
            }
        },
    ),
    fault(
        "dump-index-decimal",
        "the index is printed in decimal",
        |_, printed| {
            reprint(printed, |table, index, word| {
                format!("{table} {index:03} {word:016X}")
            })
        },
    ),
    fault(
        "dump-index-of-the-arena",
        "the index counts on from table to table",
        |_, printed| {
            reprint(printed, |number, index, word| {
                let index = table(number).start + index;
                format!("{number} {index:03X} {word:016X}")
            });
        },
    ),
    fault(
        "dump-index-short",
        "the index has no zeros before it",
        |_, printed| {
            reprint(printed, |table, index, word| {
                format!("{table} {index:X} {word:016X}")
            })
        },
    ),
    fault(
        "dump-word-short",
        "the word has no zeros before it",
        |_, printed| {
            reprint(printed, |table, index, word| {
                format!("{table} {index:03X} {word:X}")
            })
        },
    ),
    fault(
        "dump-tables-from-0",
        "the first table has the number 0",
        |_, printed| {
            reprint(printed, |table, index, word| {
                let table = table - 1;
                format!("{table} {index:03X} {word:016X}")
            });
        },
    ),
    fault(
        "dump-table-of-two-digits",
        "the table has two digits",
        |_, printed| {
            reprint(printed, |table, index, word| {
                format!("{table:02} {index:03X} {word:016X}")
            });
        },
    ),
    fault(
        "dump-zero-words",
        "words of zero are printed too",
        |_, printed| {
            if let Some(words) = printed_words(printed) {
                let mut arena = [0; ARENA_LEN];
                for (number, index, word) in words {
                    arena[table(number).start + index] = word;
                }
                let all = arena.into_iter().enumerate();
                let all = all.map(|(place, word)| (1 + place / TABLE_LEN, place % TABLE_LEN, word));
                printed.stdout = lines_of(all);
            }
        },
    ),
    fault(
        "dump-by-index",
        "the words are in the order of their indices",
        |_, printed| {
            if let Some(mut words) = printed_words(printed) {
                words.sort_by_key(|(table, index, _)| (*index, *table));
                printed.stdout = lines_of(words);
            }
        },
    ),
    fault(
        "dump-header",
        "a line stands above the words",
        |_, printed| {
            if printed.accepted() {
                printed.stdout.splice(..0, *b"T III WWWWWWWWWWWWWWWW\n");
            }
        },
    ),
    fault(
        "dump-without-last-line-feed",
        "the last word's line does not end",
        |_, printed| {
            if printed.accepted() {
                printed.stdout.pop();
            }
        },
    ),
    fault(
        "dump-carriage-returns",
        "lines end as in DOS",
        |_, printed| {
            let lines = lines(&printed.stdout).flat_map(|line| [line, b"\r\n"].concat());
            printed.stdout = lines.collect();
        },
    ),
    fault(
        "dump-refused-without-line-feed",
        "the line of a refusal does not end",
        |_, printed| {
            if printed.refused().is_some() {
                printed.stdout.pop();
            }
        },
    ),
    fault(
        "dump-refused-hexadecimal",
        "the row's number is printed in hexadecimal",
        |_, printed| {
            if let Some(row) = printed.refused() {
                printed.stdout = format!("REFUSED {row:X}\n").into_bytes();
            }
        },
    ),
    fault(
        "dump-refused-of-two-digits",
        "the row's number has two digits",
        |_, printed| {
            if let Some(row) = printed.refused() {
                printed.stdout = format!("REFUSED {row:02}\n").into_bytes();
            }
        },
    ),
    fault(
        "dump-refused-status",
        "a refused scene is a failure",
        |_, printed| {
            if printed.refused().is_some() {
                printed.status = Some(1);
            }
        },
    ),
    fault(
        "dump-refused-silent",
        "of a refused scene nothing is printed",
        |_, printed| {
            if printed.refused().is_some() {
                printed.stdout.clear();
            }
        },
    ),
];

/// A slip that shows where every line is good.
pub const fn fault(
    name: &'static str,
    slip: &'static str,
    alter: fn(&Text, &mut Printed),
) -> Fault<Text> {
    Fault {
        name,
        slip,
        op: (Program::Dump, Lines::Good),
        alter,
    }
}

/// A slip that shows where a line is bad.
pub const fn bad_line_fault(
    name: &'static str,
    slip: &'static str,
    alter: fn(&Text, &mut Printed),
) -> Fault<Text> {
    Fault {
        op: (Program::Dump, Lines::Bad),
        ..fault(name, slip, alter)
    }
}

/// What is printed when the text is read after a change.
pub fn with(text: &Text, change: impl FnOnce(&mut Text)) -> Printed {
    with_op(text, (Program::Dump, Lines::Good), change)
}

/// A table's number, an index and the word there.
type Word = (usize, usize, u64);

fn printed_words(printed: &Printed) -> Option<Vec<Word>> {
    if !printed.accepted() {
        return None;
    }
    let text = str::from_utf8(&printed.stdout).ok()?;
    text.lines().map(word).collect()
}

fn word(line: &str) -> Option<Word> {
    let number = |digits| u64::from_str_radix(digits, 16).ok();
    match line.split(' ').collect::<Vec<_>>()[..] {
        [table, index, word] => Some((
            number(table)? as usize,
            number(index)? as usize,
            number(word)?,
        )),
        _ => None,
    }
}

/// Prints the words in another form.
fn reprint(printed: &mut Printed, form: fn(usize, usize, u64) -> String) {
    if let Some(words) = printed_words(printed) {
        let lines = words
            .into_iter()
            .map(|(table, index, word)| form(table, index, word) + "\n");
        printed.stdout = lines.collect::<String>().into_bytes();
    }
}

fn lines_of(words: impl IntoIterator<Item = Word>) -> Vec<u8> {
    let lines = words
        .into_iter()
        .map(|(table, index, word)| format!("{table} {index:03X} {word:016X}\n"));
    lines.collect::<String>().into_bytes()
}
