//! Slips of a port that walks, in what it makes of the words that it reads.

use crate::descriptors::{ACCESS, ACCESSED, ADDRESS, EXECUTE_NEVER, TYPE, WRITABLE};
use crate::encode::{table, ARENA_LEN};
use crate::function::Fault;
use crate::inputs::{words, Outcome};
use crate::layout::{BLOCK, INPUT_LIMIT, L1_SPAN, OUTPUT_LIMIT, PAGE};
use crate::walk::{Walk, NOTHING};
use crate::walk_faults::{fault, with_arena};

pub const FAULTS: &[Fault<Walk>] = &[
    fault(
        "walk-00-reached",
        "what has no access is reached for reading",
        |x, answer| *answer = accessed_as(x, 0, 1),
    ),
    fault(
        "walk-10-as-ro",
        "what can only be written is reached for reading",
        |x, answer| *answer = accessed_as(x, 2, 1),
    ),
    fault(
        "walk-10-as-rw",
        "what can only be written is reached for both",
        |x, answer| *answer = accessed_as(x, 2, 3),
    ),
    fault(
        "walk-01-as-rw",
        "what can only be read is reached for both",
        |x, answer| *answer = accessed_as(x, 1, 3),
    ),
    fault(
        "walk-access-flag",
        "what has the access flag clear is not reached",
        |x, answer| {
            if leaf(x).is_some_and(|word| word & ACCESSED == 0) {
                *answer = NOTHING;
            }
        },
    ),
    fault(
        "walk-l1-block",
        "a block of level 1 is reached",
        |x, answer| {
            if let [word] = read(x)[..] {
                reach_as(x, answer, word, 1, L1_SPAN);
            }
        },
    ),
    fault(
        "walk-l2-block-unread",
        "a block of level 2 is not reached",
        |x, answer| {
            if read(x).len() == 2 {
                *answer = NOTHING;
            }
        },
    ),
    fault(
        "walk-l2-page",
        "a word of level 2 that names no table is reached as a page",
        |x, answer| {
            if let [_, word, 0] = read(x)[..] {
                reach_as(x, answer, word, 3, PAGE);
            }
        },
    ),
    fault(
        "walk-l3-block",
        "a block of level 3 is reached as a page",
        |x, answer| {
            if let [_, _, word] = read(x)[..] {
                reach_as(x, answer, word, 1, PAGE);
            }
        },
    ),
    fault("walk-l3-unread", "a page is not reached", |x, answer| {
        if read(x).len() == 3 {
            *answer = NOTHING;
        }
    }),
    fault(
        "walk-invalid-block",
        "a block whose valid bit is clear is reached",
        |x, answer| {
            if let [_, word] = read(x)[..] {
                reach_as(x, answer, word, 0, BLOCK);
            }
        },
    ),
    fault(
        "walk-invalid-page",
        "a page whose valid bit is clear is reached",
        |x, answer| {
            if let [_, _, word] = read(x)[..] {
                reach_as(x, answer, word, 2, PAGE);
            }
        },
    ),
    fault(
        "walk-block-offset-dropped",
        "a block is reached at its start",
        |x, answer| {
            if read(x).len() == 2 {
                answer[2] -= answer[2] % BLOCK;
            }
        },
    ),
    fault(
        "walk-block-offset-of-a-page",
        "a block is reached at the offset in its first page",
        |x, answer| {
            if read(x).len() == 2 {
                answer[2] -= answer[2] % BLOCK - answer[2] % PAGE;
            }
        },
    ),
    fault(
        "walk-block-at-a-page",
        "the bits of a block's word below its address are joined to the output",
        |x, answer| {
            if let ([_, word], [0, 1, ..]) = (&read(x)[..], &answer[..]) {
                answer[2] |= word & (BLOCK - PAGE);
            }
        },
    ),
    fault(
        "walk-output-of-64-bits",
        "the bits of a word above its address are joined to the output",
        |x, answer| {
            if let (Some(word), [0, 1, ..]) = (leaf(x), &answer[..]) {
                answer[2] |= word / OUTPUT_LIMIT * OUTPUT_LIMIT;
            }
        },
    ),
    fault(
        "walk-output-of-40-bits",
        "the high byte of the output is lost",
        |_, answer| answer[2] %= 1 << 40,
    ),
    fault(
        "walk-tables-of-64-bits",
        "the bits of a word above its address count to the table that it names",
        |x, answer| {
            if let [tables @ .., _] = &read(x)[..] {
                if tables.iter().any(|word| *word >= OUTPUT_LIMIT) {
                    *answer = NOTHING;
                }
            }
        },
    ),
    fault(
        "walk-tables-never-executed",
        "what is reached by a word with the bit of execute never is told as never",
        |x, answer| {
            if answer[1] == 1 && read(x).iter().any(|word| word & EXECUTE_NEVER != 0) {
                answer[4] = 1;
            }
        },
    ),
    fault(
        "walk-tables-read-only",
        "what is reached by a table's word without the bit for writing is told as Ro",
        |x, answer| {
            if answer[1] == 1 && read(x).iter().any(|word| word & WRITABLE == 0) {
                answer[3] = 1;
            }
        },
    ),
];

/// The port's answer where words with one access have another.
fn accessed_as(x: &Walk, found: u64, taken: u64) -> Outcome {
    with_arena(x, |arena| {
        let words = arena.iter_mut();
        words
            .filter(|word| **word & ACCESS == found << 6)
            .for_each(|word| *word = *word & !ACCESS | taken << 6);
    })
}

/// Reaches what a word of this type maps, if the port reaches nothing.
fn reach_as(x: &Walk, answer: &mut Outcome, word: u64, kind: u64, span: u64) {
    let access = match word & ACCESS {
        0x40 => 1,
        0xc0 => 2,
        _ => return,
    };
    if *answer == NOTHING && word & TYPE == kind {
        let pa = word & ADDRESS & !(span - 1) | x.ipa & (span - 1);
        let never = u64::from(word & EXECUTE_NEVER != 0);
        *answer = words([0, 1, pa, access, never]);
    }
}

/// The word that the walk ends at, if it comes so far as a block or a page.
fn leaf(x: &Walk) -> Option<u64> {
    let read = read(x);
    (read.len() > 1).then(|| read[read.len() - 1])
}

/// The words that are read, of levels 1 to 3.
fn read(x: &Walk) -> Vec<u64> {
    let mut read = Vec::new();
    let mut address = x.tables[0];
    for span in [L1_SPAN, BLOCK, PAGE] {
        if x.ipa >= INPUT_LIMIT || x.arena.len() != ARENA_LEN {
            break;
        }
        let word = fetch(x, address, (x.ipa / span % 512) as usize);
        read.push(word);
        if word & TYPE != 3 {
            break;
        }
        address = word & ADDRESS;
    }
    read
}

fn fetch(x: &Walk, address: u64, index: usize) -> u64 {
    let named = x.tables.iter().position(|table| *table == address);
    named.map_or(0, |first| x.arena[table(1 + first).start + index])
}
