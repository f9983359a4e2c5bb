//! Slips of a port that verifies: in the pages and supers that the maps say, and in the exemption.

use crate::descriptors::{ACCESS, ADDRESS, EXECUTE_NEVER, TYPE};
use crate::encode::{table, TABLE_LEN};
use crate::encode_inputs::unmap_past_frames;
use crate::function::{with, Fault, Input};
use crate::inputs::{words, Outcome};
use crate::layout::{
    ACCEPTED, BLOCK, DATA_PA, EXEMPT, OUTPUT_LIMIT, PAGE, SUP_FRAMES, SUP_IPA, SUP_PA,
};
use crate::mended::{change, due, mend, read, table_of, take_due};
use crate::verify::Arena;
use crate::verify_order_faults::sooner;
use crate::verify_row_faults::fault;
use crate::verify_word_faults::refuse_any;

pub const FAULTS: &[Fault<Arena>] = &[
    fault(
        "verify-supers-by-frame-number",
        "super p is looked for in slot p, wherever the window starts",
        |x, answer| {
            if read(answer) {
                let first = first_slot(x);
                *answer = with(x, |x| x.0.arena[table(5)].rotate_right(first));
                if answer[..2] == [21, 5] {
                    answer[2] = super_number(x, answer[2] as usize) as u64;
                }
            }
        },
    ),
    fault(
        "verify-supers-by-slot",
        "the supers are tested in the order of their slots",
        |x, answer| {
            if table_of(x, answer) == 5 {
                let wrapped = table(5).start..table(5).start + first_slot(x);
                sooner(
                    x,
                    answer,
                    |place| !wrapped.contains(&place),
                    |later| table_of(x, later) == 5,
                );
            }
        },
    ),
    fault(
        "verify-supers-told-by-slot",
        "row 20 tells a super's slot in the place of its number",
        |x, answer| {
            if answer[0] == 20 && table_of(x, answer) == 5 {
                answer[1] = (answer[1] + first_slot(x) as u64) % 512;
            }
        },
    ),
    fault(
        "verify-spurious-supers-by-number",
        "row 21 tells a super's number in the place of its slot",
        |x, answer| {
            if answer[..2] == [21, 5] {
                answer[2] = super_number(x, answer[2] as usize) as u64;
            }
        },
    ),
    fault(
        "verify-supers-below-the-frames",
        "a super past the frames is taken for none",
        |x, answer| {
            if read(answer) {
                *answer = with(x, |x| unmap_past_frames(&mut x.0));
            }
        },
    ),
    fault(
        "verify-slots-below-the-frames",
        "the slots past the frames are not tested",
        |x, answer| {
            let frames = x.0.fields[SUP_FRAMES] as usize;
            supers_untested(x, answer, |number| number >= frames);
        },
    ),
    fault(
        "verify-super-outputs-not-cut",
        "the address of a super past the frames is not cut to 48 bits",
        |x, answer| {
            let output = |number: usize| x.0.fields[SUP_PA] + number as u64 * BLOCK;
            let uncut = |number: &usize| x.0.sup[*number] != 0 && output(*number) >= OUTPUT_LIMIT;
            if *answer == ACCEPTED {
                if let Some(number) = (0..x.0.sup.len()).find(uncut) {
                    let access = access(x.0.sup[number]);
                    let found = output(number) % OUTPUT_LIMIT;
                    let never = u64::from(super_word(x, number) & EXECUTE_NEVER != 0);
                    let due = output(number);
                    *answer = words([20, number as u64, 1, found, access, never, 1, due, access]);
                }
            }
        },
    ),
    fault(
        "verify-super-outputs-told-uncut",
        "row 20 tells the address of a super past the frames as it is not cut",
        |x, answer| {
            if answer[0] == 20 && table_of(x, answer) == 5 {
                answer[7] = x.0.fields[SUP_PA] + answer[1] * BLOCK;
            }
        },
    ),
    fault(
        "verify-l2-sup-any-word",
        "a word of another type in an empty super slot is refused",
        refuse_any::<5>,
    ),
    fault(
        "verify-l3-data-any-word",
        "a word of another type in an empty page slot is refused",
        refuse_any::<4>,
    ),
    fault(
        "verify-exemption-ignored",
        "an Rw super must be execute never in an exempt layout too",
        |x, answer| exempt(x, answer, |_| 0),
    ),
    fault(
        "verify-exemption-always",
        "an Rw super must be executable in any layout",
        |x, answer| exempt(x, answer, |_| 1),
    ),
    fault(
        "verify-exemption-only-by-1",
        "another number than 1 is no exemption",
        |x, answer| exempt(x, answer, |flag| u64::from(flag == 1)),
    ),
    fault(
        "verify-exemption-allows",
        "an exempt Rw super may be execute never",
        |x, answer| {
            if x.0.fields[EXEMPT] != 0 {
                change(x, answer, |place, due, word| {
                    let rw = table(5).contains(&place) && due & ACCESS == ACCESS;
                    match rw && word & ACCESS == ACCESS {
                        true => word & !EXECUTE_NEVER,
                        false => word,
                    }
                });
            }
        },
    ),
    fault(
        "verify-exemption-of-pages",
        "an exempt Rw page must be executable",
        |x, answer| {
            let page = x.0.base.iter().position(|byte| *byte == 2);
            if let Some(page) = page.filter(|_| *answer == ACCEPTED && x.0.fields[EXEMPT] != 0) {
                let output = x.0.fields[DATA_PA] + page as u64 * PAGE;
                *answer = words([20, page as u64, 1, output, 2, 1, 1, output, 2]);
            }
        },
    ),
    fault(
        "verify-pages-anywhere",
        "a page may have any address",
        |x, answer| take_due(x, answer, 4, ADDRESS),
    ),
    fault(
        "verify-supers-anywhere",
        "a super may have any address",
        |x, answer| take_due(x, answer, 5, ADDRESS),
    ),
    fault(
        "verify-page-access-untested",
        "a page may have any access",
        |x, answer| take_due(x, answer, 4, ACCESS),
    ),
    fault(
        "verify-super-access-untested",
        "a super may have any access",
        |x, answer| take_due(x, answer, 5, ACCESS),
    ),
    fault(
        "verify-page-never-untested",
        "whether a page can be executed is not tested",
        |x, answer| take_due(x, answer, 4, EXECUTE_NEVER),
    ),
    fault(
        "verify-super-never-untested",
        "whether a super can be executed is not tested",
        |x, answer| take_due(x, answer, 5, EXECUTE_NEVER),
    ),
    fault(
        "verify-page-type-untested",
        "a page may have any type",
        |x, answer| take_due(x, answer, 4, TYPE),
    ),
    fault(
        "verify-super-type-untested",
        "a super may have any type",
        |x, answer| take_due(x, answer, 5, TYPE),
    ),
    fault(
        "verify-leaves-whole",
        "the words of pages are compared whole",
        |x, answer| {
            let page = x.0.base.iter().position(|byte| *byte != 0);
            if let Some(page) = page.filter(|_| *answer == ACCEPTED) {
                let place = table(4).start + page;
                if x.0.arena[place] != due(x)[place] {
                    answer[0] = 20;
                    answer[1] = page as u64;
                }
            }
        },
    ),
    fault(
        "verify-pages-to-the-map",
        "the pages past the length of the base map are not tested",
        |x, answer| {
            let past = table(4).start + x.0.base.len()..table(4).end;
            mend(x, answer, |place, _| past.contains(&place));
        },
    ),
    fault(
        "verify-supers-to-the-map",
        "the slots past the length of the super map are not tested",
        |x, answer| {
            let len = x.0.sup.len();
            supers_untested(x, answer, |number| number >= len);
        },
    ),
    fault(
        "verify-maps-exchanged",
        "pages are read from the super map, supers from the base map",
        |x, answer| {
            if read(answer) {
                *answer = with(x, |x| std::mem::swap(&mut x.0.base, &mut x.0.sup));
            }
        },
    ),
    fault(
        "verify-highest-page",
        "the last page that is not due is told",
        |x, answer| {
            let mut left = x.clone();
            while table_of(&left, answer) == 4 {
                let index = answer[if answer[0] == 20 { 1 } else { 2 }];
                let place = table(4).start + index as usize;
                left.0.arena[place] = due(x)[place];
                let next = left.port(());
                if table_of(&left, &next) != 4 {
                    break;
                }
                *answer = next;
            }
        },
    ),
    fault(
        "verify-20-as-21",
        "a leaf that is not due is told by row 21 if its word is not zero",
        |x, answer| {
            if answer[0] == 20 {
                let number = answer[1] as usize;
                let (table, slot, word) = match table_of(x, answer) {
                    4 => (4, number, x.0.arena[table(4)][number]),
                    _ => (5, (number + first_slot(x)) % 512, super_word(x, number)),
                };
                if word != 0 {
                    *answer = words([21, table, slot as u64, word]);
                }
            }
        },
    ),
];

/// The slot of super 0.
fn first_slot(x: &Arena) -> usize {
    (x.0.fields[SUP_IPA] / BLOCK % 512) as usize
}

/// The number of the super in a slot.
fn super_number(x: &Arena, slot: usize) -> usize {
    (TABLE_LEN + slot - first_slot(x)) % TABLE_LEN
}

/// The slots of some supers are not tested.
fn supers_untested(x: &Arena, answer: &mut Outcome, so: impl Fn(usize) -> bool) {
    mend(x, answer, |place, _| {
        table(5).contains(&place) && so(super_number(x, place % TABLE_LEN))
    });
}

fn super_word(x: &Arena, number: usize) -> u64 {
    x.0.arena[table(5)][(first_slot(x) + number) % TABLE_LEN]
}

/// What an entry lets a leaf be used for: 1 Ro, 2 Rw.
fn access(entry: u8) -> u64 {
    match entry {
        2 => 2,
        _ => 1,
    }
}

/// The port's answer with another exemption.
fn exempt(x: &Arena, answer: &mut Outcome, flag: fn(u64) -> u64) {
    if read(answer) {
        *answer = with(x, |x| x.0.fields[EXEMPT] = flag(x.0.fields[EXEMPT]));
    }
}
