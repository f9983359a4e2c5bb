//! Slips of a port that encodes: in the pages and supers that the maps say, and in the exemption.

use crate::descriptors::{ACCESSED, EXECUTE_NEVER, WRITABLE};
use crate::encode::{table, Encoded, Scene};
use crate::encode_row_faults::fault;
use crate::function::{with, Fault};
use crate::layout::{
    BLOCK, DATA_IPA, DATA_PA, EXEMPT, L1_SPAN, OUTPUT_LIMIT, PAGE, SUP_IPA, SUP_PA,
};
use crate::map_inputs::set;
use crate::maps::MAP_LEN;
use crate::store_faults::accepted;

pub const FAULTS: &[Fault<Scene>] = &[
    fault(
        "pages-one-slot-on",
        "the word of page p stands at p + 1",
        |_, reply| {
            if accepted(reply) {
                reply.arena[table(4)].rotate_right(1);
            }
        },
    ),
    fault(
        "pages-one-page-on",
        "a page's output is that of the page after",
        |_, reply| leaves::<4>(reply, |word| word + PAGE),
    ),
    fault(
        "pages-where-read",
        "a page's output is its input",
        |scene, reply| {
            if accepted(reply) {
                let moved = scene.fields[DATA_IPA].wrapping_sub(scene.fields[DATA_PA]);
                let pages = reply.arena[table(4)].iter_mut().filter(|word| **word != 0);
                pages.for_each(|word| *word = word.wrapping_add(moved));
            }
        },
    ),
    fault(
        "pages-of-40-bits",
        "the high byte of a page's output is lost",
        |_, reply| leaves::<4>(reply, |word| word & !(0xff << 40)),
    ),
    fault(
        "pages-as-blocks",
        "a page has the type of a block",
        |_, reply| leaves::<4>(reply, |word| word & !2),
    ),
    fault(
        "pages-not-accessed",
        "the access flag of a page is clear",
        |_, reply| leaves::<4>(reply, |word| word & !ACCESSED),
    ),
    fault(
        "page-ro-writable",
        "an Ro page can be written",
        |scene, reply| pages(scene, reply, 1, |word| word | WRITABLE),
    ),
    fault(
        "page-rw-read-only",
        "an Rw page cannot be written",
        |scene, reply| pages(scene, reply, 2, |word| word & !WRITABLE),
    ),
    fault(
        "page-rx-never-executed",
        "an Rx page is execute never",
        |scene, reply| pages(scene, reply, 3, |word| word | EXECUTE_NEVER),
    ),
    fault(
        "page-ro-executable",
        "an Ro page can be executed",
        |scene, reply| pages(scene, reply, 1, |word| word & !EXECUTE_NEVER),
    ),
    fault(
        "first-page-left-out",
        "page 0 is never mapped",
        |_, reply| {
            if accepted(reply) {
                reply.arena[table(4).start] = 0;
            }
        },
    ),
    fault(
        "last-page-left-out",
        "page 511 is never mapped",
        |_, reply| {
            if accepted(reply) {
                reply.arena[table(4).end - 1] = 0;
            }
        },
    ),
    fault(
        "supers-by-frame-number",
        "super p stands in slot p, wherever the window starts",
        |scene, reply| {
            if accepted(reply) {
                *reply = with(scene, |scene| {
                    scene.fields[SUP_IPA] -= scene.fields[SUP_IPA] % L1_SPAN;
                });
            }
        },
    ),
    fault(
        "supers-by-output",
        "a super's slot is that of its output",
        |scene, reply| {
            if accepted(reply) {
                let [input, output] =
                    [SUP_IPA, SUP_PA].map(|field| scene.fields[field] / BLOCK % 512);
                let moved = (512 + output - input) % 512;
                reply.arena[table(5)].rotate_right(moved as usize);
            }
        },
    ),
    fault(
        "supers-one-slot-on",
        "the word of a super stands in the next slot",
        |_, reply| {
            if accepted(reply) {
                reply.arena[table(5)].rotate_right(1);
            }
        },
    ),
    fault(
        "supers-one-block-on",
        "a super's output is that of the super after",
        |_, reply| leaves::<5>(reply, |word| word + BLOCK),
    ),
    fault(
        "supers-one-page-on",
        "a super's output is a page too far",
        |_, reply| leaves::<5>(reply, |word| word + PAGE),
    ),
    fault(
        "supers-alike",
        "every super has the output of the first",
        |scene, reply| {
            if accepted(reply) {
                let supers = reply.arena[table(5)].iter_mut().filter(|word| **word != 0);
                let output = OUTPUT_LIMIT - BLOCK;
                supers.for_each(|word| *word = *word & !output | scene.fields[SUP_PA]);
            }
        },
    ),
    fault(
        "supers-of-40-bits",
        "the high byte of a super's output is lost",
        |_, reply| leaves::<5>(reply, |word| word & !(0xff << 40)),
    ),
    fault(
        "supers-as-pages",
        "a super has the type of a page",
        |_, reply| leaves::<5>(reply, |word| word | 2),
    ),
    fault(
        "last-super-left-out",
        "super 511 is never mapped",
        |scene, reply| {
            if accepted(reply) {
                *reply = with(scene, |scene| set(&mut scene.sup, MAP_LEN - 1, 0));
            }
        },
    ),
    fault(
        "maps-exchanged",
        "pages are read from the super map, supers from the base map",
        |scene, reply| {
            if accepted(reply) {
                *reply = with(scene, |x| std::mem::swap(&mut x.base, &mut x.sup));
            }
        },
    ),
    fault(
        "exemption-ignored",
        "an Rw super is execute never in an exempt layout too",
        |scene, reply| {
            if accepted(reply) {
                *reply = with(scene, |scene| scene.fields[EXEMPT] = 0);
            }
        },
    ),
    fault(
        "exemption-always",
        "an Rw super can be executed in any layout",
        |scene, reply| {
            if accepted(reply) {
                *reply = with(scene, |scene| scene.fields[EXEMPT] = 1);
            }
        },
    ),
    fault(
        "exemption-only-by-1",
        "another number than 1 is no exemption",
        |scene, reply| {
            if accepted(reply) {
                *reply = with(scene, |scene| {
                    scene.fields[EXEMPT] = (scene.fields[EXEMPT] == 1).into();
                });
            }
        },
    ),
    fault(
        "exemption-of-ro",
        "an exempt Ro super can be executed",
        |scene, reply| exempt_supers(scene, reply, 1, |word| word & !EXECUTE_NEVER),
    ),
    fault(
        "exemption-writes-ro",
        "an exempt Ro super can be written",
        |scene, reply| exempt_supers(scene, reply, 1, |word| word | WRITABLE),
    ),
    fault(
        "exemption-of-rx",
        "an exempt Rx super can be written",
        |scene, reply| exempt_supers(scene, reply, 3, |word| word | WRITABLE),
    ),
    fault(
        "exemption-of-pages",
        "an exempt Rw page can be executed",
        |scene, reply| {
            if scene.fields[EXEMPT] != 0 {
                pages(scene, reply, 2, |word| word & !EXECUTE_NEVER);
            }
        },
    ),
];

/// Changes the words of a table that are not zero.
pub fn leaves<const TABLE: usize>(reply: &mut Encoded, change: fn(u64) -> u64) {
    if accepted(reply) {
        let leaves = reply.arena[table(TABLE)].iter_mut();
        leaves
            .filter(|word| **word != 0)
            .for_each(|word| *word = change(*word));
    }
}

/// Changes the words of the pages that have this entry.
fn pages(scene: &Scene, reply: &mut Encoded, entry: u8, change: fn(u64) -> u64) {
    if accepted(reply) {
        let pages = reply.arena[table(4)].iter_mut().zip(&scene.base);
        for (word, _) in pages.filter(|(_, byte)| **byte == entry) {
            *word = change(*word);
        }
    }
}

/// Changes the words of the supers that have this entry, in an exempt layout.
fn exempt_supers(scene: &Scene, reply: &mut Encoded, entry: u8, change: fn(u64) -> u64) {
    if accepted(reply) && scene.fields[EXEMPT] != 0 {
        let first = (scene.fields[SUP_IPA] / BLOCK % 512) as usize;
        let supers = reply.arena[table(5)].iter_mut().skip(first).zip(&scene.sup);
        for (word, _) in supers.filter(|(_, byte)| **byte == entry) {
            *word = change(*word);
        }
    }
}
