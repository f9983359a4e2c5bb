//! What the types of this crate, or the contracts of the calls, rule out.

use std::string::ToString;

use crate::annex::{written, ANNEX_MAX};
use crate::answer::Answer;
use crate::arena::Arena;
use crate::calls;
use crate::changed::changed;
use crate::maps::{leaf_map_from_edges, Maps, MAP_LEN};
use crate::names::Span;
use crate::refusal::Refusal;
use crate::scene::{DOM, EDGES, FRAMES, LAYOUT};

/// Row 1: an `Arena` has its length.
#[test]
fn a_short_arena() {
    let (mut base, mut sup) = ([0; 4], [0; 4]);
    let maps = leaf_map_from_edges(&EDGES, &FRAMES, DOM, &mut base, &mut sup).unwrap();
    let numbers = LAYOUT.numbers();
    let mut arena = Arena::ZEROS;
    let short = &mut arena.words[..3071];
    let answers = [
        calls::encode(short, maps, &numbers),
        calls::step(short, maps, &numbers, 0),
        calls::verify(short, maps, &numbers),
        calls::walk(short, &LAYOUT.tables().numbers(), 0),
    ];
    for answer in answers {
        let refusal = answer.accepted().unwrap_err();
        assert_eq!(refusal, Refusal::ArenaLength);
        assert_eq!(refusal.number(), 1);
        assert_eq!(refusal.to_string(), "the arena does not have 3,072 words");
    }
    assert!(arena == Arena::ZEROS);
}

/// Rows 2 and 3 of the annex page: filled maps have at most 512 entries, and none above 3.
#[test]
fn long_maps_and_bytes_above_3() {
    let refused = |base: &[u8], sup: &[u8]| {
        let mut page = [7; 40];
        let answer = calls::annex(&mut page, Maps::of_bytes(base, sup), &LAYOUT.numbers());
        assert_eq!(page, [7; 40]);
        answer.accepted()
    };
    let code = |map, position| Err(Refusal::MapCode { map, position });
    let long = [4; MAP_LEN + 1];
    assert_eq!(refused(&long, &[]), Err(Refusal::MapLength));
    assert_eq!(refused(&[4], &long), Err(Refusal::MapLength));
    assert_eq!(refused(&[0, 4], &[4]), code(Span::Base, 1));
    assert_eq!(refused(&[3, 3], &[3, 4]), code(Span::Super, 1));
    assert_eq!(refused(&[3, 3], &[3, 3]), Err(Refusal::PageTooLong));
}

/// In filled maps no frame is mapped as base and as super, so that theirs are shorter.
#[test]
fn the_longest_page() {
    let layout = changed(&LAYOUT, |l| {
        l.guest_image_pa = Some(0x1_4000_0000);
        l.sup_frames = 512;
    });
    let mut map = [1; MAP_LEN];
    map.iter_mut().step_by(2).for_each(|entry| *entry = 2);
    let (maps, numbers) = (Maps::of_bytes(&map, &map), layout.numbers());
    let mut page = [7; ANNEX_MAX];
    let short = &mut page[1..];
    let answer = calls::annex(short, maps, &numbers);
    assert_eq!(written(short, answer), Err(Refusal::PageTooLong));
    assert_eq!(page, [7; ANNEX_MAX]);
    let answer = calls::annex(&mut page, maps, &numbers);
    let text = written(&page, answer).unwrap();
    assert_eq!((text.len(), text.lines().count()), (ANNEX_MAX, 1027));
    assert!(text.lines().all(|line| line.len() == 39));
}

#[test]
#[should_panic = "libs2.a answers 0 with [29, 0, 0, 0, 0, 0, 0, 0], which its contract rules out"]
fn a_page_past_its_buffer() {
    let _ = written(&[b'='; 40], told(41));
}

#[test]
#[should_panic = "libs2.a answers 0 with [28, 0, 0, 0, 0, 0, 0, 0], which its contract rules out"]
fn a_page_that_is_no_text() {
    let _ = written(&[0xFF; 40], told(40));
}

fn told(value: u64) -> Answer {
    Answer {
        number: 0,
        values: [value, 0, 0, 0, 0, 0, 0, 0],
    }
}

fn refused(number: u32, values: [u64; 8]) -> Refusal {
    Refusal::of(Answer { number, values })
}

#[test]
#[should_panic = "libs2.a answers 28 with [9, 0, 0, 0, 0, 0, 0, 0], which its contract rules out"]
fn a_row_past_the_last() {
    refused(28, [9, 0, 0, 0, 0, 0, 0, 0]);
}

#[test]
#[should_panic = "libs2.a answers 7 with [7, 0, 0, 0, 0, 0, 0, 0], which its contract rules out"]
fn a_table_past_the_last() {
    refused(7, [7, 0, 0, 0, 0, 0, 0, 0]);
}

#[test]
#[should_panic = "libs2.a answers 15 with [100000000, 0, 0, 0, 0, 0, 0, 0], which its contract"]
fn a_frame_of_more_than_32_bits() {
    refused(15, [1 << 32, 0, 0, 0, 0, 0, 0, 0]);
}

#[test]
#[should_panic = "libs2.a answers 23 with [3, 1, 0, 5, 2, 0, 0, 0], which its contract rules out"]
fn an_owner_of_what_nobody_owns() {
    refused(23, [3, 1, 0, 5, 2, 0, 0, 0]);
}
