//! An arena over memory that the caller reserves.

#[path = "../examples/scene_s/scene.rs"]
mod scene;

use dervhalt_s2::{encode, leaf_map_from_edges, Arena, Error, ARENA_LEN};
use scene::{DOM, EDGES, FRAMES, LAYOUT};

/// Two pages more than an arena.
#[repr(align(4096))]
struct Reserved([u64; ARENA_LEN + 1024]);

fn reserved(word: u64) -> Box<Reserved> {
    Box::new(Reserved([word; ARENA_LEN + 1024]))
}

#[test]
fn it_begins_at_a_page_and_has_its_length() {
    let mut memory = reserved(7);
    for (start, len) in [(0, 0), (0, 3071), (0, 3073), (1, 3072), (511, 3072)] {
        let words = &mut memory.0[start..][..len];
        let address = words.as_ptr() as usize;
        let error = Arena::over(words).unwrap_err();
        assert_eq!(error, Error::NoArena { len, address });
        assert_eq!(
            error.to_string(),
            format!(
                "{len} words at {address:#x} are no arena, \
                 which has 3,072 at a multiple of 4,096"
            )
        );
    }
    for start in [0, 512, 1024] {
        assert!(Arena::over(&mut memory.0[start..][..ARENA_LEN]).is_ok());
    }
    assert!(memory.0.iter().all(|word| *word == 7));
}

/// Tables 4 to 6 are cleared, and in 1 to 3 old words remain beside S's four.
#[test]
fn its_old_words_remain_until_they_are_zeroed() {
    let (mut base, mut sup) = ([0; 8], [0; 8]);
    let maps = leaf_map_from_edges(&EDGES, &FRAMES, DOM, &mut base, &mut sup).unwrap();
    let (maps, layout) = (maps.authorized(&[]).unwrap(), LAYOUT.checked().unwrap());
    let mut own = Arena::ZEROS;
    encode(&mut own, maps, &layout).unwrap();

    let mut memory = reserved(7);
    let arena = Arena::over(&mut memory.0[512..][..ARENA_LEN]).unwrap();
    encode(arena, maps, &layout).unwrap();
    let old = |words: &[u64]| words.iter().filter(|word| **word == 7).count();
    assert_eq!(old(&arena.words[..3 * 512]), 3 * 512 - 4);
    assert_eq!(old(&arena.words[3 * 512..]), 0);
    arena.words.fill(0);
    encode(arena, maps, &layout).unwrap();
    assert!(*arena == own);
    // The arena is the memory itself, and what stands beside it stays.
    assert_eq!(memory.0[512..][..ARENA_LEN], own.words);
    assert_eq!(old(&memory.0), 1024);
}
