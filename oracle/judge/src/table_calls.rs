//! The calls on tables that are recorded: scene S by hand, each two neighbours of verification's
//! list, and a few random layouts.

use crate::damage::{damage, place};
use crate::descriptors::ring;
use crate::encode::{ARENA_LEN, TABLE_LEN};
use crate::inputs::{altered, Outcome, Random};
use crate::layout::{
    pairs, BLOCK, DATA_IPA, DATA_PA, DEVICE_LEN, FRAME_SIZE, IMAGE, IMAGE_PRESENT, L1, L2_DEV,
    OUTPUT_LIMIT, SUP_FRAMES, SUP_FRAMES_LIMIT, SUP_IPA, SUP_PA, TABLES,
};
use crate::layout_inputs::{accepted, within_rows, SCENE};
use crate::record_tables::{Handed, Script};
use crate::step::{HALF_WAY, STEPS};
use crate::walk_addresses::{addresses, through};

/// How many random layouts are recorded, and how many walks of each.
const LAYOUTS: usize = 12;
const WALKS: usize = 8;

pub fn all(script: &mut Script) {
    refused(script);
    equal_tables(script);
    updates(script);
    walks(script);
    wrong_words(script);
    neighbours(script);
    let mut random = Random(18);
    for _ in 0..LAYOUTS {
        any_layout(script, &mut random);
    }
}

/// Scene S.
fn scene_s() -> Handed {
    Handed {
        fields: SCENE,
        base: [0, 2, 0, 0, 0, 0, 0, 0],
        sup: [0, 0, 3, 0, 0, 0, 0, 0],
        lent: ARENA_LEN,
    }
}

/// The first words of an answer, and the change of scene S that brings it about.
type Change = (&'static [u64], fn(&mut Handed));

/// Document 01's rows in order, each with the next one: the first is told.
const ROWS: &[Change] = &[
    (&[1], |x| (x.lent, x.base[0]) = (3_071, 4)),
    (&[3, 1, 1], |x| (x.base[1], x.base[2], x.sup[0]) = (4, 5, 4)),
    (&[3, 2, 3], |x| {
        (x.sup[3], x.sup[7]) = (255, 4);
        x.fields[DEVICE_LEN] = 4_096;
    }),
    (&[4], |x| {
        (x.fields[DEVICE_LEN], x.fields[FRAME_SIZE]) = (4_096, 16_384)
    }),
    (&[5], |x| {
        (x.fields[FRAME_SIZE], x.fields[DATA_IPA]) = (16_384, 1)
    }),
    (&[6, 1], |x| (x.fields[DATA_IPA], x.fields[L1]) = (1, 1)),
    (&[7, 1], |x| {
        (x.fields[L1], x.fields[SUP_FRAMES]) = (OUTPUT_LIMIT, SUP_FRAMES_LIMIT)
    }),
    (&[8], |x| {
        (x.fields[SUP_FRAMES], x.fields[DATA_IPA]) = (SUP_FRAMES_LIMIT, 1 << 39)
    }),
    (&[9, 3], |x| {
        (x.fields[SUP_FRAMES], x.fields[DATA_PA]) = (513, OUTPUT_LIMIT)
    }),
    (&[10, 3], |x| {
        (x.fields[SUP_PA], x.fields[SUP_IPA]) = (OUTPUT_LIMIT, 0x8020_0000)
    }),
    (&[11, 2], |x| {
        (x.fields[SUP_IPA], x.fields[SUP_PA]) = (0x8020_0000, 0x5000_0000)
    }),
];

/// The same with the rows that verification does not test.
const GUARD_ROWS: &[Change] = &[
    (&[12], |x| {
        (x.fields[SUP_PA], x.fields[L2_DEV]) = (0x5000_0000, x.fields[L1])
    }),
    (&[13, 1, 6], |x| {
        (x.fields[L2_DEV], x.sup[4]) = (x.fields[L1], 1)
    }),
    (&[14, 4], |x| (x.sup[4], x.sup[5]) = (1, 2)),
];

/// Each row with the next one, then layouts that fail twice in one row: by every call that tests
/// them, over old words.
fn refused(script: &mut Script) {
    script.fill(0, ARENA_LEN, u64::MAX);
    for (answer, change) in ROWS {
        let x = altered(scene_s(), change);
        expect(script.encode(&x), answer);
        expect(script.steps(&x, STEPS, STEPS), answer);
        expect(script.verify(&x), answer);
    }
    for (answer, change) in GUARD_ROWS {
        let x = altered(scene_s(), change);
        expect(script.encode(&x), answer);
        expect(script.steps(&x, STEPS, STEPS), answer);
    }
    for fields in within_rows() {
        let x = Handed {
            fields,
            ..scene_s()
        };
        script.encode(&x);
        script.steps(&x, 0, 0);
        script.verify(&x);
    }
}

/// The answer must begin so.
fn expect(outcome: Outcome, answer: &[u64]) {
    assert_eq!(outcome[..answer.len()], *answer, "document 01 gives it");
}

/// Row 13, of each two neighbours in the list of pairs: the first pair is told. The last two cannot
/// fail alone: where tables 4 and 6 are equal and 5 and 6 too, so are 4 and 5.
fn equal_tables(script: &mut Script) {
    let list: Vec<_> = pairs(TABLES.end).collect();
    for two in list[..list.len() - 1].windows(2) {
        let mut x = scene_s();
        for (first, second) in [two[1], two[0]] {
            x.fields[second] = x.fields[first];
        }
        let (first, second) = two[0];
        let told = [13, 1 + first as u64, 1 + second as u64];
        expect(script.encode(&x), &told);
        expect(script.steps(&x, HALF_WAY, HALF_WAY), &told);
    }
}

/// Updates of scene S from ones: whole, step by step around the ends of both halves, and cut.
fn updates(script: &mut Script) {
    let x = scene_s();
    script.fill(0, ARENA_LEN, u64::MAX);
    for step in [0, 1, 3_070, 3_071, 3_072, 3_073, 6_142, 6_143] {
        script.steps(&x, step, step);
    }
    for past in [6_144, 6_145, 1 << 32, u64::MAX] {
        expect(script.steps(&x, past, past), &[26]);
    }
    for (from, to) in [(0, 999), (0, 3_071), (3_072, 4_000), (4_001, 6_143)] {
        script.steps(&x, from, to);
    }
    expect(script.verify(&x), &[0]);
    let short = Handed {
        lent: 3_071,
        ..scene_s()
    };
    expect(script.steps(&short, 0, 0), &[1]);
}

/// Document 01's walks of scene S, those at its limits, and row 1.
fn walks(script: &mut Script) {
    let x = scene_s();
    script.fill(0, ARENA_LEN, 0);
    expect(script.encode(&x), &[0]);
    let walks: [(u64, &[u64]); 8] = [
        (0x8000_1234, &[0, 1, 0x5000_1234, 2, 1]),
        (0x8000_0000, &[0, 0]),
        (0x8000_2000, &[0, 0]),
        (0xc040_0010, &[0, 1, 0x6040_0010, 1, 0]),
        (0xc080_0000, &[0, 0]),
        (0x900_0018, &[0, 1, 0x900_0018, 2, 1]),
        (0x920_0000, &[0, 0]),
        (0x80_8000_1234, &[0, 0]),
    ];
    for (ipa, answer) in walks {
        expect(script.walk(&x, ipa), answer);
    }
    for lent in [0, 512, 3_071] {
        expect(
            script.walk(&Handed { lent, ..scene_s() }, 0x8000_1234),
            &[1],
        );
        expect(script.verify(&Handed { lent, ..scene_s() }), &[1]);
        expect(script.encode(&Handed { lent, ..scene_s() }), &[1]);
    }
    let mut random = Random(19);
    for (place, word) in ring(&mut random, &SCENE[TABLES]).into_iter().enumerate() {
        if place % TABLE_LEN < 8 {
            script.fill(place, 1, word);
        }
    }
    for _ in 0..40 {
        let (high, middle, low) = (random.below(8), random.below(8), random.below(8));
        script.walk(&x, high << 30 | middle << 21 | low << 12 | 0x123);
    }
}

/// Document 01's examples of rows 18 to 22; other tables and leaves that are found; and the words
/// that it says are accepted.
fn wrong_words(script: &mut Script) {
    let plain = scene_s();
    let image = altered(scene_s(), |x| {
        (x.fields[IMAGE_PRESENT], x.fields[IMAGE]) = (1, 0x1_4000_0000);
    });
    let never = 1 << 54;
    let image_pa = image.fields[IMAGE];
    let examples: [(&Handed, usize, usize, u64, &[u64]); 13] = [
        (&plain, 1, 2, 0, &[18, 1, 2, 0, 0, 0x4000_2000]),
        (
            &plain,
            1,
            2,
            0x4000_4003,
            &[18, 1, 2, 1, 0x4000_4000, 0x4000_2000],
        ),
        (
            &image,
            2,
            0,
            never | image_pa | 0x77d,
            &[19, 1, image_pa, 1, 1, image_pa],
        ),
        (&image, 2, 0, 0x7fd, &[19, 1, 0, 2, 0, image_pa]),
        (
            &plain,
            4,
            1,
            never | 0x5000_277f,
            &[20, 1, 1, 0x5000_2000, 1, 1, 1, 0x5000_1000, 2],
        ),
        (
            &plain,
            5,
            2,
            never | 0x6000_07fd,
            &[20, 2, 1, 0x6000_0000, 2, 1, 1, 0x6040_0000, 1],
        ),
        (&image, 2, 0, 0, &[19, 0, 0, 0, 0, 0x1_4000_0000]),
        (&plain, 4, 1, 0, &[20, 1, 0, 0, 0, 0, 1, 0x5000_1000, 2]),
        (&plain, 3, 7, 1, &[21, 3, 7, 1]),
        (&plain, 6, 72, 0, &[22, 72, 0]),
        (&plain, 5, 7, 0x4000_4003, &[0]),
        (&plain, 6, 7, 0x0040_0000_00e0_07fd, &[0]),
        (&plain, 6, 72, 0x0040_0000_0900_0401, &[0]),
    ];
    for (x, table, index, word, answer) in examples {
        script.fill(0, ARENA_LEN, 0);
        script.encode(x);
        script.put(table, index, word);
        expect(script.verify(x), answer);
    }
}

/// S with an image and two device blocks, and with windows that begin inside their 1 GiB: no part
/// of verification's list goes by index.
fn apart() -> Handed {
    altered(scene_s(), |x| {
        (x.fields[IMAGE_PRESENT], x.fields[IMAGE]) = (1, 0x1_4060_0000);
        (x.fields[DATA_IPA], x.fields[SUP_IPA]) = (0x80e0_0000, 0xc040_0000);
        x.fields[DEVICE_LEN] = 2 * BLOCK;
    })
}

/// A wrong word: its table, its index, the word, and the row that it draws.
type Wrong = (usize, usize, u64, u64);

/// Verification's list: live l1 words data, super, image, device; other l1 words; table 2; table 3;
/// base frames; super frames 0, 2 and 510; device slots.
const WRONGS: [Wrong; 23] = [
    (1, 2, 0, 18),
    (1, 3, 0, 18),
    (1, 5, 0, 18),
    (1, 0, 0, 18),
    (1, 1, 3, 21),
    (1, 4, 1, 21),
    (1, 6, 2, 21),
    (2, 3, 0, 19),
    (2, 0, 1, 21),
    (2, 1, 1, 21),
    (3, 7, 0, 18),
    (3, 0, 1, 21),
    (3, 1, 1, 21),
    (4, 0, 0x0040_0000_5000_07ff, 21),
    (4, 1, 0, 20),
    (4, 2, 0x0040_0000_5000_27ff, 21),
    (5, 2, 0x0040_0000_6000_07fd, 21),
    (5, 4, 0, 20),
    (5, 0, 0x0040_0000_6000_07fd, 21),
    (6, 0, 0x0040_0000_0000_04c1, 21),
    (6, 72, 0, 22),
    (6, 73, 0, 22),
    (6, 74, 0x0040_0000_0940_04c1, 21),
];

/// Each wrong word alone, and each two neighbours: the first is told.
fn neighbours(script: &mut Script) {
    let x = apart();
    script.fill(0, ARENA_LEN, 0);
    script.encode(&x);
    expect(script.verify(&x), &[0]);
    let mut told = Vec::new();
    for (table, index, word, row) in WRONGS {
        let old = script.put(table, index, word);
        told.push(script.verify(&x));
        expect(told[told.len() - 1], &[row]);
        script.put(table, index, old);
    }
    for (two, told) in WRONGS.windows(2).zip(told) {
        let old = [two[0], two[1]].map(|(table, index, word, _)| script.put(table, index, word));
        expect(script.verify(&x), &told);
        for ((table, index, ..), old) in [two[0], two[1]].into_iter().zip(old) {
            script.put(table, index, old);
        }
    }
}

/// A random layout: encoded over what the last one left, walked, damaged and verified, then updated
/// from there.
fn any_layout(script: &mut Script, random: &mut Random) {
    let mut x = Handed {
        fields: accepted(random),
        base: map(random),
        sup: map(random),
        lent: ARENA_LEN,
    };
    let frames = x.fields[SUP_FRAMES].min(8) as usize;
    x.sup[frames..].fill(0);
    expect(script.encode(&x), &[0]);
    script.verify(&x);
    script.fill(0, ARENA_LEN, 0);
    script.encode(&x);
    expect(script.verify(&x), &[0]);
    let addresses = addresses(random, &x.fields);
    for _ in 0..WALKS {
        script.walk(&x, random.pick(&addresses));
        let used = anywhere(random, &script.arena);
        script.walk(&x, through(random, &x.fields, used));
    }
    for _ in 0..3 {
        let place = anywhere(random, &script.arena);
        let mut damaged = script.arena.clone();
        damage(random, &mut damaged, place, &x.fields[TABLES]);
        script.fill(place, 1, damaged[place]);
        script.verify(&x);
        script.walk(&x, through(random, &x.fields, place));
    }
    let cut = random.below(STEPS);
    script.steps(&x, 0, cut);
    script.verify(&x);
    script.steps(&x, cut + 1, STEPS - 1);
}

/// A place in any table, often one in use.
fn anywhere(random: &mut Random, arena: &[u64]) -> usize {
    let table = 1 + random.below(6) as usize;
    place(random, arena, table)
}

/// Entries of every permission, and none.
fn map(random: &mut Random) -> [u8; 8] {
    std::array::from_fn(|_| random.below(4) as u8)
}
