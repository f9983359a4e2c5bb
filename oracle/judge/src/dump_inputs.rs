//! Texts that the programs read: scenes, and such as have a bad line.

use crate::annex_examples::example_scenes;
use crate::bad_lines::{BAD_LINES, LONG_LINE};
use crate::dump::dump;
use crate::encode::{guard, Scene};
use crate::encode_inputs::{equate_tables, scene as with_maps_of_s, unmap_past_frames};
use crate::inputs::{altered, random, Random};
use crate::layout::{DEVICE_LEN, IMAGE, IMAGE_PRESENT};
use crate::layout_inputs::{accepted, examples, moved, SCENE};
use crate::map_inputs::{map, set};
use crate::maps::MAP_LEN;
use crate::programs::Text;
use crate::round::Round;
use crate::scene_text::{scene, text_lines};

/// Document 01's lines of scene S, and what they print.
const S: &str = "L 1 40000000\nL 2 40001000\nL 3 40002000\nL 4 40003000\nL 5 40004000\n\
    L 6 40005000\nL 8 80000000\nL 9 50000000\nL A 1000\nL B C0000000\nL C 60000000\n\
    L D 9000000\nL E 200000\nL 10 4\nB 1 2\nU 2 3\n";
const S_PRINTED: &str = "1 000 0000000040005003\n1 002 0000000040002003\n1 003 0000000040004003\n\
    3 000 0000000040003003\n4 001 00400000500017FF\n5 002 000000006040077D\n\
    6 048 00400000090004C1\n";

/// What may follow scene S, and what is then printed, where that is plain: lines with zeros before
/// their digits, lines that replace others, and lines for which a row refuses.
const AFTER_S: &[(&str, Option<&str>)] = &[
    ("", Some(S_PRINTED)),
    ("L 1 40000000", Some(S_PRINTED)),
    ("B 1 0\nB 1 2", Some(S_PRINTED)),
    ("U 2 1\nU 2 0\nU 2 3\n", Some(S_PRINTED)),
    (
        "L 0A 0\nL 0000000000000A 0000000000001000\n",
        Some(S_PRINTED),
    ),
    ("L F 0\n", Some(S_PRINTED)),
    ("L 7 0\n", Some("REFUSED 11\n")),
    ("L 7 140000000\nL 7 0\n", Some("REFUSED 11\n")),
    ("L 7 0\nL 7 140000000\n", None),
    ("L F 1\nU 0 2\n", None),
    ("L 0F 1\nU 0 2\n", None),
    ("L F 1\nL F 0\nU 0 2\n", None),
    ("B 1FF 3\nU 1FF 0\n", None),
    // Nothing is reached.
    ("L E 0\nB 1 0\nU 2 0\n", None),
    ("B 00000000000001FF 0000000000000003", None),
    ("L A 4000\n", Some("REFUSED 5\n")),
    ("L E 1000\n", Some("REFUSED 4\n")),
    ("L 6 40000000\n", Some("REFUSED 13\n")),
    ("U 4 1\n", Some("REFUSED 14\n")),
    ("L 1 FFFFFFFFFFFFFFFF\n", Some("REFUSED 7\n")),
    ("L 10 80000000000\n", Some("REFUSED 8\n")),
];

/// Document 01's scenes, the layouts of its examples, and texts of many lines.
pub fn example_texts() -> impl Iterator<Item = Text> {
    let after_s = AFTER_S.iter().map(|(after, printed)| {
        let text = Text(format!("{S}{after}").into_bytes());
        let found = String::from_utf8(dump(&text).stdout).expect("text");
        assert_eq!(printed.unwrap_or(&found), found, "S and then {after:?}");
        text
    });
    let empty = Text(Vec::new());
    assert_eq!(dump(&empty).stdout, b"REFUSED 5\n");
    let many = Text(S.repeat(200_000 / S.lines().count()).into_bytes());
    let images = [0, 0x1_4000_0000].map(|image| {
        altered(with_maps_of_s(SCENE), |scene| {
            (scene.fields[IMAGE_PRESENT], scene.fields[IMAGE]) = (1, image);
            // It is in the l1 slot of address 0.
            scene.fields[DEVICE_LEN] = 0;
        })
    });
    let layouts = examples().map(with_maps_of_s).chain(images);
    after_s
        .chain([empty, many])
        .chain(layouts.map(|scene| text(&text_lines(&scene))))
}

fn text(lines: &[String]) -> Text {
    Text(format!("{}\n", lines.join("\n")).into_bytes())
}

/// The scenes whose annex pages are known by hand.
pub fn page_texts() -> impl Iterator<Item = Text> {
    example_scenes().map(|scene| text(&text_lines(&scene)))
}

/// Random scenes: so many that are accepted, and so many that each row from 4 to 14 refuses.
pub fn texts(round: Round) -> impl Iterator<Item = Text> {
    let mut left = [55; 15];
    left[0] = 400;
    let mut source = round.seeded(24);
    std::iter::from_fn(move || loop {
        if left[4..].iter().chain([&left[0]]).all(|left| *left == 0) {
            return None;
        }
        let scene = random_scene(&mut source);
        let left = &mut left[guard(&scene)[0] as usize];
        if *left > 0 {
            *left -= 1;
            return Some(written(&mut source, &scene));
        }
    })
}

/// A scene of whole maps, in which mostly only few entries are mapped.
fn random_scene(random: &mut Random) -> Scene {
    let fields = match random.below(4) {
        0 => accepted(random),
        _ => moved(random),
    };
    let mut scene = with_maps_of_s(fields);
    for map in [&mut scene.base, &mut scene.sup] {
        *map = few_entries(random);
    }
    if random.below(8) > 0 {
        unmap_past_frames(&mut scene);
    }
    if random.below(8) == 0 {
        equate_tables(random, &mut scene.fields);
    }
    scene
}

fn few_entries(random: &mut Random) -> Vec<u8> {
    let mut entries = vec![0; MAP_LEN];
    if random.below(16) == 0 {
        entries = map(random);
        entries.resize(MAP_LEN, 0);
    }
    for _ in 0..random.below(8) {
        let any = random.below(MAP_LEN as u64);
        let place = random.pick(&[0, 1, 2, 3, 510, 511, any]);
        set(&mut entries, place as usize, random.below(4) as u8);
    }
    entries
}

/// The lines of a scene in any order, some of them with zeros before their digits, some after
/// another line that they replace. The last may lack its line feed.
fn written(random: &mut Random, scene: &Scene) -> Text {
    let mut lines = text_lines(scene);
    for place in (1..lines.len()).rev() {
        lines.swap(place, random.below(place as u64 + 1) as usize);
    }
    let mut replaced = Vec::new();
    for line in &mut lines {
        match random.below(8) {
            0 => *line = with_zeros(random, line),
            1 => replaced.push(other_value(random, line)),
            _ => (),
        }
    }
    replaced.append(&mut lines);
    let mut text = text(&replaced);
    if random.below(4) == 0 {
        text.0.pop();
    }
    text
}

/// The line with up to sixteen digits in its numbers.
fn with_zeros(random: &mut Random, line: &str) -> String {
    let mut padded = |number: &str| {
        let len = number.len() as u64;
        let width = (len + random.below(17 - len)) as usize;
        format!("{number:0>width$}")
    };
    match line.split(' ').collect::<Vec<_>>()[..] {
        [letter, first, second] => [letter, &padded(first), &padded(second)].join(" "),
        _ => panic!("{line} has three parts"),
    }
}

/// A line for the same field or position.
fn other_value(random: &mut Random, line: &str) -> String {
    let (place, _) = line.rsplit_once(' ').expect("three parts");
    let value = match place {
        "L F" => random.below(2),
        _ if place.starts_with('L') => random.word() >> random.below(64),
        _ => random.below(4),
    };
    format!("{place} {value:X}")
}

/// Each bad line before, among and after the lines of scene S, and at the end without a line feed.
pub fn bad_texts() -> impl Iterator<Item = Text> {
    let middle = S.find("L 8").expect("a line of S");
    let around = move |line: &[u8]| {
        let (first, last) = S.as_bytes().split_at(middle);
        [
            [line, b"\n", first, last].concat(),
            [first, line, b"\n", last].concat(),
            [first, last, line, b"\n"].concat(),
        ]
    };
    let unfinished = |line: &[u8]| [S.as_bytes(), line].concat();
    let long = [b"L 1 ", &[b'0'; LONG_LINE][..]].concat();
    let spaces = vec![b' '; LONG_LINE];
    let many = S.repeat(200_000 / S.lines().count());
    // A line that is only unfinished is not there at all.
    let ended = BAD_LINES.iter().filter(|line| !line.is_empty());
    BAD_LINES
        .iter()
        .copied()
        .chain([&long[..], &spaces])
        .flat_map(around)
        .chain(ended.map(|line| unfinished(line)))
        .chain([unfinished(&long), long.clone(), b"\n".to_vec()])
        .chain([format!("{many}L 1\n"), format!("L 1\n{many}")].map(String::into_bytes))
        .map(Text)
        .collect::<Vec<_>>()
        .into_iter()
}

/// Scene S with a byte changed, added or left out somewhere, if that makes a line bad.
pub fn mangled_texts(round: Round) -> impl Iterator<Item = Text> {
    random(round.seeded(25), 400, |random| {
        let mut text = S.as_bytes().to_vec();
        let place = random.below(text.len() as u64) as usize;
        let byte = match random.below(2) {
            0 => random.pick(&b"\n\r\t 0AFGLBUaf".map(u64::from)) as u8,
            _ => random.word() as u8,
        };
        match random.below(3) {
            0 => text[place] = byte,
            1 => text.insert(place, byte),
            _ => _ = text.remove(place),
        }
        Text(text)
    })
    .filter(|text| scene(&text.0).is_none())
}
