//! Scenes as lines of text, read as document 01 says.

use crate::encode::{Scene, ARENA_LEN};
use crate::layout::{Fields, IMAGE, IMAGE_PRESENT};
use crate::maps::MAP_LEN;

/// The exemption's number among the fields, which has two values.
const EXEMPTION: u64 = 0xf;

/// The scene of a text, or nothing if a line is bad.
pub fn scene(text: &[u8]) -> Option<Scene> {
    let mut scene = Scene {
        arena: vec![0; ARENA_LEN],
        base: vec![0; MAP_LEN],
        sup: vec![0; MAP_LEN],
        fields: [0; 17],
    };
    lines(text).try_for_each(|line| read(line, &mut scene))?;
    Some(scene)
}

/// The lines without their line feeds. The last one may lack it.
pub fn lines(text: &[u8]) -> impl Iterator<Item = &[u8]> {
    text.split_inclusive(|byte| *byte == b'\n')
        .map(|line| line.strip_suffix(b"\n").unwrap_or(line))
}

fn read(line: &[u8], scene: &mut Scene) -> Option<()> {
    let [letter, b' ', numbers @ ..] = line else {
        return None;
    };
    let space = numbers.iter().position(|byte| *byte == b' ')?;
    let first = number(&numbers[..space])?;
    let second = number(&numbers[space + 1..])?;
    match letter {
        b'L' => set_field(&mut scene.fields, first, second),
        b'B' => set_entry(&mut scene.base, first, second),
        b'U' => set_entry(&mut scene.sup, first, second),
        _ => None,
    }
}

fn number(digits: &[u8]) -> Option<u64> {
    if !(1..=16).contains(&digits.len()) {
        return None;
    }
    digits.iter().try_fold(0, |number, digit| {
        let digit = match digit {
            b'0'..=b'9' => digit - b'0',
            b'A'..=b'F' => digit - b'A' + 10,
            _ => return None,
        };
        Some(number << 4 | u64::from(digit))
    })
}

fn set_field(x: &mut Fields, field: u64, value: u64) -> Option<()> {
    if field == EXEMPTION && value > 1 {
        return None;
    }
    *x.get_mut(place(field)?)? = value;
    if field == 7 {
        x[IMAGE_PRESENT] = 1;
    }
    Some(())
}

/// The place of a field that has document 01's number.
fn place(field: u64) -> Option<usize> {
    match field {
        0 => None,
        1..=6 => Some(field as usize - 1),
        // From the image on, one more: its presence stands before it.
        7..=0x10 => Some(field as usize - 7 + IMAGE),
        _ => None,
    }
}

fn set_entry(map: &mut [u8], position: u64, code: u64) -> Option<()> {
    let entry = map.get_mut(usize::try_from(position).ok()?)?;
    *entry = u8::try_from(code).ok().filter(|code| *code <= 3)?;
    Some(())
}

/// The lines of a scene: what is not zero of it.
pub fn text_lines(scene: &Scene) -> Vec<String> {
    let field = |number: u64| (number, scene.fields[place(number).expect("a field")]);
    let given = |(number, value): &(u64, u64)| match number {
        7 => scene.fields[IMAGE_PRESENT] != 0,
        _ => *value != 0,
    };
    let fields = (1..=0x10).map(field).filter(given);
    let fields = fields.map(|(number, value)| match number {
        EXEMPTION => line('L', number, 1),
        _ => line('L', number, value),
    });
    let entries = |letter, map: &[u8]| -> Vec<String> {
        let entries = (0..).zip(map).filter(|(_, code)| **code != 0);
        entries
            .map(|(position, code)| line(letter, position, (*code).into()))
            .collect()
    };
    fields
        .chain(entries('B', &scene.base))
        .chain(entries('U', &scene.sup))
        .collect()
}

fn line(letter: char, first: u64, second: u64) -> String {
    format!("{letter} {first:X} {second:X}")
}
