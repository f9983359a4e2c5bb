//! Random maps beside grants: authorized ones, and such as one grant, owner or entry spoils.

use crate::authorized::Granted;
use crate::inputs::{random, Random};
use crate::map_inputs::{map, set};
use crate::record_inputs::{domain, flag, frame, frames, other, owner, place, yes};
use crate::records::Grant;
use crate::round::Round;

pub fn granted(round: Round) -> impl Iterator<Item = Granted> {
    random(round.seeded(20), 40_000, changed).chain(random(round.seeded(21), 40_000, crowded))
}

const CHANGES: [fn(&mut Random, &mut Granted); 8] = [
    drop_grant,
    change_grant,
    grant_reading,
    repeat_grant,
    change_owner,
    cut_frames,
    change_entry,
    spoil_entry,
];

/// An authorized map, but for up to two changes.
fn changed(random: &mut Random) -> Granted {
    let mut x = accepted(random);
    for _ in 0..random.below(3) {
        CHANGES[random.below(CHANGES.len() as u64) as usize](random, &mut x);
    }
    x
}

fn accepted(random: &mut Random) -> Granted {
    let dom = domain(random);
    let map = map(random);
    let count = map.len() as u64 + random.below(3);
    let mut x = Granted {
        dom,
        frames: frames(random, dom, count),
        map,
        grants: Vec::new(),
    };
    for mfn in 0..x.map.len() {
        authorize(random, &mut x, mfn);
    }
    let more = match random.below(8) {
        0 => random.below(300),
        _ => random.below(4),
    };
    let more = (0..more).map(|_| any_grant(random, &x));
    x.grants.extend(more.collect::<Vec<Grant>>());
    let first = place(random, x.grants.len() + 1);
    x.grants.rotate_left(first);
    x
}

/// Adds the grant that an entry needs, or clears it where no grant will do.
fn authorize(random: &mut Random, x: &mut Granted, mfn: usize) {
    let entry = x.map[mfn];
    match x.frames[mfn].domain() {
        None => x.map[mfn] = 0,
        Some(owner) if owner != x.dom && entry != 0 => x.grants.push(Grant {
            grantor: owner.into(),
            grantee: x.dom.into(),
            frame: mfn as u32,
            writable: match entry {
                2 => yes(random),
                _ => flag(random),
            },
        }),
        Some(_) => (),
    }
}

/// A grant that may match in some of its numbers.
fn any_grant(random: &mut Random, x: &Granted) -> Grant {
    let frame = place(random, x.frames.len() + 1);
    Grant {
        grantor: x.frames.get(frame).map_or(0, |frame| frame.owner),
        grantee: owner(random, x.dom),
        frame: frame as u32 ^ (random.below(2) << random.below(32)) as u32,
        writable: flag(random),
    }
}

fn drop_grant(random: &mut Random, x: &mut Granted) {
    if !x.grants.is_empty() {
        x.grants.remove(place(random, x.grants.len()));
    }
}

/// Changes one number of a grant.
fn change_grant(random: &mut Random, x: &mut Granted) {
    if x.grants.is_empty() {
        return;
    }
    let at = place(random, x.grants.len());
    let grant = &mut x.grants[at];
    match random.below(4) {
        0 => grant.grantor = other(random, grant.grantor as u16),
        1 => grant.grantee = other(random, x.dom),
        2 => grant.frame ^= 1 << random.below(32),
        _ => grant.writable = flag(random),
    }
}

/// Leaves the first few grants as they are, and makes the others for reading alone.
fn grant_reading(random: &mut Random, x: &mut Granted) {
    let first = place(random, x.grants.len() + 1);
    for grant in &mut x.grants[first..] {
        grant.writable = 0;
    }
}

/// Repeats a grant somewhere, and changes it or another.
fn repeat_grant(random: &mut Random, x: &mut Granted) {
    if let Some(grant) = x.grants.first().copied() {
        x.grants.insert(place(random, x.grants.len()), grant);
        change_grant(random, x);
    }
}

fn change_owner(random: &mut Random, x: &mut Granted) {
    if !x.frames.is_empty() {
        let at = place(random, x.frames.len());
        x.frames[at].owner = owner(random, x.dom);
    }
}

fn cut_frames(random: &mut Random, x: &mut Granted) {
    x.frames.truncate(place(random, x.frames.len() + 1));
}

fn change_entry(random: &mut Random, x: &mut Granted) {
    let at = place(random, x.map.len() + 1);
    set(&mut x.map, at, 1 + random.below(3) as u8);
}

fn spoil_entry(random: &mut Random, x: &mut Granted) {
    let at = place(random, x.map.len() + 1);
    set(&mut x.map, at, 4 + random.below(252) as u8);
}

/// A few frames of domains 0 and 1 and of nobody, and a few grants between them.
fn crowded(random: &mut Random) -> Granted {
    let mut few = |bound| random.below(bound) as u32;
    let owners = [0, 1, 0, 1, 65_536];
    Granted {
        dom: few(2) as u16,
        map: (0..few(4)).map(|_| few(4) as u8).collect(),
        frames: (0..2 + few(3))
            .map(|_| frame(owners[few(5) as usize], 0))
            .collect(),
        grants: (0..few(8))
            .map(|_| Grant {
                grantor: few(2),
                grantee: few(2),
                frame: few(4),
                writable: few(2),
            })
            .collect(),
    }
}
