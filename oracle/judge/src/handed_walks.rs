//! Slips of the code here that hands an arena, six tables and an address to the port.

use std::mem::swap;
use std::rc::Rc;

use crate::function::Fault;
use crate::handed::{exchanged_numbers, handed, values_moved};
use crate::inputs::altered;
use crate::port_walk;
use crate::torn::Torn;
use crate::torn_faults::{fault, walked};
use crate::walk::Walk;

pub const WALK: &[&[Fault<Walk>]] = &[
    exchanged_numbers!("walk", x => x.tables, "the tables", (1 2) (2 3) (3 4) (4 5) (5 6)),
    values_moved!((), "walk", reply => *reply),
    &[
        handed!(
            (),
            "walk-handed-l2-dev-for-ipa",
            "the last table and the address are exchanged",
            x => swap(&mut x.tables[5], &mut x.ipa)
        ),
        handed!(
            (),
            "walk-handed-no-ipa",
            "the address is 0",
            x => x.ipa = 0
        ),
        handed!(
            (),
            "walk-handed-no-arena",
            "no word of the arena is lent",
            x => Rc::make_mut(&mut x.arena).clear()
        ),
        handed!(
            (),
            "walk-handed-zeros",
            "zeros are lent in the place of the arena",
            x => Rc::make_mut(&mut x.arena).fill(0)
        ),
        handed!(
            (),
            "walk-handed-short-arena",
            "the arena is lent without its last word",
            x => { Rc::make_mut(&mut x.arena).pop(); }
        ),
    ],
];

pub const TORN: &[&[Fault<Torn>]] = &[&[
    fault(
        "torn-other-tables",
        "the walk is handed the addresses of other tables",
        |x, answers| {
            *answers = walked(x, |walk| {
                let other = altered(walk.clone(), |walk| walk.tables.rotate_left(1));
                port_walk::walk(&other)
            });
        },
    ),
    fault(
        "torn-no-ipa",
        "the walk is handed the address 0",
        |x, answers| *answers = walked(x, |walk| port_walk::walk(&walk.at(0))),
    ),
]];
