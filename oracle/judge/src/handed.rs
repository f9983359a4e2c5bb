//! Slips of the code here that calls the port: in what it hands over, and in what it hands back.
//!
//! Each call has its own lists. What several calls are handed alike is exchanged or left out by the
//! same macro, so that no number of a layout and no field of a record is forgotten.

use crate::inputs::Outcome;
use crate::maps::NO_PERMISSION;

/// Faults in which each two neighbours among the numbers of a layout are exchanged, or all are lent
/// from the second on.
macro_rules! exchanged_numbers {
    ($call:literal, $x:ident => $fields:expr) => {
        $crate::handed::exchanged_numbers!(
            $call, $x => $fields, "the layout",
            (1 2) (2 3) (3 4) (4 5) (5 6) (6 7) (7 8) (8 9) (9 10) (10 11) (11 12) (12 13) (13 14)
            (14 15) (15 16) (16 17)
        )
    };
    ($call:literal, $x:ident => $numbers:expr, $of:literal, $(($first:literal $second:literal))*) => {
        &[
            $($crate::handed::handed!(
                (),
                concat!($call, "-handed-", $first, "-for-", $second),
                concat!("numbers ", $first, " and ", $second, " of ", $of, " are exchanged"),
                $x => $numbers.swap($first - 1, $second - 1)
            ),)*
            $crate::handed::handed!(
                (),
                concat!($call, "-handed-from-the-second"),
                concat!("the numbers of ", $of, " are lent from the second on, the first comes last"),
                $x => $numbers.rotate_left(1)
            ),
        ]
    };
}
pub(crate) use exchanged_numbers;

/// Faults in the arena that comes before two maps and a layout.
macro_rules! arena_otherwise {
    ($call:literal, $x:ident => $scene:expr) => {
        &[
            $crate::handed::handed!(
                (),
                concat!($call, "-handed-no-arena"),
                "no word of the arena is lent",
                $x => $scene.arena.clear()
            ),
            $crate::handed::handed!(
                (),
                concat!($call, "-handed-zeros"),
                "zeros are lent in the place of the arena",
                $x => $scene.arena.fill(0)
            ),
            $crate::handed::handed!(
                (),
                concat!($call, "-handed-base-len-for-arena-len"),
                "as much of the arena is lent as of the base map",
                $x => $scene.arena.truncate($scene.base.len())
            ),
        ]
    };
}
pub(crate) use arena_otherwise;

/// Faults in the maps that come before a layout.
macro_rules! maps_otherwise {
    ($call:literal, $x:ident => $scene:expr) => {
        &[
            $crate::handed::handed!(
                (),
                concat!($call, "-handed-no-base"),
                "no byte of the base map is lent",
                $x => $scene.base.clear()
            ),
            $crate::handed::handed!(
                (),
                concat!($call, "-handed-no-super"),
                "no byte of the super map is lent",
                $x => $scene.sup.clear()
            ),
            $crate::handed::handed!(
                (),
                concat!($call, "-handed-base-for-super"),
                "the maps are exchanged",
                $x => {
                    let scene = &mut $scene;
                    std::mem::swap(&mut scene.base, &mut scene.sup);
                }
            ),
            $crate::handed::handed!(
                (),
                concat!($call, "-handed-base-len-for-super-len"),
                "the lengths of the maps are exchanged",
                $x => {
                    let scene = &mut $scene;
                    $crate::handed::exchange_lengths(&mut scene.base, &mut scene.sup);
                }
            ),
        ]
    };
}
pub(crate) use maps_otherwise;

/// A fault in which another input is handed over.
macro_rules! handed {
    ($op:expr, $name:expr, $slip:expr, $x:ident => $change:expr) => {
        $crate::function::Fault {
            name: $name,
            slip: $slip,
            op: $op,
            alter: |$x, reply| *reply = $crate::function::with_op($x, $op, |$x| $change),
        }
    };
}
pub(crate) use handed;

/// A fault in which the values are read from the place after their own.
macro_rules! values_moved {
    ($op:expr, $call:literal, $reply:ident => $outcome:expr) => {
        &[$crate::function::Fault {
            name: concat!($call, "-values-moved"),
            slip: "each value is read in the place after its own",
            op: $op,
            alter: |_, $reply| $crate::handed::move_values(&mut $outcome),
        }]
    };
}
pub(crate) use values_moved;

pub fn move_values(outcome: &mut Outcome) {
    outcome[1..].rotate_right(1);
}

/// Gives each map the length of the other. Past its end stand bytes that are not lent.
pub fn exchange_lengths(base: &mut Vec<u8>, sup: &mut Vec<u8>) {
    let (base_len, sup_len) = (base.len(), sup.len());
    base.resize(sup_len, NO_PERMISSION);
    sup.resize(base_len, NO_PERMISSION);
}
