//! Slips of the code here that hands edges, frames, grants and maps to the port.

use std::mem::swap;

use crate::authorized::Granted;
use crate::exact::Linked;
use crate::fill::Filling;
use crate::function::{with_op, Fault};
use crate::handed::{exchange_lengths, handed, values_moved};
use crate::records::Form;

/// Faults in which two fields of each record are exchanged.
macro_rules! exchanged_fields {
    ($op:expr, $call:literal, $x:ident => $records:expr, $(($first:ident $second:ident))*) => {
        &[$(handed!(
            $op,
            concat!($call, "-handed-", stringify!($first), "-for-", stringify!($second)),
            concat!(stringify!($first), " and ", stringify!($second), " are exchanged"),
            $x => for record in &mut $records {
                swap(&mut record.$first, &mut record.$second);
            }
        )),*]
    };
}

/// Faults in the domain, and in the edges and frames beside it.
macro_rules! linked_otherwise {
    ($op:expr, $call:literal) => {
        &[
            handed!($op, concat!($call, "-handed-no-domain"), "the domain is 0", x => x.dom = 0),
            handed!(
                $op,
                concat!($call, "-handed-no-edges"),
                "no edge is lent",
                x => x.edges.clear()
            ),
            handed!(
                $op,
                concat!($call, "-handed-no-frames"),
                "no frame is lent",
                x => x.frames.clear()
            ),
            handed!(
                $op,
                concat!($call, "-handed-frame-count-for-edge-count"),
                "no more edges are lent than frames",
                x => x.edges.truncate(x.frames.len())
            ),
            handed!(
                $op,
                concat!($call, "-handed-edge-count-for-frame-count"),
                "no more frames are lent than edges",
                x => x.frames.truncate(x.edges.len())
            ),
        ]
    };
}

/// Faults in the two maps of a filling.
macro_rules! filled_otherwise {
    ($op:expr, $call:literal) => {
        &[
            Fault {
                name: concat!($call, "-handed-base-for-super"),
                slip: "the maps are exchanged",
                op: $op,
                alter: |x, filled| {
                    *filled = with_op(x, $op, |x| swap(&mut x.base, &mut x.sup));
                    swap(&mut filled.base, &mut filled.sup);
                },
            },
            handed!(
                $op,
                concat!($call, "-handed-base-len-for-super-len"),
                "the lengths of the maps are exchanged",
                x => exchange_lengths(&mut x.base, &mut x.sup)
            ),
            Fault {
                name: concat!($call, "-handed-back-super-for-base"),
                slip: "the maps are exchanged after the call",
                op: $op,
                alter: |_, filled| swap(&mut filled.base, &mut filled.sup),
            },
        ]
    };
}

/// Faults in the map that is checked and in its span.
macro_rules! checked_otherwise {
    ($op:expr, $call:literal) => {
        &[
            handed!(
                $op,
                concat!($call, "-handed-no-map"),
                "no byte of the map is lent",
                x => x.map.clear()
            ),
            handed!(
                $op,
                concat!($call, "-handed-short-map"),
                "the map is lent without its last byte",
                x => { x.map.pop(); }
            ),
            handed!(
                $op,
                concat!($call, "-handed-no-span"),
                "the span is 0",
                x => x.span = 0
            ),
        ]
    };
}

pub const FILL: &[&[Fault<Filling>]] = &[
    linked_otherwise!(Form::Rows, "fill"),
    exchanged_fields!(
        Form::Rows, "fill", x => x.edges,
        (parent slot) (slot child) (child writable) (writable leaf) (leaf execute)
    ),
    exchanged_fields!(Form::Rows, "fill", x => x.frames, (owner kind)),
    filled_otherwise!(Form::Rows, "fill"),
    values_moved!(Form::Rows, "fill", reply => reply.outcome),
    linked_otherwise!(Form::Records, "fill-edges"),
    exchanged_fields!(
        Form::Records, "fill-edges", x => x.edges,
        (parent slot) (slot child) (writable leaf) (leaf execute)
    ),
    exchanged_fields!(Form::Records, "fill-edges", x => x.frames, (owner kind)),
    filled_otherwise!(Form::Records, "fill-edges"),
    values_moved!(Form::Records, "fill-edges", reply => reply.outcome),
];

pub const EXACT: &[&[Fault<Linked>]] = &[
    linked_otherwise!(Form::Rows, "exact"),
    exchanged_fields!(
        Form::Rows, "exact", x => x.edges,
        (parent slot) (slot child) (child writable) (writable leaf) (leaf execute)
    ),
    exchanged_fields!(Form::Rows, "exact", x => x.frames, (owner kind)),
    checked_otherwise!(Form::Rows, "exact"),
    values_moved!(Form::Rows, "exact", reply => *reply),
    linked_otherwise!(Form::Records, "exact-edges"),
    exchanged_fields!(
        Form::Records, "exact-edges", x => x.edges,
        (parent slot) (slot child) (writable leaf) (leaf execute)
    ),
    exchanged_fields!(Form::Records, "exact-edges", x => x.frames, (owner kind)),
    checked_otherwise!(Form::Records, "exact-edges"),
    values_moved!(Form::Records, "exact-edges", reply => *reply),
];

pub const AUTHORIZED: &[&[Fault<Granted>]] = &[
    exchanged_fields!((), "authorized", x => x.frames, (owner kind)),
    exchanged_fields!(
        (), "authorized", x => x.grants,
        (grantor grantee) (grantee frame) (frame writable)
    ),
    values_moved!((), "authorized", reply => *reply),
    &[
        handed!((), "authorized-handed-no-domain", "the domain is 0", x => x.dom = 0),
        handed!(
            (),
            "authorized-handed-no-map",
            "no byte of the map is lent",
            x => x.map.clear()
        ),
        handed!(
            (),
            "authorized-handed-short-map",
            "the map is lent without its last byte",
            x => { x.map.pop(); }
        ),
        handed!(
            (),
            "authorized-handed-no-frames",
            "no frame is lent",
            x => x.frames.clear()
        ),
        handed!(
            (),
            "authorized-handed-no-grants",
            "no grant is lent",
            x => x.grants.clear()
        ),
        handed!(
            (),
            "authorized-handed-grant-count-for-frame-count",
            "no more frames are lent than grants",
            x => x.frames.truncate(x.grants.len())
        ),
        handed!(
            (),
            "authorized-handed-frame-count-for-grant-count",
            "no more grants are lent than frames",
            x => x.grants.truncate(x.frames.len())
        ),
    ],
];
