//! Slips of the code here that lends a buffer, maps and a layout to the port, and reads the page.

use crate::annex::{Annexed, Written};
use crate::function::{with, Fault};
use crate::handed::{exchanged_numbers, handed, maps_otherwise, values_moved};

pub const FAULTS: &[&[Fault<Annexed>]] = &[
    maps_otherwise!("annex", x => x.scene),
    exchanged_numbers!("annex", x => x.scene.fields),
    values_moved!((), "annex", reply => reply.outcome),
    &[
        handed!(
            (),
            "annex-handed-no-buffer",
            "no byte of the buffer is lent",
            x => x.buffer.clear()
        ),
        handed!(
            (),
            "annex-handed-zeros",
            "zeros are lent in the place of the buffer",
            x => x.buffer.fill(0)
        ),
        Fault {
            name: "annex-handed-short-buffer",
            slip: "the last byte of the buffer is not lent",
            op: (),
            alter: |x, reply| lend(x, reply, x.buffer.len().saturating_sub(1)),
        },
        Fault {
            name: "annex-handed-base-len-for-page-len",
            slip: "no more of the buffer is lent than of the base map",
            op: (),
            alter: |x, reply| lend(x, reply, x.scene.base.len()),
        },
        Fault {
            name: "annex-handed-back-as-lent",
            slip: "the buffer is read as it was before the call",
            op: (),
            alter: |x, reply| reply.buffer.clone_from(&x.buffer),
        },
        Fault {
            name: "annex-handed-back-short",
            slip: "the last byte of the buffer is not read",
            op: (),
            alter: |_, reply| _ = reply.buffer.pop(),
        },
    ],
];

/// The reply where only the front of the buffer is lent. What is not lent stays.
fn lend(x: &Annexed, reply: &mut Written, len: usize) {
    let len = len.min(x.buffer.len());
    *reply = with(x, |x| x.buffer.truncate(len));
    reply.buffer.extend(&x.buffer[len..]);
}
