//! Slips in reading edges that are lent as records, of a port that fills maps and of one that checks
//! them against edges.

use crate::exact::Linked;
use crate::exact_faults;
use crate::fill::Filling;
use crate::fill_faults;
use crate::function::{with_op, Fault};
use crate::records::Form;

pub const FILL: &[Fault<Filling>] = &[Fault {
    op: Form::Records,
    ..fill_faults::fault(
        "fill-records-reversed",
        "the last record is read first",
        |x, reply| *reply = with_op(x, Form::Records, |x| x.edges.reverse()),
    )
}];

pub const EXACT: &[Fault<Linked>] = &[Fault {
    op: Form::Records,
    ..exact_faults::fault(
        "exact-records-reversed",
        "the last record is read first",
        |x, reply| *reply = with_op(x, Form::Records, |x| x.edges.reverse()),
    )
}];
