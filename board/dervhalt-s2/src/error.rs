//! Why a step on the way to tables does not go through.

use core::fmt::{self, Display, Formatter};

use crate::names::{Table, Window};
use crate::refusal::Refusal;

/// A row's refusal, or one of the two things that this crate asks beyond the rows.
#[derive(Clone, Copy, PartialEq, Eq, Debug)]
pub enum Error {
    /// A row refuses.
    Refused(Refusal),
    /// A table lies in the output of a window, so that the guest could be mapped its own tables.
    /// The library itself does not refuse such a layout, since document 01 has no row for it;
    /// [`Layout::checked`](crate::Layout::checked) does.
    InReach {
        /// The lowest such table.
        table: Table,
        /// Its address.
        pa: u64,
        /// The lowest window that it lies in.
        window: Window,
    },
    /// Memory that [`Arena::over`](crate::Arena::over) makes no arena of.
    NoArena {
        /// Its words.
        len: usize,
        /// Where they begin.
        address: usize,
    },
}

impl From<Refusal> for Error {
    fn from(refusal: Refusal) -> Error {
        Error::Refused(refusal)
    }
}

impl Display for Error {
    fn fmt(&self, f: &mut Formatter<'_>) -> fmt::Result {
        match self {
            Error::Refused(refusal) => refusal.fmt(f),
            Error::InReach { table, pa, window } => {
                // The image is mapped for reading alone.
                let access = match window {
                    Window::Image => "read",
                    Window::Data | Window::Super | Window::Device => "write",
                };
                write!(
                    f,
                    "table {table} at {pa:#x} lies in the output of the {window} window: \
                     the guest could {access} its own tables"
                )
            }
            Error::NoArena { len, address } => write!(
                f,
                "{len} words at {address:#x} are no arena, which has 3,072 at a multiple of 4,096"
            ),
        }
    }
}

impl core::error::Error for Error {}
