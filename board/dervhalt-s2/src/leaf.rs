//! What a leaf word says, and what an address reaches.

use core::fmt::{self, Display, Formatter};

use crate::answer::{flag, Carried, Values};
use crate::names::Access;

/// What a leaf word says, with the address of its page or block.
#[derive(Clone, Copy, PartialEq, Eq, Debug)]
pub struct Decoded {
    /// The output address.
    pub pa: u64,
    /// Whether the guest may write.
    pub access: Access,
    /// Whether it is never executed.
    pub xn: bool,
}

/// What an address reaches: the exact output byte, and how.
#[derive(Clone, Copy, PartialEq, Eq, Debug)]
pub struct Reach {
    /// The output address, with the offset within the leaf joined.
    pub pa: u64,
    /// Whether the guest may write.
    pub access: Access,
    /// Whether it is never executed.
    pub xn: bool,
}

impl Carried for Decoded {
    const COUNT: usize = 3;

    fn read(values: &mut Values) -> Decoded {
        Decoded {
            pa: values.next(),
            access: values.read(),
            xn: flag(values),
        }
    }
}

impl Carried for Reach {
    const COUNT: usize = Decoded::COUNT;

    fn read(values: &mut Values) -> Reach {
        let Decoded { pa, access, xn } = values.read();
        Reach { pa, access, xn }
    }
}

/// An address and its access alone.
impl Carried for (u64, Access) {
    const COUNT: usize = 2;

    fn read(values: &mut Values) -> (u64, Access) {
        (values.next(), values.read())
    }
}

impl Display for Decoded {
    fn fmt(&self, f: &mut Formatter<'_>) -> fmt::Result {
        let Decoded { pa, access, xn } = self;
        let execution = if *xn { "never executed" } else { "executable" };
        write!(f, "{pa:#x}, {access}, {execution}")
    }
}

impl Display for Reach {
    fn fmt(&self, f: &mut Formatter<'_>) -> fmt::Result {
        let Reach { pa, access, xn } = *self;
        Decoded { pa, access, xn }.fmt(f)
    }
}
