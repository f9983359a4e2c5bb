//! Document 01's codes, by name.

use core::fmt::{self, Display, Formatter};

use crate::answer::{Carried, Values};

/// An enum with the code and the printed name of each case. Cast to a number, a case is its code.
macro_rules! names {
    ($($(#[$doc:meta])* $enum:ident {
        $($(#[$case_doc:meta])* $case:ident = $code:literal, $name:literal;)*
    })*) => {
        $(
            $(#[$doc])*
            #[derive(Clone, Copy, PartialEq, Eq, Debug)]
            pub enum $enum {
                $($(#[$case_doc])* $case = $code,)*
            }

            impl $enum {
                pub(crate) fn coded(code: u64) -> Option<$enum> {
                    match code {
                        $($code => Some($enum::$case),)*
                        _ => None,
                    }
                }
            }

            impl Carried for $enum {
                fn read(values: &mut Values) -> $enum {
                    values.next_as($enum::coded)
                }
            }

            impl Display for $enum {
                fn fmt(&self, f: &mut Formatter<'_>) -> fmt::Result {
                    f.write_str(match self {
                        $($enum::$case => $name,)*
                    })
                }
            }
        )*
    };
}

names! {
    /// One of the six tables of an arena, in its order.
    Table {
        /// The level 1 table.
        L1 = 1, "l1";
        /// The level 2 table of the guest image.
        L2Code = 2, "l2_code";
        /// The level 2 table of the data window.
        L2Data = 3, "l2_data";
        /// The level 3 table of the data window.
        L3Data = 4, "l3_data";
        /// The level 2 table of the super window.
        L2Sup = 5, "l2_sup";
        /// The level 2 table of the device window.
        L2Dev = 6, "l2_dev";
    }

    /// One of a layout's four windows.
    Window {
        /// The guest image: one block of 2 MiB, read-only and executable, mapped to itself.
        Image = 1, "image";
        /// The data frames: 512 pages of 4,096 bytes.
        Data = 2, "data";
        /// The super frames: blocks of 2 MiB.
        Super = 3, "super";
        /// The devices: blocks of 2 MiB, mapped to themselves.
        Device = 4, "device";
    }

    /// What row 6 found unaligned.
    Check {
        /// `data_ipa_base`.
        DataIpa = 1, "data ipa";
        /// `data_pa_base`.
        DataPa = 2, "data pa";
        /// `sup_ipa_base`.
        SuperIpa = 3, "super ipa";
        /// `sup_pa_base`.
        SuperPa = 4, "super pa";
        /// `guest_image_pa`.
        Image = 5, "image";
        /// `device_base`.
        Device = 6, "device";
    }

    /// How much memory one leaf covers, and the map of these leaves.
    Span {
        /// A page of 4,096 bytes.
        Base = 1, "base";
        /// A block of 2 MiB.
        Super = 2, "super";
    }

    /// The permission of a leaf: the entry of a map. There is none for writing and execution both.
    Perm {
        /// Read-only, never executed.
        Ro = 1, "Ro";
        /// Read and write. Never executed, but in the super window of an exempt layout.
        Rw = 2, "Rw";
        /// Read-only and executable.
        Rx = 3, "Rx";
    }

    /// The access of a leaf. Whether it is executable is told apart from it.
    Access {
        /// Read-only.
        Ro = 1, "Ro";
        /// Read and write.
        Rw = 2, "Rw";
    }
}

impl Perm {
    /// What an entry of a map stands for: 0 is unmapped, and row 3 refuses all above 3.
    pub fn of_entry(entry: u8) -> Option<Perm> {
        Perm::coded(entry.into())
    }
}

/// An entry of a map, 0 for none.
impl Carried for Option<Perm> {
    fn read(values: &mut Values) -> Option<Perm> {
        values.next_as(|code| match code {
            0 => Some(None),
            _ => Perm::coded(code).map(Some),
        })
    }
}
