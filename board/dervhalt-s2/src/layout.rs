//! The layout: where the tables stand, and which windows they map.

use crate::answer::{Carried, Values};
use crate::calls;
use crate::error::Error;
use crate::names::{Table, Window};
use crate::refusal::Refusal;

/// A layout as the calls are handed it.
pub(crate) type Numbers = [u64; 17];

/// The addresses of tables 1 to 6.
pub(crate) type TableNumbers = [u64; 6];

/// Where the tables stand and what they map.
#[derive(Clone, Copy, PartialEq, Eq, Debug)]
pub struct Layout {
    /// The address of the level 1 table, which VTTBR_EL2 names.
    pub l1_pa: u64,
    /// The address of the level 2 table of the guest image.
    pub l2_code_pa: u64,
    /// The address of the level 2 table of the data window.
    pub l2_data_pa: u64,
    /// The address of the level 3 table of the data window.
    pub l3_data_pa: u64,
    /// The address of the level 2 table of the super window.
    pub l2_sup_pa: u64,
    /// The address of the level 2 table of the device window.
    pub l2_dev_pa: u64,
    /// The guest image, one block of 2 MiB mapped to itself, or none.
    pub guest_image_pa: Option<u64>,
    /// Where the guest sees data frame 0.
    pub data_ipa_base: u64,
    /// Where data frame 0 is.
    pub data_pa_base: u64,
    /// The bytes of a data frame: 4,096.
    pub frame_size: u64,
    /// Where the guest sees super frame 0.
    pub sup_ipa_base: u64,
    /// Where super frame 0 is.
    pub sup_pa_base: u64,
    /// The device window, mapped to itself.
    pub device_base: u64,
    /// The bytes of the device window, whole blocks of 2 MiB; 0 is no window.
    pub device_len: u64,
    /// Whether an `Rw` super is executable too: the one place where a guest may write what it
    /// executes.
    pub sup_wx_exempt: bool,
    /// How many super frames there are.
    pub sup_frames: u64,
}

/// A layout that rows 4 to 12 let by and that has none of its own tables in the output of a window,
/// as [`Layout::checked`] has found it: what tables are made of. Nothing else makes one:
///
/// ```
/// # use dervhalt_s2::{CheckedLayout, Error, Layout};
/// fn of(layout: Layout) -> Result<CheckedLayout, Error> {
///     layout.checked()
/// }
/// ```
///
/// ```compile_fail,E0423
/// # use dervhalt_s2::{CheckedLayout, Error, Layout};
/// fn of(layout: Layout) -> Result<CheckedLayout, Error> {
///     Ok(CheckedLayout(layout))
/// }
/// ```
///
/// ```compile_fail,E0277
/// # use dervhalt_s2::{CheckedLayout, Error, Layout};
/// fn of(layout: Layout) -> Result<CheckedLayout, Error> {
///     Ok(layout.into())
/// }
/// ```
#[derive(Clone, Copy, PartialEq, Eq, Debug)]
pub struct CheckedLayout(Layout);

/// The addresses of the six tables: all that a walk needs of a layout.
#[derive(Clone, Copy, PartialEq, Eq, Debug)]
pub struct Tables {
    /// The level 1 table.
    pub l1_pa: u64,
    /// The level 2 table of the guest image.
    pub l2_code_pa: u64,
    /// The level 2 table of the data window.
    pub l2_data_pa: u64,
    /// The level 3 table of the data window.
    pub l3_data_pa: u64,
    /// The level 2 table of the super window.
    pub l2_sup_pa: u64,
    /// The level 2 table of the device window.
    pub l2_dev_pa: u64,
}

/// A table that lies in the output of a window.
#[derive(Clone, Copy, PartialEq, Eq, Debug)]
pub struct Exposed {
    /// The lowest such table.
    pub table: Table,
    /// The lowest window that it lies in.
    pub window: Window,
}

impl Layout {
    /// Whether rows 4 to 12 let the layout by.
    pub fn validate(&self) -> Result<(), Refusal> {
        calls::validate(&self.numbers()).accepted()
    }

    /// The layout as what tables are made of: rows 4 to 12, then none of its tables in the output
    /// of a window. The second is what this crate asks beyond document 01's rows: a guest that is
    /// mapped a table maps itself anything. Of another guest's tables a layout knows nothing.
    pub fn checked(&self) -> Result<CheckedLayout, Error> {
        match self.exposed_table()? {
            None => Ok(CheckedLayout(*self)),
            Some(Exposed { table, window }) => {
                let pa = self.tables().pa(table);
                Err(Error::InReach { table, pa, window })
            }
        }
    }

    /// Which table lies in the output of a window, if any: rows 4 to 12.
    pub fn exposed_table(&self) -> Result<Option<Exposed>, Refusal> {
        calls::exposed(&self.numbers()).told()
    }

    /// The addresses of its tables.
    pub fn tables(&self) -> Tables {
        Tables {
            l1_pa: self.l1_pa,
            l2_code_pa: self.l2_code_pa,
            l2_data_pa: self.l2_data_pa,
            l3_data_pa: self.l3_data_pa,
            l2_sup_pa: self.l2_sup_pa,
            l2_dev_pa: self.l2_dev_pa,
        }
    }

    /// The seventeen numbers, in the order in which the calls are lent them.
    pub(crate) fn numbers(&self) -> Numbers {
        [
            self.l1_pa,
            self.l2_code_pa,
            self.l2_data_pa,
            self.l3_data_pa,
            self.l2_sup_pa,
            self.l2_dev_pa,
            self.guest_image_pa.is_some().into(),
            self.guest_image_pa.unwrap_or(0),
            self.data_ipa_base,
            self.data_pa_base,
            self.frame_size,
            self.sup_ipa_base,
            self.sup_pa_base,
            self.device_base,
            self.device_len,
            self.sup_wx_exempt.into(),
            self.sup_frames,
        ]
    }
}

impl CheckedLayout {
    /// The layout.
    pub fn layout(&self) -> &Layout {
        &self.0
    }

    /// The addresses of its tables.
    pub fn tables(&self) -> Tables {
        self.0.tables()
    }
}

impl Tables {
    /// The address of a table.
    pub fn pa(&self, table: Table) -> u64 {
        match table {
            Table::L1 => self.l1_pa,
            Table::L2Code => self.l2_code_pa,
            Table::L2Data => self.l2_data_pa,
            Table::L3Data => self.l3_data_pa,
            Table::L2Sup => self.l2_sup_pa,
            Table::L2Dev => self.l2_dev_pa,
        }
    }

    pub(crate) fn numbers(&self) -> TableNumbers {
        [
            self.l1_pa,
            self.l2_code_pa,
            self.l2_data_pa,
            self.l3_data_pa,
            self.l2_sup_pa,
            self.l2_dev_pa,
        ]
    }
}

impl Carried for Exposed {
    const COUNT: usize = 2;

    fn read(values: &mut Values) -> Exposed {
        Exposed {
            table: values.read(),
            window: values.read(),
        }
    }
}
