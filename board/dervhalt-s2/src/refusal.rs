//! The refusals: number, values and sentence of each row.

use core::fmt::{self, Display, Formatter};

use crate::answer::{Answer, Values};
use crate::leaf::Decoded;
use crate::names::{Access, Check, Perm, Span, Table, Window};
use crate::records::{DomId, Mfn};

/// The refusals from a list of rows: number, name, the values in the order in which they are
/// carried, and the sentence.
macro_rules! rows {
    ($(
        $(#[$doc:meta])*
        $number:literal $name:ident
        $({ $($(#[$value_doc:meta])* $value:ident: $type:ty),+ $(,)? })?
        => $sentence:literal $(, $part:expr)*;
    )*) => {
        /// Why a call refused: a row of document 01's table or a later one, with the values that it
        /// carries.
        #[derive(Clone, Copy, PartialEq, Eq, Debug)]
        pub enum Refusal {
            $($(#[$doc])* $name $({ $($(#[$value_doc])* $value: $type),+ })?,)*
        }

        impl Refusal {
            /// The number of the row.
            pub fn number(&self) -> u32 {
                match self {
                    $(Refusal::$name { .. } => $number,)*
                }
            }

            pub(crate) fn of(answer: Answer) -> Refusal {
                let mut values = Values::of(answer);
                match answer.number {
                    $($number => Refusal::$name $({ $($value: values.read()),+ })?,)*
                    _ => answer.outside_contract(),
                }
            }
        }

        impl Display for Refusal {
            fn fmt(&self, f: &mut Formatter<'_>) -> fmt::Result {
                match *self {
                    $(Refusal::$name $({ $($value),+ })? => write!(f, $sentence $(, $part)*),)*
                }
            }
        }
    };
}

rows! {
    /// The arena is not 3,072 words long. [`Arena`](crate::Arena) always is.
    1 ArenaLength => "the arena does not have 3,072 words";

    /// A map is longer than 512 entries.
    2 MapLength => "a map has more than 512 entries";

    /// A byte of a map is above 3.
    3 MapCode {
        /// The map; base for the one map of `check_authorized_with`.
        map: Span,
        /// The lowest such entry.
        position: usize,
    } => "entry {position} of the {map} map is above 3";

    /// The device window is not whole blocks of 2 MiB.
    4 DeviceWindowUnaligned {
        /// `device_base`.
        base: u64,
        /// `device_len`.
        len: u64,
    } => "the device window at {base:#x} is {len:#x} bytes long, not whole blocks of 2 MiB";

    /// `frame_size` is not 4,096.
    5 GranuleNotEmitted {
        /// The size asked for.
        frame_size: u64,
    } => "frames of {frame_size} bytes are asked for, and all have 4,096";

    /// A window is unaligned.
    6 WindowUnaligned {
        /// What was tested.
        window: Check,
        /// Its address.
        base: u64,
        /// What it must be a multiple of.
        align: u64,
    } => "the {window} base {base:#x} is not a multiple of {align:#x}";

    /// A table's address is not a multiple of 4,096 below 2^48.
    7 TableUnnameable {
        /// The table.
        table: Table,
        /// Its address.
        pa: u64,
    } => "table {table} at {pa:#x} is not at a multiple of 4,096 below 2^48";

    /// `sup_frames` is 2^43 or more.
    8 SuperFramesUncountable {
        /// How many.
        count: u64,
    } => "{count} super frames are 2^43 or more: their bytes leave 64 bits";

    /// A window starts at or past 2^39, or crosses its 1 GiB.
    9 RegionCrossesL1 {
        /// The slot of its base in the l1 table.
        l1_index: usize,
        /// Its bytes.
        span: u64,
    } => "the window of {span:#x} bytes in l1 slot {l1_index} is past 2^39 or crosses its 1 GiB";

    /// The output of a window ends above 2^48.
    10 OutputPastLimit {
        /// The window.
        window: Window,
        /// Where its output begins.
        base: u64,
    } => "the output of the {window} window, from {base:#x} on, ends above 2^48";

    /// Two windows are in the same slot of the l1 table.
    11 RegionsCollide {
        /// The slot.
        l1_index: usize,
    } => "two windows share l1 slot {l1_index}";

    /// The outputs of two windows overlap.
    12 WindowsOverlap => "the outputs of two windows overlap";

    /// Two tables have one address.
    13 TablesEqual {
        /// The lowest such table.
        first: Table,
        /// The lowest other table at its address.
        second: Table,
    } => "tables {first} and {second} have the same address";

    /// A super is mapped at or past `sup_frames`.
    14 SuperUnbacked {
        /// The lowest such entry.
        position: usize,
    } => "super {position} is mapped and lies at or past sup_frames";

    /// A leaf hangs off a table of neither span.
    15 UnsupportedSpan {
        /// The table's frame.
        parent: Mfn,
    } => "a leaf hangs off frame {parent}, which is a table of neither span";

    /// A leaf's frame lies past its map.
    16 OutOfRange {
        /// The frame.
        mfn: Mfn,
        /// The entries of the map.
        capacity: usize,
    } => "frame {mfn} lies past its map of {capacity} entries";

    /// A frame is in both maps.
    17 SpanConflict {
        /// The lowest such frame.
        mfn: Mfn,
    } => "frame {mfn} is mapped as base and as super";

    /// A word does not lead to the table it should.
    18 BadTableEntry {
        /// The table that the word is in.
        table: Table,
        /// Its place there.
        index: usize,
        /// The table that it leads to, if any.
        found: Option<u64>,
        /// The table that it should lead to.
        expected: u64,
    } => "word {index} of {table} leads to {}, not to the table at {expected:#x}",
        found.map_or(Found::Nothing, Found::Address);

    /// The image's block is not the image, read-only and executable.
    19 BadImageBlock {
        /// What it maps, if anything.
        found: Option<Decoded>,
        /// The image.
        expected_pa: u64,
    } => "the image block maps {}, not {expected_pa:#x}, Ro, executable",
        found.map_or(Found::Nothing, Found::Leaf);

    /// A frame's word does not map what its map's entry says.
    20 BadLeaf {
        /// The frame.
        mfn: Mfn,
        /// What the word maps, if anything.
        found: Option<Decoded>,
        /// The address and access it should map.
        expected: Option<(u64, Access)>,
    } => "the word of frame {mfn} maps {}, not {}",
        found.map_or(Found::Nothing, Found::Leaf),
        expected.map_or(Found::Nothing, Found::AddressFor);

    /// A word should not be there.
    21 SpuriousDescriptor {
        /// The table that it is in.
        table: Table,
        /// Its place there.
        index: usize,
        /// The word.
        desc: u64,
    } => "word {index} of {table} is {desc:#x}, and nothing is mapped there";

    /// A word is not its device block.
    22 BadDeviceBlock {
        /// The place in l2_dev.
        index: usize,
        /// The word.
        desc: u64,
    } => "word {index} of l2_dev is {desc:#x}, not its device block";

    /// A domain maps a frame that is neither its own nor granted to it.
    23 UnauthorizedMapping {
        /// The domain.
        dom: DomId,
        /// The frame.
        mfn: Mfn,
        /// Who owns it, if anybody.
        owner: Option<DomId>,
        /// How it is mapped.
        perm: Perm,
    } => "domain {dom} maps frame {mfn} of {} {perm} without a grant",
        owner.map_or(Found::Nobody, Found::Domain);

    /// A domain maps a frame for writing that is granted to it for reading.
    24 WriteEscalation {
        /// The domain.
        dom: DomId,
        /// The frame.
        mfn: Mfn,
        /// The owner, who grants it.
        owner: DomId,
    } => "domain {dom} maps frame {mfn} for writing, which domain {owner} grants for reading";

    /// A map's entry is not what the edges give.
    25 Inexact {
        /// The domain.
        dom: DomId,
        /// The frame.
        mfn: Mfn,
        /// The entry.
        mapped: Option<Perm>,
        /// What the edges give.
        expected: Option<Perm>,
    } => "domain {dom} maps frame {mfn} as {}, and its edges give {}",
        mapped.map_or(Found::Nothing, Found::Entry),
        expected.map_or(Found::Nothing, Found::Entry);

    /// The update has no such step.
    26 StepPastLast => "the update has ended: its last step is 6,143";

    /// The annex page is longer than the buffer. [`ANNEX_MAX`](crate::ANNEX_MAX) bytes always serve.
    27 PageTooLong => "the annex page is longer than the buffer that it is written into";
}

impl core::error::Error for Refusal {}

/// What a sentence says of a value that there may not be.
enum Found {
    Nothing,
    Nobody,
    Address(u64),
    AddressFor((u64, Access)),
    Leaf(Decoded),
    Domain(DomId),
    Entry(Perm),
}

impl Display for Found {
    fn fmt(&self, f: &mut Formatter<'_>) -> fmt::Result {
        match self {
            Found::Nothing => f.write_str("nothing"),
            Found::Nobody => f.write_str("nobody"),
            Found::Address(pa) => write!(f, "{pa:#x}"),
            Found::AddressFor((pa, access)) => write!(f, "{pa:#x}, {access}"),
            Found::Leaf(leaf) => leaf.fmt(f),
            Found::Domain(dom) => write!(f, "domain {dom}"),
            Found::Entry(perm) => perm.fmt(f),
        }
    }
}
