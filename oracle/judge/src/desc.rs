//! arm64.rs, descriptors: permissions, memory types, the emitted words and the decoders.

use hv_s2::arm64::memtype::MemoryType;
use hv_s2::arm64::{
    block_leaf_attrs, decode_block, decode_device_block, decode_page, decode_table, desc,
    leaf_access_xn, page_leaf_attrs, Decoded,
};
use hv_s2::leafmap::Perm;

use crate::function::{Answer, Fault, Function, Layer};
use crate::handed_words;
use crate::inputs::{
    changed, many_codes, one, random, twice_changed, words, Random, Words, NOTHING,
};
use crate::port;
use crate::round::Round;

const PERM: u32 = 3;
const MEMORY_TYPE: u32 = 4;
const CONSTANTS: u32 = 5;
const WORDS: u32 = 6;
const DECODE_PAGE: u32 = 7;
const DECODE_BLOCK: u32 = 8;
const DECODE_TABLE: u32 = 9;
const DECODE_DEVICE_BLOCK: u32 = 10;

pub const LAYER: Layer = Layer {
    functions: FUNCTIONS,
    faults: &[FAULTS],
    wrapper_faults: handed_words::DESC,
};

const FUNCTIONS: &[Function] = &[
    Function {
        call: "perm",
        name: "perm",
        op: PERM,
        original: perm,
        boundary: || Box::new(perms([0, 1, 2, 3, 4, (1 << 32) + 1, u64::MAX].into_iter())),
        sweep: |round| Box::new(perms(many_codes(round))),
        answers: PERM_ANSWERS,
        least: 1,
        recorded: true,
    },
    Function::of_code("memory type", MEMORY_TYPE, memory_type, MEMORY_TYPE_ANSWERS),
    of_nothing("constants", CONSTANTS, constants),
    of_nothing("words", WORDS, emitted_words),
    decoder("decode_page", DECODE_PAGE, page, LEAF_ANSWERS),
    decoder("decode_block", DECODE_BLOCK, block, LEAF_ANSWERS),
    decoder("decode_table", DECODE_TABLE, table, TABLE_ANSWERS),
    decoder(
        "decode_device_block",
        DECODE_DEVICE_BLOCK,
        device,
        DEVICE_ANSWERS,
    ),
];

/// Constants: the answer is the same for any input.
const fn of_nothing(name: &'static str, op: u32, original: fn(&Words) -> Words) -> Function {
    Function {
        call: name,
        name,
        op,
        original,
        boundary: || Box::new([[0; 8], [u64::MAX; 8]].into_iter()),
        sweep: |round| Box::new(random(round.seeded(3), 1_000, Random::words)),
        answers: &[("eight words", |answer| !answer.contains(&0))],
        least: 1,
        recorded: true,
    }
}

/// A decoder: all of them are given the same words.
const fn decoder(
    name: &'static str,
    op: u32,
    original: fn(&Words) -> Words,
    answers: &'static [Answer],
) -> Function {
    Function {
        call: name,
        name,
        op,
        original,
        boundary: || Box::new(descriptor_boundary().map(one)),
        sweep: |round| Box::new(descriptors(round).map(one)),
        answers,
        least: 1,
        recorded: true,
    }
}

const PERM_ANSWERS: &[Answer] = &[
    ("none", |answer| answer[2] == 0),
    ("Ro", |answer| answer[2] == desc::PAGE_RO),
    ("Rw", |answer| answer[2] == desc::PAGE_RW),
    ("Rx", |answer| answer[2] == desc::PAGE_RX),
    ("exempt Rw", |answer| answer[3] == desc::BLOCK_RW_X),
];

const MEMORY_TYPE_ANSWERS: &[Answer] = &[
    ("none", |answer| answer[0] == 0),
    ("NormalWbIsh", |answer| answer[..2] == [1, 0xff]),
    ("NormalNonCacheable", |answer| answer[..2] == [1, 0x44]),
    ("DeviceNGnRnE", |answer| answer[..2] == [1, 0x00]),
];

const LEAF_ANSWERS: &[Answer] = &[
    ("nothing", |answer| answer[0] == 0),
    ("Ro", |answer| answer[2..4] == [1, 0]),
    ("Ro XN", |answer| answer[2..4] == [1, 1]),
    ("Rw", |answer| answer[2..4] == [2, 0]),
    ("Rw XN", |answer| answer[2..4] == [2, 1]),
];

const TABLE_ANSWERS: &[Answer] = &[
    ("nothing", |answer| answer[0] == 0),
    ("table", |answer| answer[0] == 1),
];

const DEVICE_ANSWERS: &[Answer] = &[
    ("nothing", |answer| answer[0] == 0),
    ("device", |answer| answer[0] == 1 && answer[2] == 0),
    ("device XN", |answer| answer[0] == 1 && answer[2] == 1),
];

fn perm(x: &Words) -> Words {
    let perm = match x[0] {
        1 => Perm::Ro,
        2 => Perm::Rw,
        3 => Perm::Rx,
        _ => return NOTHING,
    };
    let wx_exempt = x[1] != 0;
    let (access, xn) = leaf_access_xn(perm, wx_exempt);
    words([
        perm.writable().into(),
        perm.executable().into(),
        page_leaf_attrs(perm),
        block_leaf_attrs(perm, wx_exempt),
        code_of(access),
        xn.into(),
    ])
}

fn code_of(perm: Perm) -> u64 {
    match perm {
        Perm::Ro => 1,
        Perm::Rw => 2,
        Perm::Rx => 3,
    }
}

fn memory_type(x: &Words) -> Words {
    let memory_type = match x[0] {
        0 => MemoryType::NormalWbIsh,
        1 => MemoryType::NormalNonCacheable,
        2 => MemoryType::DeviceNGnRnE,
        _ => return NOTHING,
    };
    words([
        1,
        memory_type.stage1_mair_byte().into(),
        memory_type.stage2_leaf_bits(),
        memory_type.shareability_bits(),
    ])
}

fn constants(_: &Words) -> Words {
    [
        desc::TABLE,
        desc::PAGE,
        desc::BLOCK,
        desc::AF,
        desc::S2AP_RW,
        desc::S2AP_RO,
        desc::XN,
        desc::LEAF_COMMON,
    ]
}

fn emitted_words(_: &Words) -> Words {
    LEAVES
}

fn page(x: &Words) -> Words {
    decode_page(x[0]).map_or(NOTHING, leaf)
}

fn block(x: &Words) -> Words {
    decode_block(x[0]).map_or(NOTHING, leaf)
}

fn leaf(decoded: Decoded) -> Words {
    words([1, decoded.pa, code_of(decoded.perm), decoded.xn.into()])
}

fn table(x: &Words) -> Words {
    decode_table(x[0]).map_or(NOTHING, |pa| words([1, pa]))
}

fn device(x: &Words) -> Words {
    decode_device_block(x[0]).map_or(NOTHING, |decoded| words([1, decoded.pa, decoded.xn.into()]))
}

/// Every leaf that is emitted, as yet without an address.
const LEAVES: [u64; 8] = [
    desc::BLOCK_ROX,
    desc::PAGE_RW,
    desc::PAGE_RO,
    desc::PAGE_RX,
    desc::BLOCK_RW,
    desc::BLOCK_RO,
    desc::BLOCK_RW_X,
    desc::BLOCK_DEVICE,
];

/// Every word that is emitted.
const EMITTED: [u64; 9] = {
    let [a, b, c, d, e, f, g, h] = LEAVES;
    [desc::TABLE, a, b, c, d, e, f, g, h]
};

/// Output addresses: both ends of the page and of the block field, and some of a real layout.
const ADDRESSES: [u64; 9] = [
    0,
    0x1000,
    0x20_0000,
    0x5000_1000,
    0x6040_0000,
    0x8_0000_0000,
    1 << 47,
    desc::ADDR_2M,
    desc::ADDR_4K,
];

/// Bits at the ends of the fields that a decoder reads, and just past them.
const FIELD_BITS: [u64; 10] = [0, 1, 2, 5, 6, 7, 47, 48, 53, 54];

fn perms(codes: impl Iterator<Item = u64>) -> impl Iterator<Item = Words> {
    // All that is not zero is an exemption, wherever the bit is.
    let exempt = [0, 1, 2, 1 << 32, u64::MAX];
    codes.flat_map(move |code| exempt.map(|exempt| words([code, exempt])))
}

fn descriptor_boundary() -> impl Iterator<Item = u64> {
    let ends = EMITTED
        .into_iter()
        .flat_map(|word| [word, word | desc::ADDR_4K]);
    let changed = EMITTED
        .into_iter()
        .flat_map(|word| FIELD_BITS.map(|bit| (word | 0x6040_0000) ^ (1 << bit)));
    [0, u64::MAX].into_iter().chain(ends).chain(changed)
}

fn descriptors(round: Round) -> impl Iterator<Item = u64> {
    let emitted = || addresses().flat_map(|address| EMITTED.map(|word| word | address));
    let near = move || emitted().flat_map(|word| changed(word).chain(twice_changed(word)));
    round
        .once(move || near().chain(low_patterns()))
        .chain(random(round.seeded(4), 500_000, mutated))
        .chain(round.seeded(5).take(1_000_000))
}

/// The fixed addresses, and random ones of pages and of blocks.
fn addresses() -> impl Iterator<Item = u64> {
    let aligned = |word| [word & desc::ADDR_4K, word & desc::ADDR_2M];
    let random = Random(6).take(16).flat_map(aligned);
    ADDRESSES.into_iter().chain(random)
}

/// All values of the twelve low bits, with and without the execute-never bit and its neighbour.
fn low_patterns() -> impl Iterator<Item = u64> {
    let high = [0, 1 << 53, 1 << 54, 3 << 53];
    let above = high
        .into_iter()
        .flat_map(|high| ADDRESSES.map(|address| high | address));
    above.flat_map(|above| (0..1 << 12).map(move |low| above | low))
}

/// An emitted word at a random address, with a few bits changed.
fn mutated(random: &mut Random) -> u64 {
    (random.pick(&EMITTED) | random.word() & desc::ADDR_4K) ^ random.sparse()
}

const FAULTS: &[Fault] = &[
    Fault {
        name: "read-only-exempt",
        slip: "the exemption makes a read-only block executable",
        op: PERM,
        alter: |x, answer| {
            if x[0] == 1 && x[1] != 0 {
                answer[3] &= !desc::XN;
                answer[5] = 0;
            }
        },
    },
    Fault {
        name: "device-shareable",
        slip: "device memory is marked inner shareable",
        op: MEMORY_TYPE,
        alter: |x, answer| {
            if x[0] == 2 {
                answer[2] = 0b11 << 8;
                answer[3] = 0b11 << 8;
            }
        },
    },
    Fault {
        name: "word-left-unwritten",
        slip: "the last word of the answer is not written",
        op: CONSTANTS,
        alter: |_, answer| answer[7] = port::UNWRITTEN,
    },
    Fault {
        name: "device-block-cacheable",
        slip: "the device block is given the memory type of a data block",
        op: WORDS,
        alter: |_, answer| answer[7] |= 0b1111 << 2,
    },
    Fault {
        name: "s2ap-10-as-rw",
        slip: "the reserved access 10 is read as read-write",
        op: DECODE_PAGE,
        alter: |x, answer| {
            if (x[0] >> 6) & 0b11 == 0b10 {
                *answer = port::answer(DECODE_PAGE, &one(x[0] | 1 << 6));
            }
        },
    },
    Fault {
        name: "page-address-without-bit-47",
        slip: "the address field of a page is one bit short",
        op: DECODE_PAGE,
        alter: |_, answer| answer[1] &= !(1 << 47),
    },
    Fault {
        name: "xn-from-bit-53",
        slip: "execute never is read one bit too low",
        op: DECODE_PAGE,
        alter: |x, answer| answer[3] = answer[0] & (x[0] >> 53),
    },
    Fault {
        name: "block-of-type-11",
        slip: "a block is decoded although its type is a table's",
        op: DECODE_BLOCK,
        alter: |x, answer| {
            if x[0] & 0b11 == 0b11 {
                *answer = port::answer(DECODE_BLOCK, &one(x[0] ^ 0b10));
            }
        },
    },
    Fault {
        name: "block-at-a-page",
        slip: "the address field of a block starts at bit 12",
        op: DECODE_BLOCK,
        alter: |x, answer| {
            if answer[0] == 1 {
                answer[1] = x[0] & desc::ADDR_4K;
            }
        },
    },
    Fault {
        name: "table-address-with-bit-48",
        slip: "the address field of a table is one bit long",
        op: DECODE_TABLE,
        alter: |x, answer| {
            if answer[0] == 1 {
                answer[1] |= x[0] & 1 << 48;
            }
        },
    },
    Fault {
        name: "device-with-memattr-1",
        slip: "memory type 1 is read as device memory",
        op: DECODE_DEVICE_BLOCK,
        alter: |x, answer| {
            if (x[0] >> 2) & 0b1111 == 1 {
                *answer = port::answer(DECODE_DEVICE_BLOCK, &one(x[0] ^ 1 << 2));
            }
        },
    },
];
