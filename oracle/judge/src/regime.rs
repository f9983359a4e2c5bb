//! arm64.rs, the translation regime: its enumerations, VTCR_EL2 and VTTBR_EL2.

use hv_s2::arm64::{
    decode_vtcr_el2, vtcr_el2, vttbr, vttbr_table, vttbr_vmid, Granule, PaSize, Stage2Regime,
    StartLevel, VmidBits, BALEEN_STAGE2, BALEEN_VMID_BITS,
};

use crate::function::{Answer, Fault, Function, Layer};
use crate::handed_words;
use crate::inputs::{altered, changed, every, one, random, words, Random, Words, NOTHING};
use crate::port;
use crate::round::Round;
use crate::undefined::defined;

const GRANULE: u32 = 11;
const START_LEVEL: u32 = 12;
const PA_SIZE: u32 = 13;
const VMID_BITS: u32 = 14;
const REGIME: u32 = 15;
const DECODE_VTCR_EL2: u32 = 16;
const VTTBR: u32 = 17;
const VTTBR_FIELDS: u32 = 18;

pub const LAYER: Layer = Layer {
    functions: FUNCTIONS,
    faults: &[FAULTS],
    wrapper_faults: handed_words::REGIME,
};

const FUNCTIONS: &[Function] = &[
    Function::of_code("granule", GRANULE, granule, GRANULE_ANSWERS),
    Function::of_code("start level", START_LEVEL, start_level, START_LEVEL_ANSWERS),
    Function::of_code("pa size", PA_SIZE, pa_size, PA_SIZE_ANSWERS),
    Function::of_code("vmid bits", VMID_BITS, vmid_bits, VMID_BITS_ANSWERS),
    Function {
        call: "regime",
        name: "regime",
        op: REGIME,
        original: regime,
        boundary: || Box::new(regime_boundary()),
        sweep: |round| Box::new(regimes(round)),
        answers: REGIME_ANSWERS,
        least: 1,
        recorded: true,
    },
    Function {
        call: "decode_vtcr_el2",
        name: "decode_vtcr_el2",
        op: DECODE_VTCR_EL2,
        original: decoded_vtcr,
        boundary: || Box::new(vtcr_boundary().map(one)),
        sweep: |round| Box::new(vtcrs(round).map(one)),
        answers: DECODE_VTCR_ANSWERS,
        least: 1,
        recorded: true,
    },
    Function {
        call: "vttbr",
        name: "vttbr",
        op: VTTBR,
        original: |x| words([vttbr(x[0], x[1])]),
        boundary: || Box::new(vttbr_boundary()),
        sweep: |round| Box::new(random(round.seeded(9), 500_000, random_vttbr)),
        answers: VTTBR_ANSWERS,
        least: 1,
        recorded: true,
    },
    Function {
        call: "vttbr_table and vttbr_vmid",
        name: "vttbr_table and vttbr_vmid",
        op: VTTBR_FIELDS,
        original: vttbr_fields,
        boundary: || Box::new(vttbr_boundary().map(|x| one(vttbr(x[0], x[1])))),
        sweep: |round| Box::new(round.seeded(10).take(500_000).map(one)),
        answers: VTTBR_FIELDS_ANSWERS,
        least: 1,
        recorded: true,
    },
];

const GRANULE_ANSWERS: &[Answer] = &[
    ("reserved", |answer| answer[0] == 0),
    ("K4", |answer| answer[1] == 12),
    ("K16", |answer| answer[1] == 14),
    ("K64", |answer| answer[1] == 16),
];

const START_LEVEL_ANSWERS: &[Answer] = &[
    ("reserved", |answer| answer[0] == 0),
    ("L0", |answer| answer[..2] == [1, 0]),
    ("L1", |answer| answer[..2] == [1, 1]),
    ("L2", |answer| answer[..2] == [1, 2]),
    ("L3", |answer| answer[..2] == [1, 3]),
];

const PA_SIZE_ANSWERS: &[Answer] = &[
    ("reserved", |answer| answer[0] == 0),
    ("B32", |answer| answer[..2] == [1, 0]),
    ("B36", |answer| answer[..2] == [1, 1]),
    ("B40", |answer| answer[..2] == [1, 2]),
    ("B42", |answer| answer[..2] == [1, 3]),
    ("B44", |answer| answer[..2] == [1, 4]),
    ("B48", |answer| answer[..2] == [1, 5]),
    ("B52", |answer| answer[..2] == [1, 6]),
];

const VMID_BITS_ANSWERS: &[Answer] = &[
    ("none", |answer| answer[0] == 0),
    ("B8", |answer| answer[..2] == [1, 0]),
    ("B16", |answer| answer[..2] == [1, 1]),
];

const REGIME_ANSWERS: &[Answer] = &[
    ("reserved", |answer| answer[0] == 0),
    ("valid", |answer| answer[..2] == [1, 1]),
    ("invalid", |answer| answer[..2] == [1, 0]),
    ("t0sz", |answer| answer[2] == 1),
    ("t0sz undefined", |answer| answer[0] == 1 && answer[2] == 0),
    ("table_align 64", |answer| answer[5] == 64),
    ("table_align above", |answer| answer[5] > 64),
    ("table_align undefined", |answer| {
        answer[0] == 1 && answer[4] == 0
    }),
    ("vtcr_el2", |answer| answer[6] == 1),
];

const DECODE_VTCR_ANSWERS: &[Answer] = &[
    ("nothing", |answer| answer[0] == 0),
    ("B8", |answer| answer[0] == 1),
    ("B16", |answer| answer[0] == 2),
    ("K4", |answer| answer[0] != 0 && answer[1] == 0),
    ("K16", |answer| answer[0] != 0 && answer[1] == 2),
    ("K64", |answer| answer[0] != 0 && answer[1] == 1),
    ("L0", |answer| answer[0] != 0 && answer[3] == 2),
    ("L1", |answer| answer[0] != 0 && answer[3] == 1),
    ("L2", |answer| answer[0] != 0 && answer[3] == 0),
    ("L3", |answer| answer[0] != 0 && answer[3] == 3),
];

const VTTBR_ANSWERS: &[Answer] = &[
    ("vmid 0", |answer| answer[0] >> 48 == 0),
    ("vmid above 0", |answer| answer[0] >> 48 != 0),
];

const VTTBR_FIELDS_ANSWERS: &[Answer] = &[
    ("vmid of 8 bits", |answer| answer[1] == answer[2]),
    ("vmid of 16 bits", |answer| answer[1] != answer[2]),
];

fn granule(x: &Words) -> Words {
    Granule::from_tg0(x[0]).map_or(NOTHING, |granule| {
        words([
            1,
            granule.page_bits().into(),
            granule.level_bits().into(),
            granule.tg0(),
        ])
    })
}

fn start_level(x: &Words) -> Words {
    StartLevel::from_sl0(x[0]).map_or(NOTHING, |level| {
        words([
            1,
            level.number().into(),
            level.sl0(),
            level.span(Granule::K4).into(),
            level.span(Granule::K16).into(),
            level.span(Granule::K64).into(),
        ])
    })
}

fn pa_size(x: &Words) -> Words {
    PaSize::from_ps(x[0]).map_or(NOTHING, |size| words([1, size.ps()]))
}

fn vmid_bits(x: &Words) -> Words {
    from_vs(x[0]).map_or(NOTHING, |bits| words([1, bits.vs(), bits.count().into()]))
}

/// The original has no inverse of `vs`.
fn from_vs(vs: u64) -> Option<VmidBits> {
    [VmidBits::B8, VmidBits::B16]
        .into_iter()
        .find(|bits| bits.vs() == vs)
}

fn regime(x: &Words) -> Words {
    let Some((regime, vmid_bits)) = named(x) else {
        return NOTHING;
    };
    let [t0sz_defined, t0sz] = option(defined(|| regime.t0sz()));
    let [align_defined, table_align] = option(defined(|| regime.table_align()));
    let [vtcr_some, vtcr] = option(vtcr_el2(&regime, vmid_bits));
    [
        1,
        regime.valid().into(),
        t0sz_defined,
        t0sz,
        align_defined,
        table_align,
        vtcr_some,
        vtcr,
    ]
}

/// The regime of an input, if none of its codes is reserved.
fn named(x: &Words) -> Option<(Stage2Regime, VmidBits)> {
    let regime = Stage2Regime {
        granule: Granule::from_tg0(x[0])?,
        ipa_bits: x[1] as u32,
        start_level: StartLevel::from_sl0(x[2])?,
        pa_size: PaSize::from_ps(x[3])?,
        walk_shareability: x[4],
        walk_inner: x[5],
        walk_outer: x[6],
    };
    Some((regime, from_vs(x[7])?))
}

fn option(value: Option<u64>) -> [u64; 2] {
    value.map_or([0, 0], |value| [1, value])
}

fn decoded_vtcr(x: &Words) -> Words {
    decode_vtcr_el2(x[0]).map_or(NOTHING, |(regime, vmid_bits)| {
        [
            1 + vmid_bits.vs(),
            regime.granule.tg0(),
            regime.ipa_bits.into(),
            regime.start_level.sl0(),
            regime.pa_size.ps(),
            regime.walk_shareability,
            regime.walk_inner,
            regime.walk_outer,
        ]
    })
}

fn vttbr_fields(x: &Words) -> Words {
    words([
        vttbr_table(x[0]),
        vttbr_vmid(x[0], VmidBits::B8).into(),
        vttbr_vmid(x[0], VmidBits::B16).into(),
    ])
}

/// VTCR_EL2's bit that is always one, and the one that selects another descriptor format.
const RES1: u64 = 1 << 31;
const DS: u64 = 1 << 32;

/// The deployed regime but for its outer attribute: no two walk attributes are alike.
const REGULAR: Words = [0, 39, 1, 2, 3, 1, 2, 0];

fn codes(count: u64) -> Vec<u64> {
    (0..count).collect()
}

fn regime_boundary() -> impl Iterator<Item = Words> {
    let codes = [0, 1, 2, 3, 4, 6, 7, 1 << 32, u64::MAX];
    let coded = [0, 2, 3, 4, 5, 6, 7]
        .into_iter()
        .flat_map(move |at| codes.map(|code| (at, code)));
    // Level 2 resolves 30 bits. With 61 more, the words of level 1 fill 2^64 bytes.
    let sizes = [0, 12, 13, 63, 64, 65, 90, 91, 93, 94];
    let wide = [(1 << 32) - 1, (1 << 32) + 39, u64::MAX];
    let sized = sizes.into_iter().chain(wide).map(|size| (1, size));
    let replaced = |(at, value)| altered(REGULAR, |x| x[at] = value);
    starts().chain(coded.chain(sized).map(replaced))
}

/// Every granule and start level, with the sizes at both ends of what they resolve and the first
/// that is too large for all.
fn starts() -> impl Iterator<Item = Words> {
    let mut starts = REGULAR.map(|word| vec![word]);
    (starts[0], starts[2]) = (codes(3), codes(4));
    every(starts).flat_map(|start| {
        let (regime, _) = named(&start).expect("no code is reserved");
        let span = regime.start_level.span(regime.granule);
        let below = span - regime.granule.level_bits();
        let sizes = [below - 1, below, below + 1, span, span + 1, 49];
        sizes.map(|size| altered(start, |x| x[1] = size.into()))
    })
}

/// Every size with all of the codes, then every size with all walk attributes: a product of both
/// would spend its time in panics.
fn regimes(round: Round) -> impl Iterator<Item = Words> {
    let wide = [(1 << 32) - 1, 1 << 32, (1 << 32) + 39, u64::MAX];
    let sizes: Vec<u64> = (0..=130).chain(wide).collect();
    let walk = || vec![0, 1, 2, 3, 4, u64::MAX];
    let mut coded = REGULAR.map(|word| vec![word]);
    (coded[0], coded[1], coded[2]) = (codes(3), sizes, codes(4));
    let mut walked = coded.clone();
    (coded[3], coded[7]) = (codes(7), codes(2));
    (walked[4], walked[5], walked[6]) = (walk(), walk(), walk());
    round
        .once(|| every(coded).chain(every(walked)))
        .chain(random(round.seeded(7), 200_000, random_regime))
}

fn random_regime(random: &mut Random) -> Words {
    let codes = [4, 66, 5, 8, 5, 5, 5, 3].map(|bound| random.below(bound));
    // Only the low half of the size counts.
    altered(codes, |x| x[1] |= random.word() << 32)
}

fn vtcr_of(x: Words) -> Option<u64> {
    named(&x).and_then(|(regime, vmid_bits)| vtcr_el2(&regime, vmid_bits))
}

fn vtcr_boundary() -> impl Iterator<Item = u64> {
    let deployed = vtcr_el2(&BALEEN_STAGE2, BALEEN_VMID_BITS).expect("it is valid");
    let reserved = [deployed | 0b11 << 14, deployed | 0b111 << 16];
    [0, RES1, u64::MAX]
        .into_iter()
        .chain(reserved)
        .chain(changed(deployed))
        .chain(regime_boundary().filter_map(vtcr_of))
}

fn vtcrs(round: Round) -> impl Iterator<Item = u64> {
    let regimes = every([3, 49, 4, 7, 4, 4, 4, 2].map(codes));
    let valid: Vec<u64> = regimes.filter_map(vtcr_of).collect();
    let near = valid.clone();
    let mutated = move |random: &mut Random| random.pick(&valid) ^ random.sparse();
    round
        .once(|| near.into_iter().flat_map(changed).chain(all_fields()))
        .chain(random(round.seeded(8), 500_000, mutated))
        .chain(round.seeded(9).take(1_000_000))
}

/// All values of the twenty bits that are fields, under each value of the two that stand apart.
fn all_fields() -> impl Iterator<Item = u64> {
    [0, RES1, DS, RES1 | DS]
        .into_iter()
        .flat_map(|high| (0..1 << 20).map(move |fields| high | fields))
}

fn vttbr_boundary() -> impl Iterator<Item = Words> {
    let top = 1 << 48;
    let tables = [0, 0x1000, 0x4000_0000, top - 0x1000, top - 1, top, u64::MAX];
    let vmids = [0, 1, 255, 256, 65_535, 65_536, u64::MAX];
    tables
        .into_iter()
        .flat_map(move |table| vmids.map(|vmid| words([table, vmid])))
}

/// A table and a VMID of any width.
fn random_vttbr(random: &mut Random) -> Words {
    let mut shifted = || random.word() >> random.below(64);
    words([shifted(), shifted()])
}

const FAULTS: &[Fault] = &[
    Fault {
        name: "granules-in-order-of-size",
        slip: "16 KB and 64 KB are exchanged",
        op: GRANULE,
        alter: |x, answer| {
            if x[0] == 1 || x[0] == 2 {
                *answer = port::answer(GRANULE, &one(3 - x[0]));
                answer[3] = x[0];
            }
        },
    },
    Fault {
        name: "k64-span-one-level-short",
        slip: "the span of 64 KB pages leaves out the start level",
        op: START_LEVEL,
        alter: |_, answer| answer[5] = answer[5].saturating_sub(13),
    },
    Fault {
        name: "reserved-pa-size",
        slip: "the reserved size is accepted",
        op: PA_SIZE,
        alter: |x, answer| {
            if x[0] == 7 {
                *answer = words([1, 7]);
            }
        },
    },
    Fault {
        name: "largest-vmid-for-count",
        slip: "the count of VMIDs is the largest of them",
        op: VMID_BITS,
        alter: |_, answer| answer[2] = answer[2].saturating_sub(1),
    },
    Fault {
        name: "no-t0sz-for-64-bits",
        slip: "the limit of T0SZ is off by one",
        op: REGIME,
        alter: |x, answer| {
            if x[1] == 64 {
                answer[2] = 0;
            }
        },
    },
    Fault {
        name: "start-level-too-high",
        slip: "level 1 is accepted for the 30 bits that level 2 resolves",
        op: REGIME,
        alter: |x, answer| {
            if x[..3] == [0, 30, 1] {
                answer[1] = 1;
            }
        },
    },
    Fault {
        name: "table-align-of-two-words",
        slip: "the alignment of a small table is its size",
        op: REGIME,
        alter: |x, answer| {
            if x[..3] == [0, 31, 1] {
                answer[5] = 16;
            }
        },
    },
    Fault {
        name: "walk-attributes-exchanged",
        slip: "VTCR_EL2 has the inner attribute in the place of the outer",
        op: REGIME,
        alter: |x, answer| *answer = port::answer(REGIME, &altered(*x, |x| x.swap(5, 6))),
    },
    Fault {
        name: "ds-ignored",
        slip: "the other descriptor format is not refused",
        op: DECODE_VTCR_EL2,
        alter: |x, answer| *answer = port::answer(DECODE_VTCR_EL2, &one(x[0] & !DS)),
    },
    Fault {
        name: "res1-ignored",
        slip: "the bit that is always one may be zero",
        op: DECODE_VTCR_EL2,
        alter: |x, answer| *answer = port::answer(DECODE_VTCR_EL2, &one(x[0] | RES1)),
    },
    Fault {
        name: "vmid-cut-to-8-bits",
        slip: "VTTBR_EL2 takes only the low byte of the VMID",
        op: VTTBR,
        alter: |x, answer| *answer = port::answer(VTTBR, &words([x[0], x[1] & 0xff])),
    },
    Fault {
        name: "vmid-not-masked-to-8-bits",
        slip: "an 8-bit VMID keeps its high byte",
        op: VTTBR_FIELDS,
        alter: |_, answer| answer[1] = answer[2],
    },
    Fault {
        name: "table-without-low-bits",
        slip: "the table's base is aligned to a page",
        op: VTTBR_FIELDS,
        alter: |_, answer| answer[0] &= !0xfff,
    },
];
