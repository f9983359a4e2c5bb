//! What the comparison knows of a function, and the layers that the functions come from.

use std::iter::once;

use crate::annex::{self, Annexed};
use crate::authorized::{self, Granted};
use crate::encode::{self, Scene};
use crate::exact::{self, Linked};
use crate::exposed::{self, Exposed};
use crate::fill::{self, Filling};
use crate::inputs::{altered, few_codes, hex, many_codes, one, Inputs, Words};
use crate::layout::{self, Fields};
use crate::port;
use crate::programs::Text;
use crate::reach::{self, Encoding};
use crate::round::Round;
use crate::step::{self, Step};
use crate::torn::{self, Torn};
use crate::updates::{self, List};
use crate::verify::{self, Arena};
use crate::walk::{self, Walk};
use crate::windows::{self, Windowed};
use crate::{absent, annex_text, desc, dump, p2m, regime};

/// What a function is asked.
pub trait Input: 'static {
    /// What tells the function from others of the same input.
    type Op: Copy + PartialEq + Sync;
    /// All that the function leaves behind.
    type Reply: Reply;

    /// The port's reply.
    fn port(&self, op: Self::Op) -> Self::Reply;

    /// The input as it is printed.
    fn shown(&self) -> String;
}

/// An answer, with what a function stores besides.
pub trait Reply: Clone + PartialEq {
    /// The words that tell of which kind the answer is: of each, where a reply has many.
    fn answers(&self) -> impl Iterator<Item = &[u64]>;

    /// The reply as it is printed beside one that differs.
    fn shown(&self, other: &Self) -> String;
}

impl<const N: usize> Reply for [u64; N] {
    fn answers(&self) -> impl Iterator<Item = &[u64]> {
        once(&self[..])
    }

    fn shown(&self, _: &Self) -> String {
        hex(self)
    }
}

impl Input for Words {
    type Op = u32;
    type Reply = Words;

    fn port(&self, op: u32) -> Words {
        port::answer(op, self)
    }

    fn shown(&self) -> String {
        hex(self)
    }
}

/// A function that the original and the port both have.
pub struct Function<I: Input = Words> {
    /// The call of the port that is asked: a function of `probe` or of `libs2.a`, or a program.
    pub call: &'static str,
    pub name: &'static str,
    /// For `probe`, its number; for a program, which it is and which lines it reads; for edges, how
    /// they are lent.
    pub op: I::Op,
    /// The reply that is due, the unchanged Rust's where it has one, in the words that the port
    /// writes.
    pub original: fn(&I) -> I::Reply,
    /// Inputs around which the answer changes. They are few: all of them are recorded.
    pub boundary: fn() -> Inputs<I>,
    /// All other inputs that a round asks.
    pub sweep: fn(Round) -> Inputs<I>,
    /// The kinds of answer.
    pub answers: &'static [Answer],
    /// How many inputs of a comparison must have each kind of answer.
    pub least: u64,
    /// Whether the answers are recorded.
    pub recorded: bool,
}

/// A kind of answer, and whether an answer is of that kind.
pub type Answer = (&'static str, fn(&[u64]) -> bool);

/// The kinds of answer that are named, and then a refusal by each row.
macro_rules! answers {
    ([$($named:expr),* $(,)?] $($number:literal)*) => {
        &[$($named,)* $((concat!("row ", $number), $crate::layout::row::<$number>),)*]
    };
}
pub(crate) use answers;

/// A slip on the port's side that the comparison must notice.
pub struct Fault<I: Input = Words> {
    pub name: &'static str,
    /// What the slip is.
    pub slip: &'static str,
    pub op: I::Op,
    /// Turns the port's reply to an input into that of a port with the slip.
    pub alter: fn(&I, &mut I::Reply),
}

/// The port's reply to the input after a change.
pub fn with<I: Input<Op: Default> + Clone>(input: &I, change: impl FnOnce(&mut I)) -> I::Reply {
    with_op(input, I::Op::default(), change)
}

/// The same of any function.
pub fn with_op<I: Input + Clone>(input: &I, op: I::Op, change: impl FnOnce(&mut I)) -> I::Reply {
    altered(input.clone(), change).port(op)
}

pub struct Layer<I: Input = Words> {
    pub functions: &'static [Function<I>],
    /// Slips of the port.
    pub faults: &'static [&'static [Fault<I>]],
    /// Slips of the code here that calls the port: what it hands over, and what it hands back.
    pub wrapper_faults: &'static [&'static [Fault<I>]],
}

/// The functions of eight words.
pub static WORDS: [Layer; 4] = [p2m::LAYER, desc::LAYER, regime::LAYER, absent::LAYER];

/// The functions of a layout.
pub static LAYOUTS: [Layer<Fields>; 1] = [layout::LAYER];

/// The functions of a layout with an arena and two maps.
pub static SCENES: [Layer<Scene>; 1] = [encode::LAYER];

/// The functions of a step of an update.
pub static STEPS: [Layer<Step>; 1] = [step::LAYER];

/// The functions of lists of updates.
pub static UPDATES: [Layer<List>; 1] = [updates::LAYER];

/// The functions of walks during an update.
pub static TORN: [Layer<Torn>; 1] = [torn::LAYER];

/// The functions of an address and the tables that it is looked up in.
pub static WALKS: [Layer<Walk>; 1] = [walk::LAYER];

/// The same, where the tables are what a scene is encoded to.
pub static ENCODINGS: [Layer<Encoding>; 1] = [reach::LAYER];

/// The functions of an address and the windows that it may lie in.
pub static WINDOWS: [Layer<Windowed>; 1] = [windows::LAYER];

/// The functions that read a layout's arena.
pub static ARENAS: [Layer<Arena>; 1] = [verify::LAYER];

/// The functions that look for a layout's tables in its windows.
pub static EXPOSED: [Layer<Exposed>; 1] = [exposed::LAYER];

/// The functions that write a page of what a scene reaches.
pub static ANNEXES: [Layer<Annexed>; 1] = [annex::LAYER];

/// The functions that fill two maps from edges.
pub static FILLINGS: [Layer<Filling>; 1] = [fill::LAYER];

/// The functions that check a map against grants.
pub static GRANTED: [Layer<Granted>; 1] = [authorized::LAYER];

/// The functions that check a map against edges.
pub static LINKED: [Layer<Linked>; 1] = [exact::LAYER];

/// The programs that read a scene.
pub static TEXTS: [Layer<Text>; 2] = [dump::LAYER, annex_text::LAYER];

pub fn functions<I: Input>(
    layers: &'static [Layer<I>],
) -> impl Iterator<Item = &'static Function<I>> {
    layers.iter().flat_map(|layer| layer.functions)
}

pub fn faults<I: Input>(layers: &'static [Layer<I>]) -> impl Iterator<Item = &'static Fault<I>> {
    layers.iter().flat_map(|layer| {
        let lists = layer.faults.iter().chain(layer.wrapper_faults);
        lists.copied().flatten()
    })
}

/// Does the same with the layers of each input, one after another.
macro_rules! for_all {
    ($layers:ident => $each:expr) => {
        $crate::function::for_all! {
            $layers => $each,
            WORDS LAYOUTS SCENES STEPS UPDATES TORN WALKS ENCODINGS WINDOWS ARENAS EXPOSED ANNEXES
            FILLINGS GRANTED LINKED TEXTS
        }
    };
    ($layers:ident => $each:expr, $($all:ident)*) => {
        $({
            let $layers = &$crate::function::$all;
            $each;
        })*
    };
}
pub(crate) use for_all;

/// Whether the call is a program, of which each answer is a process.
pub fn is_program(call: &str) -> bool {
    ["s2dump", "s2annex"].contains(&call)
}

/// The names of all faults, in the order of the self-test.
pub fn fault_names() -> Vec<&'static str> {
    let mut names = Vec::new();
    for_all!(layers => names.extend(faults(layers).map(|fault| fault.name)));
    names
}

impl Function {
    /// A function of one code of a small enumeration.
    pub const fn of_code(
        name: &'static str,
        op: u32,
        original: fn(&Words) -> Words,
        answers: &'static [Answer],
    ) -> Self {
        Function {
            call: name,
            name,
            op,
            original,
            boundary: || Box::new(few_codes().map(one)),
            sweep: |round| Box::new(many_codes(round).map(one)),
            answers,
            least: 1,
            recorded: true,
        }
    }
}

impl<I: Input> Function<I> {
    pub fn inputs(&self, round: Round) -> impl Iterator<Item = I> {
        round.once(self.boundary).chain((self.sweep)(round))
    }
}
