//! Inputs by hand, of which the answer is known.

use crate::function::{Input, Reply};
use crate::inputs::altered;

/// The first words of an answer, and the change of an input that brings it about.
pub type Example<I> = (&'static [u64], fn(&mut I));

/// The changed inputs. It fails if the original answers otherwise.
pub fn examples<I: Input>(
    list: &'static [Example<I>],
    unchanged: impl Fn() -> I,
    original: fn(&I) -> I::Reply,
) -> impl Iterator<Item = I> {
    list.iter().map(move |(answer, change)| {
        let input = altered(unchanged(), change);
        let reply = original(&input);
        let first = reply.answers().next().expect("an answer");
        assert_eq!(first[..answer.len()], **answer, "{}", input.shown());
        input
    })
}
