//! Lists and maps that a call is lent, with more of their kind around them that it is not lent.

/// A list or map between two fences. A fence holds what would change the answer if it were read.
pub struct Fenced<T> {
    fence: T,
    all: Vec<T>,
}

/// How many records or bytes make a fence.
pub const LEN: usize = 8;

impl<T: Copy + PartialEq> Fenced<T> {
    pub fn new(lent: &[T], fence: T) -> Self {
        let fences = [fence; LEN];
        Fenced {
            fence,
            all: [&fences[..], lent, &fences[..]].concat(),
        }
    }

    pub fn len(&self) -> usize {
        self.all.len() - 2 * LEN
    }

    /// Where the list or map starts. It may be written through, so that a store shows.
    pub fn as_mut_ptr(&mut self) -> *mut T {
        self.all[LEN..].as_mut_ptr()
    }

    /// The list or map, to be stored into.
    pub fn lent_mut(&mut self) -> &mut [T] {
        let end = LEN + self.len();
        &mut self.all[LEN..end]
    }

    /// The list or map, or nothing if a fence has been stored into.
    pub fn lent(&self) -> Option<&[T]> {
        let (before, rest) = self.all.split_at(LEN);
        let (lent, after) = rest.split_at(rest.len() - LEN);
        let unchanged = before.iter().chain(after).all(|row| *row == self.fence);
        unchanged.then_some(lent)
    }
}
