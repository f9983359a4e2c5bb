//! The answer of a call, and the reading of its values.

use crate::refusal::Refusal;

/// The number of the row that refuses, 0 where none does, and the eight values.
#[derive(Clone, Copy, PartialEq, Eq, Debug)]
pub struct Answer {
    pub number: u32,
    pub values: [u64; 8],
}

impl Answer {
    /// Of a call that tells nothing where no row refuses.
    pub fn accepted(self) -> Result<(), Refusal> {
        match self.number {
            0 => Ok(()),
            _ => Err(Refusal::of(self)),
        }
    }

    /// Of a call that tells something where no row refuses.
    pub fn told<T: Carried>(self) -> Result<T, Refusal> {
        self.accepted()?;
        Ok(Values::of(self).read())
    }

    /// Stops at an answer that the contracts of the calls rule out, and says which it was. The
    /// crate's documentation has the reason.
    pub fn outside_contract(self) -> ! {
        let Answer { number, values } = self;
        panic!("libs2.a answers {number} with {values:x?}, which its contract rules out")
    }
}

/// The values of an answer, read in order.
pub struct Values {
    answer: Answer,
    next: usize,
}

impl Values {
    pub fn of(answer: Answer) -> Values {
        Values { answer, next: 0 }
    }

    pub fn next(&mut self) -> u64 {
        let Some(&value) = self.answer.values.get(self.next) else {
            self.answer.outside_contract()
        };
        self.next += 1;
        value
    }

    pub fn read<T: Carried>(&mut self) -> T {
        T::read(self)
    }

    /// The next value as what it stands for.
    pub fn next_as<T>(&mut self, read: impl FnOnce(u64) -> Option<T>) -> T {
        match read(self.next()) {
            Some(value) => value,
            None => self.answer.outside_contract(),
        }
    }
}

/// What an answer carries.
pub trait Carried: Sized {
    /// How many values it is.
    const COUNT: usize = 1;

    fn read(values: &mut Values) -> Self;
}

/// What there may not be: 1 and its values, or 0 and zeros.
fn optional<T: Carried>(values: &mut Values) -> Option<T> {
    if flag(values) {
        return Some(T::read(values));
    }
    for _ in 0..T::COUNT {
        values.next_as(|value| (value == 0).then_some(()));
    }
    None
}

pub fn flag(values: &mut Values) -> bool {
    values.next_as(|value| match value {
        0 => Some(false),
        1 => Some(true),
        _ => None,
    })
}

/// Numbers, which are as wide as what they count.
macro_rules! carried_numbers {
    ($($number:ty),*) => {
        $(impl Carried for $number {
            fn read(values: &mut Values) -> $number {
                values.next_as(|value| value.try_into().ok())
            }
        })*
    };
}

carried_numbers!(u64, u32, u16, usize);

/// What may be none.
macro_rules! carried_options {
    ($($what:ty),*) => {
        $(impl Carried for Option<$what> {
            const COUNT: usize = 1 + <$what>::COUNT;

            fn read(values: &mut Values) -> Option<$what> {
                optional(values)
            }
        })*
    };
}

carried_options!(
    u64,
    u16,
    crate::leaf::Decoded,
    crate::leaf::Reach,
    crate::layout::Exposed,
    (u64, crate::names::Access)
);
