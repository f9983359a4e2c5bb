//! How many inputs had which answer.

use std::fmt::{self, Display, Formatter};

use crate::function::Answer;

pub struct Tally {
    function: &'static str,
    answers: &'static [Answer],
    pub inputs: u64,
    /// One count for each kind of answer.
    counts: Vec<u64>,
}

impl Tally {
    pub fn new(function: &'static str, answers: &'static [Answer]) -> Self {
        Tally {
            function,
            answers,
            inputs: 0,
            counts: vec![0; answers.len()],
        }
    }

    pub fn count(&mut self, answer: &[u64]) {
        self.inputs += 1;
        for (count, (_, is)) in self.counts.iter_mut().zip(self.answers) {
            *count += u64::from(is(answer));
        }
    }

    /// Counts what another tally of the function has counted.
    pub fn add(&mut self, other: &Tally) {
        self.inputs += other.inputs;
        for (count, more) in self.counts.iter_mut().zip(&other.counts) {
            *count += more;
        }
    }

    /// The kinds of answer, each with its count.
    pub fn answers(&self) -> impl Iterator<Item = (&'static str, u64)> + '_ {
        let counts = self.counts.iter().copied();
        self.answers.iter().map(|(answer, _)| *answer).zip(counts)
    }

    /// Fails for a kind of answer that too few inputs have: it would go unchecked.
    pub fn complete(&self, least: u64) -> Result<(), String> {
        for (answer, count) in self.answers() {
            if count < least {
                let name = self.function;
                return Err(format!(
                    "{name}: {count} inputs have the answer {answer}, not {least} or more"
                ));
            }
        }
        Ok(())
    }
}

impl Display for Tally {
    fn fmt(&self, f: &mut Formatter) -> fmt::Result {
        write!(f, "{}: {} inputs", self.function, self.inputs)?;
        for (answer, count) in self.answers() {
            write!(f, ", {answer} {count}")?;
        }
        Ok(())
    }
}
