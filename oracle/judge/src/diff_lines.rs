//! What is counted of each function in the comparison at scale, and how it is told.

use std::fmt::{self, Display, Formatter};
use std::time::{Duration, Instant};

use crate::compare::{compare, Difference};
use crate::function::{Function, Input};
use crate::round::Round;
use crate::tally::Tally;

/// A function of the comparison, whatever its inputs are.
pub struct Line {
    pub call: &'static str,
    pub name: &'static str,
    /// How many rounds it is asked, and how many inputs the last of them has.
    pub rounds: u64,
    pub last: u64,
    compared: Box<dyn Fn(Round) -> Result<Tally, Box<Difference>> + Sync>,
    tally: Tally,
    /// How many of the answers must be of each kind.
    least: u64,
    differences: u64,
    time: Duration,
}

/// A round of a function, which has this place among the lines.
#[derive(Clone, Copy)]
pub struct Job {
    pub line: usize,
    pub round: u64,
}

pub struct Done {
    pub job: Job,
    pub found: Result<Tally, String>,
    pub time: Duration,
}

impl Line {
    pub fn new<I: Input>(function: &'static Function<I>) -> Self {
        Line {
            call: function.call,
            name: function.name,
            rounds: 0,
            last: 0,
            compared: Box::new(|round| compare(function, round, None)),
            tally: Tally::new(function.name, function.answers),
            least: function.least,
            differences: 0,
            time: Duration::ZERO,
        }
    }

    pub fn ask(&self, round: Round) -> Result<Tally, Box<Difference>> {
        (self.compared)(round)
    }

    pub fn inputs(&self) -> u64 {
        self.tally.inputs
    }

    /// Counts what a round has found, or says how it has failed.
    pub fn add(&mut self, done: Done) -> Option<String> {
        let tally = match done.found {
            Ok(tally) => tally,
            Err(failure) => {
                self.differences += 1;
                return Some(failure);
            }
        };
        self.tally.add(&tally);
        self.time += done.time;
        if done.job.round >= self.rounds {
            (self.rounds, self.last) = (done.job.round + 1, tally.inputs);
        }
        None
    }

    /// Fails for a kind of answer that too few inputs have.
    pub fn complete(&self) -> Result<(), String> {
        self.tally.complete(self.least)
    }

    /// How long it has taken.
    pub fn speed(&self) -> String {
        let (rounds, inputs) = (self.rounds, self.inputs());
        let seconds = self.time.as_secs_f64();
        let each = 1e6 * seconds / inputs.max(1) as f64;
        let name = self.name;
        format!("{name}: {rounds} rounds, {inputs} inputs, {seconds:.1} s, {each:.3} us each")
    }
}

/// A row for each function, and one for each call that has several.
pub struct Table<'a>(pub &'a [Line]);

impl Display for Table<'_> {
    fn fmt(&self, f: &mut Formatter) -> fmt::Result {
        writeln!(f, "| call | compared as | inputs | differences | answers |")?;
        writeln!(f, "|---|---|---|---|---|")?;
        let mut calls: Vec<&str> = self.0.iter().map(|line| line.call).collect();
        calls.sort_by_key(|call| self.0.iter().position(|line| line.call == *call));
        calls.dedup();
        for call in calls {
            let of_call = || self.0.iter().filter(|line| line.call == call);
            of_call().try_for_each(|line| writeln!(f, "{line}"))?;
            if of_call().count() > 1 {
                writeln!(f, "| {call} | all | {} | |", summed(of_call()))?;
            }
        }
        write!(f, "| all | | {} | |", summed(self.0.iter()))
    }
}

/// The inputs and the differences of these functions.
fn summed<'a>(lines: impl Iterator<Item = &'a Line> + Clone) -> String {
    let inputs = lines.clone().map(Line::inputs).sum();
    let differences: u64 = lines.map(|line| line.differences).sum();
    format!("{} | {differences}", grouped(inputs))
}

impl Display for Line {
    fn fmt(&self, f: &mut Formatter) -> fmt::Result {
        let (call, name, differences) = (self.call, self.name, self.differences);
        let inputs = grouped(self.inputs());
        let answers = self.tally.answers();
        let answers = answers.map(|(answer, count)| format!("{answer} {}", grouped(count)));
        let answers: Vec<String> = answers.collect();
        let answers = answers.join("; ");
        write!(
            f,
            "| {call} | {name} | {inputs} | {differences} | {answers} |"
        )
    }
}

/// The number with a comma between each three digits.
pub fn grouped(number: u64) -> String {
    match number {
        ..1_000 => number.to_string(),
        _ => format!("{},{:03}", grouped(number / 1_000), number % 1_000),
    }
}

/// How far a list of rounds is asked.
pub struct Progress {
    rounds: usize,
    done: usize,
    inputs: u64,
    told: Instant,
}

/// How long nothing is told.
const QUIET: Duration = Duration::from_secs(10);

impl Progress {
    pub fn new(rounds: usize) -> Self {
        Progress {
            rounds,
            done: 0,
            inputs: 0,
            told: Instant::now(),
        }
    }

    pub fn tell(&mut self, line: &Line, done: &Done) {
        self.done += 1;
        self.inputs += done.found.as_ref().map_or(0, |tally| tally.inputs);
        if self.told.elapsed() >= QUIET || self.done == self.rounds {
            let (asked, rounds, inputs) = (self.done, self.rounds, grouped(self.inputs));
            let (name, round) = (line.name, done.job.round);
            eprintln!("{asked} of {rounds} rounds, {inputs} inputs, now round {round} of {name}");
            self.told = Instant::now();
        }
    }
}
