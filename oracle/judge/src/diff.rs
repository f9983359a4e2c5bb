//! The comparison at scale: round after round of other random inputs, until each call of the port
//! has been asked enough.

use std::panic::{catch_unwind, AssertUnwindSafe};
use std::sync::atomic::{AtomicUsize, Ordering};
use std::sync::Mutex;
use std::thread;
use std::time::Instant;

use crate::diff_lines::{Done, Job, Line, Progress, Table};
use crate::function::{for_all, functions, is_program};
use crate::round::Round;

pub struct Wanted {
    seed: u64,
    /// How many inputs a call must have.
    inputs: u64,
    /// The name of the one function that is asked.
    only: Option<String>,
    /// The one round that is asked.
    round: Option<u64>,
}

impl Wanted {
    pub fn parse(mut options: &[&str]) -> Option<Self> {
        let mut wanted = Wanted {
            seed: 1,
            inputs: 10_000_000,
            only: None,
            round: None,
        };
        while let [option, value, rest @ ..] = options {
            match *option {
                "--seed" => wanted.seed = value.parse().ok()?,
                "--inputs" => wanted.inputs = value.parse().ok()?,
                "--only" => wanted.only = Some(value.to_string()),
                "--round" => wanted.round = Some(value.parse().ok()?),
                _ => return None,
            }
            options = rest;
        }
        options.is_empty().then_some(wanted)
    }

    /// Asks every call, prints the table, and fails if there is a difference.
    pub fn diff(&self) -> Result<(), String> {
        let mut lines = self.lines()?;
        let mut failures = Vec::new();
        while failures.is_empty() {
            let jobs = self.jobs(&lines);
            if jobs.is_empty() {
                break;
            }
            for done in self.ask(&lines, &jobs) {
                failures.extend(lines[done.job.line].add(done));
            }
        }
        lines.iter().for_each(|line| eprintln!("{}", line.speed()));
        println!("seed {}\n\n{}", self.seed, Table(&lines));
        match (&failures[..], self.round) {
            ([], None) => lines.iter().try_for_each(Line::complete),
            ([], Some(_)) => Ok(()),
            (failures, _) => Err(failures.join("\n")),
        }
    }

    fn lines(&self) -> Result<Vec<Line>, String> {
        let mut lines: Vec<Line> = Vec::new();
        for_all!(layers => lines.extend(functions(layers).map(Line::new)));
        if let Some(only) = &self.only {
            lines.retain(|line| line.name == only);
            if lines.is_empty() {
                return Err(format!("no function is named {only}"));
            }
        }
        Ok(lines)
    }

    /// The rounds that are missing, the same of all functions of a call. How many there are follows
    /// from what is counted, so that every run of a seed asks the same.
    fn jobs(&self, lines: &[Line]) -> Vec<Job> {
        let rounds = |line: &Line| {
            let of_call = || lines.iter().filter(|other| other.call == line.call);
            let asked: u64 = of_call().map(Line::inputs).sum();
            let missing = self.least(line.call).saturating_sub(asked);
            match (self.round, line.rounds) {
                (Some(round), 0) => round..round + 1,
                (Some(_), _) => 0..0,
                // The second round tells how many inputs those after it have.
                (None, 0) => 0..2,
                (None, next) => {
                    let a_round: u64 = of_call().map(|line| line.last).sum();
                    next..next + missing.div_ceil(a_round)
                }
            }
        };
        let jobs = lines.iter().enumerate().flat_map(|(at, line)| {
            let job = move |round| Job { line: at, round };
            rounds(line).map(job)
        });
        jobs.collect()
    }

    /// How many inputs the call must have.
    fn least(&self, call: &str) -> u64 {
        match call {
            "s2_validate" | "s2_walk" => self.inputs * 10,
            _ if call.starts_with("decode_") => self.inputs * 10,
            _ if is_program(call) => self.inputs / 100,
            _ => self.inputs,
        }
    }

    /// What the jobs find. Each core takes one after another, until one fails.
    fn ask(&self, lines: &[Line], jobs: &[Job]) -> Vec<Done> {
        let next = AtomicUsize::new(0);
        let progress = Mutex::new(Progress::new(jobs.len()));
        let work = || {
            let mut all = Vec::new();
            while let Some(job) = jobs.get(next.fetch_add(1, Ordering::Relaxed)) {
                let line = &lines[job.line];
                let done = self.ask_one(line, *job);
                if done.found.is_err() {
                    next.store(jobs.len(), Ordering::Relaxed);
                }
                let mut progress = progress.lock().expect("no thread has panicked");
                progress.tell(line, &done);
                all.push(done);
            }
            all
        };
        let cores = thread::available_parallelism().map_or(1, usize::from);
        thread::scope(|scope| {
            let threads: Vec<_> = (0..cores).map(|_| scope.spawn(work)).collect();
            let found = threads.into_iter().map(|thread| thread.join());
            found
                .flat_map(|found| found.expect("no thread has panicked"))
                .collect()
        })
    }

    /// A panic is a failure too: a call has stored where it must not, or no row explains an answer.
    fn ask_one(&self, line: &Line, job: Job) -> Done {
        let start = Instant::now();
        let round = Round::new(self.seed, line.name, job.round);
        let found = match catch_unwind(AssertUnwindSafe(|| line.ask(round))) {
            Ok(Ok(tally)) => Ok(tally),
            Ok(Err(difference)) => Err(difference.to_string()),
            Err(_) => Err(format!("{} panics", line.name)),
        };
        let (seed, name, round) = (self.seed, line.name, job.round);
        let again = format!("asked again by diff --seed {seed} --only '{name}' --round {round}");
        Done {
            job,
            found: found.map_err(|failure| format!("{failure}\n  {again}")),
            time: start.elapsed(),
        }
    }
}
