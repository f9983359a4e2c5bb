//! The original's answers as text, so that the port can be checked where the original is not.

use std::fs;
use std::path::Path;

use crate::compare::compare_layers;
use crate::function::{functions, Function, Input, LAYOUTS, WORDS};
use crate::inputs::{Random, Words};
use crate::layout_inputs;
use crate::record_maps;
use crate::record_tables;
use crate::round::Round;
use crate::tally::Tally;

/// About how many inputs of each sweep are recorded, besides the whole boundary.
const SAMPLE: u64 = 5;

/// The lines that a program of the port reads, and those that it must write.
struct Record {
    program: &'static str,
    stdin: String,
    stdout: String,
    answers: usize,
}

pub fn write(folder: &str) -> Result<(), String> {
    for record in records()? {
        let folder = Path::new(folder).join(record.program);
        fs::create_dir_all(&folder)
            .and_then(|()| fs::write(folder.join("stdin"), &record.stdin))
            .and_then(|()| fs::write(folder.join("stdout"), &record.stdout))
            .map_err(|error| format!("{}: {error}", folder.display()))?;
        println!("{}: {} answers recorded", record.program, record.answers);
    }
    Ok(())
}

pub fn check(folder: &str) -> Result<(), String> {
    for record in records()? {
        let folder = Path::new(folder).join(record.program);
        for (name, expected) in [("stdin", &record.stdin), ("stdout", &record.stdout)] {
            let file = folder.join(name);
            let found = fs::read(&file).map_err(|error| format!("{}: {error}", file.display()))?;
            if found != expected.as_bytes() {
                return Err(format!("{} is not what the original gives", file.display()));
            }
        }
        let (program, count) = (record.program, record.answers);
        println!("{program}: {count} recorded answers are the original's");
    }
    // Those that carry edges, which the program lends as rows.
    compare_layers(&record_maps::FILLINGS, None)?;
    compare_layers(&record_maps::LINKED, None)?;
    Ok(())
}

/// One record for each program that replays answers.
fn records() -> Result<[Record; 4], String> {
    let mut replay = Record::new("replay");
    for function in functions(&WORDS).filter(|function| function.recorded) {
        let line = |input: &Words| format!("{:016x} {}", function.op, digits(input));
        replay.add(function, selection(function), line)?;
    }
    let mut layouts = Record::new("replay_layouts");
    for function in functions(&LAYOUTS).filter(|function| function.recorded) {
        layouts.add(function, layout_inputs::recorded(), digits)?;
    }
    let mut maps = Record::new("replay_maps");
    (maps.stdin, maps.stdout) = record_maps::lines()?;
    maps.answers = maps.stdin.lines().count();
    let mut tables = Record::new("replay_tables");
    (tables.stdin, tables.stdout, tables.answers) = record_tables::lines()?;
    Ok([replay, layouts, maps, tables])
}

impl Record {
    fn new(program: &'static str) -> Self {
        Record {
            program,
            stdin: String::new(),
            stdout: String::new(),
            answers: 0,
        }
    }

    fn add<I: Input<Reply = [u64; N]>, const N: usize>(
        &mut self,
        function: &Function<I>,
        inputs: impl Iterator<Item = I>,
        line: impl Fn(&I) -> String,
    ) -> Result<(), String> {
        let mut tally = Tally::new(function.name, function.answers);
        for input in inputs {
            let answer = (function.original)(&input);
            tally.count(&answer);
            self.stdin += &format!("{}\n", line(&input));
            self.stdout += &format!("{}\n", digits(&answer));
            self.answers += 1;
        }
        tally.complete(1)
    }
}

fn selection(function: &Function) -> impl Iterator<Item = Words> {
    let count = (function.sweep)(Round::FIRST).count() as u64;
    let mut random = Random(12);
    let sample = (function.sweep)(Round::FIRST).filter(move |_| random.below(count) < SAMPLE);
    (function.boundary)().chain(sample)
}

/// Sixteen digits for each word, so that all lines are of one length.
pub fn digits<const N: usize>(words: &[u64; N]) -> String {
    words.map(|word| format!("{word:016x}")).join(" ")
}
