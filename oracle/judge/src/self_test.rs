//! Tests the comparison itself: one that misses a fault is no evidence.

use std::fmt::{self, Display, Formatter};

use crate::compare::{compare, Difference};
use crate::function::{faults, for_all, functions, Fault, Input, Layer};
use crate::round::Round;

/// How many faults of a call there are: slips of the port, and of the code that calls it here.
struct Line {
    call: &'static str,
    of_port: usize,
    of_wrapper: usize,
    caught: usize,
}

pub fn self_test() -> Result<(), String> {
    let mut lines = Vec::new();
    for_all!(layers => test(layers, &mut lines));
    println!("\n| call | slips of the port | slips of the wrapper | caught |\n|---|---|---|---|");
    let mut all = Line::new("all");
    for line in &lines {
        println!("{line}");
        all.of_port += line.of_port;
        all.of_wrapper += line.of_wrapper;
        all.caught += line.caught;
    }
    println!("{all}\n");
    let faults = all.of_port + all.of_wrapper;
    match faults - all.caught {
        0 => println!("{faults} faults, all caught"),
        missed => return Err(format!("{missed} faults not caught")),
    }
    Ok(())
}

/// Seeds the faults of these layers.
fn test<I: Input>(layers: &'static [Layer<I>], lines: &mut Vec<Line>) {
    for layer in layers {
        for fault in layer.faults.iter().copied().flatten() {
            line(lines, layers, fault).of_port += 1;
        }
        for fault in layer.wrapper_faults.iter().copied().flatten() {
            line(lines, layers, fault).of_wrapper += 1;
        }
    }
    for fault in faults(layers) {
        line(lines, layers, fault).caught += usize::from(reported(layers, fault));
    }
}

/// The line of the call that the fault is in.
fn line<'a, I: Input>(
    lines: &'a mut Vec<Line>,
    layers: &'static [Layer<I>],
    fault: &Fault<I>,
) -> &'a mut Line {
    let mut functions = functions(layers);
    let function = functions.find(|function| function.op == fault.op);
    let call = function.expect("a fault is in a function").call;
    let place = lines.iter().position(|line| line.call == call);
    let place = place.unwrap_or_else(|| {
        lines.push(Line::new(call));
        lines.len() - 1
    });
    &mut lines[place]
}

impl Line {
    fn new(call: &'static str) -> Self {
        Line {
            call,
            of_port: 0,
            of_wrapper: 0,
            caught: 0,
        }
    }
}

impl Display for Line {
    fn fmt(&self, f: &mut Formatter) -> fmt::Result {
        let Line {
            call,
            of_port,
            of_wrapper,
            caught,
        } = self;
        write!(f, "| {call} | {of_port} | {of_wrapper} | {caught} |")
    }
}

fn reported<I: Input>(layers: &'static [Layer<I>], fault: &Fault<I>) -> bool {
    let name = fault.name;
    match caught(layers, fault) {
        Some(found) => {
            println!("fault {name}: caught at {} {}", found.function, found.input);
            true
        }
        None => {
            println!("fault {name}: not caught, {}", fault.slip);
            false
        }
    }
}

/// The difference that the fault makes. One that the port has without the fault does not count.
fn caught<I: Input>(layers: &'static [Layer<I>], fault: &Fault<I>) -> Option<Box<Difference>> {
    functions(layers)
        .filter(|function| function.op == fault.op)
        .find_map(|function| compare(function, Round::FIRST, Some(fault)).err())
        .filter(|found| found.seeded)
}
