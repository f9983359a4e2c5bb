//! Asks both sides the same, up to the first difference.

use std::fmt::{self, Display, Formatter};

use crate::function::{
    faults, for_all, functions, is_program, Fault, Function, Input, Layer, Reply,
};
use crate::round::Round;
use crate::tally::Tally;

/// Compares every function, with a fault on the port's side if one is named.
pub fn compare_all(fault: Option<&str>) -> Result<(), String> {
    let mut inputs = 0;
    for_all!(layers => inputs += compare_layers(layers, fault)?);
    println!("{inputs} inputs compared, no difference");
    Ok(())
}

/// Looks for a difference in the libraries: in the first answers of every function, then in more.
pub fn hunt() -> Result<(), String> {
    for enough in [300, 3_000, 30_000] {
        for_all!(layers => hunt_in(layers, Round::first(enough))?);
    }
    println!("no difference found");
    Ok(())
}

fn hunt_in<I: Input>(layers: &'static [Layer<I>], round: Round) -> Result<(), String> {
    for function in functions(layers).filter(|function| !is_program(function.call)) {
        compare(function, round, None).map_err(|found| found.to_string())?;
    }
    Ok(())
}

/// Compares the functions of these layers and counts their inputs.
pub fn compare_layers<I: Input>(
    layers: &'static [Layer<I>],
    fault: Option<&str>,
) -> Result<u64, String> {
    let fault = faults(layers).find(|seeded| Some(seeded.name) == fault);
    if let Some(Fault { name, slip, .. }) = fault {
        println!("with the fault {name}: {slip}");
    }
    let mut inputs = 0;
    for function in functions(layers) {
        let tally = compare(function, Round::FIRST, fault).map_err(|found| found.to_string())?;
        println!("{tally}");
        tally.complete(function.least)?;
        inputs += tally.inputs;
    }
    Ok(inputs)
}

pub fn compare<I: Input>(
    function: &Function<I>,
    round: Round,
    fault: Option<&Fault<I>>,
) -> Result<Tally, Box<Difference>> {
    let fault = fault.filter(|fault| fault.op == function.op);
    let mut tally = Tally::new(function.name, function.answers);
    for input in function.inputs(round) {
        if tally.inputs >= round.enough {
            break;
        }
        let original = (function.original)(&input);
        let unaltered = input.port(function.op);
        let altered = fault.map(|fault| {
            let mut port = unaltered.clone();
            (fault.alter)(&input, &mut port);
            port
        });
        let port = altered.as_ref().unwrap_or(&unaltered);
        if original != *port {
            return Err(Box::new(Difference {
                function: function.name,
                input: input.shown(),
                original: original.shown(port),
                port: port.shown(&original),
                seeded: original == unaltered,
            }));
        }
        original.answers().for_each(|answer| tally.count(answer));
    }
    Ok(tally)
}

pub struct Difference {
    pub function: &'static str,
    pub input: String,
    original: String,
    port: String,
    /// Whether the port without the fault has no difference here.
    pub seeded: bool,
}

impl Display for Difference {
    fn fmt(&self, f: &mut Formatter) -> fmt::Result {
        writeln!(f, "{} differs", self.function)?;
        writeln!(f, "  input    {}", self.input)?;
        writeln!(f, "  original {}", self.original)?;
        write!(f, "  port     {}", self.port)
    }
}
