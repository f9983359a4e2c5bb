//! Times each call of `libs2.a` beside its Rust original, and prints a line of a Markdown table for
//! each input.

mod annexes;
mod arenas;
mod calls;
mod edges;
mod grants;
mod layouts;
mod scene;
mod time;
mod walks;

use time::least;

pub fn bench() -> Result<(), String> {
    println!("| call | input | beside it | the Rust, ns | the port, ns | ratio |");
    println!("|---|---|---|---|---|---|");
    layouts::lines();
    arenas::lines();
    walks::lines();
    annexes::lines();
    edges::lines();
    grants::lines();
    Ok(())
}

/// A line of the table.
struct Line<'a> {
    call: &'a str,
    input: &'a str,
    /// What is timed beside the call: of the Rust, where that has anything like it.
    beside: &'a str,
    /// Whether it answers the same question. Else the line has no ratio.
    alike: bool,
}

impl Line<'_> {
    /// Each side tells whether it accepts, so that neither is timed on another path than the other.
    fn print(&self, mut rust: impl FnMut() -> bool, mut port: impl FnMut() -> bool) {
        let Line {
            call,
            input,
            beside,
            alike,
        } = self;
        assert_eq!(rust(), port(), "{call}, {input}: {beside} says otherwise");
        let (rust, port) = least(rust, port);
        let ratio = match alike {
            true => format!("{:.2}", port / rust),
            false => "none".into(),
        };
        println!("| `{call}` | {input} | {beside} | {rust:.1} | {port:.1} | {ratio} |");
    }
}
