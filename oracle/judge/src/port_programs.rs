//! The port's side of the programs that read a scene: the programs themselves.

use std::env;
use std::io::{ErrorKind, Write};
use std::path::{Path, PathBuf};
use std::process::{ChildStdin, Command, Stdio};
use std::thread;

use crate::programs::{Printed, Program, Text};

/// What the program prints when it reads the text.
pub fn run(program: Program, text: &Text) -> Printed {
    let file = program.file();
    let child = Command::new(&file)
        .stdin(Stdio::piped())
        .stdout(Stdio::piped())
        .spawn();
    let mut child = child.unwrap_or_else(|error| {
        let (file, variable) = (file.display(), program.variable());
        panic!("{file}: {error}. {variable} names the program")
    });
    let stdin = child.stdin.take().expect("its stdin is a pipe");
    // Fed beside the reading of what it prints, so that neither waits for the other.
    let output = thread::scope(|scope| {
        scope.spawn(|| feed(stdin, &text.0));
        child.wait_with_output().expect("its stdout can be read")
    });
    Printed::new(output.status.code(), output.stdout)
}

/// The program need not read past a bad line.
fn feed(mut stdin: ChildStdin, text: &[u8]) {
    match stdin.write_all(text) {
        Err(error) if error.kind() != ErrorKind::BrokenPipe => panic!("its stdin: {error}"),
        _ => (),
    }
}

impl Program {
    fn variable(self) -> &'static str {
        match self {
            Program::Dump => "S2DUMP",
            Program::Annex => "S2ANNEX",
        }
    }

    /// A relative path starts at the project's root.
    fn file(self) -> PathBuf {
        let default = match self {
            Program::Dump => "target/bin/s2dump",
            Program::Annex => "target/bin/s2annex",
        };
        let path = env::var_os(self.variable()).unwrap_or(default.into());
        Path::new(env!("CARGO_MANIFEST_DIR"))
            .join("../..")
            .join(path)
    }
}
