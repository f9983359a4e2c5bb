//! Scenes in a folder: each text with what the programs must print for it beside it.

use std::fs;
use std::path::{Path, PathBuf};

use crate::annex_text::annex_text;
use crate::dump::dump;
use crate::programs::{Printed, Text};

/// The extension of a file, and what it holds of a text.
type Held = (&'static str, fn(&Text) -> Printed);

/// What each program prints.
const PRINTED: [Held; 2] = [("out", dump), ("annex", annex_text)];

/// Writes what is printed for each scene.
pub fn write(folder: &str) -> Result<(), String> {
    let texts = texts(folder)?;
    for (file, printed) in files(&texts)? {
        fs::write(&file, printed).map_err(|error| failure(&file, error))?;
    }
    println!("{} scenes written", texts.len());
    Ok(())
}

/// Compares what is written for each scene with what is printed.
pub fn check(folder: &str) -> Result<(), String> {
    let texts = texts(folder)?;
    for (file, printed) in files(&texts)? {
        let found = fs::read(&file).map_err(|error| failure(&file, error))?;
        if found != printed {
            return Err(format!("{} is not what the original gives", file.display()));
        }
    }
    println!("{} scenes are the original's", texts.len());
    Ok(())
}

/// The files beside the texts, and what they hold.
fn files(texts: &[PathBuf]) -> Result<Vec<(PathBuf, Vec<u8>)>, String> {
    let mut files = Vec::new();
    for path in texts {
        let text = fs::read(path).map_err(|error| failure(path, error))?;
        let text = Text(text);
        for (extension, printed) in PRINTED {
            files.push((path.with_extension(extension), printed(&text).stdout));
        }
    }
    Ok(files)
}

/// The texts of a folder. One without any is a failure: nothing would be checked.
fn texts(folder: &str) -> Result<Vec<PathBuf>, String> {
    let folder = Path::new(folder);
    let entries = fs::read_dir(folder).map_err(|error| failure(folder, error))?;
    let files = entries.map(|entry| entry.map(|entry| entry.path()));
    let files = files.collect::<Result<Vec<_>, _>>();
    let mut texts = files.map_err(|error| failure(folder, error))?;
    texts.retain(|file| file.extension().is_some_and(|extension| extension == "txt"));
    texts.sort();
    match texts.is_empty() {
        true => Err(format!("{} has no scene", folder.display())),
        false => Ok(texts),
    }
}

fn failure(path: &Path, error: std::io::Error) -> String {
    format!("{}: {error}", path.display())
}
