//! Links the static library of the calls.

use std::path::Path;
use std::{env, fs};

fn main() {
    println!("cargo::rerun-if-env-changed=S2_DIR");
    let variable = |name| env::var(name).expect("cargo sets it");
    let made_in = match variable("CARGO_CFG_TARGET_ARCH").as_str() {
        "aarch64" => "target/aarch64",
        _ => "target/staticlib",
    };
    let root = Path::new(&variable("CARGO_MANIFEST_DIR")).join("../..");
    // A relative folder starts at the project's root.
    let folder = fs::canonicalize(root)
        .expect("the crate is in its project")
        .join(env::var_os("S2_DIR").unwrap_or(made_in.into()));
    let archive = folder.join("libs2.a");
    println!("cargo::rerun-if-changed={}", archive.display());
    println!("cargo::rustc-link-search=native={}", folder.display());
    println!("cargo::rustc-link-lib=static=s2");
    // No error: documentation needs no library. Where one is linked, cargo prints it beside rustc's.
    if !archive.exists() {
        let archive = archive.display();
        println!(
            "cargo::warning=no {archive}: 'make library' makes it, or S2_DIR names its folder"
        );
    }
}
