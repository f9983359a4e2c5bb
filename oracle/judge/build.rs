//! Links the port's static libraries.

use std::env;
use std::path::PathBuf;

const LIBRARIES: [&str; 3] = ["probe", "probe_windows", "s2"];

fn main() {
    println!("cargo::rerun-if-env-changed=PROBE_DIR");
    let root = PathBuf::from(env::var_os("CARGO_MANIFEST_DIR").expect("cargo sets it"));
    // A relative folder starts at the project's root.
    let folder = root
        .join("../..")
        .join(env::var_os("PROBE_DIR").unwrap_or("target/staticlib".into()));
    println!("cargo::rustc-link-search=native={}", folder.display());
    for library in LIBRARIES {
        let archive = folder.join(format!("lib{library}.a"));
        if !archive.exists() {
            let archive = archive.display();
            println!("cargo::error=no {archive}: PROBE_DIR names its folder");
        }
        println!("cargo::rerun-if-changed={}", archive.display());
        println!("cargo::rustc-link-lib=static={library}");
    }
}
