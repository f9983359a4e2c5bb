//! Declares modules of the original where they stand, so that there is no copy to go stale.

use std::path::{Path, PathBuf};
use std::{env, fs};

/// Writes `originals.rs` into `OUT_DIR`: one `pub mod` for each module of the original crate.
pub fn declare(package: &str, modules: &[&str]) {
    println!("cargo::rerun-if-env-changed=HV_SRC");
    let folder = sources().join(package).join("src");
    let items: String = modules.iter().map(|name| item(&folder, name)).collect();
    fs::write(variable("OUT_DIR").join("originals.rs"), items).expect("OUT_DIR is writable");
}

/// The folder that `HV_SRC` names. A relative one starts at the project's root.
fn sources() -> PathBuf {
    let folder = env::var_os("HV_SRC").unwrap_or("../shared/docs/src".into());
    variable("CARGO_MANIFEST_DIR").join("../..").join(folder)
}

fn item(folder: &Path, name: &str) -> String {
    let file = folder.join(name).with_extension("rs");
    let Ok(path) = file.canonicalize() else {
        let file = file.display();
        println!("cargo::error=no {file}: HV_SRC names the folder of hv-core and hv-s2");
        return String::new();
    };
    println!("cargo::rerun-if-changed={}", path.display());
    format!("#[path = {path:?}]\npub mod {name};\n")
}

fn variable(name: &str) -> PathBuf {
    env::var_os(name).expect("cargo sets it").into()
}
