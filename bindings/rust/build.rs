//! Links the library's archives where bindings/build writes them, or where `EXPORTS_LIB` and `OWNED_LIB` say.

use std::path::{Path, PathBuf};
use std::{env, process};

fn main() {
    if env::var_os("CARGO_FEATURE_OWNED").is_some() {
        link("tracker_owned", "OWNED_LIB");
    }
    link("tracker", "EXPORTS_LIB");
}

/// Links the archive of that name, which the variable names or which stands at its default place.
fn link(of: &str, variable: &str) {
    println!("cargo:rerun-if-env-changed={variable}");
    let package = PathBuf::from(env::var_os("CARGO_MANIFEST_DIR").expect("cargo sets it"));
    let default = format!("../../target/lib/lib{of}.a");
    let given = env::var_os(variable).map(PathBuf::from);
    let archive = package.join(given.as_deref().unwrap_or(Path::new(&default)));
    println!("cargo:rerun-if-changed={}", archive.display());
    let name = archive.file_stem().and_then(|stem| stem.to_str()).and_then(|stem| stem.strip_prefix("lib"));
    let (Some(folder), Some(name), true) = (archive.parent(), name, archive.is_file()) else {
        eprintln!("no archive {}: bindings/build writes it, {variable} names another", archive.display());
        process::exit(1);
    };
    println!("cargo:rustc-link-search=native={}", folder.display());
    println!("cargo:rustc-link-lib=static={name}");
}
