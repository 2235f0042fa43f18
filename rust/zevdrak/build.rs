// SPDX-License-Identifier: Apache-2.0 OR MIT
//! Links the static library of the proved functions.

use std::path::{Path, PathBuf};

/// Where `rt lib` in crates/export puts it, seen from this member, unless
/// ZEVDRAK_LIBRARY says otherwise.
const DEFAULT: &str = "../../crates/export/out";

fn main() {
    println!("cargo:rerun-if-env-changed=ZEVDRAK_LIBRARY");
    let folder = match std::env::var_os("ZEVDRAK_LIBRARY") {
        Some(folder) => PathBuf::from(folder),
        None => Path::new(env!("CARGO_MANIFEST_DIR")).join(DEFAULT),
    };
    let archive = folder.join("libexport.a");
    println!("cargo:rerun-if-changed={}", archive.display());
    if !archive.exists() {
        eprintln!("The static library {} was not found.", archive.display());
        eprintln!("Make it with `rt lib` in the repository's folder crates/export, or set ZEVDRAK_LIBRARY to its folder.");
        std::process::exit(1);
    }
    println!("cargo:rustc-link-search=native={}", folder.display());
    println!("cargo:rustc-link-lib=static=export");
}
