// SPDX-License-Identifier: Apache-2.0 OR MIT
//! Finds the original Rust sources, for the build scripts that compile them.

use std::path::{Path, PathBuf};

/// Where the sources stand, seen from a member of this workspace, unless
/// QUANTA_SRC says otherwise.
const DEFAULT: &str = "../../../shared/docs/src";

/// The path of one original file. Ends the build with a message if the file
/// is not there.
pub fn original(file: &str) -> PathBuf {
    println!("cargo:rerun-if-env-changed=QUANTA_SRC");
    let path = match std::env::var_os("QUANTA_SRC") {
        Some(folder) => Path::new(&folder).join(file),
        None => Path::new(env!("CARGO_MANIFEST_DIR"))
            .join(DEFAULT)
            .join(file),
    };
    println!("cargo:rerun-if-changed={}", path.display());
    match path.canonicalize() {
        Ok(found) => found,
        Err(why) => {
            eprintln!(
                "The original source {} was not found ({why}).",
                path.display()
            );
            eprintln!("Set QUANTA_SRC to the absolute path of the folder that holds quanta-ast and quanta-typeck.");
            std::process::exit(1);
        }
    }
}
