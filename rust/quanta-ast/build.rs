// SPDX-License-Identifier: Apache-2.0 OR MIT
//! Tells the compiler where the original `ast.rs` stands.

mod sources;

fn main() {
    let tree = sources::original("quanta-ast/src/ast.rs");
    println!("cargo:rustc-env=QUANTA_AST={}", tree.display());
}
