// SPDX-License-Identifier: Apache-2.0 OR MIT
//! The original syntax tree of Quanta, compiled unchanged from QUANTA_SRC.

mod ast {
    include!(env!("QUANTA_AST"));
}

pub use ast::*;
