// SPDX-License-Identifier: Apache-2.0 OR MIT
//! The error type that `signature.rs` names; no answer here depends on it.

use quanta_lexer::Span;

#[allow(dead_code)]
pub struct TypeError {
    message: String,
    span: Span,
}

#[allow(dead_code)]
impl TypeError {
    pub fn new(message: String, span: Span) -> TypeError {
        TypeError { message, span }
    }
}
