// SPDX-License-Identifier: Apache-2.0 OR MIT
//! A readable text form of model files.
//!
//! One line of text stands for one field, an entry for a block of lines:
//!
//! ```text
//! state reserve: Int = 0
//! genesis reserve = 0
//! entry withdraw(a: Q_Asset, n: Int)
//!   limits in_asset == T            # comments run to the end of the line
//!   denies not n > 5
//!   guard reserve >= a.amount * 2
//!   let half = n / 2
//!   emit Sent(half, caller)
//!   reserve -= a.amount * 2
//!   send_asset(T, caller, a.amount * 2)
//! end
//! ```
//!
//! Operators from loosest to tightest: `||`, `&&`, `not`, `== !=`,
//! `< > <= >=`, `>>`, `+ -`, `* / %`, `-` in front, then `.name` and calls.
//! Binary operators group to the left. A line goes on while a parenthesis is
//! open.
//!
//! Texts that are no plain words have forms of their own: a quoted name,
//! `ident("...")`, `int("...")`, `date("...")`, and `"..."` for a string.
//! Inside quotes `\"`, `\\` and `\xHH` are known.
//!
//! Every byte string has a text. What is no well-formed field is written with
//! `field HH { lines }`, `text HH "..."`, `bytes HH HH ...`, `parameter` and
//! `expression`, which may stand on any line: the text form shows a file, it
//! does not check it.

mod printer;
mod reader;
mod tag;
mod token;

pub use printer::to_text;
pub use reader::to_bytes;

/// Where a text stops being a model, counted from 1, and why.
#[derive(Debug, Clone, PartialEq, Eq)]
pub struct TextError {
    pub line: usize,
    pub column: usize,
    pub message: String,
}

impl std::fmt::Display for TextError {
    fn fmt(&self, formatter: &mut std::fmt::Formatter<'_>) -> std::fmt::Result {
        write!(
            formatter,
            "line {}, column {}: {}",
            self.line, self.column, self.message
        )
    }
}

impl std::error::Error for TextError {}
