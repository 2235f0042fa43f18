// SPDX-License-Identifier: Apache-2.0 OR MIT
//! The rules of payout backing, a second time: written from the rules
//! document alone, sentence by sentence, and not from the code they replace.
//!
//! Clarity goes before speed. Each heading of the document has its module.
//! Deliberate misreadings can be switched on one at a time, to measure
//! whether a set of test files would notice a checker that has them.

mod bounds;
mod conditions;
mod contract;
mod equality;
mod field;
mod listing;
mod matching;
mod measure;
mod misreading;
mod questions;
mod reserves;
mod tokens;
mod verdict;
mod walking;

pub use measure::Observed;
pub use misreading::{Misreading, MISREADINGS};
pub use verdict::{Answer, Cover};

/// The rules of the document, or the same rules with one sentence misread.
#[derive(Debug, Clone, Copy, Default)]
pub struct Rules {
    misreading: Option<Misreading>,
}

impl Rules {
    /// The rules as the document says them.
    pub const fn as_written() -> Self {
        Rules { misreading: None }
    }

    /// The rules with one misreading.
    pub const fn misread(misreading: Misreading) -> Self {
        Rules {
            misreading: Some(misreading),
        }
    }

    /// True where the given misreading is switched on.
    fn misreads(&self, misreading: Misreading) -> bool {
        self.misreading == Some(misreading)
    }

    /// One value under a misreading, another as written.
    fn reading<T>(&self, misreading: Misreading, misread: T, as_written: T) -> T {
        match self.misreads(misreading) {
            true => misread,
            false => as_written,
        }
    }
}

/// The listing of a file: a refusal, or the verdict on each entry.
pub fn listing(file: &[u8]) -> Vec<u8> {
    Rules::as_written().listing(file)
}

/// The listing with the reason behind the number of each rejected payout.
pub fn listing_with_reasons(file: &[u8]) -> Vec<u8> {
    Rules::as_written().listing_with_reasons(file)
}

/// The answer for one entry, counted from 0, with covers of a given length.
pub fn answer(file: &[u8], entry: usize, covers_len: usize) -> Answer {
    Rules::as_written().answer(file, entry, covers_len)
}
