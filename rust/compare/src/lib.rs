// SPDX-License-Identifier: Apache-2.0 OR MIT
//! Compares payout checkers with the original on generated files.
//!
//! A checker is asked for whole listings ([`compare_listings`]) or, in this
//! process, for the verdict and covers of single entries
//! ([`compare_in_process`]). The first difference is made as small as it goes.
//! One file that is at hand is compared by [`difference_on`].

mod process;
mod shrink;

pub use process::{compare_in_process, difference_on, original, write_covers, Verdict};
pub use shrink::shrunk;

use std::fmt::{Display, Formatter};
use std::ops::Range;

/// A file on which the checker and the original differ.
#[derive(Debug)]
pub struct Difference {
    pub seed: u64,
    pub file: Vec<u8>,
    pub expected: String,
    pub found: String,
}

impl Display for Difference {
    fn fmt(&self, out: &mut Formatter) -> std::fmt::Result {
        writeln!(out, "seed {}, made smaller:", self.seed)?;
        for byte in &self.file {
            write!(out, "{byte:02X} ")?;
        }
        writeln!(out, "\n{}", model_text::to_text(&self.file))?;
        writeln!(out, "expected:\n{}", self.expected)?;
        write!(out, "found:\n{}", self.found)
    }
}

/// The first difference between a checker's listings and the original's.
pub fn compare_listings(
    seeds: Range<u64>,
    mut list: impl FnMut(&[u8]) -> Vec<u8>,
) -> Option<Difference> {
    let mut differs = |file: &[u8]| list(file) != oracle::listing(file);
    let (seed, file) = first_difference(seeds, |_, file| differs(file))?;
    let file = shrunk(file, &mut differs);
    Some(Difference {
        seed,
        expected: String::from_utf8_lossy(&oracle::listing(&file)).into_owned(),
        found: String::from_utf8_lossy(&list(&file)).into_owned(),
        file,
    })
}

/// The first seed whose file differs, with the file.
fn first_difference(
    mut seeds: Range<u64>,
    mut differs: impl FnMut(u64, &[u8]) -> bool,
) -> Option<(u64, Vec<u8>)> {
    seeds.find_map(|seed| {
        let file = generator::file(seed);
        differs(seed, &file).then_some((seed, file))
    })
}
