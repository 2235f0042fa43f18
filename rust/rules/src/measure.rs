// SPDX-License-Identifier: Apache-2.0 OR MIT
//! What a file shows of the rules, to tell them from a misreading.

use crate::misreading::Misreading;
use crate::verdict::Answer;
use crate::Rules;

/// Lengths of covers around those that few payouts need.
const COVERS_LENGTHS: [usize; 8] = [0, 2, 3, 4, 5, 6, 7, usize::MAX];

/// What the rules as written say of a file.
pub struct Observed<'f> {
    file: &'f [u8],
    listing: Vec<u8>,
}

impl<'f> Observed<'f> {
    pub fn new(file: &'f [u8]) -> Self {
        let listing = Rules::as_written().listing(file);
        Observed { file, listing }
    }

    /// True if the file tells a misreading from the rules as written.
    pub fn tells_apart(&self, misreading: Misreading) -> bool {
        let misread = Rules::misread(misreading);
        match misreading.shows_in_listing() {
            true => misread.listing(self.file) != self.listing,
            false => answers(misread, self.file) != answers(Rules::as_written(), self.file),
        }
    }
}

/// The answers for each entry, and for two more that are not there.
fn answers(rules: Rules, file: &[u8]) -> Vec<Answer> {
    let entry_count = match rules.file_fields(file) {
        Ok(fields) => rules.contract(&fields).entries.len(),
        Err(_) => 0,
    };
    let asked = (0..entry_count + 2).flat_map(|entry| COVERS_LENGTHS.map(|length| (entry, length)));
    asked
        .map(|(entry, length)| rules.answer(file, entry, length))
        .collect()
}
