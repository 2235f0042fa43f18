// SPDX-License-Identifier: Apache-2.0 OR MIT
//! The listing of a file.

use crate::contract::Entry;
use crate::misreading::Misreading::*;
use crate::verdict::{Answer, Cover};
use crate::Rules;

impl Rules {
    /// The listing, in bytes; each line ends with a line feed.
    pub fn listing(&self, file: &[u8]) -> Vec<u8> {
        self.lines(file, false).into_bytes()
    }

    /// The listing with the reason behind each rejected payout's number.
    pub fn listing_with_reasons(&self, file: &[u8]) -> Vec<u8> {
        self.lines(file, true).into_bytes()
    }

    fn lines(&self, file: &[u8], reasons: bool) -> String {
        let fields = match self.file_fields(file) {
            Ok(fields) => fields,
            Err(refusal) => return format!("r {} {}\n", refusal.number, refusal.place),
        };
        let contract = self.contract(&fields);
        if contract.entries.is_empty() && self.misreads(NoEntriesRefused) {
            return "r 9 0\n".to_string();
        }
        let mut text = String::new();
        let mut refused = 0;
        for (number, entry) in contract.entries.iter().enumerate() {
            let answer = self.entry_answer(&contract, entry, usize::MAX);
            let shown = self.reading(RefusedEntriesNotNumbered, number - refused, number);
            text.push_str(&self.entry_lines(entry, shown, &answer, reasons));
            refused += usize::from(matches!(answer, Answer::Refused { .. }));
            if self.ends_listing(&answer) {
                break;
            }
        }
        text
    }

    fn ends_listing(&self, answer: &Answer) -> bool {
        match answer {
            Answer::Refused { .. } => self.misreads(RefusedEntryEndsListing),
            Answer::Rejected { .. } => self.misreads(RejectedEntryEndsListing),
            Answer::Accepted { .. } => false,
        }
    }

    fn entry_lines(
        &self,
        entry: &Entry<'_>,
        number: usize,
        answer: &Answer,
        reasons: bool,
    ) -> String {
        match answer {
            Answer::Refused { number, place } => format!("r {number} {place}\n"),
            Answer::Rejected { payout, reason } if reasons => {
                format!("e {number} no {payout} {reason}\n")
            }
            Answer::Rejected { payout, .. } => format!("e {number} no {payout}\n"),
            Answer::Accepted { covers } => {
                let mut lines = format!(
                    "e {number} ok {} {}\n",
                    covers.len(),
                    self.spare(entry, covers)
                );
                for (payout, cover) in covers.iter().enumerate() {
                    lines.push_str(&format!("p {payout} {} {}\n", cover.kind, cover.index));
                }
                lines
            }
        }
    }

    /// Backings minus payouts, or 0 if that is negative.
    fn spare(&self, entry: &Entry<'_>, covers: &[Cover]) -> usize {
        let backings = self.backings(entry).len();
        match self.misreading {
            Some(SpareNegativeIsPositive) => backings.abs_diff(covers.len()),
            Some(SpareOfDebitsOnly) => self.debits(entry).len().saturating_sub(covers.len()),
            Some(SpareOfUncovered) => {
                backings - covers.iter().filter(|cover| cover.kind < 5).count()
            }
            Some(SpareOfAllBackings) => backings,
            _ => backings.saturating_sub(covers.len()),
        }
    }
}
