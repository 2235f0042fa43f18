// SPDX-License-Identifier: Apache-2.0 OR MIT
//! The verdicts on all entries of a file, by one call.

use crate::{c, covers, told, Cover, Verdict};

/// Bytes that are enough for the records of every file: 5 and 192 for each of
/// 64 entries.
pub const RECORDS: usize = 12_608;

/// What the entries of a contract are together.
#[derive(Debug, Clone, Copy, PartialEq, Eq)]
pub enum Outcome {
    /// There are entries, and each is accepted.
    Accepted,
    /// None is refused, and at least one is rejected.
    Rejected,
    /// The file is refused, or at least one entry, or there is no entry.
    Refused,
}

/// The verdict on an entry and, where it is accepted, the covers of its payouts.
#[derive(Debug, Clone, PartialEq, Eq)]
pub struct Entry {
    pub verdict: Verdict,
    pub covers: Vec<Cover>,
}

/// The answer about a whole contract. Publish it only where the outcome is
/// [`Outcome::Accepted`].
#[derive(Debug, Clone, PartialEq, Eq)]
pub struct Contract {
    pub outcome: Outcome,
    /// In file order. A file that is refused has the refusal alone, and one
    /// without entries that of question 9.
    pub entries: Vec<Entry>,
}

/// The verdicts on all entries of a model file. The questions about the file are
/// asked once, and what the verdicts share is worked out once.
pub fn contract(file: &[u8]) -> Contract {
    let mut buffer = [0; RECORDS];
    let (outcome, records) = contract_into(file, &mut buffer);
    let entries = records.map(|(verdict, bytes)| Entry {
        verdict,
        covers: covers(bytes),
    });
    Contract {
        outcome,
        entries: entries.collect(),
    }
}

/// The same in a lent buffer, with the covers as bytes.
pub fn contract_into<'a>(file: &[u8], buffer: &'a mut [u8; RECORDS]) -> (Outcome, Records<'a>) {
    let mut length = 0;
    // The function reads the file, writes the buffer and the length, and keeps
    // none of them.
    let answer = unsafe {
        c::zevdrak_contract(
            file.as_ptr(),
            file.len(),
            buffer.as_mut_ptr(),
            buffer.len(),
            &mut length,
        )
    };
    let outcome = match answer {
        0 => Outcome::Accepted,
        1 => Outcome::Rejected,
        _ => Outcome::Refused,
    };
    (outcome, Records(&buffer[..length]))
}

/// The records of the entries, in file order: what the verdict is, its two
/// numbers in two bytes each, and 3 bytes for each payout of an accepted entry.
#[derive(Debug, Clone)]
pub struct Records<'a>(&'a [u8]);

impl<'a> Iterator for Records<'a> {
    type Item = (Verdict, &'a [u8]);

    fn next(&mut self) -> Option<Self::Item> {
        let [answer, a, b, c, d, rest @ ..] = self.0 else {
            return None;
        };
        let first = usize::from(u16::from_be_bytes([*a, *b]));
        let second = usize::from(u16::from_be_bytes([*c, *d]));
        let verdict = told(*answer, first, second);
        let length = match verdict {
            Verdict::Accepted { payouts, .. } => 3 * payouts,
            _ => 0,
        };
        let (covers, after) = rest.split_at(length);
        self.0 = after;
        Some((verdict, covers))
    }
}
