// SPDX-License-Identifier: Apache-2.0 OR MIT
//! Questions 9 to 12 and the verdict on one entry.

use crate::contract::{Contract, Entry};
use crate::matching::{Backing, Matching};
use crate::misreading::Misreading::*;
use crate::questions::{refuse_if, Refusal};
use crate::Rules;

/// What a payout is backed by: a kind from 1 to 5 and a number among the
/// debits, the asset parameters or the state fields.
#[derive(Debug, Clone, Copy, PartialEq, Eq)]
pub struct Cover {
    pub kind: u8,
    pub index: usize,
}

#[derive(Debug, Clone, PartialEq, Eq)]
pub enum Answer {
    /// A "no" to one of the questions 1 to 12.
    Refused {
        number: u8,
        place: usize,
    },
    Accepted {
        covers: Vec<Cover>,
    },
    /// The failing payout, counted from 0, and one of six reasons.
    Rejected {
        payout: usize,
        reason: u8,
    },
}

impl From<Refusal> for Answer {
    fn from(refusal: Refusal) -> Self {
        Answer::Refused {
            number: refusal.number,
            place: refusal.place,
        }
    }
}

impl Rules {
    /// The answer for one entry with covers of a given length.
    pub fn answer(&self, file: &[u8], entry: usize, covers_len: usize) -> Answer {
        let fields = match self.file_fields(file) {
            Ok(fields) => fields,
            Err(refusal) => return refusal.into(),
        };
        let contract = self.contract(&fields);
        let number = self.reading(EntryNumberFromOne, entry.checked_sub(1), Some(entry));
        match number.and_then(|number| contract.entries.get(number)) {
            Some(entry) => self.entry_answer(&contract, entry, covers_len),
            None => self.missing_entry(&contract).into(),
        }
    }

    /// Question 9.
    fn missing_entry(&self, contract: &Contract<'_>) -> Refusal {
        match contract.entries.last() {
            Some(last) if self.misreads(MissingEntryPlaceOfLast) => Refusal::new(9, last.place),
            _ => Refusal::new(9, 0),
        }
    }

    /// The answer for an entry of a file that passed questions 1 to 8.
    pub fn entry_answer<'e>(
        &self,
        contract: &'e Contract<'e>,
        entry: &'e Entry<'e>,
        covers_len: usize,
    ) -> Answer {
        let backings = self.backings(entry);
        match self.entry_questions(entry, &backings, covers_len) {
            Ok(()) => self.verdict(contract, entry, backings),
            Err(refusal) => refusal.into(),
        }
    }

    fn entry_questions(
        &self,
        entry: &Entry<'_>,
        backings: &[Backing<'_>],
        covers_len: usize,
    ) -> Result<(), Refusal> {
        let payouts = self.payouts(entry).len();
        let needed = self.reading(CoversOfTwoBytes, 2 * payouts, 3 * payouts);
        let short = match self.misreading {
            Some(CoversMustFitExactly) => covers_len != needed,
            Some(CoversMustBeLonger) => covers_len <= needed,
            _ => covers_len < needed,
        };
        if self.misreads(CoversAskedFirst) {
            refuse_if(short, 12, 0)?;
        }
        if self.misreads(BackingsAskedBeforePayouts) {
            self.backing_count_question(entry, backings)?;
        }
        self.payout_count_question(entry)?;
        self.backing_count_question(entry, backings)?;
        let place = self.reading(ShortCoversPlaceOfEntry, entry.place, 0);
        refuse_if(short, 12, place)
    }

    /// Question 10.
    fn payout_count_question(&self, entry: &Entry<'_>) -> Result<(), Refusal> {
        let limit = match self.misreading {
            Some(PayoutLimitOneLess) => 63,
            Some(PayoutLimitOneMore) => 65,
            _ => 64,
        };
        let payouts = self.payouts(entry);
        let surplus = payouts.get(limit..).unwrap_or_default();
        let refused = self.reading(PayoutLimitPlaceOfLast, surplus.last(), surplus.first());
        let Some(refused) = refused else {
            return Ok(());
        };
        let place = match self.misreading {
            Some(PayoutLimitPlaceOfEntry) => entry.place,
            Some(PayoutLimitPlaceOfStatement) => {
                let before = entry
                    .body
                    .iter()
                    .rfind(|statement| statement.place < refused.place);
                before.map_or(0, |statement| statement.place)
            }
            _ => refused.place,
        };
        Err(Refusal::new(10, place))
    }

    /// Question 11.
    fn backing_count_question(
        &self,
        entry: &Entry<'_>,
        backings: &[Backing<'_>],
    ) -> Result<(), Refusal> {
        let limit = match self.misreading {
            Some(BackingLimitOneLess) => 63,
            Some(BackingLimitOneMore) => 65,
            _ => 64,
        };
        let debits = self.debits(entry).len();
        let count = match self.misreading {
            Some(BackingLimitOfDebitsOnly) => debits,
            Some(BackingLimitOfParametersOnly) => backings.len() - debits,
            _ => backings.len(),
        };
        let place = match backings.get(limit) {
            Some(surplus) if self.misreads(BackingLimitPlaceOfBacking) => surplus.place,
            _ => entry.place,
        };
        refuse_if(count > limit, 11, place)
    }

    fn verdict<'e>(
        &self,
        contract: &'e Contract<'e>,
        entry: &'e Entry<'e>,
        backings: Vec<Backing<'e>>,
    ) -> Answer {
        let mut matching = Matching::new(contract, entry, backings);
        let mut covers = Vec::new();
        let mut rejected = None;
        for (payout, call) in self.payouts(entry).iter().enumerate() {
            match self.cover(&mut matching, call) {
                Ok(cover) => covers.push(cover),
                Err(_) if payout > 0 && self.misreads(OnlyFirstPayoutExamined) => {
                    covers.push(covers[0]);
                }
                Err(reason) => rejected = Some(Answer::Rejected { payout, reason }),
            }
            if rejected.is_some() && !self.misreads(LastFailingPayout) {
                break;
            }
        }
        rejected.unwrap_or(Answer::Accepted { covers })
    }
}
