// SPDX-License-Identifier: Apache-2.0 OR MIT
//! The proved verdict as a checker that is compared with the original.

use compare::Verdict;
use model_file::Refusal;
use zevdrak::{contract_into, Outcome, Records, RECORDS};

/// The verdict on an entry, if it is the same both ways; else one that there is
/// not, which is then the difference. All together are given covers enough, so
/// that question 12, about the covers, is asked of an entry alone.
pub fn both(file: &[u8], entry: usize, covers: &mut [u8]) -> Verdict {
    let mut others = covers.to_vec();
    let alone = plain(zevdrak::verdict(file, entry, covers));
    if alone == refused(12, 0) {
        return alone;
    }
    if (among_all(file, entry, &mut others), &others[..]) != (alone, covers) {
        return refused(0, entry);
    }
    alone
}

/// The verdict on an entry as one of all.
fn among_all(file: &[u8], entry: usize, covers: &mut [u8]) -> Verdict {
    let mut buffer = [0; RECORDS];
    let (outcome, records) = contract_into(file, &mut buffer);
    assert_eq!(outcome, worst(records.clone()), "{file:X?}");
    let mut found = records.skip(if zevdrak::check_file(file).is_ok() {
        entry
    } else {
        0
    });
    match found.next() {
        None => refused(9, 0),
        Some((verdict, bytes)) => {
            covers[..bytes.len()].copy_from_slice(bytes);
            plain(verdict)
        }
    }
}

/// What the verdicts are together.
fn worst(records: Records) -> Outcome {
    let rank = |(verdict, _)| match verdict {
        zevdrak::Verdict::Accepted { .. } => 0,
        zevdrak::Verdict::Rejected { .. } => 1,
        zevdrak::Verdict::Refused(_) => 2,
    };
    match records.map(rank).max() {
        Some(0) => Outcome::Accepted,
        Some(1) => Outcome::Rejected,
        _ => Outcome::Refused,
    }
}

fn refused(number: u8, place: usize) -> Verdict {
    Verdict::Refused(Refusal { number, place })
}

fn plain(verdict: zevdrak::Verdict) -> Verdict {
    match verdict {
        zevdrak::Verdict::Accepted { payouts, spare } => Verdict::Accepted {
            payouts,
            spare: Some(spare),
        },
        zevdrak::Verdict::Rejected { payout, reason } => Verdict::Rejected {
            payout,
            reason: Some(reason as u8),
        },
        zevdrak::Verdict::Refused(refusal) => refused(refusal.number, refusal.place),
    }
}
