// SPDX-License-Identifier: Apache-2.0 OR MIT
//! Comparison with a checker that is called in this process.

use crate::{first_difference, shrunk, Difference};
use generator::random::Random;
use model_file::Refusal;
use oracle::{Answer, Cover, Rejection};
use std::ops::Range;

/// What a checker answers for one entry. It may leave the spare of an accepted
/// entry and the reason of a rejection out; then they are not compared.
#[derive(Clone, Copy, Debug, PartialEq, Eq)]
pub enum Verdict {
    Refused(Refusal),
    Accepted {
        payouts: usize,
        spare: Option<usize>,
    },
    Rejected {
        payout: usize,
        reason: Option<u8>,
    },
}

/// What the lent covers hold before the question.
const BEFORE: u8 = 0xA5;
/// The longest covers that are lent: more than the most payouts need.
const LONGEST: usize = 200;

/// One question to a checker: an entry's number and the covers' length.
#[derive(Clone, Copy, Debug)]
struct Question {
    entry: usize,
    covers_len: usize,
}

/// The first difference between a checker and the original: in the verdict,
/// in the covers written, or in what must stay as it was. Every entry of a
/// file is asked about, and one past the end, with long and short covers.
pub fn compare_in_process(
    seeds: Range<u64>,
    check: impl Fn(&[u8], usize, &mut [u8]) -> Verdict,
) -> Option<Difference> {
    let first = |seed, file: &[u8]| first_differing(seed, file, &check);
    let (seed, file) = first_difference(seeds, |seed, file| first(seed, file).is_some())?;
    let question = first(seed, &file)?;
    let file = shrunk(file, &mut |smaller| differs(&check, smaller, question));
    Some(Difference {
        seed,
        expected: format!("{question:?}\n{:X?}\n", found(&original, &file, question)),
        found: format!("{:X?}\n", found(&check, &file, question)),
        file,
    })
}

/// The first difference on one file, which stays as it is, in words. The
/// lengths of the covers are those of a seed.
pub fn difference_on(
    file: &[u8],
    seed: u64,
    check: impl Fn(&[u8], usize, &mut [u8]) -> Verdict,
) -> Option<String> {
    let question = first_differing(seed, file, &check)?;
    let expected = found(&original, file, question);
    let found = found(&check, file, question);
    Some(format!("{question:?}: {found:X?}, expected {expected:X?}"))
}

/// The first question about a file that a checker answers otherwise than the
/// original.
fn first_differing(
    seed: u64,
    file: &[u8],
    check: &impl Fn(&[u8], usize, &mut [u8]) -> Verdict,
) -> Option<Question> {
    let mut questions = questions(seed, file).into_iter();
    questions.find(|question| differs(check, file, *question))
}

/// The entries to ask about, each with a length that depends on the seed.
fn questions(seed: u64, file: &[u8]) -> Vec<Question> {
    let random = &mut Random::new(!seed);
    let payouts: Vec<usize> = match oracle::answers(file) {
        Err(_) => vec![0],
        Ok(answers) => answers.iter().map(payout_count).chain([0]).collect(),
    };
    let question = |(entry, payouts): (usize, &usize)| {
        let exact = 3 * payouts;
        let covers_len = match random.below(4) {
            0 => LONGEST,
            1 => exact,
            2 => exact + 1 + random.below(4),
            _ => exact.saturating_sub(random.below(4)),
        };
        Question { entry, covers_len }
    };
    payouts.iter().enumerate().map(question).collect()
}

/// The payouts of an answer, as far as it tells them.
fn payout_count(answer: &Answer) -> usize {
    match answer {
        Answer::Accepted { covers, .. } => covers.len(),
        Answer::Rejected(rejection) => rejection.payout + 1,
        Answer::Refused(_) => 0,
    }
}

/// The verdict, and the covers afterwards.
type Outcome = (Verdict, Vec<u8>);

/// The original as a checker in this process.
pub fn original(file: &[u8], entry: usize, covers: &mut [u8]) -> Verdict {
    match oracle::answer(file, entry, covers.len()) {
        Answer::Refused(refusal) => Verdict::Refused(refusal),
        Answer::Rejected(Rejection { payout, reason }) => Verdict::Rejected {
            payout,
            reason: Some(reason as u8),
        },
        Answer::Accepted {
            covers: found,
            spare,
        } => write_covers(covers, found.iter().map(Cover::bytes), Some(spare)),
    }
}

/// Writes the covers of an accepted entry, and gives its verdict.
pub fn write_covers(
    covers: &mut [u8],
    found: impl ExactSizeIterator<Item = [u8; 3]>,
    spare: Option<usize>,
) -> Verdict {
    let payouts = found.len();
    for (place, cover) in covers.chunks_mut(3).zip(found) {
        place.copy_from_slice(&cover);
    }
    Verdict::Accepted { payouts, spare }
}

fn found(
    check: &impl Fn(&[u8], usize, &mut [u8]) -> Verdict,
    file: &[u8],
    question: Question,
) -> Outcome {
    let mut covers = vec![BEFORE; question.covers_len];
    let verdict = check(file, question.entry, &mut covers);
    (verdict, covers)
}

fn differs(
    check: &impl Fn(&[u8], usize, &mut [u8]) -> Verdict,
    file: &[u8],
    question: Question,
) -> bool {
    let (mut verdict, covers) = found(&original, file, question);
    let found = found(check, file, question);
    match (found.0, &mut verdict) {
        (Verdict::Rejected { reason: None, .. }, Verdict::Rejected { reason, .. }) => {
            *reason = None;
        }
        (Verdict::Accepted { spare: None, .. }, Verdict::Accepted { spare, .. }) => {
            *spare = None;
        }
        _ => {}
    }
    found != (verdict, covers)
}
