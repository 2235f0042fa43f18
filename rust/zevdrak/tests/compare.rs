// SPDX-License-Identifier: Apache-2.0 OR MIT
//! The reserve of a payout by itself: refused as the verdict is, with each of
//! questions 1 to 9, covered, or covered by none.

mod fields;

use fields::{entry, field, nots, state, CALLER, ENTRY, IDENTIFIER};
use zevdrak::{compare::reserve_bounding_payout, verdict, Refusal, Verdict, COVERS};

const K11: &[u8] = include_bytes!("../../../examples/K11.model");
const K12: &[u8] = include_bytes!("../../../examples/K12.model");

/// The reserve and the verdict are refused alike.
fn assert_refused(file: &[u8], entry: usize, number: u8, place: usize) {
    let refusal = Refusal { number, place };
    assert_eq!(reserve_bounding_payout(file, entry, 0), Err(refusal));
    let verdict = verdict(file, entry, &mut [0; COVERS]);
    assert_eq!(verdict, Verdict::Refused(refusal));
}

#[test]
fn refused_by_the_questions_about_the_file() {
    assert_refused(&[0; 32_769], 0, 1, 0);
    assert_refused(&[K11, &[ENTRY, 0]].concat(), 1, 2, K11.len());
    assert_refused(&[K11, &field(0x07, &[])].concat(), 1, 3, K11.len());
    assert_refused(&entry(&nots(32)), 0, 4, 106);
    assert_refused(&entry(&field(IDENTIFIER, &[])), 0, 5, 10);
    assert_refused(&[K11, &field(ENTRY, &[])].concat(), 1, 6, K11.len());
    assert_refused(&[K11, &state(b"r")].concat(), 1, 7, K11.len());
    assert_refused(&entry(&CALLER).repeat(65), 0, 8, 64 * 13);
}

#[test]
fn the_last_entry_and_one_past_it() {
    let file = entry(&CALLER).repeat(64);
    assert_eq!(reserve_bounding_payout(&file, 63, 0), Ok(None));
    assert_refused(&file, 64, 9, 0);
    assert_refused(K11, usize::MAX, 9, 0);
    assert_refused(&[], 0, 9, 0);
}

#[test]
fn covered_or_not() {
    assert_eq!(reserve_bounding_payout(K11, 1, 0), Ok(Some(0)));
    assert_eq!(reserve_bounding_payout(K12, 1, 0), Ok(None));
    let second = [&state(b"q"), K11].concat();
    assert_eq!(reserve_bounding_payout(&second, 1, 0), Ok(Some(1)));
}

#[test]
fn none_covers_a_payout_that_is_not_there() {
    assert_eq!(reserve_bounding_payout(K11, 0, 0), Ok(None));
    assert_eq!(reserve_bounding_payout(K11, 1, 1), Ok(None));
    assert_eq!(reserve_bounding_payout(K11, 1, usize::MAX), Ok(None));
}
