// SPDX-License-Identifier: Apache-2.0 OR MIT
//! Questions 9 to 12, which the original does not ask.

use model_file::Refusal;
use oracle::{answer, Answer};

/// An entry with so many asset parameters, each of them paid out.
fn paid_out(parameters: usize, payouts: usize) -> Vec<u8> {
    use generator::construct::*;
    let mut parts = vec![asset("a"); parameters];
    parts.extend(vec![
        statement(send(identifier("T"), amount_of("a")));
        payouts
    ]);
    bytes(&[entry("f", parts)])
}

fn refusal(file: &[u8], entry: usize, covers_len: usize) -> Option<(u8, usize)> {
    match answer(file, entry, covers_len) {
        Answer::Refused(Refusal { number, place }) => Some((number, place)),
        _ => None,
    }
}

#[test]
fn an_entry_past_the_end_is_refused() {
    assert_eq!(refusal(&paid_out(1, 1), 0, 3), None);
    assert_eq!(refusal(&paid_out(1, 1), 1, 3), Some((9, 0)));
    assert_eq!(refusal(&[], 0, 0), Some((9, 0)));
}

#[test]
fn the_65th_payout_is_refused_before_the_backings() {
    assert_eq!(refusal(&paid_out(64, 64), 0, 192), None);
    let file = paid_out(65, 65);
    // The last call is the content of the last field, 39 bytes long.
    let call = file.len() - 39;
    assert_eq!(refusal(&file, 0, 0), Some((10, call)));
}

#[test]
fn the_65th_backing_is_refused_at_the_entry() {
    assert_eq!(refusal(&paid_out(65, 1), 0, 0), Some((11, 0)));
}

#[test]
fn short_covers_are_refused() {
    let file = paid_out(2, 2);
    assert_eq!(refusal(&file, 0, 5), Some((12, 0)));
    assert_eq!(refusal(&file, 0, 6), None);
}
