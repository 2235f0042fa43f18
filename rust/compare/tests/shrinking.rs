// SPDX-License-Identifier: Apache-2.0 OR MIT
//! Differences are found and made small.

use compare::{compare_in_process, compare_listings, original, shrunk, Verdict};

#[test]
fn the_original_does_not_differ_from_itself() {
    assert!(compare_listings(0..500, oracle::listing).is_none());
    assert!(compare_in_process(0..500, original).is_none());
}

#[test]
fn bytes_written_where_none_belong_are_a_difference() {
    let careless = |file: &[u8], entry, covers: &mut [u8]| {
        let verdict = original(file, entry, covers);
        if let (Verdict::Rejected { .. }, Some(first)) = (verdict, covers.first_mut()) {
            *first = 0;
        }
        verdict
    };
    assert!(compare_in_process(0..2000, careless).is_some());
}

#[test]
fn a_checker_that_always_accepts_is_shown_a_small_file() {
    let always = |file: &[u8]| {
        let listing = String::from_utf8(oracle::listing(file)).expect("listings are text");
        listing.replace("no 0", "ok 0 0").into_bytes()
    };
    let difference = compare_listings(0..2000, always).expect("some payout is rejected");
    assert!(difference.file.len() <= 60, "{difference}");
}

#[test]
fn shrinking_keeps_what_it_is_told_to_keep() {
    let file = generator::file(7);
    let same = oracle::listing(&file);
    let small = shrunk(file.clone(), &mut |smaller| {
        oracle::listing(smaller) == same
    });
    assert!(small.len() <= file.len());
    assert_eq!(oracle::listing(&small), same);
}
