// SPDX-License-Identifier: Apache-2.0 OR MIT
//! The proved verdict beside the original's on every file of the benchmark.

use bench::files::samples;
use compare::difference_on;
use compare_library::both;
use zevdrak::check_file;

/// The files on which the original takes seconds or minutes for its verdicts. For
/// each payout and each guard of its amount it looks for the tokens of all raises
/// of a state field again, and for each raise for the tokens of a map.
const SLOW: &[&str] = &[
    "payouts, guards and raises",
    "more payouts, guards and raises",
    "entries, raises and debits",
];

/// A file that a question refuses takes no time.
#[test]
fn all_pass_the_questions() {
    for sample in samples() {
        assert_eq!(check_file(&sample.file()), Ok(()), "{}", sample.name);
    }
}

#[test]
fn no_difference() {
    let quick = samples()
        .into_iter()
        .filter(|sample| !SLOW.contains(&sample.name));
    for (seed, sample) in (0..).zip(quick) {
        let difference = difference_on(&sample.file(), seed, both);
        assert_eq!(difference, None, "{}", sample.name);
    }
}
