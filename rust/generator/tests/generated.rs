// SPDX-License-Identifier: Apache-2.0 OR MIT
//! What holds of every generated file.

use model_file::{decode, encode, read, write};

const SEEDS: std::ops::Range<u64> = 0..20_000;

#[test]
fn an_accepted_file_is_decoded_and_encoded_to_itself() {
    for seed in SEEDS {
        let file = generator::file(seed);
        if let Ok(contract) = decode(&file) {
            assert_eq!(encode(&contract), Ok(file), "seed {seed}");
        }
    }
}

#[test]
fn fields_are_read_and_written_to_themselves() {
    for seed in SEEDS {
        let file = generator::file(seed);
        if let Some(fields) = read(&file) {
            assert_eq!(write(&fields), Ok(file), "seed {seed}");
        }
    }
}

/// The oracle compares the original with its copy that explains; a difference
/// ends it.
#[test]
fn the_original_and_its_copy_agree() {
    for seed in 0..200_000 {
        oracle::listing(&generator::file(seed));
    }
}

#[test]
fn a_seed_gives_one_file() {
    for seed in 0..100 {
        assert_eq!(generator::file(seed), generator::file(seed));
    }
}
