// SPDX-License-Identifier: Apache-2.0 OR MIT
//! The entries worked by hand come out of the original as they were worked.

use generator::worked;
use model_file::{decode, encode};

#[test]
fn the_original_gives_the_listings_worked_by_hand() {
    for row in worked() {
        let listing = oracle::listing(&row.file);
        assert_eq!(
            String::from_utf8_lossy(&listing),
            row.listing,
            "{}",
            row.name
        );
    }
}

#[test]
fn the_third_is_the_file_of_66_bytes() {
    let third = worked().into_iter().find(|row| row.name == "K3");
    let bytes = "03003F200001660400 0E20000161210007515F4173736574 1600273B0024\
                 33000A73656E645F6173736574 33000154 340000 3A000D33000161200006616D6F756E74";
    let digits: Vec<u8> = bytes.bytes().filter(u8::is_ascii_hexdigit).collect();
    let byte = |pair: &[u8]| {
        let text = std::str::from_utf8(pair).expect("digits are text");
        u8::from_str_radix(text, 16).expect("digits are hexadecimal")
    };
    let expected: Vec<u8> = digits.chunks(2).map(byte).collect();
    assert_eq!(expected.len(), 66);
    assert_eq!(third.map(|row| row.file), Some(expected));
}

#[test]
fn worked_files_are_encoded_as_they_were_built() {
    for row in worked() {
        let contract = decode(&row.file).expect("worked files are model files");
        assert_eq!(encode(&contract), Ok(row.file), "{}", row.name);
    }
}
