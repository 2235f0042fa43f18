// SPDX-License-Identifier: Apache-2.0 OR MIT
//! The examples have the listings that stand beside them.

use rules::{answer, listing, listing_with_reasons, Answer, Cover};
use std::fs;
use std::path::{Path, PathBuf};

fn examples() -> PathBuf {
    Path::new(env!("CARGO_MANIFEST_DIR")).join("../../examples")
}

fn model(name: &str) -> Vec<u8> {
    let text = fs::read_to_string(examples().join(name).with_extension("text")).expect(name);
    model_text::to_bytes(&text).expect(name)
}

fn text(bytes: Vec<u8>) -> String {
    String::from_utf8(bytes).expect("a listing is ASCII")
}

#[test]
fn every_example_has_its_listing() {
    let mut names = Vec::new();
    for item in fs::read_dir(examples()).expect("the examples") {
        let path = item.expect("an example").path();
        if path
            .extension()
            .is_some_and(|extension| extension == "text")
        {
            names.push(path.file_stem().unwrap().to_string_lossy().into_owned());
        }
    }
    assert!(names.len() >= 17);
    for name in names {
        let file = fs::read(examples().join(&name).with_extension("model"));
        assert_eq!(file.expect(&name), model(&name), "{name}");
        let expected = fs::read_to_string(examples().join(&name).with_extension("listing"));
        assert_eq!(
            text(listing(&model(&name))),
            expected.expect(&name),
            "{name}"
        );
    }
}

/// The answers that the document gives for its entries worked by hand.
#[test]
fn entries_worked_by_hand() {
    let accepted = |covers: &[(u8, usize)]| {
        let covers = covers.iter().map(|&(kind, index)| Cover { kind, index });
        Answer::Accepted {
            covers: covers.collect(),
        }
    };
    let rejected = |payout, reason| Answer::Rejected { payout, reason };
    for (name, entry, expected) in [
        ("K01", 0, accepted(&[])),
        ("K02", 0, accepted(&[])),
        ("K03", 0, accepted(&[(2, 0)])),
        ("K04", 0, rejected(1, 3)),
        ("K05", 0, rejected(0, 2)),
        ("K06", 0, accepted(&[(1, 0)])),
        ("K06b", 0, rejected(0, 5)),
        ("K07", 0, accepted(&[(3, 0)])),
        ("K07b", 0, rejected(0, 5)),
        ("K07c", 0, accepted(&[(3, 0)])),
        ("K08", 0, rejected(0, 5)),
        ("K09", 0, rejected(1, 3)),
        ("K10", 0, rejected(0, 1)),
        ("K11", 0, accepted(&[])),
        ("K11", 1, accepted(&[(5, 0)])),
        ("K12", 1, rejected(0, 5)),
        ("exchange", 6, rejected(0, 4)),
    ] {
        assert_eq!(answer(&model(name), entry, 192), expected, "{name}");
    }
}

#[test]
fn the_worked_file_is_the_third_example() {
    let file: [u8; 66] = [
        0x03, 0x00, 0x3F, 0x20, 0x00, 0x01, 0x66, 0x04, 0x00, 0x0E, 0x20, 0x00, 0x01, 0x61, 0x21,
        0x00, 0x07, 0x51, 0x5F, 0x41, 0x73, 0x73, 0x65, 0x74, 0x16, 0x00, 0x27, 0x3B, 0x00, 0x24,
        0x33, 0x00, 0x0A, 0x73, 0x65, 0x6E, 0x64, 0x5F, 0x61, 0x73, 0x73, 0x65, 0x74, 0x33, 0x00,
        0x01, 0x54, 0x34, 0x00, 0x00, 0x3A, 0x00, 0x0D, 0x33, 0x00, 0x01, 0x61, 0x20, 0x00, 0x06,
        0x61, 0x6D, 0x6F, 0x75, 0x6E, 0x74,
    ];
    assert_eq!(model("K03"), file);
    assert_eq!(text(listing(&file)), "e 0 ok 1 0\np 0 2 0\n");
}

#[test]
fn a_reason_follows_the_payout() {
    assert_eq!(text(listing_with_reasons(&model("K04"))), "e 0 no 1 3\n");
}

/// A reserve is used once: the sixth reason.
#[test]
fn a_used_reserve_is_not_used_again() {
    let file = [
        "state r: Int",
        "entry fill(a: Q_Asset)",
        "  guard in_asset == T",
        "  r += a.amount",
        "end",
        "entry f(b: Q_Asset)",
        "  guard r >= b.amount * 2",
        "  r -= b.amount * 2",
        "  send_asset(T, caller, b.amount * 2)",
        "  send_asset(T, caller, b.amount * 2)",
        "end",
    ];
    let file = model_text::to_bytes(&file.join("\n")).unwrap();
    let expected = Answer::Rejected {
        payout: 1,
        reason: 6,
    };
    assert_eq!(answer(&file, 1, 6), expected);
}

#[test]
fn questions_about_the_entry_and_the_covers() {
    let refused = |number| Answer::Refused { number, place: 0 };
    let file = model("K03");
    assert_eq!(answer(&file, 1, 3), refused(9));
    assert_eq!(answer(&file, 0, 2), refused(12));
    assert_eq!(answer(&[], 0, 0), refused(9));
    assert_eq!(listing(&[]), b"");
    assert_eq!(
        answer(&[0x03], 0, 0),
        Answer::Refused {
            number: 2,
            place: 0
        }
    );
}
