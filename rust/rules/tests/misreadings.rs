// SPDX-License-Identifier: Apache-2.0 OR MIT
//! Every misreading is told from the rules as written by some small model.

use model_text::to_bytes;
use rules::{Misreading, Observed, MISREADINGS};

const WITNESSES: &str = include_str!("witnesses.txt");

/// The names above each model of the list, and the model.
fn witnesses() -> Vec<(Vec<&'static str>, Vec<u8>)> {
    let blocks = WITNESSES
        .split("---\n")
        .skip(1)
        .filter(|block| !block.is_empty());
    let names = |block: &'static str| {
        block
            .lines()
            .filter_map(|line| line.strip_prefix("# "))
            .collect()
    };
    blocks
        .map(|block| (names(block), to_bytes(block).expect(block)))
        .collect()
}

fn repeated(line: &str, count: usize) -> String {
    format!("{line}\n").repeat(count)
}

fn entry(payouts: usize, debits: usize, parameters: usize) -> String {
    let parameters = vec!["a: Q_Asset"; parameters].join(", ");
    let payouts = repeated("send_asset(T, caller, n)", payouts);
    let debits = repeated("m.debit(caller, n)", debits);
    format!("entry f({parameters})\n{payouts}{debits}end\n")
}

fn model(text: &str) -> Vec<u8> {
    to_bytes(text).expect(text)
}

/// One state field with a default that makes the file as long as asked.
fn file_of_length(length: usize) -> Vec<u8> {
    let file = model(&format!("state r: Int = \"{}\"", "x".repeat(length - 16)));
    assert_eq!(file.len(), length);
    file
}

/// Models at the limits of size and count.
fn limit_files() -> Vec<Vec<u8>> {
    let entries = |count| repeated("entry f()\nend", count);
    vec![
        file_of_length(32_768),
        file_of_length(32_769),
        vec![0; 32_769],
        model(&entries(64)),
        model(&entries(65)),
        model(&entries(66)),
        model(&(entries(64) + "state r: Int\n")),
        model(&(entries(65) + "state r: Int\nstate r: Int\n")),
        model(&entry(64, 64, 0)),
        model(&(entries(1) + &entry(65, 64, 0) + &entries(1))),
        model(&entry(66, 64, 0)),
        model(&entry(0, 64, 0)),
        model(&entry(0, 65, 0)),
        model(&entry(0, 64, 1)),
        model(&entry(65, 65, 0)),
    ]
}

fn named(name: &str) -> Misreading {
    let found = MISREADINGS
        .iter()
        .find(|misreading| misreading.name() == name);
    *found.unwrap_or_else(|| panic!("{name} is no misreading"))
}

#[test]
fn every_witness_tells_its_misreadings_apart() {
    for (names, file) in witnesses() {
        let observed = Observed::new(&file);
        for name in names {
            assert!(observed.tells_apart(named(name)), "{name}");
        }
    }
}

#[test]
fn every_other_misreading_shows_at_a_limit() {
    let witnesses = witnesses();
    let limit_files = limit_files();
    let observed: Vec<_> = limit_files.iter().map(|file| Observed::new(file)).collect();
    for misreading in MISREADINGS {
        let has_witness = witnesses
            .iter()
            .any(|(names, _)| names.contains(&misreading.name()));
        let shows = || {
            observed
                .iter()
                .any(|observed| observed.tells_apart(*misreading))
        };
        assert!(has_witness || shows(), "{}", misreading.name());
    }
}

#[test]
fn misreadings_are_many_and_differ_in_name() {
    let mut names: Vec<_> = MISREADINGS
        .iter()
        .map(|misreading| misreading.name())
        .collect();
    names.sort_unstable();
    names.dedup();
    assert_eq!(names.len(), MISREADINGS.len());
    assert!(names.len() >= 110);
    assert!(MISREADINGS
        .iter()
        .all(|misreading| !misreading.sentence().is_empty()));
}
