// SPDX-License-Identifier: Apache-2.0 OR MIT
//! All entries by one call: the same verdicts and covers as by a call for each,
//! and one answer about the whole.

use std::path::Path;
use zevdrak::{contract, covers, verdict, Entry, Outcome, Refusal, Verdict, COVERS};

/// The verdict on an entry by itself.
fn alone(file: &[u8], entry: usize) -> Entry {
    let mut lent = [0; COVERS];
    let verdict = verdict(file, entry, &mut lent);
    let length = match verdict {
        Verdict::Accepted { payouts, .. } => 3 * payouts,
        _ => 0,
    };
    Entry {
        verdict,
        covers: covers(&lent[..length]),
    }
}

#[test]
fn entries_of_the_examples() {
    let folder = Path::new(env!("CARGO_MANIFEST_DIR")).join("../../examples");
    let mut seen = [false; 3];
    for path in folder
        .read_dir()
        .unwrap()
        .map(|entry| entry.unwrap().path())
    {
        if path
            .extension()
            .is_none_or(|extension| extension != "model")
        {
            continue;
        }
        let file = std::fs::read(path).unwrap();
        let contract = contract(&file);
        for (number, entry) in contract.entries.iter().enumerate() {
            assert_eq!(*entry, alone(&file, number));
        }
        let past = alone(&file, contract.entries.len()).verdict;
        assert!(matches!(
            past,
            Verdict::Refused(Refusal { number: 1..=9, .. })
        ));
        seen[contract.outcome as usize] = true;
    }
    assert!(seen[Outcome::Accepted as usize] && seen[Outcome::Rejected as usize]);
}

/// The contract is refused, and for this alone.
fn assert_refused(file: &[u8], number: u8) {
    let contract = contract(file);
    assert_eq!(contract.outcome, Outcome::Refused);
    let verdicts: Vec<Verdict> = contract.entries.iter().map(|entry| entry.verdict).collect();
    let refusal = Refusal { number, place: 0 };
    assert_eq!(verdicts, [Verdict::Refused(refusal)]);
}

/// K11: its first entry has a parameter and pays nothing out.
#[test]
fn an_accepted_entry_has_its_spare() {
    let file = include_bytes!("../../../examples/K11.model");
    let verdicts: Vec<Verdict> = contract(file)
        .entries
        .iter()
        .map(|entry| entry.verdict)
        .collect();
    let accepted = |payouts, spare| Verdict::Accepted { payouts, spare };
    assert_eq!(verdicts, [accepted(0, 1), accepted(1, 0)]);
}

#[test]
fn a_refused_file_has_one_record() {
    assert_refused(&[3, 0], 2);
}

#[test]
fn a_file_without_entries_is_not_accepted() {
    assert_refused(&[], 9);
}
