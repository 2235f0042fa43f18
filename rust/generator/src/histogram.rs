// SPDX-License-Identifier: Apache-2.0 OR MIT
//! Counts what the files of N seeds are answered with.

use oracle::{answers, Answer};
use std::collections::BTreeMap;

fn main() {
    let numbers: Vec<u64> = std::env::args()
        .skip(1)
        .filter_map(|a| a.parse().ok())
        .collect();
    let (count, first) = match numbers[..] {
        [count] => (count, 0),
        [count, first] => (count, first),
        _ => {
            eprintln!("usage: histogram N [FIRST-SEED]");
            std::process::exit(2);
        }
    };
    let mut counts: BTreeMap<String, u64> = BTreeMap::new();
    let mut entries = 0;
    let mut size = 0;
    for seed in first..first + count {
        let file = generator::file(seed);
        size += file.len();
        match answers(&file) {
            Err(refusal) => {
                *counts
                    .entry(format!("file: refusal {:2}", refusal.number))
                    .or_default() += 1
            }
            Ok(answers) => {
                entries += answers.len() as u64;
                for answer in &answers {
                    for line in lines(answer) {
                        *counts.entry(line).or_default() += 1;
                    }
                }
            }
        }
    }
    println!("{count} files, {size} bytes, {entries} entries");
    for (line, number) in counts {
        let whole = if line.starts_with("file") {
            count
        } else {
            entries
        };
        let share = 100.0 * number as f64 / whole as f64;
        println!("{line:40} {number:9} {share:7.3} %");
    }
}

/// What an answer counts as: its verdict, and each kind among its covers.
fn lines(answer: &Answer) -> Vec<String> {
    match answer {
        Answer::Refused(refusal) => vec![format!("entry: refusal {:2}", refusal.number)],
        Answer::Rejected(rejection) => vec![
            "entry: rejected".to_string(),
            format!("entry: rejected, reason {}", rejection.reason as u8),
        ],
        Answer::Accepted { covers, .. } => {
            let payouts = covers.len().min(3);
            let mut lines = vec![format!("entry: accepted, payouts {payouts} (3: or more)")];
            let mut kinds: Vec<u8> = covers.iter().map(|c| c.kind as u8).collect();
            kinds.sort();
            kinds.dedup();
            if kinds.len() > 1 {
                lines.push(format!("entry: accepted, {} kinds", kinds.len()));
            }
            lines.extend(kinds.iter().map(|k| format!("entry: accepted, kind {k}")));
            lines
        }
    }
}
