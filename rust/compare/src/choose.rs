// SPDX-License-Identifier: Apache-2.0 OR MIT
//! Chooses model files and writes them with the original's listings: the fixed
//! list `answers.bin`.

use generator::{file, worked};
use model_file::Refusal;
use oracle::{answers, Answer, Cover, Rejection};
use std::collections::HashSet;
use std::io;

/// The most bytes that the list may have.
const BUDGET: usize = 880_000;
/// The seeds from which files are chosen for what they show.
const POOL: u64 = 60_000;
/// So many small files are taken as the seeds give them.
const PLAIN: usize = 1_500;
/// A small file has at most so many bytes.
const SMALL: usize = 400;
/// The most bytes of a file, one more than the checker takes.
const LARGEST: usize = 32_769;

fn main() -> io::Result<()> {
    let arguments: Vec<String> = std::env::args().skip(1).collect();
    let [path] = &arguments[..] else {
        eprintln!("usage: choose-answers OUTPUT-FILE");
        std::process::exit(2);
    };
    let mut list = List::default();
    for row in worked() {
        list.add(&row.file);
    }
    let small = (0..).map(file).filter(|f| f.len() <= SMALL);
    small.take(PLAIN).for_each(|f| list.add(&f));
    let mut pool: Vec<Vec<u8>> = (0..POOL).map(file).collect();
    pool.retain(|f| f.len() <= LARGEST);
    pool.sort_by_key(Vec::len);
    for file in &pool {
        list.add_if_new(file);
    }
    println!("{} answers, {} bytes", list.count, list.bytes.len());
    std::fs::write(path, list.bytes)
}

/// The list in the making, and what its files show.
#[derive(Default)]
struct List {
    bytes: Vec<u8>,
    count: usize,
    shown: HashSet<String>,
}

impl List {
    fn add(&mut self, file: &[u8]) {
        let listing = oracle::listing(file);
        for part in [file, &listing] {
            let length = u16::try_from(part.len()).expect("files and listings are short");
            self.bytes.extend(length.to_be_bytes());
            self.bytes.extend(part);
        }
        self.count += 1;
        self.shown.extend(shown(file));
    }

    /// Adds the file if it shows something that no file before it shows, and
    /// there is room.
    fn add_if_new(&mut self, file: &[u8]) {
        let room = self.bytes.len() + 2 * file.len() + 64 <= BUDGET;
        if room && shown(file).iter().any(|s| !self.shown.contains(s)) {
            self.add(file);
        }
    }
}

/// A number as far as it tells something: small ones and those at a limit.
fn coarse(number: usize) -> usize {
    match number {
        0..=5 | 62..=66 => number,
        _ => 6,
    }
}

/// What a file shows: its refusal with the bytes around the place, or for each
/// entry the verdict, the reason, the order of kinds and the indexes; and its
/// size if it is close to the greatest.
fn shown(file: &[u8]) -> Vec<String> {
    let mut lines = match answers(file) {
        Err(Refusal { number, place }) => {
            let before = place.checked_sub(3).and_then(|at| file.get(at));
            vec![
                format!("refusal {number} of {:?}", file.get(place)),
                format!("refusal {number} after {before:?}"),
            ]
        }
        Ok(answers) => {
            let mut lines: Vec<String> = answers.iter().flat_map(answer_shown).collect();
            lines.push(format!("entries {}", answers.len()));
            lines
        }
    };
    if file.len() + 1 >= LARGEST {
        lines.push(format!("size {}", file.len()));
    }
    lines
}

fn answer_shown(answer: &Answer) -> Vec<String> {
    match answer {
        Answer::Refused(Refusal { number, place }) => {
            vec![format!("entry refusal {number}, about {}", place / 256)]
        }
        Answer::Rejected(Rejection { payout, reason }) => {
            vec![format!("rejected {} {reason:?}", coarse(*payout))]
        }
        Answer::Accepted { covers, spare } => {
            let kinds: Vec<u8> = covers.iter().map(|c| c.kind as u8).collect();
            let cover = |c: &Cover| format!("cover {:?} {}", c.kind, coarse(c.index));
            let mut lines: Vec<String> = covers.iter().map(cover).collect();
            lines.push(format!("accepted {:?}", &kinds[..kinds.len().min(3)]));
            lines.push(format!(
                "accepted {} {}",
                coarse(kinds.len()),
                coarse(*spare)
            ));
            lines
        }
    }
}
