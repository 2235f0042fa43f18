// SPDX-License-Identifier: Apache-2.0 OR MIT
//! Compares the listings of a program, or of the member `rules`, with the
//! original's on the files of N seeds.

use compare::{compare_in_process, compare_listings, write_covers, Verdict};
use model_file::Refusal;
use rules::Answer;
use std::io::Write;
use std::process::{Command, ExitCode, Stdio};

const USAGE: &str = "usage: compare N [FIRST-SEED] [-- PROGRAM [ARGUMENTS]]
Without a program, the member `rules` is compared.";

fn main() -> ExitCode {
    let arguments: Vec<String> = std::env::args().skip(1).collect();
    let mut sides = arguments.splitn(2, |a| a == "--");
    let numbers = sides
        .next()
        .unwrap_or_default()
        .iter()
        .map(|a| a.parse().ok());
    let (count, first): (u64, u64) = match numbers.collect::<Vec<_>>()[..] {
        [Some(count)] => (count, 0),
        [Some(count), Some(first)] => (count, first),
        _ => {
            eprintln!("{USAGE}");
            return ExitCode::from(2);
        }
    };
    let seeds = first..first + count;
    let difference = match sides.next() {
        Some([]) => {
            eprintln!("{USAGE}");
            return ExitCode::from(2);
        }
        Some(command) => compare_listings(seeds, |file| printed(command, file)),
        None => compare_listings(seeds.clone(), rules::listing)
            .or_else(|| compare_in_process(seeds, by_the_rules)),
    };
    match difference {
        None => println!("{count} files from seed {first}: no difference"),
        Some(difference) => {
            println!("{difference}");
            return ExitCode::FAILURE;
        }
    }
    ExitCode::SUCCESS
}

/// The member `rules` as a checker in this process.
fn by_the_rules(file: &[u8], entry: usize, covers: &mut [u8]) -> Verdict {
    match rules::answer(file, entry, covers.len()) {
        Answer::Refused { number, place } => Verdict::Refused(Refusal { number, place }),
        Answer::Rejected { payout, reason } => Verdict::Rejected {
            payout,
            reason: Some(reason),
        },
        Answer::Accepted { covers: found } => {
            let bytes = found.iter().map(|cover| {
                let [high, low] = (cover.index as u16).to_be_bytes();
                [cover.kind, high, low]
            });
            write_covers(covers, bytes, None)
        }
    }
}

/// What the program prints for the file on its standard input. A program that
/// does not end well has printed something no listing holds.
fn printed(command: &[String], file: &[u8]) -> Vec<u8> {
    let mut child = Command::new(&command[0])
        .args(&command[1..])
        .stdin(Stdio::piped())
        .stdout(Stdio::piped())
        .spawn()
        .unwrap_or_else(|why| panic!("{} does not start: {why}", command[0]));
    let mut input = child.stdin.take().expect("the input is piped");
    // A program that refuses early may close its input before all is written.
    let _ = input.write_all(file);
    drop(input);
    let output = child.wait_with_output().expect("the program ends");
    match output.status.success() {
        true => output.stdout,
        false => format!("{}\n", output.status).into_bytes(),
    }
}
