// SPDX-License-Identifier: Apache-2.0 OR MIT
//! `misreadings [files] [first seed]`: how many generated files it takes until
//! each misreading is told from the rules as written. The status is 1 if one
//! is not told apart by any file.

use rules::{Misreading, Observed, MISREADINGS};
use std::process::ExitCode;

const DEFAULT_FILES: u64 = 20_000;

fn main() -> ExitCode {
    let argument = |number| {
        std::env::args()
            .nth(number)
            .and_then(|text| text.parse().ok())
    };
    let files = argument(1).unwrap_or(DEFAULT_FILES);
    let first_seed = argument(2).unwrap_or(0);
    let (found, missing) = measure(files, first_seed);
    print_table(&found, &missing, files);
    match missing.is_empty() {
        true => ExitCode::SUCCESS,
        false => ExitCode::FAILURE,
    }
}

/// The misreadings told apart, each with the count of files it took, and the
/// others.
fn measure(files: u64, first_seed: u64) -> (Vec<(Misreading, u64)>, Vec<Misreading>) {
    let mut found = Vec::new();
    let mut missing = MISREADINGS.to_vec();
    for count in 1..=files {
        let file = generator::file(first_seed + count - 1);
        let observed = Observed::new(&file);
        missing.retain(|&misreading| {
            let told_apart = observed.tells_apart(misreading);
            if told_apart {
                found.push((misreading, count));
            }
            !told_apart
        });
        if missing.is_empty() {
            break;
        }
    }
    (found, missing)
}

fn print_table(found: &[(Misreading, u64)], missing: &[Misreading], files: u64) {
    for (misreading, count) in found {
        println!("{:<32} {count:>8}", misreading.name());
    }
    for misreading in missing {
        println!("{:<32} {:>8}", misreading.name(), "-");
    }
    let worst = found.last().map_or(0, |(_, count)| *count);
    println!(
        "{} of {} told apart within {files} files; the last one needed {worst}",
        found.len(),
        MISREADINGS.len()
    );
}
