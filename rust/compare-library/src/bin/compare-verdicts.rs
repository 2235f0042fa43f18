// SPDX-License-Identifier: Apache-2.0 OR MIT
//! The proved verdict beside the original's, in one process: verdict, spare,
//! failing payout and reason, covers, and what must stay as it was. The verdict
//! is asked of each entry by itself and of all together.

use compare::compare_in_process;
use compare_library::both;
use std::process::ExitCode;

fn main() -> ExitCode {
    let mut arguments = std::env::args().skip(1).map(|word| word.parse::<u64>());
    let (Some(Ok(count)), first) = (arguments.next(), arguments.next()) else {
        eprintln!("usage: compare-verdicts N [FIRST-SEED]");
        return ExitCode::from(2);
    };
    let first = first.map_or(0, |word| word.unwrap_or(0));
    match compare_in_process(first..first + count, both) {
        None => println!("{count} files from seed {first}: no difference"),
        Some(difference) => {
            println!("{difference}");
            return ExitCode::FAILURE;
        }
    }
    ExitCode::SUCCESS
}
