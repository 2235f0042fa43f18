// SPDX-License-Identifier: Apache-2.0 OR MIT
//! Times the proved verdict on every entry of a file beside the original's.

use bench::{repeated, Measure, FROM_BYTES, READY_TREE};
use std::hint::black_box;
use std::process::ExitCode;
use std::time::Duration;

/// The proved verdict, asked of each entry by itself: every call asks the
/// questions about the file again.
const EACH_ENTRY: Measure = Measure {
    name: "each entry",
    time: each_entry,
};

/// The proved verdicts on all entries by one call: the questions about the file
/// are asked once.
const CONTRACT: Measure = Measure {
    name: "contract",
    time: contract,
};

fn main() -> ExitCode {
    bench::run(&[FROM_BYTES, READY_TREE, CONTRACT, EACH_ENTRY])
}

fn contract(file: &[u8]) -> Duration {
    let mut buffer = [0; zevdrak::RECORDS];
    repeated(|| {
        let (_, records) = zevdrak::contract_into(black_box(file), &mut buffer);
        let accepted = |(verdict, _): &(_, _)| matches!(verdict, zevdrak::Verdict::Accepted { .. });
        records.filter(accepted).count()
    })
}

fn each_entry(file: &[u8]) -> Duration {
    repeated(|| {
        let mut covers = [0; zevdrak::COVERS];
        let accepted = |entry: &usize| {
            let verdict = zevdrak::verdict(black_box(file), *entry, &mut covers);
            matches!(verdict, zevdrak::Verdict::Accepted { .. })
        };
        (0..entries(file)).filter(accepted).count()
    })
}

/// How many entries a file has: a field with tag 03 at the top is one.
fn entries(file: &[u8]) -> usize {
    let mut rest = file;
    let mut count = 0;
    while let [tag, high, low, after @ ..] = rest {
        count += usize::from(*tag == 0x03);
        rest = &after[usize::from(u16::from_be_bytes([*high, *low]))..];
    }
    count
}
