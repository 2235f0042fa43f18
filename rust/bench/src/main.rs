// SPDX-License-Identifier: Apache-2.0 OR MIT
//! Times the original payout matching over every entry of a file.

use std::process::ExitCode;

fn main() -> ExitCode {
    bench::run(&[bench::READY_TREE, bench::FROM_BYTES])
}
