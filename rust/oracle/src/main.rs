// SPDX-License-Identifier: Apache-2.0 OR MIT
//! Reads a model file from standard input and prints the original's listing.

use std::io::{self, Read, Write};

fn main() -> io::Result<()> {
    let arguments: Vec<String> = std::env::args().skip(1).collect();
    let list = match arguments.iter().map(String::as_str).collect::<Vec<_>>()[..] {
        [] => oracle::listing,
        ["--reasons"] => oracle::listing_with_reasons,
        _ => {
            eprintln!("usage: oracle [--reasons] < MODEL-FILE");
            std::process::exit(2);
        }
    };
    let mut file = Vec::new();
    io::stdin().read_to_end(&mut file)?;
    io::stdout().write_all(&list(&file))
}
