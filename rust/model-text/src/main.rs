// SPDX-License-Identifier: Apache-2.0 OR MIT
//! `model-text to-bytes < text > file` and `model-text to-text < file > text`.

use std::io::{Read, Write};
use std::process::ExitCode;

fn main() -> ExitCode {
    match run() {
        Ok(()) => ExitCode::SUCCESS,
        Err(error) => {
            eprintln!("model-text: {error}");
            ExitCode::FAILURE
        }
    }
}

fn run() -> Result<(), Box<dyn std::error::Error>> {
    let direction = std::env::args().nth(1).unwrap_or_default();
    let mut input = Vec::new();
    std::io::stdin().read_to_end(&mut input)?;
    let output = match direction.as_str() {
        "to-bytes" => model_text::to_bytes(&String::from_utf8(input)?)?,
        "to-text" => model_text::to_text(&input).into_bytes(),
        _ => return Err("the argument is to-bytes or to-text".into()),
    };
    std::io::stdout().write_all(&output)?;
    Ok(())
}
