// SPDX-License-Identifier: Apache-2.0 OR MIT
//! `call-once FUNCTION FILE`: calls one of the proved functions on a model file,
//! and prints what it answers. For those who count what a call takes.

use std::process::ExitCode;
use zevdrak::{check_file, contract_into, listing_into, verdict, COVERS, LISTING, RECORDS};

fn main() -> ExitCode {
    let arguments: Vec<String> = std::env::args().skip(1).collect();
    let [function, path] = &arguments[..] else {
        return usage();
    };
    let file = match std::fs::read(path) {
        Ok(file) => file,
        Err(why) => {
            eprintln!("call-once: {path}: {why}");
            return ExitCode::FAILURE;
        }
    };
    match function.as_str() {
        "contract" => println!("{:?}", contract_into(&file, &mut [0; RECORDS]).0),
        "verdict" => println!("{:?}", verdict(&file, 0, &mut [0; COVERS])),
        "listing" => println!("{} bytes", listing_into(&file, &mut [0; LISTING]).len()),
        "check_file" => println!("{:?}", check_file(&file)),
        _ => return usage(),
    }
    ExitCode::SUCCESS
}

fn usage() -> ExitCode {
    eprintln!("usage: call-once contract|verdict|listing|check_file FILE");
    ExitCode::from(2)
}
