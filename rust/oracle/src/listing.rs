// SPDX-License-Identifier: Apache-2.0 OR MIT
//! The listing of a model file, as the program `payouts` prints it.

use crate::answer::{answers, Answer};
use model_file::Refusal;
use std::fmt::Write;

/// The listing, every line ended by a line feed.
pub fn listing(file: &[u8]) -> Vec<u8> {
    lines(file, false)
}

/// The listing with the reason's number after the number of a rejected payout.
pub fn listing_with_reasons(file: &[u8]) -> Vec<u8> {
    lines(file, true)
}

fn lines(file: &[u8], reasons: bool) -> Vec<u8> {
    let mut out = String::new();
    match answers(file) {
        Err(refusal) => refused(&mut out, refusal),
        Ok(answers) => {
            for (number, answer) in answers.iter().enumerate() {
                entry(&mut out, number, answer, reasons).expect("a string takes any text");
            }
        }
    }
    out.into_bytes()
}

fn refused(out: &mut String, refusal: Refusal) {
    let Refusal { number, place } = refusal;
    writeln!(out, "r {number} {place}").expect("a string takes any text");
}

fn entry(out: &mut String, number: usize, answer: &Answer, reasons: bool) -> std::fmt::Result {
    match answer {
        Answer::Refused(refusal) => refused(out, *refusal),
        Answer::Rejected(rejection) => {
            write!(out, "e {number} no {}", rejection.payout)?;
            if reasons {
                write!(out, " {}", rejection.reason as u8)?;
            }
            writeln!(out)?;
        }
        Answer::Accepted { covers, spare } => {
            writeln!(out, "e {number} ok {} {spare}", covers.len())?;
            for (payout, cover) in covers.iter().enumerate() {
                writeln!(out, "p {payout} {} {}", cover.kind as u8, cover.index)?;
            }
        }
    }
    Ok(())
}
