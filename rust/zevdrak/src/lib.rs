// SPDX-License-Identifier: Apache-2.0 OR MIT
//! The payout checker for Quanta contracts, proved, called from Rust.
//!
//! ```
//! use zevdrak::{contract, Kind, Outcome};
//!
//! // An entry that pays out what came in with its asset parameter.
//! let file = include_bytes!("../../../examples/K03.model");
//! let contract = contract(file);
//! // Publish only where this holds, and file the covers with the verdicts.
//! assert_eq!(contract.outcome, Outcome::Accepted);
//! let covers = &contract.entries[0].covers;
//! assert_eq!((covers[0].kind, covers[0].index), (Kind::EqualParameter, 0));
//! ```
//!
//! Every function takes any bytes, keeps nothing, and may be called from any
//! thread. What a refusal and a rejection mean is in docs/USING.md. The module
//! [`compare`] is for comparisons with the original alone, and has limits.

mod c;
pub mod compare;
mod contract;

pub use contract::{contract, contract_into, Contract, Entry, Outcome, Records, RECORDS};

/// Bytes of covers that are enough for every entry: 3 for each of 64 payouts.
pub const COVERS: usize = 192;

/// A question that has the answer "no", and the offset of the field that it is
/// about.
#[derive(Debug, Clone, Copy, PartialEq, Eq)]
pub struct Refusal {
    pub number: u8,
    pub place: usize,
}

/// The verdict on an entry.
#[derive(Debug, Clone, Copy, PartialEq, Eq)]
pub enum Verdict {
    /// Each payout has a cover of its own, and 3 bytes for each are written
    /// into the lent covers. The spare is how many backings the entry has
    /// beyond its payouts, or 0.
    Accepted { payouts: usize, spare: usize },
    /// The payout of this number, counted from 0, has none. Nothing is written.
    Rejected { payout: usize, reason: Reason },
    /// The file or the entry is not one that the rules speak of. Nothing is
    /// written.
    Refused(Refusal),
}

/// Why a payout is rejected.
#[derive(Debug, Clone, Copy, PartialEq, Eq)]
pub enum Reason {
    SplitWithoutAmount = 1,
    ConflictAtEqual = 2,
    AmountTaken = 3,
    ConflictAtBounding = 4,
    NoReserve = 5,
    ReserveUsed = 6,
}

/// How a payout is covered.
#[derive(Debug, Clone, Copy, PartialEq, Eq)]
pub enum Kind {
    EqualDebit = 1,
    EqualParameter = 2,
    BoundingDebit = 3,
    BoundingParameter = 4,
    Reserve = 5,
}

/// What covers a payout: an index, counted from 0, among the entry's caller
/// debits, its asset parameters or the state fields, as the kind says.
#[derive(Debug, Clone, Copy, PartialEq, Eq)]
pub struct Cover {
    pub kind: Kind,
    pub index: usize,
}

/// The verdict on an entry, counted from 0, of a model file. The covers of an
/// accepted entry are written into the front of the lent bytes; these stay as
/// they are otherwise.
pub fn verdict(file: &[u8], entry: usize, lent: &mut [u8]) -> Verdict {
    let (mut first, mut second) = (0, 0);
    // The function reads the file, writes the covers and the two numbers, and
    // keeps none of them.
    let answer = unsafe {
        c::zevdrak_verdict(
            file.as_ptr(),
            file.len(),
            entry,
            lent.as_mut_ptr(),
            lent.len(),
            &mut first,
            &mut second,
        )
    };
    told(answer, first, second)
}

/// The verdict that the library tells by its numbers.
fn told(answer: u8, first: usize, second: usize) -> Verdict {
    match answer {
        0 => Verdict::Accepted {
            payouts: first,
            spare: second,
        },
        1 => Verdict::Rejected {
            payout: first,
            reason: reason(second),
        },
        _ => Verdict::Refused(refusal(first, second)),
    }
}

/// The refusal that the library tells by its two numbers.
fn refusal(first: usize, second: usize) -> Refusal {
    Refusal {
        number: first as u8,
        place: second,
    }
}

fn reason(number: usize) -> Reason {
    match number {
        1 => Reason::SplitWithoutAmount,
        2 => Reason::ConflictAtEqual,
        3 => Reason::AmountTaken,
        4 => Reason::ConflictAtBounding,
        5 => Reason::NoReserve,
        _ => Reason::ReserveUsed,
    }
}

/// The covers that an accepted entry's bytes say. Bytes that no verdict wrote
/// may say a kind that there is not: such a cover is left out.
pub fn covers(bytes: &[u8]) -> Vec<Cover> {
    let cover = |bytes: &[u8]| {
        let kind = match bytes[0] {
            1 => Kind::EqualDebit,
            2 => Kind::EqualParameter,
            3 => Kind::BoundingDebit,
            4 => Kind::BoundingParameter,
            5 => Kind::Reserve,
            _ => return None,
        };
        let index = usize::from(u16::from_be_bytes([bytes[1], bytes[2]]));
        Some(Cover { kind, index })
    };
    bytes.chunks_exact(3).filter_map(cover).collect()
}

/// Questions 1 to 8, about the file.
pub fn check_file(file: &[u8]) -> Result<(), Refusal> {
    let mut place = 0;
    // The function reads the slice, writes the place, and keeps neither.
    match unsafe { c::zevdrak_check_file(file.as_ptr(), file.len(), &mut place) } {
        0 => Ok(()),
        number => Err(Refusal { number, place }),
    }
}

/// The listing of a model file, as the program `payouts` prints it.
pub fn listing(file: &[u8]) -> Vec<u8> {
    let mut buffer = vec![0; LISTING];
    let length = listing_into(file, &mut buffer).len();
    buffer.truncate(length);
    buffer
}

/// The same in a lent buffer: all entries of a file by one call, which asks the
/// questions about the file once. Where the buffer is shorter than
/// [`LISTING`] the end of the listing may be left out.
pub fn listing_into<'a>(file: &[u8], buffer: &'a mut [u8]) -> &'a [u8] {
    // The function reads the file, writes the buffer, and keeps neither.
    let length =
        unsafe { c::zevdrak_listing(file.as_ptr(), file.len(), buffer.as_mut_ptr(), buffer.len()) };
    &buffer[..length]
}

/// Bytes that are enough for the listing of every file.
pub const LISTING: usize = 65_536;
