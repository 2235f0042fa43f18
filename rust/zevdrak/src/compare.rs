// SPDX-License-Identifier: Apache-2.0 OR MIT
//! The functions under the verdict, for comparisons with the original one by
//! one: a user of the checker needs none of them. The header is
//! include/zevdrak_compare.h.
//!
//! [`reserve_bounding_payout`] asks the questions about the file and the entry
//! first, and took at most 116 KB of stack. The others ask none, since they are
//! compared on parts of files too, and go into what they are given as deep as it
//! is nested: a level takes 48 bytes in [`expr_eq`] and [`bounded_by_backing`], 64
//! in the three about tokens. So bytes that are nested thousands deep overflow a
//! small stack, and that ends the process. On a file that [`crate::check_file`]
//! passes, where expressions are at most 32 deep, none of them took more than 80
//! KB; a stack of 2 MB, which a thread has if nothing else is said, is enough for
//! any bytes. That is measured, and no proof bounds it.

use crate::{c, refusal, Refusal};

/// Whether the expressions at the fronts of two parts of a file are equal.
pub fn expr_eq(a: &[u8], b: &[u8]) -> bool {
    unsafe { c::zevdrak_expr_eq(a.as_ptr(), a.len(), b.as_ptr(), b.len()) }
}

/// Whether the backing at the front of one part bounds the amount at the front
/// of another. The backing is compared as it stands: peel it first.
pub fn bounded_by_backing(amount: &[u8], backing: &[u8], wrapping: bool) -> bool {
    unsafe {
        c::zevdrak_bounded_by_backing(
            amount.as_ptr(),
            amount.len(),
            backing.as_ptr(),
            backing.len(),
            wrapping,
        )
    }
}

/// Whether the token, no bytes for none, is the one that the entry at the front
/// of a part of a file admits.
pub fn is_admitted_inflow_token(entry: &[u8], token: &[u8]) -> bool {
    unsafe {
        c::zevdrak_is_admitted_inflow_token(
            entry.as_ptr(),
            entry.len(),
            token.as_ptr(),
            token.len(),
        )
    }
}

/// Whether it is the one token that funds the map.
pub fn is_ledger_funding_token(file: &[u8], map: &[u8], token: &[u8]) -> bool {
    unsafe {
        c::zevdrak_is_ledger_funding_token(
            file.as_ptr(),
            file.len(),
            map.as_ptr(),
            map.len(),
            token.as_ptr(),
            token.len(),
        )
    }
}

/// Whether it is the token that the state field of that name holds.
pub fn is_reserve_token(file: &[u8], field: &[u8], token: &[u8]) -> bool {
    unsafe {
        c::zevdrak_is_reserve_token(
            file.as_ptr(),
            file.len(),
            field.as_ptr(),
            field.len(),
            token.as_ptr(),
            token.len(),
        )
    }
}

/// The state field that covers a payout of an entry by itself, whatever else
/// backs the payout and whether or not another one uses the field: its index
/// among them. All are counted from 0. None does where there is no such payout;
/// a file that questions 1 to 8 refuse, or an entry that question 9 does, is
/// refused as by the verdict.
pub fn reserve_bounding_payout(
    file: &[u8],
    entry: usize,
    payout: usize,
) -> Result<Option<usize>, Refusal> {
    let (mut first, mut second) = (0, 0);
    // The function reads the file, writes the two numbers, and keeps none of
    // them.
    let answer = unsafe {
        c::zevdrak_reserve_bounding_payout(
            file.as_ptr(),
            file.len(),
            entry,
            payout,
            &mut first,
            &mut second,
        )
    };
    match answer {
        0 => Ok(Some(first)),
        1 => Ok(None),
        _ => Err(refusal(first, second)),
    }
}
