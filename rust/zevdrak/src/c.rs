// SPDX-License-Identifier: Apache-2.0 OR MIT
//! The functions of crates/export, as C sees them: a slice is a pointer and
//! then a length. The headers are include/zevdrak.h and, of those for
//! comparisons, include/zevdrak_compare.h.

extern "C" {
    pub fn zevdrak_verdict(
        file: *const u8,
        file_length: usize,
        entry: usize,
        covers: *mut u8,
        covers_length: usize,
        first: *mut usize,
        second: *mut usize,
    ) -> u8;
    pub fn zevdrak_contract(
        file: *const u8,
        file_length: usize,
        records: *mut u8,
        records_length: usize,
        length: *mut usize,
    ) -> u8;
    pub fn zevdrak_listing(
        file: *const u8,
        file_length: usize,
        out: *mut u8,
        out_length: usize,
    ) -> usize;
    pub fn zevdrak_check_file(file: *const u8, length: usize, place: *mut usize) -> u8;
}

// For comparisons.
extern "C" {
    pub fn zevdrak_expr_eq(a: *const u8, a_length: usize, b: *const u8, b_length: usize) -> bool;
    pub fn zevdrak_bounded_by_backing(
        amount: *const u8,
        amount_length: usize,
        backing: *const u8,
        backing_length: usize,
        wrapping: bool,
    ) -> bool;
    pub fn zevdrak_is_admitted_inflow_token(
        entry: *const u8,
        entry_length: usize,
        token: *const u8,
        token_length: usize,
    ) -> bool;
    pub fn zevdrak_is_reserve_token(
        file: *const u8,
        file_length: usize,
        field: *const u8,
        field_length: usize,
        token: *const u8,
        token_length: usize,
    ) -> bool;
    pub fn zevdrak_is_ledger_funding_token(
        file: *const u8,
        file_length: usize,
        map: *const u8,
        map_length: usize,
        token: *const u8,
        token_length: usize,
    ) -> bool;
    pub fn zevdrak_reserve_bounding_payout(
        file: *const u8,
        file_length: usize,
        entry: usize,
        payout: usize,
        first: *mut usize,
        second: *mut usize,
    ) -> u8;
}
