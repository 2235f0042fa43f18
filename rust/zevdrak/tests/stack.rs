// SPDX-License-Identifier: Apache-2.0 OR MIT
//! The widest and the deepest files run on a stack of 64 KB: a list is gone
//! through by a loop, and only a field inside a field is a call. What asks no
//! question first takes more on the deepest.

mod fields;

use fields::{entry, entry_of, field, nested, nots, state, statement, CALLER, IDENTIFIER};
use zevdrak::compare::{
    bounded_by_backing, expr_eq, is_admitted_inflow_token, is_ledger_funding_token,
    is_reserve_token, reserve_bounding_payout,
};
use zevdrak::{check_file, verdict, Refusal, Verdict, COVERS};

const STACK: usize = 64 * 1024;
/// The verdict has tables of its own: the calls of a body, the guards of an
/// entry, the calls that fund a map.
const VERDICT_STACK: usize = 128 * 1024;
/// The reserve of a payout by itself has tables for the longest file.
const RESERVE_STACK: usize = 256 * 1024;
/// What asks no question first goes as deep as the bytes are nested.
const DEEPEST_STACK: usize = 2 * 1024 * 1024;
const GUARD: u8 = 0x10;
const ADD_TO: u8 = 0x14;
const CALL: u8 = 0x3B;
const AND: u8 = 0x41;

fn on_a_small_stack(work: impl FnOnce() + Send + 'static) {
    on_a_stack(STACK, work);
}

fn on_a_stack(size: usize, work: impl FnOnce() + Send + 'static) {
    let thread = std::thread::Builder::new().stack_size(size).spawn(work);
    thread.unwrap().join().unwrap();
}

/// The exchange's entries use everything that the verdict has: debits,
/// parameters, reserves, tokens that guards and maps tell.
#[test]
fn verdicts_of_an_exchange() {
    on_a_stack(VERDICT_STACK, || {
        let file = include_bytes!("../../../examples/exchange.model");
        let mut covers = [0; COVERS];
        let accepted =
            |entry: &usize| matches!(verdict(file, *entry, &mut covers), Verdict::Accepted { .. });
        assert!((0..64).filter(accepted).count() > 1);
    });
}

#[test]
fn a_call_with_ten_thousand_arguments() {
    on_a_small_stack(|| {
        let call = field(CALL, &CALLER.repeat(10_900));
        assert_eq!(check_file(&entry(&call)), Ok(()));
        assert!(expr_eq(&call, &call.clone()));
        assert!(bounded_by_backing(&call, &call.clone(), false));
    });
}

#[test]
fn the_deepest_file() {
    let refusal = Refusal {
        number: 4,
        place: 106,
    };
    on_a_small_stack(move || {
        assert_eq!(check_file(&entry(&nots(10_900))), Err(refusal));
        assert_eq!(check_file(&entry(&nots(31))), Ok(()));
        assert!(expr_eq(&nots(31), &nots(31)));
    });
    on_a_stack(RESERVE_STACK, move || {
        let reserve = reserve_bounding_payout(&entry(&nots(10_900)), 0, 0);
        assert_eq!(reserve, Err(refusal));
    });
}

/// An expression may be as long as a field's length can say.
#[test]
fn the_deepest_expressions() {
    on_a_stack(DEEPEST_STACK, || {
        let deepest = nots(21_845);
        assert!(expr_eq(&deepest, &deepest.clone()));
        assert!(bounded_by_backing(&deepest, &deepest.clone(), false));
    });
}

/// The token functions go into conditions and calls of files that question 4
/// refuses too.
#[test]
fn tokens_of_the_deepest_files() {
    on_a_stack(DEEPEST_STACK, || {
        let guarded = entry_of(&field(GUARD, &nested(AND, 10_900)));
        assert!(is_admitted_inflow_token(&guarded, b""));
        assert!(is_ledger_funding_token(&entry(&nots(10_900)), b"m", b""));
        let raise = field(ADD_TO, &[&field(IDENTIFIER, b"r"), &CALLER[..]].concat());
        let raising = entry_of(&[raise, statement(&nots(10_900))].concat());
        let file = [state(b"r"), raising].concat();
        assert!(is_reserve_token(&file, b"r", b""));
    });
}
