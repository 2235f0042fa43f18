// SPDX-License-Identifier: Apache-2.0 OR MIT
//! Clauses and guards that name a token, and some that only seem to.

use crate::construct::*;
use crate::expression::{any_name, any_operator, any_wrapper, leaf, surrounded, wrapped};
use crate::random::Random;
use model_file::Field;

/// A clause or guard about the token. Most of them name it.
pub fn about(random: &mut Random, token: &str) -> Field {
    match random.fault(50) {
        true => seeming(random, token),
        false => naming(random, token),
    }
}

/// In-asset compared with the token, in either order.
fn comparison(random: &mut Random, operator: u8, token: &str) -> Field {
    let left = wrapped(random, in_asset());
    let right = wrapped(random, identifier(token));
    match random.percent(50) {
        true => binary(operator, left, right),
        false => binary(operator, right, left),
    }
}

fn other(random: &mut Random) -> Field {
    match random.percent(40) {
        true => leaf(random),
        false => binary(any_operator(random), leaf(random), leaf(random)),
    }
}

/// The condition joined with another by `operator`, on either side.
pub fn joined(random: &mut Random, operator: u8, condition: Field) -> Field {
    match random.percent(50) {
        true => binary(operator, condition, other(random)),
        false => binary(operator, other(random), condition),
    }
}

/// The condition joined once or more.
fn joined_deeply(random: &mut Random, operator: u8, condition: Field) -> Field {
    let once = joined(random, operator, condition);
    match random.percent(30) {
        true => joined_deeply(random, operator, once),
        false => once,
    }
}

/// A condition of an entry that names the token.
fn naming(random: &mut Random, token: &str) -> Field {
    let equal = comparison(random, EQUAL, token);
    let unequal = comparison(random, UNEQUAL, token);
    match random.below(12) {
        0..=3 => guard(equal),
        4..=5 => limits(equal),
        6 => guard(joined_deeply(random, AND, equal)),
        7 => limits(joined_deeply(random, AND, equal)),
        8 => denies(unequal),
        9 => denies(joined_deeply(random, OR, unequal)),
        10 => denies(not(equal)),
        _ => {
            let several = joined_deeply(random, AND, equal);
            let denied = not(several);
            match random.percent(50) {
                true => denies(denied),
                false => denies(joined(random, OR, denied)),
            }
        }
    }
}

/// A condition that is one step from naming the token.
fn seeming(random: &mut Random, token: &str) -> Field {
    let equal = comparison(random, EQUAL, token);
    let unequal = comparison(random, UNEQUAL, token);
    match random.below(22) {
        0 => limits(any_wrapper(random, equal)),
        1 => guard(any_wrapper(random, equal)),
        2 => limits(unequal),
        20 => guard(unequal),
        3 | 21 => denies(equal),
        4 => limits(joined(random, OR, equal)),
        5 => limits(not(unequal)),
        6 => denies(joined(random, AND, unequal)),
        7 => denies(any_wrapper(random, unequal)),
        8 => denies(not(any_wrapper(random, equal))),
        9 => denies(any_wrapper(random, not(equal))),
        10 => denies(not(not(equal))),
        11 => denies(not(joined(random, OR, equal))),
        12 => denies(joined(random, OR, equal)),
        13 => {
            let both = joined(random, AND, equal);
            let hidden = any_wrapper(random, both);
            limits(joined(random, AND, hidden))
        }
        14 => {
            let both = joined(random, OR, unequal);
            let hidden = any_wrapper(random, both);
            denies(joined(random, OR, hidden))
        }
        15 => statement(equal),
        16 => guard(binary(EQUAL, in_asset(), string(token))),
        17 => guard(binary(EQUAL, native(), identifier(token))),
        18 => {
            let operator = any_operator(random);
            guard(comparison(random, operator, token))
        }
        _ => guard(surrounded(random, equal)),
    }
}

/// A body guard that is, as a whole and peeled, in-asset equal to the token.
pub fn whole_guard(random: &mut Random, token: &str) -> Field {
    let equal = comparison(random, EQUAL, token);
    guard(wrapped(random, equal))
}

/// A condition that names no token.
pub fn unrelated(random: &mut Random) -> Field {
    let condition = match random.percent(50) {
        true => other(random),
        false => binary(EQUAL, identifier(any_name(random)), leaf(random)),
    };
    match random.below(3) {
        0 => limits(condition),
        1 => denies(condition),
        _ => guard(condition),
    }
}
