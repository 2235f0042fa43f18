// SPDX-License-Identifier: Apache-2.0 OR MIT
//! Random expressions over small pools of names and numbers, so that equal
//! and nearly equal ones are frequent.

use crate::construct::*;
use crate::random::Random;
use model_file::{tag, Content, Field};

pub const ASSETS: [&str; 3] = ["a", "b", "c"];
pub const PLAIN: [&str; 2] = ["n", "k"];
pub const MAPS: [&str; 3] = ["m", "w", "v"];
pub const TOKENS: [&str; 3] = ["T", "U", "V"];
pub const RESERVES: [&str; 3] = ["r", "s", "q"];
/// Names that the rules look for.
pub const MEMBERS: [&str; 9] = [
    "amount",
    "debit",
    "credit",
    "set",
    "insert",
    "split",
    "send_asset",
    "remove",
    "total",
];
const NUMBERS: [&str; 10] = ["1", "10", "1_0", "_10", "010", "2", "0", "", "_", "0_0"];
const ARITHMETIC: [u8; 7] = [PLUS, PLUS, MINUS, TIMES, DIVIDED, REMAINDER, SHIFTED];
const STRINGS: [&str; 5] = ["", "T", "10", "1_0", "n"];

/// Any name of the pools, and some that differ from one of them in one byte.
pub fn any_name(random: &mut Random) -> &'static str {
    const NEAR: [&str; 8] = ["A", "aa", "T_", "t", "rr", "n_", "Amount", "f"];
    match random.below(8) {
        0 => random.pick(&ASSETS),
        1 => random.pick(&PLAIN),
        2 => random.pick(&MAPS),
        3 => random.pick(&TOKENS),
        4 => random.pick(&RESERVES),
        5 => random.pick(&MEMBERS),
        6 => random.pick(&NEAR),
        _ => random.pick(&["a", "n", "m", "T", "r"]),
    }
}

/// An expression without parts, of any kind.
pub fn leaf(random: &mut Random) -> Field {
    match random.below(16) {
        0..=4 => identifier(any_name(random)),
        5..=8 => integer(random.pick(&NUMBERS)),
        9 => string(random.pick(&STRINGS)),
        10 => date(random.pick(&["2026-11-15", "10", ""])),
        11 => caller(),
        12 => now(),
        13 => native(),
        14 => in_asset(),
        _ => amount_of(random.pick(&ASSETS)),
    }
}

/// An amount: mostly a plain parameter, a number or a `p.amount`, else
/// something built of them with at most so many levels.
pub fn amount(random: &mut Random, levels: usize) -> Field {
    if levels > 0 && random.percent(40) {
        return compound(random, levels - 1);
    }
    match random.below(12) {
        0..=4 => identifier(random.pick(&PLAIN)),
        5..=7 => integer(random.pick(&NUMBERS)),
        8..=9 => amount_of(random.pick(&ASSETS)),
        _ => leaf(random),
    }
}

fn compound(random: &mut Random, levels: usize) -> Field {
    let first = amount(random, levels);
    let first = match random.percent(20) {
        true => any_wrapper(random, first),
        false => first,
    };
    let second = amount(random, levels);
    match random.below(15) {
        0..=3 => binary(random.pick(&ARITHMETIC), first, second),
        4..=5 => binary(any_operator(random), first, second),
        6 => call(identifier(any_name(random)), vec![first]),
        7 => call(identifier("f"), vec![first, second]),
        8 => call(member(first, any_name(random)), vec![second]),
        9 => member(first, any_name(random)),
        10 => not(first),
        11 => negate(first),
        _ => any_wrapper(random, first),
    }
}

pub fn any_operator(random: &mut Random) -> u8 {
    tag::BINARY + random.below(tag::OPERATORS.len()) as u8
}

pub fn any_wrapper(random: &mut Random, inner: Field) -> Field {
    match random.percent(50) {
        true => checked(inner),
        false => wrapping(inner),
    }
}

/// The expression, now and then in one or more wrappers.
pub fn wrapped(random: &mut Random, inner: Field) -> Field {
    match random.percent(15) {
        true => {
            let outer = any_wrapper(random, inner);
            wrapped(random, outer)
        }
        false => inner,
    }
}

/// The expression, now and then in wrappers that are seldom Wrapping.
pub fn guarded(random: &mut Random, inner: Field) -> Field {
    match random.percent(15) {
        true if random.fault(40) => wrapped(random, wrapping(inner)),
        true => checked(inner),
        false => inner,
    }
}

/// The same expression with other underscores in its integers.
pub fn rewritten(random: &mut Random, mut expression: Field) -> Field {
    move_underscores(random, &mut expression);
    expression
}

fn move_underscores(random: &mut Random, expression: &mut Field) {
    match &mut expression.content {
        Content::Bytes(text) if expression.tag == tag::INTEGER && random.percent(40) => {
            text.retain(|b| *b != b'_');
            for _ in 0..random.below(3) {
                text.insert(random.below(text.len() + 1), b'_');
            }
        }
        Content::Bytes(_) => {}
        Content::Parts(parts) => parts.iter_mut().for_each(|p| move_underscores(random, p)),
    }
}

/// Something that the expression bounds, most of the time.
pub fn reduced(random: &mut Random, expression: Field) -> Field {
    let operator = match random.fault(20) {
        true => any_operator(random),
        false => random.pick(&[MINUS, MINUS, DIVIDED, SHIFTED, REMAINDER]),
    };
    let other = amount(random, 1);
    let less = match random.fault(10) {
        true => binary(operator, other, expression),
        false => binary(operator, expression, other),
    };
    let less = match random.below(6) {
        0 => checked(less),
        1 => wrapping(checked(less)),
        _ if random.fault(10) => wrapping(less),
        _ => less,
    };
    match random.percent(35) {
        true => reduced(random, less),
        false => less,
    }
}

/// What is one step from the call: another callee, or other arguments.
pub fn nearly(random: &mut Random, mut call: Field) -> Field {
    let parts = call.inner_mut().expect("calls have parts");
    match random.below(10) {
        0 => parts[0] = any_wrapper(random, parts[0].clone()),
        1 => parts[0] = with_other_base(random, parts[0].clone()),
        2 => parts[0] = with_other_form(parts[0].clone()),
        3 => parts[0] = member(identifier("m"), any_name(random)),
        4 => parts[1..].reverse(),
        5 => drop(parts.pop()),
        6 if parts.len() > 1 => parts[1] = any_wrapper(random, parts[1].clone()),
        7 => {
            let last = parts.pop().expect("calls have a callee");
            parts.push(with_other_base(random, last));
        }
        _ => {
            let last = parts.pop().expect("calls have a callee");
            parts.push(surrounded(random, last));
        }
    }
    call
}

/// The member with a wrapped base; another expression is wrapped itself.
fn with_other_base(random: &mut Random, mut expression: Field) -> Field {
    match (expression.tag, expression.inner_mut()) {
        (tag::MEMBER, Some(parts)) => parts[0] = any_wrapper(random, parts[0].clone()),
        _ => expression = any_wrapper(random, expression),
    }
    expression
}

/// A plain name of a member, and the reverse.
fn with_other_form(callee: Field) -> Field {
    match callee.inner() {
        [_, name] => Field::bytes(tag::IDENTIFIER, name.text()),
        _ => member(callee, "send_asset"),
    }
}

/// A statement of a body that holds the call, in any position that is walked.
pub fn placed(random: &mut Random, call: Field) -> Field {
    if random.percent(60) {
        return statement(call);
    }
    let inner = match random.percent(50) {
        true => surrounded(random, call),
        false => call,
    };
    match random.below(8) {
        0 => guard(inner),
        1 => local(any_name(random), inner),
        2 => emit("E", vec![inner]),
        3 => emit("E", vec![leaf(random), inner, leaf(random)]),
        4 => assign(any_assignment(random), inner, leaf(random)),
        5 => assign(any_assignment(random), identifier(any_name(random)), inner),
        _ => statement(inner),
    }
}

pub fn any_assignment(random: &mut Random) -> u8 {
    random.pick(&[tag::SET, tag::ADD, tag::SUBTRACT])
}

/// The expression inside another one.
pub fn surrounded(random: &mut Random, inner: Field) -> Field {
    match random.below(11) {
        0 => not(inner),
        1 => negate(inner),
        2 => checked(inner),
        3 => wrapping(inner),
        4 => binary(any_operator(random), inner, leaf(random)),
        5 => binary(any_operator(random), leaf(random), inner),
        6 => member(inner, any_name(random)),
        7 => call(inner, vec![leaf(random)]),
        8 => call(identifier("f"), vec![inner]),
        9 => call(member(inner, "f"), vec![leaf(random)]),
        _ => call(identifier("f"), vec![leaf(random), inner]),
    }
}
