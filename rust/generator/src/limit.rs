// SPDX-License-Identifier: Apache-2.0 OR MIT
//! Files around the limits: size, depth, and the counts of 64.

use crate::construct::*;
use crate::expression::{leaf, placed, surrounded, wrapped, ASSETS, MAPS, RESERVES};
use crate::random::Random;
use model_file::{tag, Field, DEPTH_LIMIT, ENTRY_LIMIT, SIZE_LIMIT};

/// A number close to the limit, on either side.
fn around(random: &mut Random, limit: usize) -> usize {
    limit + random.pick(&[0, 0, 1, 1, 2]) - usize::from(random.percent(20))
}

/// A file of a size around the limit; a long string fills it up.
pub fn size(random: &mut Random) -> Vec<u8> {
    let wanted = match random.percent(10) {
        true => SIZE_LIMIT + random.below(4000),
        false => around(random, SIZE_LIMIT),
    };
    let amount = amount_of("a");
    let paid = statement(send(identifier("T"), amount));
    let filled = |length| {
        let filling = emit("E", vec![string(&"x".repeat(length))]);
        bytes(&[entry("f", vec![asset("a"), paid.clone(), filling])])
    };
    let empty = filled(0).len();
    let mut file = filled(wanted - empty);
    if random.percent(25) {
        file[random.below(empty)] ^= 1;
    }
    file
}

/// Expressions nested around the deepest level that is allowed, in any place.
pub fn depth(random: &mut Random) -> Vec<Field> {
    let levels = around(random, DEPTH_LIMIT) - 1;
    let uniform = random.percent(30);
    let mut deep = bottom(random);
    for _ in 0..levels {
        deep = match uniform {
            true => checked(deep),
            false => one_level(random, deep),
        };
    }
    let body = match random.below(10) {
        0 => return vec![state("r", Some(deep))],
        1 => return vec![genesis(statement(deep))],
        2 => limits(deep),
        3 => denies(deep),
        4 => guard(deep),
        5 => local("x", deep),
        6 => emit("E", vec![leaf(random), deep]),
        7 => assign(tag::SET, deep, leaf(random)),
        8 => assign(tag::ADD, leaf(random), deep),
        _ => statement(deep),
    };
    vec![entry("f", vec![asset("a"), body])]
}

/// What stands deepest: an expression, now and then one with a fault of its
/// own, to tell which is found first.
fn bottom(random: &mut Random) -> Field {
    match random.below(8) {
        0 => identifier(""),
        1 => integer("\u{1f}"),
        2 => Field::parts(tag::CALL, vec![]),
        3 => Field::bytes(0x3E, []),
        4 => debit("m", amount_of("a")),
        _ => leaf(random),
    }
}

/// The expression one level deeper.
fn one_level(random: &mut Random, inner: Field) -> Field {
    match random.below(8) {
        0 => not(inner),
        1 => negate(inner),
        2 => member(inner, "x"),
        3 => call(inner, vec![]),
        4 => call(identifier("f"), vec![inner]),
        5 => binary(PLUS, inner, identifier("n")),
        6 => binary(AND, identifier("n"), inner),
        _ => wrapping(inner),
    }
}

/// Around 64 entries, with state fields among them.
pub fn entries(random: &mut Random) -> Vec<Field> {
    let count = around(random, ENTRY_LIMIT);
    let mut fields = Vec::new();
    for _ in 0..count {
        let parts = match random.percent(10) {
            true => vec![asset("a"), statement(send(identifier("T"), amount_of("a")))],
            false => vec![],
        };
        fields.push(entry("f", parts));
        if random.percent(1) {
            fields.push(state(random.pick(&RESERVES), None));
        }
    }
    fields
}

/// Around 64 payouts, around 64 backings, or both.
pub fn payouts(random: &mut Random) -> Vec<Field> {
    let (payouts, backings) = match random.below(4) {
        0 => (around(random, 64), random.below(4)),
        1 => (random.below(4), around(random, 64)),
        2 => (64, around(random, 64)),
        _ => (around(random, 64), around(random, 64)),
    };
    let parameters = match random.below(3) {
        0 => 0,
        1 => backings,
        _ => random.below(backings + 1),
    };
    let kinds = 1 + random.below(3);
    let mut parts: Vec<Field> = (0..parameters).map(|i| asset(ASSETS[i % kinds])).collect();
    let mut body: Vec<Field> = (parameters..backings)
        .map(|i| taken(random, i % kinds))
        .collect();
    let mut calls: Vec<Field> = (0..payouts)
        .map(|i| paid(random, i % kinds, parameters))
        .collect();
    nest(random, &mut calls);
    body.extend(calls.into_iter().map(|c| placed(random, c)));
    if random.percent(30) {
        random.shuffle(&mut body);
    }
    parts.extend(body);
    let mut fields = vec![entry("g", vec![]); 2];
    fields.insert(random.below(3), entry("f", parts));
    fields
}

fn taken(random: &mut Random, kind: usize) -> Field {
    let amount = wrapped(random, identifier(ASSETS[kind]));
    let map = random.pick(&MAPS);
    placed(random, debit(map, amount))
}

fn paid(random: &mut Random, kind: usize, parameters: usize) -> Field {
    let amount = match random.below(64) < parameters {
        true => amount_of(ASSETS[kind]),
        false => identifier(ASSETS[kind]),
    };
    send(identifier("T"), amount)
}

/// Puts some of the last payouts inside others.
fn nest(random: &mut Random, calls: &mut Vec<Field>) {
    for _ in 0..random.below(3) {
        let Some(mut outer) = calls.pop() else { return };
        let Some(inner) = calls.pop() else {
            return calls.push(outer);
        };
        let inner = surrounded(random, inner);
        let at = 1 + random.below(4);
        let parts = outer.inner_mut().expect("calls have parts");
        parts.insert(at.min(parts.len()), inner);
        calls.push(outer);
    }
}
