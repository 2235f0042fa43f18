// SPDX-License-Identifier: Apache-2.0 OR MIT
//! Files whose amounts are compared again and again.

use super::names::of_one_short_number;
use super::{largest, pays, sample, short_parameter, wrapped, Sample};
use generator::construct::*;
use model_file::{tag, Field};

pub const SAMPLES: &[Sample] = &[
    sample("64 payouts of 64 debits", || payouts(64, 0)),
    sample("32 payouts of 32 longer debits", || payouts(32, 25)),
    sample("64 payouts of 64 long debits", || payouts(64, 17)),
    sample("64 payouts of one long amount", || equal_payouts(64, 17)),
    sample("wide", wide),
    sample("deep nesting", deep_nesting),
    sample("bounding chains", || {
        largest(|n| vec![chains(40, 23, 29); n])
    }),
    sample("bounding long amounts", || {
        largest(|n| bounding(40, 23, 28, n))
    }),
    sample("members and parameters", || largest(members_and_parameters)),
    sample("members, parameters and nesting", || {
        let parts = |n| vec![short_parameter(); n];
        largest(|n| members_parameters_and_nesting(11 * n, member(caller(), "x"), parts(10 * n)))
    }),
    sample("members, parameters of one number", || {
        let names = of_one_short_number(2);
        let parts = || vec![asset(&names[0]); 64];
        largest(|n| members_parameters_and_nesting(n, amount_of(&names[1]), parts()))
    }),
    sample("conditions and parameters", || {
        largest(conditions_and_parameters)
    }),
];

/// So many payouts of as many debits, in the opposite order.
fn payouts(count: usize, terms: usize) -> Vec<Field> {
    let debits = (0..count).map(|i| statement(debit("m", long_amount(terms, i))));
    let payouts = (0..count).rev().map(|i| pays("T", long_amount(terms, i)));
    vec![entry("f", debits.chain(payouts).collect())]
}

/// So many payouts of as many debits, all of one amount.
fn equal_payouts(count: usize, terms: usize) -> Vec<Field> {
    let debits = vec![statement(debit("m", long_amount(terms, 0))); count];
    let payouts = vec![pays("T", long_amount(terms, 0)); count];
    vec![entry("f", [debits, payouts].concat())]
}

/// An amount of about `terms` terms that differs from others at its end.
fn long_amount(terms: usize, number: usize) -> Field {
    let last = identifier(&format!("n{number:02}"));
    (0..terms).fold(last, |rest, _| binary(TIMES, identifier("factor"), rest))
}

/// A call with as many arguments as there is room for, and statements around a
/// payout.
fn wide() -> Vec<Field> {
    let many = emit("Many", vec![identifier("n"); 2_000]);
    let mut body = vec![many, statement(debit("m", identifier("n")))];
    body.extend(vec![local("x", identifier("n")); 1_800]);
    body.push(pays("T", identifier("n")));
    vec![entry("f", body)]
}

/// Amounts of the greatest depth, mostly wrappers, that no backing bounds.
fn deep_nesting() -> Vec<Field> {
    let deep = |last: &str| {
        (0..15).fold(identifier(last), |inner, _| {
            checked(binary(DIVIDED, inner, integer("2")))
        })
    };
    let mut body = Vec::new();
    for number in 0..50 {
        body.push(statement(debit("m", deep(&format!("n{number:02}")))));
    }
    body.push(pays("T", deep("other")));
    vec![entry("f", body)]
}

/// A payout of a debited amount with many members, none of which is an asset
/// parameter's, in an entry with many parameters and an assignment.
fn members_and_parameters(count: usize) -> Vec<Field> {
    let amount = || call(identifier("g"), vec![amount_of("x"); count]);
    let mut parts = vec![parameter("p", "u64"); count];
    parts.push(statement(debit("m", amount())));
    parts.push(assign(tag::SUBTRACT, identifier("r"), integer("1")));
    parts.push(pays("T", amount()));
    vec![state("r", None), entry("f", parts)]
}

/// Each payout asks for the token that all conditions name: of the files here
/// the one that takes the proved verdict longest.
fn conditions_and_parameters(count: usize) -> Vec<Field> {
    let name = |i: usize| format!("a{i:02}");
    let mut parts: Vec<Field> = (0..64).map(|i| asset(&name(i))).collect();
    parts.extend((0..count).map(|_| limits(binary(EQUAL, in_asset(), identifier("T")))));
    parts.extend((0..64).map(|i| pays("T", amount_of(&name(i)))));
    vec![entry("f", parts)]
}

/// Payouts of one debit each, which bounds the amount, behind debits that do
/// not: each payout's amount is taken apart for each of these. At each wrapper
/// around it all that are inside are peeled.
fn chains(others: usize, payouts: usize, wrappers: usize) -> Field {
    let amount = || wrapped(wrappers, binary(DIVIDED, identifier("n"), now()));
    let mut parts = vec![statement(debit("m", identifier("o"))); others];
    parts.extend(vec![statement(debit("m", identifier("n"))); payouts]);
    parts.extend(vec![statement(send(now(), amount())); payouts]);
    entry("f", parts)
}

/// The same, and at each wrapper the amount is compared with those of the other
/// debits, which are long and differ from it at the end.
fn bounding(others: usize, payouts: usize, wrappers: usize, length: usize) -> Vec<Field> {
    let long = || call(now(), vec![now(); length]);
    let amount = |right: Field| binary(DIVIDED, long(), right);
    let mut parts = vec![statement(debit("m", amount(caller()))); others];
    parts.extend(vec![statement(debit("m", long())); payouts]);
    let paid = statement(send(now(), wrapped(wrappers, amount(now()))));
    parts.extend(vec![paid; payouts]);
    vec![entry("f", parts)]
}

/// Payouts in each other's amount around a member many times that is no asset
/// parameter's amount, in an entry with many parameters and an assignment. Each
/// payout's amount is looked into, and for each member the parameters.
fn members_parameters_and_nesting(
    count: usize,
    member: Field,
    parameters: Vec<Field>,
) -> Vec<Field> {
    let amount = call(now(), vec![member; count]);
    let paid = (0..29).fold(amount, |inner, _| send(now(), inner));
    let mut parts = parameters;
    parts.extend([assign(tag::SET, now(), now()), statement(paid)]);
    vec![entry("f", parts)]
}
