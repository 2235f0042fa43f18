// SPDX-License-Identifier: Apache-2.0 OR MIT
//! Files whose guards and lowerings are compared again and again.

use super::{
    admits, held, largest, lowered, numbered, of_inflow, pays, sample, short_state, wrapped, Sample,
};
use generator::construct::*;
use model_file::{tag, Field};

pub const SAMPLES: &[Sample] = &[
    sample("guards and lowerings", || largest(guards_and_lowerings)),
    sample("guards of an amount and lowerings", || {
        largest(asked_guards_and_lowerings)
    }),
    sample("guards and lowerings of two amounts", || {
        largest(guards_and_lowerings_of_two)
    }),
    sample("guards and lowerings of two inflows", || {
        largest(guards_and_lowerings_of_inflows)
    }),
    sample("state fields and guards", || largest(states_and_guards)),
    sample("guards of the last state field", || {
        largest(|n| guards_of_the_last(2 * n, 5 * n))
    }),
    sample("guards and lowerings by names", || {
        largest(|n| guards_and_lowerings_by_names(n, n))
    }),
    sample("guards, wrapped payouts", || {
        largest(|n| beside_wrapped_payouts(guard(binary(AT_LEAST, now(), now())), n))
    }),
    sample("lowerings, wrapped payouts", || {
        largest(|n| beside_wrapped_payouts(assign(tag::SUBTRACT, now(), now()), n))
    }),
    sample("lowerings, long payouts", || {
        largest(|n| beside_long_payouts(9 * n, n))
    }),
    sample("guards and a long token", || {
        largest(|n| guards_and_token(n, 13 * n))
    }),
];

/// Guards that no payout asks for, and lowerings by other amounts.
fn guards_and_lowerings(count: usize) -> Vec<Field> {
    let amount = |kind: &str, i: usize| identifier(&format!("{kind}{i:04}"));
    let mut parts = vec![asset("a")];
    parts.extend((0..count).map(|i| guard(binary(AT_LEAST, identifier("r"), amount("g", i)))));
    parts.extend((0..count).map(|i| assign(tag::SUBTRACT, identifier("r"), amount("l", i))));
    parts.push(pays("T", amount_of("a")));
    vec![state("r", None), entry("f", parts)]
}

/// Guards of one amount, which a payout asks for, and lowerings by others.
fn asked_guards_and_lowerings(count: usize) -> Vec<Field> {
    let held = guard(binary(AT_LEAST, identifier("r"), identifier("n")));
    let mut parts = vec![held; count];
    parts.extend(vec![
        assign(tag::SUBTRACT, identifier("r"), identifier("m"));
        count
    ]);
    parts.push(pays("T", identifier("n")));
    vec![state("r", None), entry("f", parts)]
}

/// The same with a payout that asks for the lowerings' amount too.
fn guards_and_lowerings_of_two(count: usize) -> Vec<Field> {
    let mut fields = asked_guards_and_lowerings(count);
    let parts = fields[1].inner_mut().expect("entries have parts");
    parts.push(pays("T", identifier("m")));
    fields
}

/// The same with amounts that contain what came in, so that a state field may
/// cover them.
fn guards_and_lowerings_of_inflows(count: usize) -> Vec<Field> {
    let amount = |factor: &str| binary(TIMES, amount_of("a"), integer(factor));
    let held = guard(binary(AT_LEAST, identifier("r"), amount("2")));
    let lowered = assign(tag::SUBTRACT, identifier("r"), amount("3"));
    let mut parts = vec![asset("a")];
    parts.extend(vec![held; count]);
    parts.extend(vec![lowered; count]);
    parts.extend([pays("T", amount("2")), pays("T", amount("3"))]);
    vec![state("r", None), entry("f", parts)]
}

/// Guards of what is lowered but is no state field, and many of these.
fn states_and_guards(count: usize) -> Vec<Field> {
    let mut fields: Vec<Field> = (0..count)
        .map(|i| state(&format!("{i:04}"), None))
        .collect();
    let mut parts = vec![asset("a")];
    parts.extend((0..count).map(|_| guard(binary(GREATER, identifier("r"), identifier("n")))));
    parts.push(assign(tag::SUBTRACT, identifier("r"), identifier("n")));
    parts.push(pays("T", amount_of("a")));
    fields.push(entry("f", parts));
    fields
}

/// Guards of a payout's amount on the last of many state fields, which holds no
/// token.
fn guards_of_the_last(guards: usize, states: usize) -> Vec<Field> {
    let mut fields: Vec<Field> = (0..states).map(|i| short_state(&numbered(i, 2))).collect();
    let last = numbered(states - 1, 2);
    let mut parts = vec![asset("a")];
    parts.extend(vec![held(&last); guards]);
    parts.extend([lowered(&last), pays("T", of_inflow())]);
    fields.push(entry("f", parts));
    fields
}

/// Guards of a payout's amount on a state field, and lowerings of another by it.
fn guards_and_lowerings_by_names(guards: usize, lowerings: usize) -> Vec<Field> {
    let mut parts = vec![asset("a")];
    parts.extend(vec![held("r"); guards]);
    parts.extend(vec![lowered("s"); lowerings]);
    parts.push(pays("T", of_inflow()));
    vec![short_state("r"), short_state("s"), entry("f", parts)]
}

/// A statement many times whose amount no payout has, and 64 payouts that each
/// time are peeled.
fn beside_wrapped_payouts(part: Field, count: usize) -> Vec<Field> {
    let paid = statement(send(now(), wrapped(28, of_inflow())));
    let mut parts = vec![asset("a"), lowered("r")];
    parts.extend(vec![part; count]);
    parts.extend(vec![paid; 64]);
    vec![short_state("r"), entry("f", parts)]
}

/// Lowerings by an amount that differs from those of 64 payouts at the end.
fn beside_long_payouts(lowerings: usize, length: usize) -> Vec<Field> {
    let amount = |last: Field| {
        let front = [vec![amount_of("a")], vec![now(); length]].concat();
        call(now(), [front, vec![last]].concat())
    };
    let mut parts = vec![asset("a")];
    parts.extend(vec![assign(tag::SUBTRACT, now(), amount(now())); lowerings]);
    parts.extend(vec![statement(send(now(), amount(caller()))); 64]);
    vec![entry("f", parts)]
}

/// Guards of a payout's amount on a state field whose token differs from the
/// payout's at the end of a long name.
fn guards_and_token(guards: usize, length: usize) -> Vec<Field> {
    let token = |last: &str| format!("{}{last}", "T".repeat(length));
    let raise = assign(tag::ADD, identifier("r"), amount_of("a"));
    let mut parts = vec![asset("a")];
    parts.extend(vec![held("r"); guards]);
    parts.extend([lowered("r"), pays(&token("a"), of_inflow())]);
    vec![
        short_state("r"),
        entry("g", vec![asset("a"), admits(&token("b")), raise]),
        entry("f", parts),
    ]
}
