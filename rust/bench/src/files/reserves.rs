// SPDX-License-Identifier: Apache-2.0 OR MIT
//! Files in which the token of a state field is looked for again and again.

use super::names::of_one_short_number;
use super::{
    admits, credits, held, inflow_of, largest, lowered, nested, numbered, of_inflow, pays,
    pays_from, sample, short_parameter, short_state, Sample,
};
use generator::construct::*;
use model_file::{tag, Field};

pub const SAMPLES: &[Sample] = &[
    sample("guards and raises", || guards_and_raises(1, 100, 100)),
    sample("payouts, guards and raises", || {
        guards_and_raises(16, 150, 150)
    }),
    sample("more payouts, guards and raises", || {
        guards_and_raises(40, 300, 400)
    }),
    sample("a reserve of deep expressions", || deep_reserve(29)),
    sample("entries, raises and debits", || largest(entries_and_raises)),
    sample("reserves", || largest(reserves)),
    sample("raises and parameters", || {
        largest(|n| raises_and_parameters(5 * n, 7 * n, ["b", "a"]))
    }),
    sample("raises, parameters of one number", || {
        let names = of_one_short_number(2);
        largest(|n| raises_and_parameters(n, n, [&names[0], &names[1]]))
    }),
    sample("debited raises and parameters", || {
        largest(|n| debited_raises_and_parameters(5 * n, 8 * n))
    }),
    sample("raises and calls", || largest(|n| raises_and_calls(n, n))),
    sample("raises and calls of their amount", || {
        largest(|n| raises_and_debits(n, n, now(), now()))
    }),
    sample("raises and calls of like amounts", || {
        let amount = |last| call(now(), vec![now(), last]);
        largest(|n| raises_and_debits(n, n, amount(now()), amount(caller())))
    }),
    sample("raised fields", || largest(|n| raised(n, vec![], vec![]))),
    sample("raised fields and no token", || {
        largest(|n| raised_for(now(), n, vec![], vec![]))
    }),
    sample("raised fields and genesis", || {
        let zero = || genesis(assign(tag::SET, now(), now()));
        largest(|n| raised(n, vec![zero(); 2 * n], vec![]))
    }),
    sample("raised fields and state fields", || {
        let other = |i| short_state(&numbered(i, 3));
        largest(|n| raised(n, (0..2 * n).map(other).collect(), vec![]))
    }),
    sample("raised fields and assignments", || {
        let other = || assign(tag::SET, now(), now());
        largest(|n| raised(n, vec![], vec![other(); 4 * n]))
    }),
    sample("raised fields and expressions", || {
        largest(|n| raised(n, vec![], vec![emit("e", vec![now(); 7 * n])]))
    }),
    sample("raised fields and guards", || {
        largest(|n| raised(n, vec![], vec![guard(now()); 9 * n]))
    }),
    sample("raised fields and parameters", || {
        largest(|n| raised(n, vec![], vec![short_parameter(); 3 * n]))
    }),
];

/// Payouts out of reserves. For each payout, every guard on the field `all`
/// comes first, and each time the tokens of all its raises are worked out.
fn guards_and_raises(payouts: usize, guards: usize, raises: usize) -> Vec<Field> {
    let amount = || binary(TIMES, amount_of("a"), integer("2"));
    let held = |name: &str| guard(binary(AT_LEAST, identifier(name), amount()));
    let lowered = |name: &str| assign(tag::SUBTRACT, identifier(name), amount());
    let crediting = vec![
        asset("a"),
        limits(binary(EQUAL, in_asset(), identifier("T"))),
        statement(member_call("m", "credit", vec![caller(), amount_of("a")])),
    ];
    let mut raising = vec![statement(debit("m", identifier("n")))];
    raising.extend((0..raises).map(|_| assign(tag::ADD, identifier("all"), identifier("n"))));
    let mut fields = vec![
        state("all", None),
        entry("c", crediting),
        entry("g", raising),
    ];
    let mut paying = vec![asset("a"), lowered("all")];
    paying.extend((0..guards).map(|_| held("all")));
    for number in 0..payouts {
        let (name, token) = (format!("r{number}"), format!("T{number}"));
        fields.push(state(&name, None));
        let raise = assign(tag::ADD, identifier(&name), amount_of("a"));
        fields.push(entry("h", vec![asset("a"), admits(&token), raise]));
        paying.extend([held(&name), lowered(&name), pays(&token, amount())]);
    }
    fields.push(entry("f", paying));
    fields
}

/// Entries that each pay out of a reserve, whose raises are by a debit behind
/// many others.
fn entries_and_raises(count: usize) -> Vec<Field> {
    let amount = || binary(TIMES, amount_of("a"), integer("2"));
    let mut raising = vec![statement(debit("m", identifier("k"))); count];
    raising.push(statement(debit("m", identifier("n"))));
    raising.extend(vec![
        assign(tag::ADD, identifier("r"), identifier("n"));
        2 * count
    ]);
    let crediting = vec![
        asset("a"),
        limits(binary(EQUAL, in_asset(), identifier("T"))),
        statement(member_call("m", "credit", vec![caller(), amount_of("a")])),
    ];
    let paying = vec![
        asset("a"),
        guard(binary(AT_LEAST, identifier("r"), amount())),
        assign(tag::SUBTRACT, identifier("r"), amount()),
        pays("T", amount()),
    ];
    let mut fields = vec![state("r", None), entry("c", crediting), entry("g", raising)];
    fields.extend(vec![entry("f", paying); 62]);
    fields
}

/// State fields that are all guarded and lowered by a payout's amount, the one
/// that holds its token the last.
fn reserves(count: usize) -> Vec<Field> {
    let name = |i: usize| format!("{i:03}");
    let amount = || amount_of("a");
    let doubled = || binary(TIMES, amount(), integer("2"));
    let mut fields: Vec<Field> = (0..count).map(|i| state(&name(i), None)).collect();
    let last = assign(tag::ADD, identifier(&name(count - 1)), amount());
    fields.push(entry("g", vec![asset("a"), admits("T"), last]));
    let mut paying = vec![asset("a")];
    for i in 0..count {
        paying.push(guard(binary(AT_LEAST, identifier(&name(i)), doubled())));
        paying.push(assign(tag::SUBTRACT, identifier(&name(i)), doubled()));
    }
    paying.push(pays("T", doubled()));
    fields.push(entry("f", paying));
    fields
}

/// A payout out of a state field, all of whose amounts and conditions are so
/// deep.
fn deep_reserve(depth: usize) -> Vec<Field> {
    let deep = |last| (0..depth).fold(last, |inner, _| negate(inner));
    let and = |inner, _| binary(AND, inner, now());
    let credit = member_call("m", "credit", vec![caller(), amount_of("a")]);
    let crediting = vec![
        asset("a"),
        limits((0..depth).fold(inflow_of(identifier("T")), and)),
        statement(credit),
        statement(deep(now())),
    ];
    let raising = vec![statement(debit("m", deep(now()))), raise("r", deep(now()))];
    let amount = || deep(amount_of("a"));
    let paying = vec![
        asset("a"),
        guard(binary(AT_LEAST, identifier("r"), amount())),
        assign(tag::SUBTRACT, identifier("r"), amount()),
        pays("T", amount()),
    ];
    vec![
        short_state("r"),
        entry("c", crediting),
        entry("g", raising),
        entry("p", paying),
    ]
}

/// Raises by what comes in with the last of many parameters; the others have
/// another name.
fn raises_and_parameters(raises: usize, parameters: usize, [other, last]: [&str; 2]) -> Vec<Field> {
    let mut parts = vec![asset(other); parameters];
    parts.extend([asset(last), admits("T")]);
    parts.extend(vec![raise("r", amount_of(last)); raises]);
    vec![short_state("r"), entry("g", parts), pays_from("r", "T")]
}

/// Raises by an amount that could be a parameter's, but is a debit's.
fn debited_raises_and_parameters(raises: usize, parameters: usize) -> Vec<Field> {
    let mut parts = vec![short_parameter(); parameters];
    parts.push(statement(debit("m", amount_of("a"))));
    parts.extend(vec![raise("r", amount_of("a")); raises]);
    vec![
        short_state("r"),
        credits("m", identifier("T")),
        entry("g", parts),
        pays_from("r", "T"),
    ]
}

fn raise(field: &str, amount: Field) -> Field {
    assign(tag::ADD, identifier(field), amount)
}

/// Raises by what comes in, which no call may credit too, and many calls that
/// have the amount and credit nothing.
fn raises_and_calls(raises: usize, calls: usize) -> Vec<Field> {
    let mut parts = vec![asset("a"), admits("T")];
    parts.extend(nested(calls, 30, |inner, _| {
        call(now(), vec![inner, amount_of("a")])
    }));
    parts.extend(vec![raise("r", amount_of("a")); raises]);
    vec![short_state("r"), entry("g", parts), pays_from("r", "T")]
}

/// Raises by the amount of a debit behind many calls of another amount, or of
/// the same one in what is no debit.
fn raises_and_debits(raises: usize, calls: usize, amount: Field, other: Field) -> Vec<Field> {
    let mut parts = nested(calls, 28, |inner, _| {
        call(now(), vec![inner, other.clone()])
    });
    parts.push(statement(debit("m", amount.clone())));
    parts.extend(vec![raise("r", amount); raises]);
    vec![
        short_state("r"),
        credits("m", identifier("T")),
        entry("g", parts),
        pays_from("r", "T"),
    ]
}

/// State fields that are all guarded and lowered by the amount of a payout, and
/// all raised: each one's token is looked for, and none is the payout's. Further
/// parts stand in front of the file and of the raising entry.
fn raised(count: usize, front: Vec<Field>, parts: Vec<Field>) -> Vec<Field> {
    raised_for(identifier("U"), count, front, parts)
}

/// The same for the token that the payout asks for.
fn raised_for(token: Field, count: usize, front: Vec<Field>, parts: Vec<Field>) -> Vec<Field> {
    let names: Vec<String> = (0..count).map(|i| numbered(i, 2)).collect();
    let mut raising = parts;
    raising.push(statement(debit("m", now())));
    raising.extend(names.iter().map(|name| raise(name, now())));
    let mut paying = vec![asset("a")];
    paying.extend(names.iter().map(|name| held(name)));
    paying.extend(names.iter().map(|name| lowered(name)));
    paying.push(statement(send(token, of_inflow())));
    let mut fields = front;
    fields.extend(names.iter().map(|name| short_state(name)));
    fields.push(credits("m", identifier("T")));
    fields.extend([entry("g", raising), entry("p", paying)]);
    fields
}
