// SPDX-License-Identifier: Apache-2.0 OR MIT
//! Files in which the token of a map is looked for again and again.

use super::names::of_one_short_number;
use super::{
    admits, credits, inflow_of, largest, nested, numbered, pays, pays_from, sample,
    short_parameter, short_state, token, wrapped, Sample,
};
use generator::construct::*;
use model_file::{tag, Field};

pub const SAMPLES: &[Sample] = &[
    sample("many maps", || many_maps(31)),
    sample("debits and crediting entries", debits_and_credits),
    sample("credits of the last parameter", || {
        largest(|n| credits_and_parameters(n, 2 * n, ["b", "a", "a"]))
    }),
    sample("credits of no parameter", || {
        largest(|n| credits_and_parameters(n, 2 * n, ["b", "a", "c"]))
    }),
    sample("short credits and parameters", || {
        largest(|n| short_credits_and_parameters(3 * n, 5 * n))
    }),
    sample("credits, parameters of one number", || {
        let names = of_one_short_number(2);
        let of = [0, 1, 1].map(|i: usize| names[i].as_str());
        largest(|n| credits_and_parameters(2 * n, 3 * n, of))
    }),
    sample("many funding calls", || largest(|n| many_fundings(966, n))),
    sample("many funding calls and raises", || {
        largest(|n| raises_and_many_fundings(n, 966))
    }),
    sample("raises, fundings, wrapped tokens", || {
        largest(|n| raises_and_fundings(16 * n, 5 * n, wrapped(30, identifier("T"))))
    }),
    sample("raises, fundings, long tokens", || {
        largest(|n| raises_and_fundings(13 * n, 3 * n, identifier(&"T".repeat(50 * n))))
    }),
    sample("debits, fundings, wrapped tokens", || {
        largest(|n| debits_and_fundings(360, n, wrapped(30, identifier("T"))))
    }),
    sample("debits, fundings, long tokens", || {
        largest(|n| debits_and_fundings(256, n, identifier(&"T".repeat(14 * n))))
    }),
    sample("raises and long tokens", || {
        largest(|n| raises_and_tokens(n, 5 * n))
    }),
    sample("raises and long names of maps", || {
        largest(|n| raises_and_long_maps(3 * n, 10 * n))
    }),
    sample("raises and maps", || largest(|n| raises_and_maps(4 * n, n))),
    sample("raises and maps of one number", || {
        largest(|n| raises_and_maps_of_one_number(7 * n, 2 * n))
    }),
];

/// Maps, each with an entry that credits it and one that debits it.
fn many_maps(count: usize) -> Vec<Field> {
    let map = |i: usize| format!("balances{i:02}");
    let crediting = |i: usize| {
        let credit = member_call(&map(i), "credit", vec![caller(), amount_of("a")]);
        vec![asset("a"), admits(&token(i)), statement(credit)]
    };
    let paying = |i: usize| {
        let amount = || identifier("amount");
        vec![
            plain("amount"),
            statement(debit(&map(i), amount())),
            pays(&token(i), amount()),
        ]
    };
    (0..count)
        .flat_map(|i| [entry("deposit", crediting(i)), entry("withdraw", paying(i))])
        .collect()
}

/// Entries with 64 debits each, and entries that credit the map.
fn debits_and_credits() -> Vec<Field> {
    let crediting = vec![
        asset("a"),
        limits(binary(EQUAL, in_asset(), identifier("T"))),
        statement(member_call("m", "credit", vec![caller(), amount_of("a")])),
    ];
    let taking: Vec<Field> = (0..64)
        .map(|_| statement(debit("m", identifier("n"))))
        .collect();
    let mut fields = vec![entry("g", crediting); 48];
    fields.extend(vec![entry("f", taking); 14]);
    fields
}

/// A call that funds a map with the amount of a parameter.
fn funds(map: &str, inner: Field, parameter: &str) -> Field {
    member_call(map, "set", vec![inner, amount_of(parameter)])
}

/// So many of them by turns for the maps, each inside the next.
fn fundings(count: usize, maps: &[&str]) -> Vec<Field> {
    nested(count, 30, |inner, i| {
        funds(maps[i % maps.len()], inner, "a")
    })
}

/// A payout of what it debits.
fn sends_debit(token: Field, map: &str) -> Field {
    let parts = vec![token, debit(map, now()), now()];
    call(identifier("send_asset"), parts)
}

/// An entry with one.
fn pays_debit(map: &str) -> Field {
    entry("p", vec![statement(sends_debit(now(), map))])
}

/// An entry with many parameters of one name and a last one of another, and many
/// calls that would credit the amount of a third: for each call all parameters
/// are looked at.
fn credits_and_parameters(
    credits: usize,
    parameters: usize,
    [other, last, of]: [&str; 3],
) -> Vec<Field> {
    let mut parts = vec![asset(other); parameters];
    parts.push(asset(last));
    parts.extend(nested(credits, 30, |inner, _| funds("m", inner, of)));
    vec![entry("f", parts), pays_debit("m")]
}

/// The same with calls and parameters that are as short as can be: the last
/// call alone credits an amount.
fn short_credits_and_parameters(credits: usize, parameters: usize) -> Vec<Field> {
    let mut parts = vec![short_parameter(); parameters];
    parts.push(asset("a"));
    let empty = |inner, _| call(member(caller(), "set"), vec![inner, now()]);
    parts.extend(nested(credits, 30, empty));
    parts.push(statement(funds("m", caller(), "a")));
    vec![entry("f", parts), pays_debit("m")]
}

/// More calls that fund a map than find room in a table, and entries that each
/// ask for a map's token.
fn many_fundings(calls: usize, entries: usize) -> Vec<Field> {
    let parts = [vec![asset("a")], fundings(calls, &["n"])].concat();
    [vec![entry("f", parts)], vec![pays_debit("m"); entries]].concat()
}

/// A state field that is raised by turns by the amounts of debits of two maps,
/// and an entry that pays out of it. For each raise the map's token is looked
/// for.
fn raised_by_turns(raises: usize, maps: [&str; 2]) -> Vec<Field> {
    let amounts = [now(), caller()];
    let raise = |i: usize| assign(tag::ADD, identifier("r"), amounts[i % 2].clone());
    let mut parts = vec![
        statement(debit(maps[0], now())),
        statement(debit(maps[1], caller())),
    ];
    parts.extend((0..raises).map(raise));
    vec![short_state("r"), entry("g", parts), pays_from("r", "T")]
}

/// The same with so many funding calls, in an entry whose condition is as deep
/// as can be.
fn raises_and_many_fundings(raises: usize, calls: usize) -> Vec<Field> {
    let and = |inner, _| binary(AND, inner, now());
    let condition = (0..30).fold(inflow_of(identifier("T")), and);
    let mut parts = vec![asset("a"), limits(condition)];
    parts.extend(fundings(calls, &["o"]));
    parts.extend(fundings(2, &["m", "n"]));
    let raised = raised_by_turns(raises, ["m", "n"]);
    [vec![entry("f", parts)], raised].concat()
}

/// Two entries that fund maps, the second by many calls: for each call its token
/// is compared with the first one's.
fn funding_entries(calls: usize, maps: &[&str], token: &Field) -> Vec<Field> {
    let funding = |calls| {
        let mut parts = vec![asset("a"), limits(inflow_of(token.clone()))];
        parts.extend(fundings(calls, maps));
        entry("f", parts)
    };
    vec![funding(maps.len()), funding(calls)]
}

/// Raises by the amounts of debits of two maps, each of which many calls fund.
fn raises_and_fundings(raises: usize, calls: usize, token: Field) -> Vec<Field> {
    let funding = funding_entries(calls, &["m", "n"], &token);
    [funding, raised_by_turns(raises, ["m", "n"])].concat()
}

/// Payouts of debits of a map that many calls fund, 64 in an entry.
fn debits_and_fundings(payouts: usize, calls: usize, token: Field) -> Vec<Field> {
    let funding = funding_entries(calls, &["m"], &token);
    let paying = |first: usize| {
        let count = (payouts - first).min(64);
        entry("p", nested(count, 29, |inner, _| sends_debit(inner, "m")))
    };
    let paying = (0..payouts).step_by(64).map(paying);
    funding.into_iter().chain(paying).collect()
}

/// Raises by the amounts of debits of two maps, each of which another entry
/// funds: for each raise a token with a long name is compared with the last one.
fn raises_and_tokens(raises: usize, length: usize) -> Vec<Field> {
    let token = || identifier(&"T".repeat(length));
    let funding = vec![credits("m", token()), credits("n", token())];
    [funding, raised_by_turns(raises, ["m", "n"])].concat()
}

/// Raises by the amounts of debits of two maps whose long names differ at the
/// end.
fn raises_and_long_maps(raises: usize, length: usize) -> Vec<Field> {
    let long = "m".repeat(length);
    let (first, second) = (format!("{long}a"), format!("{long}b"));
    let maps = [first.as_str(), second.as_str()];
    let funding = funding_entries(0, &maps, &identifier("T"));
    [funding, raised_by_turns(raises, maps)].concat()
}

/// Raises by the amounts of debits of the last two of many maps, each of which a
/// call funds.
fn raises_and_maps_of(raises: usize, names: &[String]) -> Vec<Field> {
    let names: Vec<&str> = names.iter().map(String::as_str).collect();
    let mut parts = vec![asset("a"), limits(inflow_of(identifier("T")))];
    parts.extend(fundings(names.len(), &names));
    let last = [names[names.len() - 2], names[names.len() - 1]];
    [vec![entry("f", parts)], raised_by_turns(raises, last)].concat()
}

fn raises_and_maps(raises: usize, maps: usize) -> Vec<Field> {
    let names: Vec<String> = (0..maps).map(|i| numbered(i, 2)).collect();
    raises_and_maps_of(raises, &names)
}

/// The same with names that have one number.
fn raises_and_maps_of_one_number(raises: usize, maps: usize) -> Vec<Field> {
    raises_and_maps_of(raises, &of_one_short_number(maps))
}
