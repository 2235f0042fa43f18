// SPDX-License-Identifier: Apache-2.0 OR MIT
//! Contracts as they are written, small and large.

use super::{admits, pays, sample, token, Sample};
use generator::construct::*;
use model_file::{tag, Field};

pub const SAMPLES: &[Sample] = &[
    sample("wallet", || wallet(1)),
    sample("wallet of 4 tokens", || wallet(4)),
    sample("exchange", || exchange(1)),
    sample("exchange of 4 pairs", || exchange(4)),
    sample("large wallet", || noted(wallet(16), 9)),
    sample("large exchange", || noted(exchange(12), 12)),
];

/// A contract that keeps balances: deposit, withdraw, withdraw half, transfer
/// and redeem for each token.
fn wallet(tokens: usize) -> Vec<Field> {
    let mut fields = vec![state("owner", None), state("paused", Some(integer("0")))];
    for number in 0..tokens {
        let balances = format!("balances{number}");
        fields.push(state(&balances, None));
        fields.extend(wallet_entries(&token(number), &balances));
    }
    fields
}

fn wallet_entries(token: &str, balances: &str) -> Vec<Field> {
    let amount = || identifier("amount");
    let unpaused = || guard(binary(EQUAL, identifier("paused"), integer("0")));
    let credit =
        |to: Field, value: Field| statement(member_call(balances, "credit", vec![to, value]));
    let deposit = vec![
        asset("payment"),
        limits(binary(EQUAL, in_asset(), identifier(token))),
        unpaused(),
        credit(caller(), amount_of("payment")),
        emit("Deposited", vec![caller(), amount_of("payment")]),
    ];
    let withdraw = |value: Field| {
        vec![
            plain("amount"),
            unpaused(),
            guard(binary(GREATER, amount(), integer("0"))),
            statement(debit(balances, amount())),
            pays(token, value),
            emit("Withdrawn", vec![caller(), amount()]),
        ]
    };
    let transfer = vec![
        parameter("to", "Address"),
        plain("amount"),
        unpaused(),
        statement(debit(balances, amount())),
        credit(identifier("to"), amount()),
    ];
    vec![
        entry("deposit", deposit),
        entry("withdraw", withdraw(amount())),
        entry(
            "withdraw_half",
            withdraw(binary(DIVIDED, amount(), integer("2"))),
        ),
        entry("transfer", transfer),
    ]
}

/// A contract that swaps: for each pair of tokens a reserve that is filled by
/// deposits and paid out at a price.
fn exchange(pairs: usize) -> Vec<Field> {
    let mut fields = vec![state("owner", None), state("fee", Some(integer("30")))];
    for number in 0..pairs {
        let reserve = format!("reserve{number}");
        let shares = format!("shares{number}");
        fields.push(state(&reserve, Some(integer("0"))));
        fields.push(state(&shares, None));
        fields.push(genesis(assign(
            tag::SET,
            identifier(&reserve),
            integer("0"),
        )));
        fields.extend(exchange_entries(number, &reserve, &shares));
    }
    fields
}

fn exchange_entries(number: usize, reserve: &str, shares: &str) -> Vec<Field> {
    let (base, quote) = (token(2 * number), token(2 * number + 1));
    let held = || identifier(reserve);
    let price = || {
        let scaled = binary(TIMES, amount_of("payment"), identifier("price"));
        binary(DIVIDED, scaled, integer("1_000"))
    };
    let fill = vec![
        asset("payment"),
        admits(&base),
        assign(tag::ADD, held(), amount_of("payment")),
    ];
    let swap = vec![
        asset("payment"),
        plain("price"),
        limits(binary(EQUAL, in_asset(), identifier(&quote))),
        guard(binary(AT_LEAST, held(), price())),
        assign(tag::SUBTRACT, held(), price()),
        pays(&base, price()),
        emit("Swapped", vec![caller(), price()]),
    ];
    let refund = vec![
        asset("payment"),
        admits(&quote),
        pays(
            &quote,
            binary(MINUS, amount_of("payment"), identifier("fee")),
        ),
    ];
    let join = vec![
        asset("payment"),
        admits(&base),
        statement(member_call(
            shares,
            "credit",
            vec![caller(), amount_of("payment")],
        )),
    ];
    let leave = vec![
        plain("count"),
        statement(debit(shares, identifier("count"))),
        pays(&base, identifier("count")),
    ];
    vec![
        entry("fill", fill),
        entry("swap", swap),
        entry("refund", refund),
        entry("join", join),
        entry("leave", leave),
    ]
}

/// The contract with so many more statements in each entry.
fn noted(mut fields: Vec<Field>, count: usize) -> Vec<Field> {
    let note = emit("Note", vec![caller(), now(), identifier("amount")]);
    for field in fields.iter_mut().filter(|f| f.tag == tag::ENTRY) {
        let parts = field.inner_mut().expect("entries have parts");
        parts.extend(vec![note.clone(); count]);
    }
    fields
}
