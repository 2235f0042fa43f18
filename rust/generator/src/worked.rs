// SPDX-License-Identifier: Apache-2.0 OR MIT
//! The entries worked by hand, K1 to K12, with the listings they must give.

use crate::construct::*;
use model_file::{tag, Field};

/// An entry worked by hand: its name, its file and its listing.
pub struct Worked {
    pub name: &'static str,
    pub file: Vec<u8>,
    pub listing: &'static str,
}

/// All rows, in order. K6 and K7 have two and three.
pub fn worked() -> Vec<Worked> {
    let row = |name, fields: Vec<Field>, listing| Worked {
        name,
        file: bytes(&fields),
        listing,
    };
    let one = |parts| vec![entry("f", parts)];
    let n = || identifier("n");
    let less_one = || binary(MINUS, n(), integer("1"));
    let half = || binary(DIVIDED, n(), integer("2"));
    vec![
        row("K1", one(vec![]), "e 0 ok 0 0\n"),
        row("K2", one(vec![two_arguments()]), "e 0 ok 0 0\n"),
        row(
            "K3",
            one(vec![asset("a"), paid(amount_of("a"))]),
            "e 0 ok 1 0\np 0 2 0\n",
        ),
        row(
            "K4",
            one(vec![asset("a"), paid(amount_of("a")), paid(amount_of("a"))]),
            "e 0 no 1\n",
        ),
        row(
            "K5",
            one(vec![asset("a"), admits("U"), paid(amount_of("a"))]),
            "e 0 no 0\n",
        ),
        row(
            "K6, 1_0",
            one(vec![taken(integer("10")), paid(integer("1_0"))]),
            "e 0 ok 1 0\np 0 1 0\n",
        ),
        row(
            "K6, 010",
            one(vec![taken(integer("10")), paid(integer("010"))]),
            "e 0 no 0\n",
        ),
        row(
            "K7, n/2",
            one(vec![plain("n"), taken(n()), paid(half())]),
            "e 0 ok 1 0\np 0 3 0\n",
        ),
        row(
            "K7, wrapping(n-1)",
            one(vec![plain("n"), taken(n()), paid(wrapping(less_one()))]),
            "e 0 no 0\n",
        ),
        row(
            "K7, wrapping(checked(n-1))",
            one(vec![
                plain("n"),
                taken(n()),
                paid(wrapping(checked(less_one()))),
            ]),
            "e 0 ok 1 0\np 0 3 0\n",
        ),
        row(
            "K8",
            one(vec![taken(date("2026-11-15")), paid(date("2026-11-15"))]),
            "e 0 no 0\n",
        ),
        row(
            "K9",
            one(vec![plain("n"), taken(n()), paid(half()), paid(n())]),
            "e 0 no 1\n",
        ),
        row(
            "K10",
            one(vec![asset("a"), paid(member_call("a", "split", vec![]))]),
            "e 0 no 0\n",
        ),
        row("K11", reserve(1), "e 0 ok 0 1\ne 1 ok 1 0\np 0 5 0\n"),
        row("K12", reserve(2), "e 0 ok 0 1\ne 1 no 0\n"),
    ]
}

fn paid(amount: Field) -> Field {
    statement(send(identifier("T"), amount))
}

fn taken(amount: Field) -> Field {
    statement(debit("m", amount))
}

fn two_arguments() -> Field {
    statement(call(
        identifier("send_asset"),
        vec![identifier("T"), caller()],
    ))
}

fn admits(token: &str) -> Field {
    guard(binary(EQUAL, in_asset(), identifier(token)))
}

/// K11, with its in-asset guard written so many times.
fn reserve(guards: usize) -> Vec<Field> {
    let r = || identifier("r");
    let amount = || binary(TIMES, amount_of("b"), integer("2"));
    let mut raising = vec![asset("a")];
    raising.extend((0..guards).map(|_| admits("T")));
    raising.push(assign(tag::ADD, r(), amount_of("a")));
    let paying = vec![
        asset("b"),
        guard(binary(AT_LEAST, r(), amount())),
        assign(tag::SUBTRACT, r(), amount()),
        paid(amount()),
    ];
    vec![
        state("r", Some(integer("0"))),
        entry("g", raising),
        entry("f", paying),
    ]
}
