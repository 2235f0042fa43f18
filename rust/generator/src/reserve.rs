// SPDX-License-Identifier: Apache-2.0 OR MIT
//! Payouts out of state fields.

use crate::condition::{about, joined, whole_guard};
use crate::construct::*;
use crate::expression::*;
use crate::random::Random;
use crate::scenario::{perhaps_altered, support, Draft};
use model_file::{tag, Field};

impl Draft {
    /// A payout out of a state field.
    pub fn reserve(&mut self, random: &mut Random) {
        let (reserve, token) = any_reserve(random);
        let name = random.pick(&ASSETS);
        self.parameters.push(asset(name));
        let mut amount = priced(random, name);
        if random.percent(20) {
            self.condition(about(random, token));
        }
        self.guard_and_lower(random, reserve, &amount);
        if random.fault(8) {
            amount = reduced(random, amount);
            let less = amount.clone();
            self.body
                .push(assign(tag::SUBTRACT, identifier(reserve), less));
        }
        if random.percent(12) {
            let (second, token) = any_reserve(random);
            self.guard_and_lower(random, second, &amount);
            self.hold(random, second, token);
        }
        self.hold(random, reserve, token);
        if random.percent(12) {
            self.payouts
                .push(statement(send(identifier(token), amount_of(name))));
        }
        let same = rewritten(random, amount.clone());
        self.pay(random, token, same);
        if random.percent(12) {
            self.pay(random, token, amount);
        }
    }

    pub fn guard_and_lower(&mut self, random: &mut Random, reserve: &str, amount: &Field) {
        self.guard_reserve(random, reserve, amount);
        self.lower_reserve(random, reserve, amount);
    }

    /// Adds a guard that the state field has at least the amount.
    fn guard_reserve(&mut self, random: &mut Random, reserve: &str, amount: &Field) {
        let bound = rewritten(random, amount.clone());
        let bound = wrapped(random, bound);
        let bound = perhaps_altered(random, bound);
        let holds = wrapped(random, identifier(reserve));
        let condition = match random.below(4) {
            0 => binary(GREATER, holds, bound),
            1 => binary(AT_LEAST, holds, bound),
            2 => binary(LESS, bound, holds),
            _ => binary(AT_MOST, bound, holds),
        };
        let condition = wrapped(random, condition);
        self.condition(match random.fault(20) {
            true => nearly_guard(random, condition),
            false => guard(condition),
        });
    }

    /// Adds an assignment that lowers the state field by the amount.
    fn lower_reserve(&mut self, random: &mut Random, reserve: &str, amount: &Field) {
        let lowered = rewritten(random, amount.clone());
        let lowered = guarded(random, lowered);
        let lowered = perhaps_altered(random, lowered);
        let lowering = match random.percent(50) {
            true => assign(tag::SUBTRACT, identifier(reserve), lowered),
            false => {
                let before = guarded(random, identifier(reserve));
                let after = match random.fault(10) {
                    true => self.mirrored(random, binary(MINUS, lowered, before)),
                    false => binary(MINUS, before, lowered),
                };
                assign(tag::SET, identifier(reserve), guarded(random, after))
            }
        };
        match random.fault(6) {
            true if random.percent(50) => self.others.push(entry("g", vec![lowering])),
            true => self.body.push(with_wrapped_target(random, lowering)),
            false => self.body.push(lowering),
        }
    }

    /// The value of a set that is no lowering, with a debit that makes it a
    /// raise in a known token.
    fn mirrored(&mut self, random: &mut Random, value: Field) -> Field {
        self.body.push(statement(debit("m", value.clone())));
        self.fund(random, "m", "T");
        value
    }

    /// Declares the state field, empty at first, and entries that raise it.
    pub fn hold(&mut self, random: &mut Random, reserve: &str, token: &str) {
        let held = |s: &Field| s.inner()[0].text() == reserve.as_bytes();
        match self.states.iter().any(held) {
            true if !random.fault(50) => return,
            true => {}
            false => {
                let default = random.percent(50).then(|| zero(random));
                self.states.push(state(reserve, default));
            }
        }
        self.begin(random, reserve);
        for _ in 0..random.pick(&[1, 1, 1, 1, 2]) {
            let token = match random.fault(10) {
                true => random.pick(&TOKENS),
                false => token,
            };
            match random.percent(60) {
                true => self.raise_by_parameter(random, reserve, token),
                false => self.raise_by_debit(random, reserve, token),
            }
        }
    }

    /// Adds genesis statements that leave the state field empty.
    fn begin(&mut self, random: &mut Random, reserve: &str) {
        let given =
            |random: &mut Random, value| assign(any_assignment(random), identifier(reserve), value);
        if random.percent(25) {
            let value = zero(random);
            self.genesis.push(genesis(given(random, value)));
        }
        if random.percent(10) {
            let harmless = harmless_genesis(random, reserve);
            self.genesis.push(genesis(harmless));
        }
        if random.fault(6) {
            self.genesis.push(genesis(given(random, integer("1"))));
        }
    }

    /// Adds an entry that raises the state field by its parameter's amount.
    fn raise_by_parameter(&mut self, random: &mut Random, reserve: &str, token: &str) {
        let name = random.pick(&ASSETS);
        let mut body = vec![raised(random, reserve, amount_of(name))];
        if random.percent(15) {
            let map = map_of(random, token);
            body.push(placed(random, debit(map, amount_of(name))));
            self.fund(random, map, token);
        }
        let mut parameters = vec![asset(name)];
        if random.percent(18) {
            let other = random.pick(&ASSETS);
            parameters.push(asset(other));
            let harmless = harmless_use(random, name, other);
            body.push(placed(random, harmless));
        }
        if random.percent(8) {
            let value = leaf(random);
            let raise = raised(random, reserve, value);
            body.push(with_wrapped_target(random, raise));
        }
        if random.fault(12) {
            let second = second_use(random, name);
            body.push(placed(random, second));
        }
        let conditions = inflow_conditions(random, token);
        let raising = support(random, parameters, conditions, body);
        self.others.push(raising);
    }

    /// Adds an entry that raises the state field by what it debits.
    fn raise_by_debit(&mut self, random: &mut Random, reserve: &str, token: &str) {
        let map = map_of(random, token);
        let amount = amount(random, 1);
        let same = rewritten(random, amount.clone());
        let taken = wrapped(random, amount);
        let value = match random.fault(10) {
            true => reduced(random, same.clone()),
            false => same.clone(),
        };
        let mut body = vec![
            placed(random, debit(map, taken)),
            raised(random, reserve, value),
        ];
        if random.percent(12) {
            let map = random.pick(&MAPS);
            body.push(placed(random, debit(map, same.clone())));
        }
        if random.percent(8) {
            let credit = member_call("w", "credit", vec![caller(), same]);
            body.push(placed(random, credit));
        }
        if random.percent(30) {
            let less = amount_of(random.pick(&ASSETS));
            body.push(assign(tag::SUBTRACT, identifier(reserve), less));
        }
        let conditions = match random.percent(20) {
            true => vec![about(random, token)],
            false => Vec::new(),
        };
        let raising = support(random, Vec::new(), conditions, body);
        self.others.push(raising);
        self.fund(random, map, token);
    }
}

/// A state field and the token that it holds, most of the time.
fn any_reserve(random: &mut Random) -> (&'static str, &'static str) {
    let token = match random.fault(20) {
        true => random.pick(&TOKENS),
        false => TOKENS[0],
    };
    (random.pick(&RESERVES), token)
}

/// A map that the token funds, most of the time.
fn map_of(random: &mut Random, token: &str) -> &'static str {
    match TOKENS.iter().position(|t| *t == token) {
        Some(number) if !random.fault(20) => MAPS[number],
        _ => random.pick(&MAPS),
    }
}

/// An integer of 0 and underscores, most of the time.
fn zero(random: &mut Random) -> Field {
    let text = match random.fault(30) {
        true => random.pick(&["1", "0x0", "0_1", "_1", "10"]),
        false => random.pick(&["0", "0", "0", "00", "0_0", "_", "", "_0"]),
    };
    let value = match random.fault(10) {
        true => string(text),
        false => integer(text),
    };
    wrapped(random, value)
}

/// The conditions of an entry that raises a state field by its parameter's
/// amount: one guard on the token, most of the time.
fn inflow_conditions(random: &mut Random, token: &str) -> Vec<Field> {
    let mut conditions = vec![whole_guard(random, token)];
    if random.fault(15) {
        let token = random.pick(&TOKENS[..2]);
        conditions.push(whole_guard(random, token));
    }
    if random.fault(15) {
        conditions.push(about(random, token));
    }
    if random.fault(12) {
        conditions[0] = about(random, token);
    }
    if random.fault(6) {
        conditions.clear();
    }
    conditions
}

/// An amount that holds the parameter's and is neither equal to it nor, most
/// of the time, bounded by it.
pub fn priced(random: &mut Random, name: &str) -> Field {
    let paid = amount_of(name);
    match random.below(12) {
        0..=2 => binary(TIMES, paid, integer(random.pick(&["2", "1_0"]))),
        3 => binary(TIMES, integer("2"), paid),
        4 => binary(PLUS, paid, identifier("n")),
        5 => binary(MINUS, identifier("n"), paid),
        6 => binary(DIVIDED, paid, integer("2")),
        7 => binary(TIMES, any_wrapper(random, paid), integer("2")),
        _ => {
            let around = surrounded(random, paid);
            match random.percent(30) {
                true => surrounded(random, around),
                false => around,
            }
        }
    }
}

/// A statement that raises the state field by the value, most of the time.
fn raised(random: &mut Random, reserve: &str, value: Field) -> Field {
    let value = wrapped(random, value);
    let before = wrapped(random, identifier(reserve));
    let target = identifier(reserve);
    if random.fault(10) {
        let operator = random.pick(&[PLUS, MINUS]);
        return assign(tag::SET, target, binary(operator, value, before));
    }
    match random.below(12) {
        0..=5 => assign(tag::ADD, target, value),
        6..=9 => {
            let sum = wrapped(random, binary(PLUS, before, value));
            assign(tag::SET, target, sum)
        }
        _ => assign(tag::SET, target, value),
    }
}

/// What is one step from the guard of a reserve.
fn nearly_guard(random: &mut Random, mut condition: Field) -> Field {
    match random.below(7) {
        0 => return guard(joined(random, AND, condition)),
        1 => return limits(condition),
        2 => return denies(not(condition)),
        3 => return denies(opposite(condition)),
        _ if condition.tag >= tag::BINARY => {
            condition.tag = random.pick(&[EQUAL, EQUAL, LESS, AT_MOST])
        }
        _ => condition = not(condition),
    }
    guard(condition)
}

/// The opposite of a comparison; another expression as it is.
fn opposite(mut condition: Field) -> Field {
    condition.tag = match condition.tag {
        LESS => AT_LEAST,
        AT_LEAST => LESS,
        GREATER => AT_MOST,
        AT_MOST => GREATER,
        other => other,
    };
    condition
}

/// The assignment to the same target in a wrapper.
fn with_wrapped_target(random: &mut Random, assignment: Field) -> Field {
    let [target, value] = assignment.inner() else {
        return assignment;
    };
    assign(
        assignment.tag,
        any_wrapper(random, target.clone()),
        value.clone(),
    )
}

/// A genesis statement that gives the state field nothing.
fn harmless_genesis(random: &mut Random, reserve: &str) -> Field {
    let held = identifier(reserve);
    match random.below(4) {
        0 => assign(
            any_assignment(random),
            any_wrapper(random, held),
            integer("1"),
        ),
        1 => assign(any_assignment(random), member(held, "x"), integer("1")),
        2 => assign(any_assignment(random), identifier("z"), integer("1")),
        _ => guard(binary(EQUAL, held, integer("1"))),
    }
}

/// What is one step from a second use of the parameter's amount: another
/// parameter's, or another call.
fn harmless_use(random: &mut Random, name: &str, other: &str) -> Field {
    if random.percent(25) {
        return second_use(random, other);
    }
    let second = second_use(random, name);
    nearly(random, second)
}

/// A second use of a parameter's amount, beside the raise of a reserve.
fn second_use(random: &mut Random, name: &str) -> Field {
    let method = random.pick(&["credit", "set", "insert"]);
    let base = match random.percent(60) {
        true => identifier("w"),
        false => leaf(random),
    };
    let amount = match random.percent(40) {
        true => any_wrapper(random, amount_of(name)),
        false => amount_of(name),
    };
    call(member(base, method), vec![leaf(random), amount])
}
