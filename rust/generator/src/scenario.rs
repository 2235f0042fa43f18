// SPDX-License-Identifier: Apache-2.0 OR MIT
//! Contracts whose payouts are covered, most of the time: the files from
//! which the changes of the module `change` set out.

use crate::change::altered;
use crate::condition::unrelated;
use crate::construct::*;
use crate::expression::*;
use crate::random::Random;
use model_file::{tag, Field};

/// A contract in the making. One entry pays; the others fund it.
#[derive(Default)]
pub struct Draft {
    pub states: Vec<Field>,
    pub genesis: Vec<Field>,
    pub others: Vec<Field>,
    pub parameters: Vec<Field>,
    pub clauses: Vec<Field>,
    pub body: Vec<Field>,
    pub payouts: Vec<Field>,
}

/// The fields of a contract.
pub fn scenario(random: &mut Random) -> Vec<Field> {
    let mut draft = Draft::default();
    let payouts = random.pick(&[1, 1, 1, 1, 1, 1, 2, 2, 2, 3, 3, 5]);
    for _ in 0..payouts {
        draft.cover(random);
    }
    draft.disturb(random);
    draft.finish(random)
}

impl Draft {
    /// One payout and what covers it.
    fn cover(&mut self, random: &mut Random) {
        match random.below(24) {
            0..=3 => self.equal_debit(random),
            4..=5 => self.equal_parameter(random),
            6..=8 => self.bounding_debit(random),
            9..=10 => self.bounding_parameter(random),
            11..=12 => self.conflict(random),
            13..=14 => self.taken_twice(random),
            _ => self.reserve(random),
        }
    }

    /// Adds a clause or a guard.
    pub fn condition(&mut self, condition: Field) {
        match tag::is_clause(condition.tag) {
            true => self.clauses.push(condition),
            false => self.body.push(condition),
        }
    }

    /// Adds the payout of an amount, mostly in the token.
    pub fn pay(&mut self, random: &mut Random, token: &str, amount: Field) {
        let amount = wrapped(random, amount);
        let value = match random.below(10) {
            _ if random.fault(4) => nearly(random, member_call("a", "split", vec![amount])),
            0 => member_call("a", "split", vec![amount]),
            1 => member_call("a", "split", vec![amount, leaf(random)]),
            _ => amount,
        };
        let value = wrapped(random, value);
        let token = match random.fault(10) {
            true => other_token(random, token),
            false if random.percent(8) => identifier(random.pick(&TOKENS)),
            false => identifier(token),
        };
        let token = wrapped(random, token);
        let call = perhaps_nearly(random, send(token, value));
        self.payouts.push(placed(random, call));
    }

    /// Adds what should change nothing, or just too much.
    fn disturb(&mut self, random: &mut Random) {
        self.disturb_payouts(random);
        if random.percent(15) {
            self.parameters.push(plain(any_name(random)));
        }
        if random.percent(10) {
            self.parameters.push(asset(random.pick(&ASSETS)));
        }
        if random.percent(20) {
            self.condition(unrelated(random));
        }
        if random.percent(20) {
            self.body.push(idle(random));
        }
        if random.percent(12) {
            let hidden = payment(random);
            self.clauses.push(match random.percent(50) {
                true => limits(hidden),
                false => denies(hidden),
            });
        }
        if random.percent(10) {
            self.states.push(state("z", None));
        }
    }

    fn disturb_payouts(&mut self, random: &mut Random) {
        if random.percent(8) {
            let again = self.payouts[random.below(self.payouts.len())].clone();
            self.payouts.push(again);
        }
        if random.percent(4) {
            let value = member_call("a", "split", vec![]);
            self.pay(random, "T", value);
        }
        if random.percent(6) {
            let call = payment(random);
            let call = nearly(random, call);
            self.body.push(placed(random, call));
        }
    }

    /// All fields, the paying entry among the others.
    fn finish(mut self, random: &mut Random) -> Vec<Field> {
        self.body.extend(self.payouts);
        if random.percent(30) {
            random.shuffle(&mut self.body);
        }
        if random.percent(30) {
            join_two(random, &mut self.body);
        }
        random.shuffle(&mut self.parameters);
        let mut parts = self.parameters;
        parts.extend(self.clauses);
        parts.extend(self.body);
        self.others
            .insert(random.below(self.others.len() + 1), entry("f", parts));
        random.shuffle(&mut self.states);
        let mut fields = self.states;
        fields.extend(self.genesis);
        fields.extend(self.others);
        if random.percent(10) {
            random.shuffle(&mut fields);
        }
        fields
    }
}

/// An entry that supports the paying one.
pub fn support(
    random: &mut Random,
    mut parts: Vec<Field>,
    conditions: Vec<Field>,
    mut body: Vec<Field>,
) -> Field {
    let (clauses, guards): (Vec<_>, Vec<_>) =
        conditions.into_iter().partition(|c| tag::is_clause(c.tag));
    body.extend(guards);
    if random.percent(50) {
        random.shuffle(&mut body);
    }
    parts.extend(clauses);
    parts.extend(body);
    entry("g", parts)
}

/// The amount, seldom with a change.
pub fn perhaps_altered(random: &mut Random, amount: Field) -> Field {
    match random.fault(25) {
        true => altered(random, amount),
        false => amount,
    }
}

/// The call, seldom with a change.
pub fn perhaps_nearly(random: &mut Random, call: Field) -> Field {
    match random.fault(10) {
        true => nearly(random, call),
        false => call,
    }
}

/// Another first argument of a payout.
fn other_token(random: &mut Random, token: &str) -> Field {
    match random.below(6) {
        0 => string(token),
        1 => leaf(random),
        2..=3 => in_asset(),
        4 => identifier(&token.to_lowercase()),
        _ => identifier(random.pick(&TOKENS)),
    }
}

/// Makes one statement of two calls that stand alone, in an order that is
/// walked as they stood.
fn join_two(random: &mut Random, body: &mut Vec<Field>) {
    let alone: Vec<usize> = (0..body.len())
        .filter(|i| body[*i].tag == tag::EXPRESSION)
        .collect();
    if alone.len() < 2 {
        return;
    }
    let number = random.below(alone.len() - 1);
    let mut taken = |at: usize| body.remove(at).inner()[0].clone();
    let second = taken(alone[number + 1]);
    let first = taken(alone[number]);
    let joined = match random.below(7) {
        0 => assign(any_assignment(random), first, second),
        1 => emit("E", vec![first, second]),
        2 => statement(call(first, vec![second])),
        3 => statement(call(identifier("f"), vec![first, second])),
        4 => statement(call(member(first, "f"), vec![leaf(random), second])),
        _ => statement(binary(any_operator(random), first, second)),
    };
    body.insert(alone[number], joined);
}

/// A call that pays, takes or credits, for places where none of them counts.
fn payment(random: &mut Random) -> Field {
    let amount = match random.percent(60) {
        true => identifier("n"),
        false => amount_of(random.pick(&ASSETS)),
    };
    match random.below(3) {
        0 => send(identifier("T"), amount),
        1 => debit(random.pick(&MAPS), amount),
        _ => member_call(random.pick(&MAPS), "credit", vec![caller(), amount]),
    }
}

/// A statement without a call.
fn idle(random: &mut Random) -> Field {
    let value = leaf(random);
    match random.below(4) {
        0 => local(any_name(random), value),
        1 => emit("E", vec![]),
        2 => assign(any_assignment(random), identifier(any_name(random)), value),
        _ => statement(value),
    }
}
