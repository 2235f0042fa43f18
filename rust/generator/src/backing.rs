// SPDX-License-Identifier: Apache-2.0 OR MIT
//! Payouts that debits and asset parameters back.

use crate::condition::about;
use crate::construct::*;
use crate::expression::*;
use crate::random::Random;
use crate::reserve::priced;
use crate::scenario::{perhaps_altered, perhaps_nearly, support, Draft};
use model_file::Field;

impl Draft {
    /// A payout in another token than its backing has, with something that
    /// would serve if the conflict were passed over.
    pub fn conflict(&mut self, random: &mut Random) {
        let amount = match random.percent(50) {
            true => {
                let name = random.pick(&ASSETS);
                self.parameters.push(asset(name));
                priced(random, name)
            }
            false => amount(random, 1),
        };
        let less = match random.percent(50) {
            true => amount.clone(),
            false => reduced(random, amount.clone()),
        };
        let backed = match random.percent(70) {
            true => less.clone(),
            false => amount.clone(),
        };
        self.fund(random, "m", "T");
        self.body.push(statement(debit("m", backed)));
        match random.below(4) {
            0 => self.body.push(statement(debit("w", less.clone()))),
            1 => self.body.push(statement(debit("w", amount))),
            2 => {
                self.guard_and_lower(random, "r", &less);
                self.hold(random, "r", "U");
            }
            _ => {}
        }
        if random.percent(50) {
            self.body.rotate_right(1);
        }
        self.pay(random, "U", less);
    }

    /// Two payouts of one amount, or of an amount and less of it, where the
    /// amount is backed once and something else bounds it.
    pub fn taken_twice(&mut self, random: &mut Random) {
        let more = amount(random, 1);
        let amount = reduced(random, more.clone());
        let first = match random.percent(50) {
            true => amount.clone(),
            false => reduced(random, amount.clone()),
        };
        self.body.push(statement(debit("v", amount.clone())));
        if random.percent(70) {
            self.body.push(statement(debit("v", more)));
        }
        self.pay(random, "T", first);
        self.pay(random, "T", amount);
    }

    /// A debit of a sum or product, and a payout of the same the other way
    /// round, which is not equal.
    fn exchanged_debit(&mut self, random: &mut Random) {
        let (left, right) = (amount(random, 0), amount(random, 0));
        let operator = random.pick(&[PLUS, PLUS, TIMES]);
        let token = self.debit(random, binary(operator, left.clone(), right.clone()));
        self.pay(random, token, binary(operator, right, left));
    }

    pub fn equal_debit(&mut self, random: &mut Random) {
        if random.percent(5) {
            return self.exchanged_debit(random);
        }
        let amount = match random.percent(4) {
            true => member_call("a", "split", vec![]),
            false => amount(random, 3),
        };
        let token = self.debit(random, amount.clone());
        let same = rewritten(random, amount);
        let same = perhaps_altered(random, same);
        self.pay(random, token, same);
    }

    pub fn bounding_debit(&mut self, random: &mut Random) {
        let amount = amount(random, 1);
        let token = self.debit(random, amount.clone());
        let same = rewritten(random, amount);
        let less = reduced(random, same);
        self.pay(random, token, less);
    }

    pub fn equal_parameter(&mut self, random: &mut Random) {
        let (name, token) = self.asset(random);
        self.pay(random, token, amount_of(name));
    }

    pub fn bounding_parameter(&mut self, random: &mut Random) {
        let (name, token) = self.asset(random);
        let less = reduced(random, amount_of(name));
        self.pay(random, token, less);
    }

    /// Adds a debit of the amount, now and then several, and tells the token
    /// that the first one's map is funded by.
    fn debit(&mut self, random: &mut Random, amount: Field) -> &'static str {
        let (map, token) = any_map(random);
        let fundings = random.pick(&[0, 0, 0, 1, 1, 1, 1, 2]);
        for _ in 0..fundings {
            self.fund(random, map, token);
        }
        let taken = wrapped(random, amount.clone());
        let call = perhaps_nearly(random, debit(map, taken));
        self.body.push(placed(random, call));
        if random.percent(15) {
            let again = wrapped(random, amount);
            let map = random.pick(&MAPS);
            self.body.push(placed(random, debit(map, again)));
        }
        token
    }

    /// Adds an asset parameter, now and then with a condition on its token.
    fn asset(&mut self, random: &mut Random) -> (&'static str, &'static str) {
        let name = random.pick(&ASSETS);
        let token = random.pick(&TOKENS);
        self.parameters.push(asset(name));
        if random.percent(50) {
            self.condition(about(random, token));
        }
        (name, token)
    }

    /// Adds an entry that funds the map with the token, most of the time.
    pub fn fund(&mut self, random: &mut Random, map: &str, token: &str) {
        let name = random.pick(&ASSETS);
        let amount = wrapped(random, amount_of(name));
        let key = match random.percent(70) {
            true => caller(),
            false => leaf(random),
        };
        let method = random.pick(&["credit", "credit", "set", "insert"]);
        let mut arguments = vec![key, amount];
        if random.percent(10) {
            arguments.push(leaf(random));
        }
        let credit = perhaps_nearly(random, member_call(map, method, arguments));
        let credit = placed(random, credit);
        let token = match random.fault(20) {
            true => random.pick(&TOKENS),
            false => token,
        };
        let mut conditions = vec![about(random, token)];
        if random.percent(15) {
            conditions.push(about(random, token));
        }
        match random.percent(10) {
            true => {
                self.parameters.push(asset(name));
                self.body.push(credit);
                conditions.into_iter().for_each(|c| self.condition(c));
            }
            false => {
                let parameter = vec![asset(name)];
                self.others
                    .push(support(random, parameter, conditions, vec![credit]));
            }
        }
    }
}

/// A map and the token that funds it, most of the time.
fn any_map(random: &mut Random) -> (&'static str, &'static str) {
    let number = random.below(MAPS.len());
    let token = match random.fault(30) {
        true => random.pick(&TOKENS),
        false => TOKENS[number % 2],
    };
    (MAPS[number], token)
}
