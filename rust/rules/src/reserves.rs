// SPDX-License-Identifier: Apache-2.0 OR MIT
//! Reserves: state fields that cover a payout.

use crate::conditions::Condition;
use crate::contract::{Contract, Entry};
use crate::field::*;
use crate::misreading::Misreading::*;
use crate::tokens::{single, Token};
use crate::walking::credit;
use crate::Rules;

/// What a reserve has to cover.
pub struct Demand<'e> {
    pub contract: &'e Contract<'e>,
    pub entry: &'e Entry<'e>,
    pub token: Option<Token<'e>>,
    /// The payout's amount, peeled.
    pub amount: &'e Field<'e>,
}

/// A guard that says a state field holds at least the amount.
struct Guarded<'e> {
    index: usize,
    guard: &'e Field<'e>,
}

impl Rules {
    /// The numbers of the state fields that cover, in the order of guards.
    pub fn covering_reserves<'d>(
        &'d self,
        demand: &'d Demand<'d>,
    ) -> impl Iterator<Item = usize> + 'd {
        let guarded = match self.contains_asset_amount(demand.entry, demand.amount) {
            true => self.guarded(demand),
            false => Vec::new(),
        };
        guarded
            .into_iter()
            .filter(|guarded| self.covers(demand, guarded))
            .map(|guarded| guarded.index)
    }

    /// True if `p.amount` of some asset parameter stands in the amount.
    pub fn contains_asset_amount(&self, entry: &Entry<'_>, amount: &Field<'_>) -> bool {
        let mut nodes = Vec::new();
        self.walk(amount, &mut nodes);
        match self.misreading {
            Some(AmountNeedNotContain) => true,
            Some(AmountContainsAnyParameter) => nodes
                .iter()
                .any(|node| self.is_parameter_amount(entry, node)),
            Some(AmountIsOperand) => amount
                .expressions()
                .any(|part| self.is_asset_amount(entry, part)),
            _ => nodes.iter().any(|node| self.is_asset_amount(entry, node)),
        }
    }

    fn guarded<'e>(&self, demand: &Demand<'e>) -> Vec<Guarded<'e>> {
        let guards = self.reserve_guards(demand.entry);
        let says = |condition: &Condition<'e>| {
            let index = self.guarded_state(demand, condition)?;
            let guard = condition.field;
            Some(Guarded { index, guard })
        };
        let mut guarded: Vec<_> = guards.iter().filter_map(says).collect();
        match self.misreading {
            Some(LastGuardFirst) => guarded.reverse(),
            Some(OnlyFirstGuardTried) => guarded.truncate(1),
            Some(ReservesInStateOrder) => guarded.sort_by_key(|guarded| guarded.index),
            _ => {}
        }
        guarded
    }

    /// The guards of the body; clauses and parts of a guard do not count.
    fn reserve_guards<'e>(&self, entry: &Entry<'e>) -> Vec<Condition<'e>> {
        let counts = |clause: &&&'e Field<'e>| match clause.tag {
            LIMITS => self.misreads(ReserveLimitsCount),
            _ => self.misreads(ReserveDenialsCount),
        };
        let clauses = entry.clauses.iter().filter(counts).filter_map(|clause| {
            let field = clause.inner()?;
            let flipped = clause.tag == DENIES;
            Some(Condition { field, flipped })
        });
        let guards = entry
            .guards()
            .flat_map(|guard| match self.misreads(ReserveGuardSplit) {
                true => and_parts(guard),
                false => vec![guard],
            });
        let guards = guards.map(|field| Condition {
            field,
            flipped: false,
        });
        clauses.chain(guards).collect()
    }

    /// The state field of a guard `r > amount`, `r >= amount`, `amount < r` or
    /// `amount <= r`.
    fn guarded_state(&self, demand: &Demand<'_>, condition: &Condition<'_>) -> Option<usize> {
        let guard = self.peel_unless(ReserveGuardUnpeeled, condition.field);
        let (left, right) = guard.sides()?;
        let operator = condition.operator_of(guard);
        let (field, amount) = match operator {
            GT | GE => (left, right),
            LT | LE if !self.misreads(MirroredGuardLeftOut) => (right, left),
            EQ if self.misreads(GuardMayBeEquation) => (left, right),
            _ => return None,
        };
        let left_out = match operator {
            GT | LT => self.misreads(StrictGuardLeftOut),
            _ => self.misreads(GuardMustBeStrict),
        };
        let name = self.peel_unless(GuardFieldUnpeeled, field).identifier()?;
        let says_amount = self.equal(self.peel_unless(GuardAmountUnpeeled, amount), demand.amount)
            || (self.misreads(GuardOfLargerAmount)
                && self.bounded(demand.amount, self.peel(amount)));
        let mut parameters = demand.entry.parameters.iter();
        if self.misreads(ParametersHideStates) && parameters.any(|hiding| hiding.name == name) {
            return None;
        }
        let states = &demand.contract.states;
        states
            .iter()
            .position(|state| state.text_part(NAME) == name)
            .filter(|_| says_amount && !left_out)
    }

    fn covers(&self, demand: &Demand<'_>, guarded: &Guarded<'_>) -> bool {
        let state = demand.contract.states[guarded.index];
        self.is_lowered(demand, guarded, state.text_part(NAME))
            && match (self.reserve_token(demand, state), demand.token) {
                (Some(token), Some(payout)) => token == payout || self.misreads(ReserveOfAnyToken),
                (Some(_), None) => self.misreads(ReservePaysUnknownToken),
                (None, Some(_)) => self.misreads(ReserveWithoutTokenPays),
                (None, None) => false,
            }
    }

    fn is_lowered(&self, demand: &Demand<'_>, guarded: &Guarded<'_>, name: &[u8]) -> bool {
        let lowers = |statement: &Field<'_>| {
            let after = statement.place > guarded.guard.place;
            (after || !self.misreads(LoweringAfterGuardOnly))
                && self.lowers(statement, name, demand.amount)
        };
        let lowers_in = |entry: &Entry<'_>| entry.body.iter().any(|statement| lowers(statement));
        match self.misreading {
            Some(LoweringNotNeeded) => true,
            Some(LoweringInAnyEntry) => demand.contract.entries.iter().any(lowers_in),
            _ => lowers_in(demand.entry),
        }
    }

    /// True of `r -= amount`, or r set to r minus amount.
    fn lowers(&self, statement: &Field<'_>, name: &[u8], amount: &Field<'_>) -> bool {
        let Some((target, value)) = statement.sides() else {
            return false;
        };
        let by_amount = match statement.tag {
            SUBTRACT_FROM if !self.misreads(LoweringBySetOnly) => {
                self.equal(self.peel_unless(LoweringValueUnpeeled, value), amount)
            }
            SET if !self.misreads(LoweringBySubtractOnly) => {
                self.is_difference(value, name, amount)
            }
            _ => false,
        };
        let target = self.peel_if(LoweringTargetPeeled, target);
        by_amount && target.is_named(name) && !self.wrapping_bars(statement.tag, value)
    }

    /// True of r minus amount, value and sides peeled.
    fn is_difference(&self, value: &Field<'_>, name: &[u8], amount: &Field<'_>) -> bool {
        let value = self.peel_unless(LoweringSetUnpeeled, value);
        let Some((left, right)) = value.sides_of(SUB) else {
            return false;
        };
        let left = self.peel_unless(LoweringFieldUnpeeled, left);
        let right = self.peel_unless(LoweringAmountUnpeeled, right);
        let mirrored =
            self.misreads(LoweringMirrored) && right.is_named(name) && self.equal(left, amount);
        mirrored || (left.is_named(name) && self.equal(right, amount))
    }

    /// True if Wrapping stands anywhere in the value.
    fn wrapping_bars(&self, statement: u8, value: &Field<'_>) -> bool {
        match (self.misreading, statement) {
            (Some(WrappedSetLowers), SET) | (Some(WrappedSubtractLowers), SUBTRACT_FROM) => false,
            (Some(WrappingBarsOutermostOnly), _) => value.tag == WRAPPING,
            (Some(CheckedBarsToo), _) => contains(value, is_wrapper),
            _ => contains(value, |tag| tag == WRAPPING),
        }
    }

    /// The one token that a state field holds.
    fn reserve_token<'e>(&self, demand: &Demand<'e>, state: &Field<'_>) -> Option<Token<'e>> {
        let contract = demand.contract;
        let name = state.text_part(NAME);
        if !self.starts_at_zero(contract, state) {
            return None;
        }
        let mut tokens = Vec::new();
        for entry in &contract.entries {
            if self.misreads(RaisesWherePaidLeftOut) && entry.place == demand.entry.place {
                continue;
            }
            for raise in self.raises(entry, name) {
                match self.raise_token(contract, entry, raise) {
                    Some(token) => tokens.push(token),
                    None if self.misreads(RaiseWithoutTokenPassedOver) => {}
                    None => return None,
                }
            }
        }
        match self.misreading {
            Some(RaiseTokensMayDiffer) => tokens.first().copied(),
            Some(NoRaiseHoldsAnyToken) if tokens.is_empty() => demand.token,
            _ => single(&tokens),
        }
    }

    /// True if the default and every genesis assignment are zero.
    fn starts_at_zero(&self, contract: &Contract<'_>, state: &Field<'_>) -> bool {
        let default_is_zero = match state.inner() {
            None => !self.misreads(DefaultNeeded),
            Some(_) if self.misreads(DefaultNotAsked) => true,
            Some(default) => self.is_zero(self.peel_unless(DefaultUnpeeled, default)),
        };
        let name = state.text_part(NAME);
        let assigned = |statement: &&&Field<'_>| {
            let target = statement
                .sides()
                .map(|(target, _)| self.peel_if(GenesisTargetPeeled, target));
            self.is_genesis_assignment(statement.tag)
                && target.is_some_and(|target| target.is_named(name))
        };
        let is_zero = |statement: &&Field<'_>| {
            let value = statement
                .sides()
                .map(|(_, value)| self.peel_unless(GenesisValueUnpeeled, value));
            value.is_some_and(|value| self.is_zero(value))
        };
        default_is_zero && contract.genesis.iter().filter(assigned).all(is_zero)
    }

    fn is_genesis_assignment(&self, tag: u8) -> bool {
        match tag {
            SET => !self.misreads(GenesisSetLeftOut),
            ADD_TO => !self.misreads(GenesisAddLeftOut),
            SUBTRACT_FROM => !self.misreads(GenesisSubtractLeftOut),
            _ => false,
        }
    }

    /// True of an integer of 0 and _ only.
    fn is_zero(&self, field: &Field<'_>) -> bool {
        let zeros = match self.misreading {
            Some(AnyIntegerIsZero) => true,
            Some(UnderscoreIsNotZero) => field.content.iter().all(|&byte| byte == b'0'),
            Some(EmptyIsNotZero) if field.content.is_empty() => false,
            Some(ZeroNeedsDigit) if !field.content.contains(&b'0') => false,
            _ => field
                .content
                .iter()
                .all(|&byte| matches!(byte, b'0' | b'_')),
        };
        zeros && (field.tag == INTEGER || (field.tag == STRING && self.misreads(ZeroMayBeString)))
    }

    /// What an entry raises a state field by, peeled.
    fn raises<'e>(&self, entry: &Entry<'e>, name: &[u8]) -> Vec<&'e Field<'e>> {
        let raise = |statement: &&'e Field<'e>| {
            let (target, value) = statement.sides()?;
            let target = self.peel_if(RaiseTargetPeeled, target);
            match statement.tag {
                _ if !target.is_named(name) => None,
                ADD_TO if !self.misreads(RaiseByAddLeftOut) => {
                    Some(self.peel_unless(RaiseUnpeeled, value))
                }
                SUBTRACT_FROM if self.misreads(SubtractionRaises) => Some(self.peel(value)),
                SET => self.set_raise(value, name),
                _ => None,
            }
        };
        entry.body.iter().filter_map(raise).collect()
    }

    fn set_raise<'e>(&self, value: &'e Field<'e>, name: &[u8]) -> Option<&'e Field<'e>> {
        let value = self.peel_unless(RaisingSetUnpeeled, value);
        let is_field = |side| self.peel_unless(RaisedFieldUnpeeled, side).is_named(name);
        match (value.tag, value.sides()) {
            (ADD, Some((left, right)))
                if is_field(left) && !self.misreads(SetPlusRaisesByWhole) =>
            {
                Some(self.peel_unless(SetRaiseUnpeeled, right))
            }
            (ADD, Some((left, right)))
                if is_field(right) && self.misreads(SetPlusInEitherOrder) =>
            {
                Some(self.peel(left))
            }
            (SUB, Some((left, _))) if is_field(left) => {
                self.misreads(SetMinusRaisesByWhole).then_some(value)
            }
            (SUB, Some((_, right))) if is_field(right) && self.misreads(SetMinusInEitherOrder) => {
                None
            }
            _ => (!self.misreads(OtherSetsRaiseNothing)).then_some(value),
        }
    }

    fn raise_token<'e>(
        &self,
        contract: &Contract<'e>,
        entry: &Entry<'e>,
        raise: &Field<'_>,
    ) -> Option<Token<'e>> {
        let by_asset = match self.misreads(RaiseByAnyParameter) {
            true => self.is_parameter_amount(entry, raise),
            false => self.is_asset_amount(entry, raise),
        };
        let token = match by_asset {
            true => self.asset_raise_token(contract, entry, raise),
            false => self.debit_raise_token(contract, entry, raise),
        };
        match self.misreads(RaiseByAssetAmongDebits) {
            true => token.or_else(|| self.debit_raise_token(contract, entry, raise)),
            false => token,
        }
    }

    /// The token of a raise by `p.amount`: that of the one in-asset guard.
    fn asset_raise_token<'e>(
        &self,
        contract: &Contract<'e>,
        entry: &Entry<'e>,
        raise: &Field<'_>,
    ) -> Option<Token<'e>> {
        if self.is_used_again(contract, entry, raise) {
            return None;
        }
        let tokens: Vec<_> = self
            .inflow_guards(entry)
            .filter_map(|guard| self.inflow_token(guard))
            .collect();
        match (self.misreading, &tokens[..]) {
            (Some(InflowByAdmitted), _) => self.admitted_token(entry),
            (Some(EqualInflowGuardsCountOnce), tokens) => single(tokens),
            (Some(FirstInflowGuardCounts), tokens) => tokens.first().copied(),
            (_, [only]) => Some(only),
            _ => None,
        }
    }

    fn inflow_guards<'e>(&self, entry: &Entry<'e>) -> impl Iterator<Item = &'e Field<'e>> {
        let mut guards: Vec<_> = entry.guards().collect();
        if self.misreads(InflowGuardSplit) {
            guards = guards.into_iter().flat_map(and_parts).collect();
        }
        if self.misreads(InflowLimitsCount) {
            let limits = entry.clauses.iter().filter(|clause| clause.tag == LIMITS);
            guards.extend(limits.filter_map(|limit| limit.inner()));
        }
        guards.into_iter()
    }

    fn inflow_token<'e>(&self, guard: &'e Field<'e>) -> Option<Token<'e>> {
        let guard = self.peel_unless(InflowGuardUnpeeled, guard);
        let token = self.in_asset_token(guard, InflowSidesUnpeeled, InflowInAssetLeftOnly);
        token.filter(|_| guard.tag == EQ)
    }

    /// True if the raise is also, peeled, the second argument of a member call
    /// credit, set or insert.
    fn is_used_again(&self, contract: &Contract<'_>, entry: &Entry<'_>, raise: &Field<'_>) -> bool {
        match self.misreading {
            Some(SecondUseAllowed) => false,
            Some(SecondUseInAnyEntry) => contract
                .entries
                .iter()
                .any(|other| self.uses_again(other, raise)),
            _ => self.uses_again(entry, raise),
        }
    }

    fn uses_again(&self, entry: &Entry<'_>, raise: &Field<'_>) -> bool {
        entry.calls.iter().any(|call| {
            let callee = self.peel_if(SecondUseCalleePeeled, call.callee);
            let Some((base, value)) = credit(call, callee) else {
                return false;
            };
            let base_fits = base.identifier().is_some() || !self.misreads(SecondUseOfNamedMapOnly);
            let key_fits =
                call.arguments[0].tag == CALLER || !self.misreads(SecondUseOfCallerKeyOnly);
            let by_credit = callee.member().is_some_and(|(_, name)| name == b"credit");
            let method_fits = by_credit || !self.misreads(SecondUseByCreditOnly);
            base_fits && key_fits && method_fits && self.is_second_use(entry, value, raise)
        })
    }

    fn is_second_use(&self, entry: &Entry<'_>, value: &Field<'_>, raise: &Field<'_>) -> bool {
        let value = self.peel_unless(SecondUseUnpeeled, value);
        match self.misreading {
            Some(SecondUseOfAnyAsset) => self.is_asset_amount(entry, value),
            Some(SecondUseInside) => {
                value.expressions().any(|part| self.equal(part, raise)) || self.equal(value, raise)
            }
            _ => self.equal(value, raise),
        }
    }

    /// The token of any other raise: that of the first debit it equals.
    fn debit_raise_token<'e>(
        &self,
        contract: &Contract<'e>,
        entry: &Entry<'e>,
        raise: &Field<'_>,
    ) -> Option<Token<'e>> {
        let debits = self.debits(entry);
        let mut equal = debits.iter().filter(|debit| {
            let amount = self.peel_unless(RaiseDebitUnpeeled, debit.amount);
            self.equal(raise, amount)
                || (self.misreads(RaiseBoundedByDebit) && self.bounded(raise, amount))
        });
        let token = |map: Option<&[u8]>| self.funding_token(contract, entry, map?);
        match self.misreading {
            Some(RaiseByAnyFundedDebit) => equal.find_map(|debit| token(debit.map)),
            Some(RaiseByLastDebit) => token(equal.next_back()?.map),
            Some(RaiseByUnfundedDebitAdmitted) => {
                token(equal.next()?.map).or_else(|| self.admitted_token(entry))
            }
            _ => token(equal.next()?.map),
        }
    }
}

/// True if a field with such a tag is the value or stands in it.
fn contains(field: &Field<'_>, accepts: fn(u8) -> bool) -> bool {
    accepts(field.tag) || field.parts.iter().any(|part| contains(part, accepts))
}

/// The parts of an And, for the misreadings that split guards.
fn and_parts<'e>(field: &'e Field<'e>) -> Vec<&'e Field<'e>> {
    match field.sides_of(AND) {
        Some((left, right)) => [and_parts(left), and_parts(right)].concat(),
        None => vec![field],
    }
}
