// SPDX-License-Identifier: Apache-2.0 OR MIT
//! Tokens that an entry admits and tokens that fund a map.

use crate::conditions::Condition;
use crate::contract::{Call, Contract, Entry};
use crate::field::*;
use crate::misreading::{Misreading, Misreading::*};
use crate::walking::credit;
use crate::Rules;

/// A token's name; a part of the file.
pub type Token<'e> = &'e [u8];

/// The token that a list names, if it names one and no other.
pub fn single<'e>(tokens: &[Token<'e>]) -> Option<Token<'e>> {
    let (first, rest) = tokens.split_first()?;
    rest.iter().all(|token| token == first).then_some(*first)
}

impl Rules {
    /// The identifier of an equation of in-asset and an identifier.
    pub fn in_asset_token<'e>(
        &self,
        equation: &'e Field<'e>,
        sides_unpeeled: Misreading,
        left_only: Misreading,
    ) -> Option<Token<'e>> {
        let (left, right) = equation.sides()?;
        let left = self.peel_unless(sides_unpeeled, left);
        let right = self.peel_unless(sides_unpeeled, right);
        match (left.tag, right.tag) {
            (IN_ASSET, IDENTIFIER) => right.identifier(),
            (IDENTIFIER, IN_ASSET) if !self.misreads(left_only) => left.identifier(),
            _ => None,
        }
    }

    /// The token that a condition part names.
    fn named_token<'e>(&self, condition: Condition<'e>) -> Option<Token<'e>> {
        let field = self.peel_if(ConditionPartPeeled, condition.field);
        let is_equation = match (condition.operator_of(field), condition.flipped) {
            (EQ, true) => !self.misreads(DeniedInequalityNamesNothing),
            (EQ, false) => true,
            (NE, true) => self.misreads(DeniedEqualityNames),
            (NE, false) => self.misreads(InequalityNames),
            _ => false,
        };
        self.in_asset_token(field, NamedSidesUnpeeled, NamedInAssetLeftOnly)
            .filter(|_| is_equation)
    }

    fn named_tokens<'e>(&self, entry: &Entry<'e>) -> Vec<Token<'e>> {
        let conditions = self.conditions(entry);
        conditions
            .iter()
            .filter_map(|part| self.named_token(*part))
            .collect()
    }

    /// The one token the entry names, nothing if two differ.
    pub fn admitted_token<'e>(&self, entry: &Entry<'e>) -> Option<Token<'e>> {
        let tokens = self.named_tokens(entry);
        match self.misreading {
            Some(AdmittedIsFirstNamed) => tokens.first().copied(),
            Some(AdmittedIsLastNamed) => tokens.last().copied(),
            Some(AdmittedIsNamedOnce) if tokens.len() > 1 => None,
            _ => single(&tokens),
        }
    }

    /// All tokens named by entries that fund a map.
    fn funding_tokens<'e>(
        &self,
        contract: &Contract<'e>,
        paying: &Entry<'e>,
        map: &[u8],
    ) -> Vec<Token<'e>> {
        let undeclared = !contract
            .states
            .iter()
            .any(|state| state.text_part(NAME) == map);
        if self.misreads(FundingOfDeclaredMapsOnly) && undeclared {
            return Vec::new();
        }
        let funds = |entry: &&Entry<'e>| {
            let asked = entry.place == paying.place || !self.misreads(FundingInPayingEntryOnly);
            let other = entry.place != paying.place || !self.misreads(FundingInOtherEntriesOnly);
            asked
                && other
                && entry
                    .calls
                    .iter()
                    .any(|call| self.funds(contract, entry, call, map))
        };
        let tokens = |entry: &Entry<'e>| match self.misreads(FundingByAdmittedOnly) {
            true => self.admitted_token(entry).into_iter().collect(),
            false => self.named_tokens(entry),
        };
        contract
            .entries
            .iter()
            .filter(funds)
            .flat_map(tokens)
            .collect()
    }

    /// The single funding token of a map.
    pub fn funding_token<'e>(
        &self,
        contract: &Contract<'e>,
        paying: &Entry<'e>,
        map: &[u8],
    ) -> Option<Token<'e>> {
        let tokens = self.funding_tokens(contract, paying, map);
        match self.misreading {
            Some(FundingIsFirstNamed) => tokens.first().copied(),
            Some(FundingIsNamedOnce) if tokens.len() > 1 => None,
            _ => single(&tokens),
        }
    }

    /// True of a call that credits, sets or inserts into the map a second
    /// argument that is, peeled, `p.amount` of an asset parameter.
    fn funds(
        &self,
        contract: &Contract<'_>,
        entry: &Entry<'_>,
        call: &Call<'_>,
        map: &[u8],
    ) -> bool {
        let callee = self.peel_if(FundingCalleePeeled, call.callee);
        let Some((base, value)) = credit(call, callee) else {
            return false;
        };
        let map_fits =
            self.peel_if(FundingBasePeeled, base).is_named(map) || self.misreads(FundingOfAnyMap);
        let count_fits = call.arguments.len() == 2 || !self.misreads(FundingOfExactlyTwo);
        let key_fits = call.arguments[0].tag == CALLER || !self.misreads(FundingOfCallerKeyOnly);
        let value = self.reading(FundingByFirstArgument, &call.arguments[0], value);
        map_fits
            && count_fits
            && key_fits
            && self.method_funds(callee)
            && self.value_funds(contract, entry, value)
    }

    fn method_funds(&self, callee: &Field<'_>) -> bool {
        match callee.member() {
            Some((_, b"set")) => !self.misreads(FundingBySetLeftOut),
            Some((_, b"insert")) => !self.misreads(FundingByInsertLeftOut),
            Some((_, b"credit")) => !self.misreads(FundingByCreditLeftOut),
            _ => false,
        }
    }

    fn value_funds(&self, contract: &Contract<'_>, entry: &Entry<'_>, value: &Field<'_>) -> bool {
        let peeled = self.peel_unless(FundingValueUnpeeled, value);
        match self.misreading {
            Some(FundingByAnyValue) => true,
            Some(FundingByAnyParameter) => self.is_parameter_amount(entry, peeled),
            Some(FundingByOtherEntrysParameter) => contract
                .entries
                .iter()
                .any(|other| self.is_asset_amount(other, peeled)),
            Some(FundingByContainedAmount) => self.contains_asset_amount(entry, peeled),
            _ => self.is_asset_amount(entry, peeled),
        }
    }
}
