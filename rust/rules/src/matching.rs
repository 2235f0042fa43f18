// SPDX-License-Identifier: Apache-2.0 OR MIT
//! Matching: each payout takes a backing of its own.

use crate::contract::{Call, Contract, Entry};
use crate::field::*;
use crate::misreading::{Misreading, Misreading::*};
use crate::reserves::Demand;
use crate::tokens::Token;
use crate::verdict::Cover;
use crate::Rules;

// The six reasons of a rejection.
const SPLIT_WITHOUT_AMOUNT: u8 = 1;
const CONFLICT_AT_EQUAL: u8 = 2;
const ALREADY_TAKEN: u8 = 3;
const CONFLICT_AT_BOUNDING: u8 = 4;
const NO_RESERVE: u8 = 5;
const RESERVE_USED: u8 = 6;

/// A caller debit or an asset parameter.
pub struct Backing<'e> {
    source: Source<'e>,
    /// The number among the debits or among the asset parameters.
    index: usize,
    /// Peeled.
    amount: &'e Field<'e>,
    unpeeled: &'e Field<'e>,
    /// Place of the debit's call; 0 for a parameter.
    pub place: usize,
    taken: Option<Taken>,
}

enum Source<'e> {
    Debit(Option<&'e [u8]>),
    Parameter,
}

#[derive(Clone, Copy, PartialEq, Eq)]
enum Taken {
    ByEqual,
    ByBounding,
}

/// What can be misread where a backing is chosen, and the reason of a conflict.
struct Step {
    last_first: Misreading,
    conflict_passed: Misreading,
    conflict_goes_on: Misreading,
    next_after_conflict: Misreading,
    reason: u8,
}

const AT_EQUAL: Step = Step {
    last_first: LastEqualFirst,
    conflict_passed: ConflictAtEqualPassed,
    conflict_goes_on: ConflictAtEqualGoesOn,
    next_after_conflict: NextEqualAfterConflict,
    reason: CONFLICT_AT_EQUAL,
};

const AT_BOUNDING: Step = Step {
    last_first: LastBoundingFirst,
    conflict_passed: ConflictAtBoundingPassed,
    conflict_goes_on: ConflictAtBoundingGoesOn,
    next_after_conflict: NextBoundingAfterConflict,
    reason: CONFLICT_AT_BOUNDING,
};

/// What is left for the payouts to come.
pub struct Matching<'e> {
    contract: &'e Contract<'e>,
    entry: &'e Entry<'e>,
    backings: Vec<Backing<'e>>,
    /// Numbers of state fields, each with the amount it paid.
    used_reserves: Vec<(usize, &'e Field<'e>)>,
}

impl<'e> Matching<'e> {
    pub fn new(
        contract: &'e Contract<'e>,
        entry: &'e Entry<'e>,
        backings: Vec<Backing<'e>>,
    ) -> Self {
        Matching {
            contract,
            entry,
            backings,
            used_reserves: Vec::new(),
        }
    }
}

impl Rules {
    /// Caller debits in walk order, then the asset parameters.
    pub fn backings<'e>(&self, entry: &'e Entry<'e>) -> Vec<Backing<'e>> {
        let debits = self.debit_backings(entry);
        let parameters = self.parameter_backings(entry, debits.len());
        match self.misreads(ParametersBeforeDebits) {
            true => parameters.into_iter().chain(debits).collect(),
            false => debits.into_iter().chain(parameters).collect(),
        }
    }

    fn debit_backings<'e>(&self, entry: &Entry<'e>) -> Vec<Backing<'e>> {
        let mut backings: Vec<Backing<'e>> = Vec::new();
        for debit in self.debits(entry) {
            let index = backings.len();
            let backing = self.backing(Source::Debit(debit.map), index, debit.amount, debit.place);
            let equal = |earlier: &Backing<'e>| self.equal(earlier.amount, backing.amount);
            if !(self.misreads(EqualDebitsCountOnce) && backings.iter().any(equal)) {
                backings.push(backing);
            }
        }
        backings
    }

    fn parameter_backings<'e>(&self, entry: &'e Entry<'e>, debits: usize) -> Vec<Backing<'e>> {
        let mut backings = Vec::new();
        for (number, parameter) in entry.parameters.iter().enumerate() {
            let earlier = &entry.parameters[..number];
            let again = earlier
                .iter()
                .any(|other| other.is_asset && other.name == parameter.name);
            if !parameter.is_asset || (again && self.misreads(SameNameParametersCountOnce)) {
                continue;
            }
            let index = match self.misreading {
                Some(ParameterIndexAmongAll) => number,
                Some(ParameterIndexAmongBackings) => debits + backings.len(),
                _ => backings.len(),
            };
            backings.push(self.backing(Source::Parameter, index, &parameter.amount, 0));
        }
        backings
    }

    fn backing<'e>(
        &self,
        source: Source<'e>,
        index: usize,
        amount: &'e Field<'e>,
        place: usize,
    ) -> Backing<'e> {
        Backing {
            source,
            index,
            amount: self.peel_unless(BackingUnpeeled, amount),
            unpeeled: amount,
            place,
            taken: None,
        }
    }

    /// A payout's token: its first argument, peeled, if an identifier.
    fn payout_token<'e>(&self, entry: &Entry<'e>, payout: &Call<'e>) -> Option<Token<'e>> {
        let token = self.peel_unless(PayoutTokenUnpeeled, &payout.arguments[0]);
        match token.tag {
            IN_ASSET if self.misreads(PayoutOfInAssetIsAdmitted) => self.admitted_token(entry),
            STRING if self.misreads(PayoutTokenMayBeString) => Some(token.content),
            _ => token.identifier(),
        }
    }

    /// The amount of a third argument: itself, or the first argument of a
    /// `split`.
    fn payout_amount<'e>(&self, third: &'e Field<'e>) -> Option<&'e Field<'e>> {
        let Some((callee, arguments)) = self.peel_unless(SplitUnpeeled, third).call() else {
            return Some(third);
        };
        if !self.is_split(callee) || (self.misreads(SplitOfExactlyOne) && arguments.len() > 1) {
            return Some(third);
        }
        match self.misreading {
            Some(SplitBySecondArgument) => arguments.get(1),
            Some(SplitWithoutAmountIsWhole) => arguments.first().or(Some(third)),
            Some(SplitInsideSplit) => self.payout_amount(arguments.first()?),
            _ => arguments.first(),
        }
    }

    fn is_split(&self, callee: &Field<'_>) -> bool {
        let callee = self.peel_if(SplitCalleePeeled, callee);
        match callee.member() {
            Some((base, b"split")) => {
                base.identifier().is_some() || !self.misreads(SplitOfNamedOnly)
            }
            _ => self.misreads(SplitByPlainCall) && callee.is_named(b"split"),
        }
    }

    /// The token of a backing, if known.
    fn backing_token<'e>(
        &self,
        matching: &Matching<'e>,
        backing: &Backing<'e>,
    ) -> Option<Token<'e>> {
        match backing.source {
            Source::Debit(_) if self.misreads(DebitTokenUnknown) => None,
            Source::Debit(_) if self.misreads(DebitTokenAdmitted) => {
                self.admitted_token(matching.entry)
            }
            Source::Debit(map) => self.funding_token(matching.contract, matching.entry, map?),
            Source::Parameter if self.misreads(ParameterTokenUnknown) => None,
            Source::Parameter => self.admitted_token(matching.entry),
        }
    }

    fn conflict<'e>(
        &self,
        matching: &Matching<'e>,
        backing: &Backing<'e>,
        payout: Option<Token<'_>>,
    ) -> bool {
        match (self.backing_token(matching, backing), payout) {
            (Some(backing), Some(payout)) if self.misreads(TokensInAnyCase) => {
                !backing.eq_ignore_ascii_case(payout)
            }
            (Some(backing), Some(payout)) => backing != payout,
            (Some(_), None) => self.misreads(UnknownPayoutConflicts),
            (None, Some(_)) => self.misreads(UnknownBackingConflicts),
            (None, None) => self.misreads(BothUnknownConflict),
        }
    }

    /// The cover of the next payout, or the reason why there is none.
    pub fn cover<'e>(&self, matching: &mut Matching<'e>, payout: &Call<'e>) -> Result<Cover, u8> {
        let third = payout.arguments.get(2);
        let amount = third.and_then(|third| self.payout_amount(third));
        let amount = amount.ok_or(SPLIT_WITHOUT_AMOUNT)?;
        let token = self.payout_token(matching.entry, payout);
        let peeled = self.peel_unless(EqualAmountUnpeeled, amount);
        if let Some(chosen) = self.first_equal(matching, peeled, amount, token)? {
            return Ok(self.take(&mut matching.backings[chosen], Taken::ByEqual));
        }
        self.not_taken(matching, peeled, amount)?;
        if self.misreads(ReserveBeforeBounding) {
            if let Ok(cover) = self.reserve(matching, token, amount) {
                return Ok(cover);
            }
        }
        if let Some(chosen) = self.first_bounding(matching, amount, token)? {
            return Ok(self.take(&mut matching.backings[chosen], Taken::ByBounding));
        }
        self.reserve(matching, token, amount)
    }

    fn first_equal(
        &self,
        matching: &Matching<'_>,
        peeled: &Field<'_>,
        amount: &Field<'_>,
        token: Option<Token<'_>>,
    ) -> Result<Option<usize>, u8> {
        let fits = |backing: &Backing<'_>| {
            let is_free = backing.taken.is_none() || self.misreads(EqualMayBeTaken);
            let bounds = self.misreads(BoundingLikeEqual) && self.bounded(amount, backing.amount);
            is_free && (bounds || self.equal(peeled, backing.amount))
        };
        self.choose(matching, &indexes(matching, fits), token, &AT_EQUAL)
    }

    /// The first of the backings found, unless its token conflicts.
    fn choose(
        &self,
        matching: &Matching<'_>,
        found: &[usize],
        token: Option<Token<'_>>,
        step: &Step,
    ) -> Result<Option<usize>, u8> {
        let last_first = self.misreads(step.last_first);
        let first = if last_first {
            found.last()
        } else {
            found.first()
        };
        let conflict = |index: usize| self.conflict(matching, &matching.backings[index], token);
        let Some(&first) = first.filter(|&&first| conflict(first)) else {
            return Ok(first.copied());
        };
        match self.misreading {
            Some(misreading) if misreading == step.conflict_passed => Ok(Some(first)),
            Some(misreading) if misreading == step.conflict_goes_on => Ok(None),
            Some(misreading) if misreading == step.next_after_conflict => {
                let next = found.iter().find(|&&index| !conflict(index));
                next.map(|&index| Some(index)).ok_or(step.reason)
            }
            _ => Err(step.reason),
        }
    }

    /// Rejects if a taken backing equals the amount.
    fn not_taken(
        &self,
        matching: &Matching<'_>,
        peeled: &Field<'_>,
        amount: &Field<'_>,
    ) -> Result<(), u8> {
        let equals = |backing: &Backing<'_>| {
            let counts = match (&backing.source, backing.taken) {
                (_, None) => false,
                (_, Some(Taken::ByBounding)) if self.misreads(TakenMayEqualIfBounding) => false,
                (Source::Debit(_), Some(_)) if self.misreads(TakenDebitMayEqual) => false,
                (_, Some(_)) => !self.misreads(TakenMayEqual),
            };
            let bounds = self.misreads(TakenMayNotBound) && self.bounded(amount, backing.amount);
            counts && (bounds || self.equal(peeled, backing.amount))
        };
        match indexes(matching, equals).is_empty() {
            true => Ok(()),
            false => Err(ALREADY_TAKEN),
        }
    }

    fn first_bounding(
        &self,
        matching: &Matching<'_>,
        amount: &Field<'_>,
        token: Option<Token<'_>>,
    ) -> Result<Option<usize>, u8> {
        let fits = |backing: &Backing<'_>| {
            let is_free = backing.taken.is_none() || self.misreads(BoundingMayBeTaken);
            let kind_fits = match backing.source {
                Source::Debit(_) => !self.misreads(DebitsBoundNothing),
                Source::Parameter => !self.misreads(ParametersBoundNothing),
            };
            let limit = self.reading(BoundingBackingUnpeeled, backing.unpeeled, backing.amount);
            is_free && kind_fits && self.bounded(amount, limit)
        };
        self.choose(matching, &indexes(matching, fits), token, &AT_BOUNDING)
    }

    fn take(&self, backing: &mut Backing<'_>, taken: Taken) -> Cover {
        let marked = !(taken == Taken::ByBounding && self.misreads(BoundingTakesNothing));
        if marked {
            backing.taken = Some(taken);
        }
        let kind = match (&backing.source, taken) {
            (Source::Debit(_), Taken::ByEqual) => 1,
            (Source::Parameter, Taken::ByEqual) => 2,
            (Source::Debit(_), Taken::ByBounding) if self.misreads(BoundingDebitIsKindOne) => 1,
            (Source::Debit(_), Taken::ByBounding) => 3,
            (Source::Parameter, Taken::ByBounding) if self.misreads(BoundingParameterIsKindTwo) => {
                2
            }
            (Source::Parameter, Taken::ByBounding) => 4,
        };
        Cover {
            kind,
            index: backing.index,
        }
    }

    /// The first covering reserve, if it is not used.
    fn reserve<'e>(
        &self,
        matching: &mut Matching<'e>,
        token: Option<Token<'e>>,
        amount: &'e Field<'e>,
    ) -> Result<Cover, u8> {
        let demand = Demand {
            contract: matching.contract,
            entry: matching.entry,
            token,
            amount: self.peel_unless(ReserveAmountUnpeeled, amount),
        };
        let is_used = |index: usize| {
            let mut used = matching.used_reserves.iter().filter(|used| used.0 == index);
            used.any(|used| {
                !self.misreads(ReserveUsedPerAmount) || self.equal(used.1, demand.amount)
            })
        };
        let mut covering = self.covering_reserves(&demand);
        let mut chosen = covering.next().ok_or(NO_RESERVE)?;
        if is_used(chosen) && self.misreads(NextReserveAfterUsed) {
            chosen = covering
                .find(|&index| !is_used(index))
                .ok_or(RESERVE_USED)?;
        }
        if is_used(chosen) && !self.misreads(ReserveUsedAgain) {
            return Err(RESERVE_USED);
        }
        drop(covering);
        let among_used = matching.used_reserves.len();
        matching.used_reserves.push((chosen, demand.amount));
        let index = self.reading(ReserveIndexAmongUsed, among_used, chosen);
        Ok(Cover { kind: 5, index })
    }
}

/// The numbers of the backings that fit, in order.
fn indexes(matching: &Matching<'_>, fits: impl Fn(&Backing<'_>) -> bool) -> Vec<usize> {
    let backings = matching.backings.iter().enumerate();
    backings
        .filter(|(_, backing)| fits(backing))
        .map(|(index, _)| index)
        .collect()
}
