// SPDX-License-Identifier: Apache-2.0 OR MIT
//! Walking: peeling, the order of a walk, and what calls look like.

use crate::contract::{Call, Entry};
use crate::field::*;
use crate::misreading::{Misreading, Misreading::*};
use crate::Rules;

/// A caller debit `map.debit(caller, amount)`.
#[derive(Clone, Copy)]
pub struct Debit<'e> {
    /// The map's name; none where a misreading takes any base.
    pub map: Option<&'e [u8]>,
    pub amount: &'e Field<'e>,
    pub place: usize,
}

impl Rules {
    /// The first field that is neither Checked nor Wrapping.
    pub fn peel<'e>(&self, field: &'e Field<'e>) -> &'e Field<'e> {
        match field.inner() {
            Some(inner) if self.is_peeled(field.tag) => match self.misreads(OneWrapperPeeled) {
                true => inner,
                false => self.peel(inner),
            },
            _ => field,
        }
    }

    fn is_peeled(&self, tag: u8) -> bool {
        match tag {
            CHECKED => !self.misreads(CheckedNotPeeled),
            WRAPPING => !self.misreads(WrappingNotPeeled),
            NEGATE => self.misreads(NegatePeeled),
            _ => false,
        }
    }

    /// For a place that peels: peels unless misread.
    pub fn peel_unless<'e>(&self, misreading: Misreading, field: &'e Field<'e>) -> &'e Field<'e> {
        match self.misreads(misreading) {
            true => field,
            false => self.peel(field),
        }
    }

    /// For a place that matches unpeeled: peels only if misread.
    pub fn peel_if<'e>(&self, misreading: Misreading, field: &'e Field<'e>) -> &'e Field<'e> {
        match self.misreads(misreading) {
            true => self.peel(field),
            false => field,
        }
    }

    /// The calls in the body statements of an entry, in walk order.
    pub fn calls<'e>(&self, entry: &Entry<'e>) -> Vec<Call<'e>> {
        let mut nodes = Vec::new();
        if self.misreads(ClausesWalked) {
            entry
                .clauses
                .iter()
                .for_each(|clause| self.walk_parts(clause, &mut nodes));
        }
        entry
            .body
            .iter()
            .for_each(|statement| self.walk_parts(statement, &mut nodes));
        let call = |field: &&'e Field<'e>| {
            let (callee, arguments) = field.call()?;
            Some(Call {
                place: field.place,
                callee,
                arguments,
            })
        };
        nodes.iter().filter_map(call).collect()
    }

    /// An expression and everything inside it, each before its parts.
    pub fn walk<'e>(&self, field: &'e Field<'e>, nodes: &mut Vec<&'e Field<'e>>) {
        if self.misreads(PartsBeforeNode) {
            self.walk_parts(field, nodes);
            nodes.push(field);
            return;
        }
        nodes.push(field);
        self.walk_parts(field, nodes);
    }

    fn walk_parts<'e>(&self, field: &'e Field<'e>, nodes: &mut Vec<&'e Field<'e>>) {
        let mut parts: Vec<_> = field.expressions().collect();
        if self.is_not_entered(field.tag) {
            parts.clear();
        }
        match field.tag {
            CALL if self.misreads(CalleeNotWalked) => drop(parts.remove(0)),
            CALL if self.misreads(ArgumentsBeforeCallee) => parts.rotate_left(1),
            CALL if self.misreads(ArgumentsNotWalked) => parts.truncate(1),
            SET..=SUBTRACT_FROM if self.misreads(TargetNotWalked) => drop(parts.remove(0)),
            SET..=SUBTRACT_FROM if self.misreads(ValueBeforeTarget) => parts.reverse(),
            OR..=SHR if self.misreads(RightBeforeLeft) => parts.reverse(),
            _ => {}
        }
        parts.iter().for_each(|part| self.walk(part, nodes));
    }

    fn is_not_entered(&self, tag: u8) -> bool {
        match tag {
            LET => self.misreads(LetNotWalked),
            EMIT => self.misreads(EmitNotWalked),
            GUARD => self.misreads(GuardNotWalked),
            SET..=SUBTRACT_FROM => self.misreads(AssignmentsNotWalked),
            MEMBER => self.misreads(MemberBaseNotWalked),
            CHECKED | WRAPPING => self.misreads(WrappersNotWalked),
            NOT | NEGATE => self.misreads(NegationsNotWalked),
            OR..=SHR => self.misreads(OperandsNotWalked),
            _ => false,
        }
    }

    /// The `send_asset` calls with a third argument, in walk order.
    pub fn payouts<'e>(&self, entry: &Entry<'e>) -> Vec<Call<'e>> {
        entry
            .calls
            .iter()
            .filter(|call| self.is_payout(call))
            .copied()
            .collect()
    }

    fn is_payout(&self, call: &Call<'_>) -> bool {
        let callee = self.peel_if(PayoutCalleePeeled, call.callee);
        let by_member = self.misreads(PayoutByMember)
            && callee
                .member()
                .is_some_and(|(_, name)| name == b"send_asset");
        let enough = match self.misreading {
            Some(PayoutOfTwoArguments) => call.arguments.len() >= 2,
            Some(PayoutOfExactlyThree) => call.arguments.len() == 3,
            _ => call.arguments.len() >= 3,
        };
        let to_caller = !self.misreads(PayoutToCallerOnly)
            || call.arguments.get(1).is_some_and(|to| to.tag == CALLER);
        (callee.is_named(b"send_asset") || by_member) && enough && to_caller
    }

    /// The caller debits `m.debit(caller, amount)`, in walk order.
    pub fn debits<'e>(&self, entry: &Entry<'e>) -> Vec<Debit<'e>> {
        entry
            .calls
            .iter()
            .filter_map(|call| self.debit(call))
            .collect()
    }

    fn debit<'e>(&self, call: &Call<'e>) -> Option<Debit<'e>> {
        let (base, name) = self.peel_if(DebitCalleePeeled, call.callee).member()?;
        let map = self.peel_if(DebitBasePeeled, base).identifier();
        let [key, amount, rest @ ..] = call.arguments else {
            return None;
        };
        let key_fits =
            self.peel_if(DebitKeyPeeled, key).tag == CALLER || self.misreads(DebitOfAnyKey);
        let base_fits = map.is_some() || self.misreads(DebitOfAnyBase);
        let count_fits = rest.is_empty() || !self.misreads(DebitOfExactlyTwo);
        (name == b"debit" && base_fits && key_fits && count_fits).then_some(Debit {
            map,
            amount,
            place: call.place,
        })
    }

    /// True of `p.amount`, p an asset parameter of the entry.
    pub fn is_asset_amount(&self, entry: &Entry<'_>, field: &Field<'_>) -> bool {
        let Some((base, b"amount")) = field.member() else {
            return false;
        };
        let Some(name) = self.peel_if(AmountBasePeeled, base).identifier() else {
            return false;
        };
        let mut parameters = entry
            .parameters
            .iter()
            .filter(|parameter| parameter.name == name);
        match self.misreading {
            Some(ParameterTypeByFirstOfName) => {
                parameters.next().is_some_and(|first| first.is_asset)
            }
            Some(LocalsHideParameters) if declares_local(entry, name) => false,
            _ => parameters.any(|parameter| parameter.is_asset),
        }
    }

    /// True of `p.amount`, p any parameter of the entry.
    pub fn is_parameter_amount(&self, entry: &Entry<'_>, field: &Field<'_>) -> bool {
        let Some((base, b"amount")) = field.member() else {
            return false;
        };
        entry
            .parameters
            .iter()
            .any(|parameter| base.is_named(parameter.name))
    }
}

/// True if a let statement of the entry has the name.
fn declares_local(entry: &Entry<'_>, name: &[u8]) -> bool {
    let mut locals = entry.body.iter().filter(|statement| statement.tag == LET);
    locals.any(|local| local.text_part(NAME) == name)
}

/// The base and the second argument of a member call credit, set or insert.
pub fn credit<'e>(
    call: &Call<'e>,
    callee: &'e Field<'e>,
) -> Option<(&'e Field<'e>, &'e Field<'e>)> {
    let (base, name) = callee.member()?;
    let is_credit = matches!(name, b"credit" | b"set" | b"insert");
    is_credit.then_some((base, call.arguments.get(1)?))
}
