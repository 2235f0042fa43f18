// SPDX-License-Identifier: Apache-2.0 OR MIT
//! The answer for one entry of a model file.

use crate::model::{is_asset_param, Model};
use crate::signature;
use model_file::{decode, Refusal};
use quanta_ast::{Contract, EntryDecl, Expr, Item};

/// The most payouts that an entry may have (question 10).
const PAYOUT_LIMIT: usize = 64;
/// The most backings that an entry may have (question 11).
const BACKING_LIMIT: usize = 64;
/// The bytes of one cover (question 12).
const COVER_SIZE: usize = 3;

/// How a payout is covered; the values are the kinds' numbers.
#[derive(Clone, Copy, Debug, PartialEq, Eq, PartialOrd, Ord, Hash)]
pub enum Kind {
    EqualDebit = 1,
    EqualParameter = 2,
    BoundingDebit = 3,
    BoundingParameter = 4,
    Reserve = 5,
}

/// What covers a payout. The index counts from 0 among the caller debits, the
/// asset parameters or the state fields, as the kind says.
#[derive(Clone, Copy, Debug, PartialEq, Eq)]
pub struct Cover {
    pub kind: Kind,
    pub index: usize,
}

/// Why a payout is rejected; the values are the reasons' numbers.
#[derive(Clone, Copy, Debug, PartialEq, Eq, PartialOrd, Ord, Hash)]
pub enum Reason {
    SplitWithoutAmount = 1,
    TokenConflictAtEqual = 2,
    AmountTaken = 3,
    TokenConflictAtBounding = 4,
    NoReserve = 5,
    ReserveUsed = 6,
}

/// The first payout without a cover, counted from 0.
#[derive(Clone, Copy, Debug, PartialEq, Eq)]
pub struct Rejection {
    pub payout: usize,
    pub reason: Reason,
}

/// The answer for an entry.
#[derive(Clone, Debug, PartialEq, Eq)]
pub enum Answer {
    Refused(Refusal),
    Accepted { covers: Vec<Cover>, spare: usize },
    Rejected(Rejection),
}

pub(crate) fn reject<T>(payout: usize, reason: Reason) -> Result<T, Rejection> {
    Err(Rejection { payout, reason })
}

impl Cover {
    /// The cover by a backing of equal amount. Backings are numbered with the
    /// debits first.
    pub(crate) fn equal(number: usize, debits: usize) -> Cover {
        Cover::backing(number, debits, Kind::EqualDebit, Kind::EqualParameter)
    }

    /// The cover by a backing that bounds the amount.
    pub(crate) fn bounding(number: usize, debits: usize) -> Cover {
        Cover::backing(number, debits, Kind::BoundingDebit, Kind::BoundingParameter)
    }

    fn backing(number: usize, debits: usize, debit: Kind, parameter: Kind) -> Cover {
        match number.checked_sub(debits) {
            None => Cover {
                kind: debit,
                index: number,
            },
            Some(index) => Cover {
                kind: parameter,
                index,
            },
        }
    }

    /// The cover by the state field of this name.
    pub(crate) fn reserve(model: &Model, name: &str) -> Cover {
        let index = model
            .contract
            .items
            .iter()
            .filter_map(|item| match item {
                Item::State(block) => Some(&block.fields),
                _ => None,
            })
            .flatten()
            .position(|field| field.name.text == name)
            .expect("a reserve is a state field");
        let kind = Kind::Reserve;
        Cover { kind, index }
    }

    /// The cover as it is written: the kind and the index, most significant
    /// byte first.
    pub fn bytes(&self) -> [u8; COVER_SIZE] {
        let index = u16::try_from(self.index).expect("a model file has fewer fields");
        let [high, low] = index.to_be_bytes();
        [self.kind as u8, high, low]
    }
}

/// The answer for the entry of this number, with room for so many bytes of
/// covers.
pub fn answer(file: &[u8], entry: usize, covers_len: usize) -> Answer {
    match decode(file) {
        Err(refusal) => Answer::Refused(refusal),
        Ok(contract) => answer_in(&Model::build(&contract), entry, covers_len),
    }
}

/// The answers for all entries, with room for all covers, or the file's
/// refusal (questions 1 to 8).
pub fn answers(file: &[u8]) -> Result<Vec<Answer>, Refusal> {
    let contract: Contract = decode(file)?;
    let model = Model::build(&contract);
    let numbers = 0..model.entries.len();
    Ok(numbers.map(|n| answer_in(&model, n, usize::MAX)).collect())
}

fn answer_in(model: &Model, entry: usize, covers_len: usize) -> Answer {
    match limits(model, entry, covers_len) {
        Err(refusal) => Answer::Refused(refusal),
        Ok(within) => verdict(model, within.entry, within.payouts, within.backings),
    }
}

/// An entry that passed questions 9 to 12.
struct Within<'a> {
    entry: &'a EntryDecl,
    payouts: usize,
    backings: usize,
}

/// Questions 9 to 12, which the original does not ask.
fn limits<'a>(model: &Model<'a>, entry: usize, covers_len: usize) -> Result<Within<'a>, Refusal> {
    let refuse = |number, place| Err(Refusal { number, place });
    let Some(entry) = model.entries.get(entry) else {
        return refuse(9, 0);
    };
    let payouts = payout_places(entry);
    if let Some(place) = payouts.get(PAYOUT_LIMIT) {
        return refuse(10, *place);
    }
    let backings = backing_count(entry);
    if backings > BACKING_LIMIT {
        return refuse(11, entry.span.start);
    }
    let payouts = payouts.len();
    if covers_len / COVER_SIZE < payouts {
        return refuse(12, 0);
    }
    Ok(Within {
        entry,
        payouts,
        backings,
    })
}

/// The places of the payouts' calls, in walk order.
fn payout_places(entry: &EntryDecl) -> Vec<usize> {
    let mut places = Vec::new();
    signature::visit(entry, &mut |expr| {
        let Expr::Call { callee, args, span } = expr else {
            return;
        };
        let sends = matches!(callee.as_ref(), Expr::Ident(name) if name.text == "send_asset");
        if sends && args.len() > 2 {
            places.push(span.start);
        }
    });
    places
}

fn backing_count(entry: &EntryDecl) -> usize {
    let mut debits = 0;
    signature::visit(entry, &mut |expr| {
        let Expr::Call { callee, args, .. } = expr else {
            return;
        };
        let member = matches!(callee.as_ref(), Expr::Field { base, name, .. }
            if name.text == "debit" && matches!(base.as_ref(), Expr::Ident(_)));
        if member && matches!(args.as_slice(), [Expr::Caller { .. }, _, ..]) {
            debits += 1;
        }
    });
    debits + entry.params.iter().filter(|p| is_asset_param(p)).count()
}

/// What the original says, explained by its copy.
fn verdict(model: &Model, entry: &EntryDecl, payouts: usize, backings: usize) -> Answer {
    let explained = signature::explained(model, entry);
    let accepted = signature::accepts(model, entry);
    assert_eq!(
        accepted,
        explained.is_ok(),
        "the copy and the original agree"
    );
    match explained {
        Err(rejection) => Answer::Rejected(rejection),
        Ok(covers) => {
            assert_eq!(covers.len(), payouts, "each payout has a cover");
            let spare = backings.saturating_sub(payouts);
            Answer::Accepted { covers, spare }
        }
    }
}
