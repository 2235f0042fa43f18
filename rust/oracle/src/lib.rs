// SPDX-License-Identifier: Apache-2.0 OR MIT
//! The original payout matching of Quanta, asked through model files.
//!
//! `every_payout_consumes_its_own_backing` is compiled unchanged. It says only
//! yes or no, so a copy of it, derived by the build script, runs beside it and
//! tells the covers or the reason. The two must agree on every entry. Another
//! copy, which ends where it knows a payout's amount and token, asks the
//! original's `reserve_bounding_payout` about each.

mod answer;
mod error;
mod listing;

/// The original `model.rs`.
#[allow(dead_code)]
mod model {
    include!(env!("QUANTA_MODEL"));
}

/// The original `signature.rs`, with the copy that explains its answer. They
/// are one module because the functions of the original are private to it.
#[allow(dead_code)]
mod signature {
    include!(env!("QUANTA_SIGNATURE"));

    use crate::answer::{reject, Cover, Reason, Rejection};
    include!(concat!(env!("OUT_DIR"), "/explained.rs"));

    /// The original's answer.
    pub fn accepts(model: &Model, entry: &EntryDecl) -> bool {
        every_payout_consumes_its_own_backing(model, entry)
    }

    /// The original's equality of expressions.
    pub fn equal(a: &Expr, b: &Expr) -> bool {
        expr_eq(a, b)
    }

    /// The original's rule of what bounds an amount.
    pub fn bounds(amount: &Expr, backing: &Expr, wrapping: bool) -> bool {
        bounded_by_backing(amount, backing, wrapping)
    }

    /// The token that an entry admits, by the original.
    pub fn admitted_token(entry: &EntryDecl) -> Option<String> {
        admitted_inflow_token(entry)
    }

    /// The tokens that fund a map, by the original.
    pub fn funding_tokens(model: &Model, map: &str) -> HashSet<String> {
        ledger_funding_tokens(model, map)
    }

    /// The token that a state field holds, by the original.
    pub fn held_token(model: &Model, field: &str) -> Option<String> {
        reserve_token(model, field)
    }

    include!(concat!(env!("OUT_DIR"), "/reserves.rs"));

    /// The state field that covers each payout by itself, by the original: no
    /// backing is tried, and nothing is used. Its index among all of them.
    pub fn payout_reserves(model: &Model, entry: &EntryDecl) -> Vec<Option<usize>> {
        let index = |name: String| Cover::reserve(model, &name).index;
        let found = reserves_alone(model, entry).into_iter();
        found.map(|name| name.map(index)).collect()
    }

    /// Visits the expressions of an entry's body as the original does.
    pub fn visit(entry: &EntryDecl, visitor: &mut impl FnMut(&Expr)) {
        for statement in &entry.body {
            stmt_exprs(statement, visitor);
        }
    }
}

pub use answer::{answer, answers, Answer, Cover, Kind, Reason, Rejection};
pub use listing::{listing, listing_with_reasons};
pub use model::Model;
pub use signature::{
    accepts, admitted_token, bounds, equal, funding_tokens, held_token, payout_reserves, visit,
};
