// SPDX-License-Identifier: Apache-2.0 OR MIT
//! The proved functions beside the original's, on generated files: questions 1
//! to 8 beside the decoder; equality and bounds of every pair of expressions of
//! an entry's body, the token that each entry admits, the one that funds each
//! map, and the state field that covers each payout by itself, beside the
//! original's functions of the same name. In a file that a question refuses the
//! last is refused as the verdict is.

use model_file::decode;
use oracle::Model;
use quanta_ast::{EntryDecl, Expr};
use std::collections::BTreeSet;
use std::process::ExitCode;
use zevdrak::{
    check_file,
    compare::{
        bounded_by_backing, expr_eq, is_admitted_inflow_token, is_ledger_funding_token,
        is_reserve_token, reserve_bounding_payout,
    },
    verdict, Refusal, Verdict, COVERS,
};

/// How many expressions of an entry are paired, if nothing else is said: a few
/// files have thousands, and pairs take most of the time.
const PAIRED: usize = 100;

/// What an entry past the last is refused with.
const NO_ENTRY: Refusal = Refusal {
    number: 9,
    place: 0,
};

/// What was compared.
#[derive(Default)]
struct Counts {
    files: u64,
    refused: u64,
    pairs: u64,
    equal: u64,
    bounded: u64,
    admitting: u64,
    maps: u64,
    funded: u64,
    fields: u64,
    holding: u64,
    covered: u64,
    uncovered: u64,
}

fn main() -> ExitCode {
    let mut arguments = std::env::args().skip(1).map(|word| word.parse::<u64>());
    let Some(Ok(count)) = arguments.next() else {
        eprintln!("usage: compare-library N [FIRST-SEED [EXPRESSIONS-PAIRED]]");
        return ExitCode::from(2);
    };
    let mut or = |default| {
        arguments
            .next()
            .map_or(default, |word| word.unwrap_or(default))
    };
    let (first, paired) = (or(0), or(PAIRED as u64) as usize);
    let mut counts = Counts::default();
    for seed in first..first + count {
        if let Err(difference) = compare(&generator::file(seed), paired, &mut counts) {
            println!("seed {seed}: {difference}");
            return ExitCode::FAILURE;
        }
    }
    println!(
        "no difference on {} files: {} refused; {} pairs of expressions, {} equal, {} bounded; {} entries that admit a token; {} maps, {} with one funding token; {} state fields, {} that hold one; {} payouts with a reserve, {} without",
        counts.files,
        counts.refused,
        counts.pairs,
        counts.equal,
        counts.bounded,
        counts.admitting,
        counts.maps,
        counts.funded,
        counts.fields,
        counts.holding,
        counts.covered,
        counts.uncovered
    );
    ExitCode::SUCCESS
}

/// One file, or what differs.
fn compare(file: &[u8], paired: usize, counts: &mut Counts) -> Result<(), String> {
    counts.files += 1;
    let ours = check_file(file);
    let theirs = decode(file).map_err(|refusal| Refusal {
        number: refusal.number,
        place: refusal.place,
    });
    let expected = theirs.as_ref().map(|_| ()).map_err(|refusal| *refusal);
    if ours != expected {
        return Err(format!("questions: {ours:?}, expected {expected:?}"));
    }
    let contract = match theirs {
        Ok(contract) => contract,
        Err(refusal) => {
            counts.refused += 1;
            return compare_refused(file, 0, refusal);
        }
    };
    let model = Model::build(&contract);
    let mut maps = BTreeSet::new();
    for (number, entry) in model.entries.iter().enumerate() {
        let mut expressions = Vec::new();
        oracle::visit(entry, &mut |expression| {
            expressions.push(expression.clone())
        });
        maps.extend(expressions.iter().filter_map(map));
        compare_admitted(file, entry, counts)?;
        compare_reserves(file, &model, number, counts)?;
        expressions.truncate(paired);
        compare_pairs(file, &expressions, counts)?;
    }
    compare_refused(file, model.entries.len(), NO_ENTRY)?;
    maps.iter()
        .try_for_each(|map| compare_funding(file, &model, map, counts))?;
    model
        .state
        .keys()
        .try_for_each(|field| compare_held(file, &model, field, counts))
}

/// What refuses an entry of a file: the reserves of its payouts as its verdict.
fn compare_refused(file: &[u8], entry: usize, refusal: Refusal) -> Result<(), String> {
    let told = verdict(file, entry, &mut [0; COVERS]);
    if told != Verdict::Refused(refusal) {
        return Err(format!("verdict: {told:?}, expected {refusal:?}"));
    }
    for payout in 0..2 {
        let reserve = reserve_bounding_payout(file, entry, payout);
        if reserve != Err(refusal) {
            return Err(format!("reserve: {reserve:?}, expected {refusal:?}"));
        }
    }
    Ok(())
}

/// The token that a state field holds.
fn compare_held(
    file: &[u8],
    model: &Model,
    field: &str,
    counts: &mut Counts,
) -> Result<(), String> {
    let token = oracle::held_token(model, field);
    counts.fields += 1;
    counts.holding += u64::from(token.is_some());
    let expected = token.as_deref().unwrap_or_default();
    match is_reserve_token(file, field.as_bytes(), expected.as_bytes()) {
        true => Ok(()),
        false => Err(format!("held token: {token:?} expected of {field}")),
    }
}

/// The state field that covers each payout of an entry, and none behind them.
fn compare_reserves(
    file: &[u8],
    model: &Model,
    entry: usize,
    counts: &mut Counts,
) -> Result<(), String> {
    let reserves = oracle::payout_reserves(model, model.entries[entry]);
    let covered = reserves.iter().flatten().count() as u64;
    counts.covered += covered;
    counts.uncovered += reserves.len() as u64 - covered;
    for (payout, expected) in reserves.into_iter().chain([None]).enumerate() {
        let ours = reserve_bounding_payout(file, entry, payout);
        if ours != Ok(expected) {
            return Err(format!(
                "reserve: {ours:?}, expected {expected:?} of payout {payout} of entry {entry}"
            ));
        }
    }
    Ok(())
}

/// The name on which a member is called.
fn map(expression: &Expr) -> Option<String> {
    let Expr::Call { callee, .. } = expression else {
        return None;
    };
    let Expr::Field { base, .. } = callee.as_ref() else {
        return None;
    };
    match base.as_ref() {
        Expr::Ident(name) => Some(name.text.clone()),
        _ => None,
    }
}

/// The token that an entry admits.
fn compare_admitted(file: &[u8], entry: &EntryDecl, counts: &mut Counts) -> Result<(), String> {
    let token = oracle::admitted_token(entry);
    counts.admitting += u64::from(token.is_some());
    let expected = token.as_deref().unwrap_or_default();
    match is_admitted_inflow_token(&file[entry.span.start..], expected.as_bytes()) {
        true => Ok(()),
        false => Err(format!(
            "admitted token: {token:?} expected of {}",
            entry.name.text
        )),
    }
}

/// The one token that funds a map.
fn compare_funding(
    file: &[u8],
    model: &Model,
    map: &str,
    counts: &mut Counts,
) -> Result<(), String> {
    let tokens = oracle::funding_tokens(model, map);
    let single = (tokens.len() == 1).then(|| tokens.iter().next()).flatten();
    counts.maps += 1;
    counts.funded += u64::from(single.is_some());
    let expected = single.map_or("", String::as_str);
    match is_ledger_funding_token(file, map.as_bytes(), expected.as_bytes()) {
        true => Ok(()),
        false => Err(format!("funding token: {single:?} expected of {map}")),
    }
}

/// Every pair of expressions, in both orders, each with itself too.
fn compare_pairs(file: &[u8], expressions: &[Expr], counts: &mut Counts) -> Result<(), String> {
    for a in expressions {
        for b in expressions {
            counts.pairs += 1;
            let equal = oracle::equal(a, b);
            counts.equal += u64::from(equal);
            if expr_eq(part(file, a), part(file, b)) != equal {
                return Err(format!("equality: {equal} expected of {a:?} and {b:?}"));
            }
            for wrapping in [false, true] {
                let bounded = oracle::bounds(a, b.peel(), wrapping);
                counts.bounded += u64::from(bounded);
                if bounded_by_backing(part(file, a), part(file, b.peel()), wrapping) != bounded {
                    return Err(format!(
                        "bounds, wrapping {wrapping}: {bounded} expected of {a:?} and {b:?}"
                    ));
                }
            }
        }
    }
    Ok(())
}

/// The part of the file that starts with the expression.
fn part<'a>(file: &'a [u8], expression: &Expr) -> &'a [u8] {
    &file[expression.span().start..]
}
