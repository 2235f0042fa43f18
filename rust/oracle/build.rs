// SPDX-License-Identifier: Apache-2.0 OR MIT
//! Tells the compiler where the original `model.rs` and `signature.rs` stand,
//! and derives from the latter a copy of the payout matching that also gives
//! the covers, or the reason of a rejection, and one that gives each payout's
//! reserve.

#[path = "../quanta-ast/sources.rs"]
mod sources;

use std::path::Path;

const FUNCTION: &str = "every_payout_consumes_its_own_backing";

/// What the copy says in place of the original's text. Each text must stand in
/// the original function exactly once.
const CHANGES: [(&str, &str); 11] = [
    (
        "fn every_payout_consumes_its_own_backing(model: &Model, entry: &EntryDecl) -> bool {\n",
        "pub(crate) fn explained(model: &Model, entry: &EntryDecl) -> Result<Vec<Cover>, Rejection> {
    let mut covers: Vec<Cover> = Vec::new();\n",
    ),
    (
        "    let mut backing: Vec<Expr> = debits.iter().chain(inflows.iter()).cloned().collect();\n",
        "    let mut backing: Vec<Expr> = debits.iter().chain(inflows.iter()).cloned().collect();
    let mut numbers: Vec<usize> = (0..backing.len()).collect();\n",
    ),
    (
        "None => return false,\n",
        "None => return reject(covers.len(), Reason::SplitWithoutAmount),\n",
    ),
    (
        "
            if backing_token_mismatch(&backing_tokens[pos], token.as_deref()) {
                return false;
            }\n",
        "
            if backing_token_mismatch(&backing_tokens[pos], token.as_deref()) {
                return reject(covers.len(), Reason::TokenConflictAtEqual);
            }\n",
    ),
    (
        "
            consumed.push(backing.remove(pos));
            continue;\n",
        "
            consumed.push(backing.remove(pos));
            covers.push(Cover::equal(numbers.remove(pos), debits.len()));
            continue;\n",
    ),
    (
        "
        if consumed.iter().any(|c| expr_eq(c.peel(), amount)) {
            return false;
        }\n",
        "
        if consumed.iter().any(|c| expr_eq(c.peel(), amount)) {
            return reject(covers.len(), Reason::AmountTaken);
        }\n",
    ),
    (
        "
                if backing_token_mismatch(&backing_tokens[pos], token.as_deref()) {
                    return false;
                }\n",
        "
                if backing_token_mismatch(&backing_tokens[pos], token.as_deref()) {
                    return reject(covers.len(), Reason::TokenConflictAtBounding);
                }\n",
    ),
    (
        "
                consumed.push(backing.remove(pos));
            }\n",
        "
                consumed.push(backing.remove(pos));
                covers.push(Cover::bounding(numbers.remove(pos), debits.len()));
            }\n",
    ),
    (
        "reserves.push(reserve);\n",
        "covers.push(Cover::reserve(model, &reserve));
                    reserves.push(reserve);\n",
    ),
    (
        "_ => return false,\n",
        "Some(_) => return reject(covers.len(), Reason::ReserveUsed),
                None => return reject(covers.len(), Reason::NoReserve),\n",
    ),
    ("\n    true\n}\n", "\n    Ok(covers)\n}\n"),
];

/// What the other copy says in place of the original's text as far as `AMOUNT`,
/// where a payout's amount and token are known. `RESERVE` is what it says then.
const RESERVE_CHANGES: [(&str, &str); 2] = [
    (
        "fn every_payout_consumes_its_own_backing(model: &Model, entry: &EntryDecl) -> bool {\n",
        "#[allow(unused_mut, unused_variables)]
fn reserves_alone(model: &Model, entry: &EntryDecl) -> Vec<Option<String>> {
    let mut found = Vec::new();\n",
    ),
    (
        "None => return false,\n",
        "None => {
                        found.push(None);
                        continue;
                    }\n",
    ),
];
const AMOUNT: &str = "        let amount = raw_amount.peel();\n";
const RESERVE: &str =
    "        found.push(reserve_bounding_payout(model, entry, amount, &inflows, token.as_deref()));
    }
    found
}
";

fn main() {
    let model = sources::original("quanta-typeck/src/model.rs");
    let signature = sources::original("quanta-typeck/src/signature.rs");
    println!("cargo:rustc-env=QUANTA_MODEL={}", model.display());
    println!("cargo:rustc-env=QUANTA_SIGNATURE={}", signature.display());
    let text = std::fs::read_to_string(&signature).expect("the original source is readable");
    let folder = std::env::var_os("OUT_DIR").expect("cargo sets OUT_DIR");
    let write = |name, text| {
        std::fs::write(Path::new(&folder).join(name), text).expect("OUT_DIR is writable")
    };
    let original = function(&text);
    write("explained.rs", changed(original, &CHANGES));
    let reserves = changed(until_amount(original), &RESERVE_CHANGES) + RESERVE;
    write("reserves.rs", reserves);
}

/// The text of the original function, from its first line to its closing brace.
fn function(text: &str) -> &str {
    let start = text.find(&format!("\nfn {FUNCTION}("));
    let start = start.unwrap_or_else(|| stop("has no such function", FUNCTION)) + 1;
    let end = text[start..].find("\n}\n");
    let end = end.unwrap_or_else(|| stop("does not end", FUNCTION)) + "\n}\n".len();
    &text[start..start + end]
}

/// Its text as far as a payout's amount.
fn until_amount(original: &str) -> &str {
    if original.matches(AMOUNT).count() != 1 {
        stop("does not hold this text exactly once", AMOUNT);
    }
    let end = original.find(AMOUNT).unwrap_or_default() + AMOUNT.len();
    &original[..end]
}

fn changed(original: &str, changes: &[(&str, &str)]) -> String {
    changes
        .iter()
        .fold(original.to_string(), |text, (old, new)| {
            if original.matches(old).count() != 1 || text.matches(old).count() != 1 {
                stop("does not hold this text exactly once", old);
            }
            text.replace(old, new)
        })
}

fn stop(why: &str, what: &str) -> ! {
    eprintln!("signature.rs has changed: {FUNCTION} {why}: {what}");
    eprintln!("Bring the lists of changes in oracle/build.rs up to date with it.");
    std::process::exit(1);
}
