// SPDX-License-Identifier: Apache-2.0 OR MIT
//! The time of the proved equality beside the original's on a ready tree, for
//! long amounts that are equal or differ in their last leaf.

use oracle::Model;
use quanta_ast::Expr;
use std::hint::black_box;
use std::time::Instant;

const ROUNDS: u32 = 2_000;

/// A field: its tag, the two bytes of its length, its content.
fn field(tag: u8, content: &[u8]) -> Vec<u8> {
    let [high, low] = u16::try_from(content.len()).unwrap().to_be_bytes();
    [&[tag, high, low], content].concat()
}

/// The n-th leaf: an integer for one in so many, else an identifier.
fn leaf(number: usize, integers: usize) -> Vec<u8> {
    let integer = integers > 0 && number.is_multiple_of(integers);
    field(
        if integer { 0x30 } else { 0x33 },
        format!("1{number:05}").as_bytes(),
    )
}

/// A call with so many arguments, each a sum of so many leaves.
fn amount(arguments: usize, leaves: usize, integers: usize, last: &[u8]) -> Vec<u8> {
    let mut content = field(0x33, b"f");
    for argument in 0..arguments {
        let first = leaf(argument * leaves, integers);
        let sum = (1..leaves).fold(first, |sum, n| {
            field(0x48, &[sum, leaf(argument * leaves + n, integers)].concat())
        });
        content.extend(sum);
    }
    content.extend(field(0x33, last));
    field(0x3B, &content)
}

/// Nanoseconds a byte of an expression, here and in the original.
fn measure(name: &str, a: &[u8], b: &[u8]) {
    let body = [field(0x16, a), field(0x16, b)].concat();
    let file = field(0x03, &[field(0x20, b"f"), body].concat());
    let contract = model_file::decode(&file).expect("a model file");
    let mut outer: Vec<Expr> = Vec::new();
    oracle::visit(Model::build(&contract).entries[0], &mut |e| {
        outer.push(e.clone())
    });
    let (x, y) = (
        outer.remove(0),
        outer
            .into_iter()
            .rev()
            .find(|e| e.span().start == file.len() - b.len())
            .unwrap(),
    );
    assert_eq!(zevdrak::compare::expr_eq(a, b), oracle::equal(&x, &y));
    let nanoseconds = |work: &dyn Fn() -> bool| {
        let start = Instant::now();
        for _ in 0..ROUNDS {
            black_box(work());
        }
        start.elapsed().as_nanos() as f64 / f64::from(ROUNDS) / a.len() as f64
    };
    let here = nanoseconds(&|| zevdrak::compare::expr_eq(black_box(a), black_box(b)));
    let there = nanoseconds(&|| oracle::equal(black_box(&x), black_box(&y)));
    println!(
        "{name:32} {:6} bytes  {here:6.2}  {there:6.2}  {:5.2}",
        a.len(),
        here / there
    );
}

fn main() {
    println!("ns a byte                                       here    Rust  ratio");
    for (name, arguments, leaves, integers) in [
        ("flat, no integers", 400, 1, 0),
        ("nested, no integers", 20, 20, 0),
        ("flat, a third integers", 400, 1, 3),
        ("nested, a third integers", 20, 20, 3),
        ("flat, all integers", 400, 1, 1),
        ("nested, all integers", 20, 20, 1),
    ] {
        let equal = amount(arguments, leaves, integers, b"x");
        measure(name, &equal, &equal.clone());
        measure(
            "  the last leaf different",
            &equal,
            &amount(arguments, leaves, integers, b"y"),
        );
    }
    let text = field(0x32, &[b'n'; 4000]);
    measure("one string", &text, &text.clone());
}
