// SPDX-License-Identifier: Apache-2.0 OR MIT
//! Files whose state fields' names are compared again and again, and names that
//! have one number.

use super::{largest, sample, short_state, Sample};
use generator::construct::entry;
use model_file::Field;

pub const SAMPLES: &[Sample] = &[
    sample("names of one number", || largest(names_of_one_number)),
    sample("short names of few places", || largest(names_of_few_places)),
];

/// The printable character of a number below 95.
fn character(number: usize) -> char {
    char::from(b' ' + number as u8)
}

/// All texts of so many characters, in order.
fn texts(length: u32) -> impl Iterator<Item = String> {
    (0..95usize.pow(length)).map(move |number| {
        let digits = (0..length).rev().map(|power| number / 95usize.pow(power));
        digits.map(|digit| character(digit % 95)).collect()
    })
}

/// State fields of these names, and an entry.
fn named(names: impl Iterator<Item = String>) -> Vec<Field> {
    let fields = names.map(|name| short_state(&name));
    fields.chain([entry("f", vec![])]).collect()
}

/// The first base in which the checker numbers names.
const BASE: u32 = 1_640_531_527;

/// A name's number. Its upper bits are its place and its note in the table of
/// question 7; the upper half is compared before other names are.
fn text_number(text: &str) -> u32 {
    let number = |number: u32, byte| number.wrapping_add(u32::from(byte)).wrapping_mul(BASE);
    text.bytes().fold(0, number)
}

/// Texts whose numbers have the same upper bits: a front of so many characters,
/// and two that are looked for by their number.
fn of_one_number(front: u32, lower_bits: u32) -> impl Iterator<Item = String> {
    let numbered = |text: String| (text_number(&text), text);
    let mut ends: Vec<(u32, String)> = texts(2).map(numbered).collect();
    ends.sort();
    texts(front).flat_map(move |front| {
        let shifted = text_number(&front).wrapping_mul(BASE).wrapping_mul(BASE);
        let least = 0x8000_0000_u32.wrapping_sub(shifted);
        let first = ends.partition_point(|(number, _)| *number < least);
        let fits = move |end: &&(u32, String)| end.0 - least < 1 << lower_bits;
        let fit = ends[first..].iter().take_while(fits);
        let ended: Vec<String> = fit.map(|(_, end)| format!("{front}{end}")).collect();
        ended
    })
}

/// State fields of which each one's name has the number of all before it, in the
/// first base.
fn names_of_one_number(count: usize) -> Vec<Field> {
    named(of_one_number(3, 11).take(count))
}

/// The same with shorter names, which share a few places: a place with two
/// different notes no longer tells which names it has.
fn names_of_few_places(count: usize) -> Vec<Field> {
    let shared = |name: &String| text_number(name) >> 18 < 64;
    named(texts(3).filter(shared).take(count))
}

/// At most 1,200 texts of four characters whose numbers have the same upper half.
pub fn of_one_short_number(count: usize) -> Vec<String> {
    of_one_number(2, 16).take(count).collect()
}
