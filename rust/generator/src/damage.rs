// SPDX-License-Identifier: Apache-2.0 OR MIT
//! Damaged files: those that the file's own questions refuse, and some that
//! just pass.

use crate::change::{any, any_by_tag};
use crate::construct::*;
use crate::expression::{leaf, RESERVES};
use crate::random::Random;
use model_file::{tag, Content, Field};

/// All tags, and some that stand for nothing.
const TAGS: [u8; 54] = [
    0x00, 0x01, 0x02, 0x03, 0x04, 0x05, 0x06, 0x07, 0x0F, 0x10, 0x11, 0x12, 0x13, 0x14, 0x15, 0x16,
    0x17, 0x1F, 0x20, 0x21, 0x22, 0x2F, 0x30, 0x31, 0x32, 0x33, 0x34, 0x35, 0x36, 0x37, 0x38, 0x39,
    0x3A, 0x3B, 0x3C, 0x3D, 0x3E, 0x3F, 0x40, 0x41, 0x42, 0x43, 0x44, 0x45, 0x46, 0x47, 0x48, 0x49,
    0x4A, 0x4B, 0x4C, 0x4D, 0x4E, 0xFF,
];

/// The bytes of the file after one or two damages.
pub fn damaged(random: &mut Random, mut fields: Vec<Field>) -> Vec<u8> {
    fields.insert(
        random.below(fields.len() + 1),
        state("x", Some(integer("0"))),
    );
    fields.insert(random.below(fields.len() + 1), genesis(statement(now())));
    fields.insert(random.below(fields.len() + 1), every_kind());
    let damages = random.pick(&[1, 1, 1, 2]);
    if random.percent(65) {
        for _ in 0..damages {
            damage_fields(random, &mut fields);
        }
        return bytes(&fields);
    }
    let mut file = bytes(&fields);
    for _ in 0..damages {
        damage_bytes(random, &mut file);
    }
    file
}

/// An entry with every kind of part and statement.
fn every_kind() -> Field {
    let parts = vec![
        plain("n"),
        limits(now()),
        denies(string("")),
        guard(integer("1")),
        local("x", caller()),
        emit("E", vec![native()]),
        assign(tag::SET, identifier("x"), date("")),
    ];
    entry("h", parts)
}

/// A few bytes of any value, mostly tags and short lengths.
pub fn noise(random: &mut Random) -> Vec<u8> {
    let length = random.below(24);
    let byte = |random: &mut Random| match random.below(4) {
        0 => random.bits() as u8,
        1 => random.pick(&TAGS),
        2 => random.below(8) as u8,
        _ => 0,
    };
    (0..length).map(|_| byte(random)).collect()
}

fn damage_fields(random: &mut Random, fields: &mut Vec<Field>) {
    match random.below(18) {
        0..=1 => drop_part(random, fields),
        2..=3 => add_part(random, fields),
        4..=5 => repeat_part(random, fields),
        6 => exchange_parts(random, fields),
        7..=8 => exchange_kinds(random, fields),
        9 => change_tag(random, fields),
        10 => bad_byte(random, fields),
        11..=12 => empty_text(random, fields),
        13 => fill_empty(random, fields),
        14 => flatten(random, fields),
        _ => repeat_state(random, fields),
    }
}

fn has_parts(field: &Field) -> bool {
    !field.inner().is_empty()
}

/// A random list of parts, not empty.
fn any_parts<'a>(random: &mut Random, fields: &'a mut [Field]) -> Option<&'a mut Vec<Field>> {
    any_by_tag(random, fields, has_parts)?.inner_mut()
}

fn drop_part(random: &mut Random, fields: &mut [Field]) {
    if let Some(parts) = any_parts(random, fields) {
        let at = random.below(parts.len());
        match random.percent(30) {
            true => parts.truncate(at),
            false => drop(parts.remove(at)),
        }
    }
}

/// Adds a field of any tag, or a copy of another field, at any position.
fn add_part(random: &mut Random, fields: &mut Vec<Field>) {
    let added = match random.below(4) {
        0 => leaf(random),
        1 => Field::bytes(random.pick(&TAGS), []),
        2 => Field::bytes(random.pick(&TAGS), "x"),
        _ => match any(random, fields, |_| true) {
            Some(field) => field.clone(),
            None => leaf(random),
        },
    };
    let at_end = random.percent(50);
    let parts = match random.percent(12) {
        true => fields,
        false => match any_parts(random, fields) {
            Some(parts) => parts,
            None => return,
        },
    };
    let at = match at_end {
        true => parts.len(),
        false => random.below(parts.len() + 1),
    };
    parts.insert(at, added);
}

/// Doubles the last part, or any other.
fn repeat_part(random: &mut Random, fields: &mut [Field]) {
    if let Some(parts) = any_parts(random, fields) {
        let at = match random.percent(60) {
            true => parts.len() - 1,
            false => random.below(parts.len()),
        };
        parts.insert(at, parts[at].clone());
    }
}

/// Exchanges neighbours of different kinds in an entry: a parameter and a
/// clause, say, or a clause and a statement.
fn exchange_kinds(random: &mut Random, fields: &mut [Field]) {
    let entry = any(random, fields, |f| f.tag == tag::ENTRY);
    let Some(parts) = entry.and_then(Field::inner_mut) else {
        return;
    };
    let kind = |tag| (tag::is_clause(tag), tag::is_statement(tag));
    let borders: Vec<usize> = (1..parts.len())
        .filter(|i| kind(parts[i - 1].tag) != kind(parts[*i].tag))
        .collect();
    if !borders.is_empty() {
        let at = random.pick(&borders);
        parts.swap(at - 1, at);
    }
}

fn exchange_parts(random: &mut Random, fields: &mut [Field]) {
    if let Some(parts) = any_parts(random, fields) {
        let (one, other) = (random.below(parts.len()), random.below(parts.len()));
        parts.swap(one, other);
    }
}

fn change_tag(random: &mut Random, fields: &mut [Field]) {
    if let Some(field) = any(random, fields, |_| true) {
        field.tag = random.pick(&TAGS);
    }
}

/// A byte at the border of what a text may hold, or beyond.
fn bad_byte(random: &mut Random, fields: &mut [Field]) {
    if let Some(field) = any_by_tag(random, fields, |f| tag::is_text(f.tag)) {
        if let Content::Bytes(text) = &mut field.content {
            let byte = random.pick(&[0x1F, 0x20, 0x7E, 0x7F, 0x00, 0x80, 0xFF]);
            text.insert(random.below(text.len() + 1), byte);
        }
    }
}

fn empty_text(random: &mut Random, fields: &mut [Field]) {
    if let Some(field) = any_by_tag(random, fields, |f| tag::is_text(f.tag)) {
        field.content = Content::Bytes(Vec::new());
    }
}

/// Puts a byte or a whole field into a field that must be empty.
fn fill_empty(random: &mut Random, fields: &mut [Field]) {
    if let Some(field) = any(random, fields, |f| tag::is_empty(f.tag)) {
        field.content = match random.percent(50) {
            true => Content::Bytes(vec![0x20]),
            false => Content::Parts(vec![leaf(random)]),
        };
    }
}

/// Puts the parts of a field in its place.
fn flatten(random: &mut Random, fields: &mut [Field]) {
    if let Some(parts) = any_parts(random, fields) {
        let at = random.below(parts.len());
        let inner = parts[at].inner().to_vec();
        parts.splice(at..=at, inner);
    }
}

/// Declares state names, mostly the same ones twice or more.
fn repeat_state(random: &mut Random, fields: &mut Vec<Field>) {
    for _ in 0..1 + random.below(4) {
        let name = match random.percent(85) {
            true => random.pick(&RESERVES),
            false => random.pick(&["rr", "R", "r_", "f", "m"]),
        };
        fields.insert(random.below(fields.len() + 1), state(name, None));
    }
}

fn damage_bytes(random: &mut Random, file: &mut Vec<u8>) {
    let at = random.below(file.len());
    match random.below(9) {
        0..=1 => file.truncate(at),
        2 => file.extend((0..1 + random.below(3)).map(|_| random.pick(&TAGS))),
        3 => file.insert(at, random.pick(&TAGS)),
        4..=6 => lengthen(random, file),
        _ if file.is_empty() => file.push(0),
        7 => file[at] ^= 1 << random.below(8),
        _ => drop(file.remove(at)),
    }
}

/// Changes the low byte of a field's length a little.
fn lengthen(random: &mut Random, file: &mut [u8]) {
    let mut heads = Vec::new();
    find_heads(file, 0..file.len(), &mut heads);
    if heads.is_empty() {
        return;
    }
    let low = random.pick(&heads) + 2;
    let step = random.pick(&[1, 2, 3, 0xFF, 0xFE, 0xFD]);
    file[low] = file[low].wrapping_add(step);
}

/// The offsets of all heads in this part of the file.
fn find_heads(file: &[u8], part: std::ops::Range<usize>, heads: &mut Vec<usize>) {
    let mut at = part.start;
    while at + 3 <= part.end {
        let length = usize::from(u16::from_be_bytes([file[at + 1], file[at + 2]]));
        let (start, end) = (at + 3, at + 3 + length);
        if end > part.end {
            return;
        }
        heads.push(at);
        if !tag::is_text(file[at]) {
            find_heads(file, start..end, heads);
        }
        at = end;
    }
}
