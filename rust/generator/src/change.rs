// SPDX-License-Identifier: Apache-2.0 OR MIT
//! Small changes of a file's fields that leave it a model file, most of the
//! time, and may turn its answer.

use crate::construct::{assign, binary, call, checked, denies, genesis, guard, identifier, limits};
use crate::construct::{negate, not, statement, wrapping};
use crate::expression::{any_assignment, any_name, any_operator, leaf, MEMBERS, TOKENS};
use crate::random::Random;
use model_file::{tag, Content, Field};

/// Changes one place of the file.
pub fn change(random: &mut Random, fields: &mut Vec<Field>) {
    match random.below(20) {
        0..=9 => change_expression(random, fields),
        10..=11 => change_text(random, fields),
        12..=13 => change_list(random, fields),
        14..=15 => change_statement(random, fields),
        16 => move_statement(random, fields),
        17 => change_parameter(random, fields),
        18 => merge_names(random, fields),
        _ => change_condition(random, fields),
    }
}

fn count(fields: &[Field], wanted: &impl Fn(&Field) -> bool) -> usize {
    let of_one = |f: &Field| usize::from(wanted(f)) + count(f.inner(), wanted);
    fields.iter().map(of_one).sum()
}

/// The field of this number, outer before inner, among the wanted ones.
fn nth<'a>(
    fields: &'a mut [Field],
    number: &mut usize,
    wanted: &impl Fn(&Field) -> bool,
) -> Option<&'a mut Field> {
    for field in fields {
        if wanted(field) {
            if *number == 0 {
                return Some(field);
            }
            *number -= 1;
        }
        if let Content::Parts(parts) = &mut field.content {
            if let Some(found) = nth(parts, number, wanted) {
                return Some(found);
            }
        }
    }
    None
}

/// A random field among the wanted ones.
pub fn any<'a>(
    random: &mut Random,
    fields: &'a mut [Field],
    wanted: impl Fn(&Field) -> bool,
) -> Option<&'a mut Field> {
    let mut number = random.below(count(fields, &wanted));
    nth(fields, &mut number, &wanted)
}

/// A random field of a random tag among those of the wanted fields, so that
/// rare tags are met as often as frequent ones.
pub fn any_by_tag<'a>(
    random: &mut Random,
    fields: &'a mut [Field],
    wanted: impl Fn(&Field) -> bool,
) -> Option<&'a mut Field> {
    let mut tags = Vec::new();
    collect_tags(fields, &wanted, &mut tags);
    tags.sort();
    tags.dedup();
    let tag = *tags.get(random.below(tags.len()))?;
    any(random, fields, |f| f.tag == tag && wanted(f))
}

fn collect_tags(fields: &[Field], wanted: &impl Fn(&Field) -> bool, tags: &mut Vec<u8>) {
    for field in fields {
        if wanted(field) {
            tags.push(field.tag);
        }
        collect_tags(field.inner(), wanted, tags);
    }
}

/// The expression after one change at any place in it.
pub fn altered(random: &mut Random, expression: Field) -> Field {
    let mut fields = [expression];
    match any_by_tag(random, &mut fields, is_expression) {
        Some(field) if tag::is_text(field.tag) && random.percent(50) => vary_text(random, field),
        Some(field) if random.percent(35) => change_parts(random, field),
        Some(field) if random.percent(40) => change_tag(random, field),
        _ => change_expression(random, &mut fields),
    }
    let [altered] = fields;
    altered
}

fn is_expression(field: &Field) -> bool {
    tag::is_expression(field.tag)
}

fn replace(field: &mut Field, with: impl FnOnce(Field) -> Field) {
    let taken = std::mem::replace(field, Field::bytes(0, []));
    *field = with(taken);
}

fn change_expression(random: &mut Random, fields: &mut [Field]) {
    let Some(copy) = any(random, fields, is_expression).cloned() else {
        return;
    };
    let Some(field) = any(random, fields, is_expression) else {
        return;
    };
    match random.below(18) {
        0..=1 => replace(field, checked),
        2..=4 => replace(field, wrapping),
        5..=6 => unwrap(random, field),
        7..=8 => change_parts(random, field),
        9..=10 => change_tag(random, field),
        11 => *field = copy,
        12 => *field = leaf(random),
        13 => replace(field, not),
        14 => replace(field, negate),
        15 => {
            let operator = any_operator(random);
            replace(field, |f| binary(operator, f, copy));
        }
        16 => {
            let operator = any_operator(random);
            let other = leaf(random);
            replace(field, |f| binary(operator, other, f));
        }
        _ => replace(field, |f| call(identifier("f"), vec![f])),
    }
}

/// Puts one of the expression's parts in its place.
fn unwrap(random: &mut Random, field: &mut Field) {
    let parts: Vec<&Field> = field.inner().iter().filter(|p| is_expression(p)).collect();
    if !parts.is_empty() {
        *field = random.pick(&parts).clone();
    }
}

/// Exchanges the parts of a binary, or adds or drops an argument of a call.
fn change_parts(random: &mut Random, field: &mut Field) {
    let tag = field.tag;
    let Some(parts) = field.inner_mut() else {
        return change_tag(random, field);
    };
    match tag {
        // An earlier change may have taken all parts away.
        tag::CALL if parts.is_empty() => parts.push(leaf(random)),
        tag::CALL => match random.below(3) {
            0 => parts.insert(1 + random.below(parts.len()), leaf(random)),
            1 => parts.push(leaf(random)),
            _ => drop(parts.remove(random.below(parts.len() - 1) + usize::from(parts.len() > 1))),
        },
        _ if tag >= tag::BINARY => parts.reverse(),
        _ => change_tag(random, field),
    }
}

/// Another tag of the same kind.
fn change_tag(random: &mut Random, field: &mut Field) {
    field.tag = match field.tag {
        tag::INTEGER..=tag::IDENTIFIER if !field.text().is_empty() => {
            tag::INTEGER + random.below(4) as u8
        }
        tag::CALLER..=tag::NOW => tag::CALLER + random.below(4) as u8,
        // Not and negate, checked and wrapping have neighbouring tags.
        tag::NOT | tag::NEGATE | tag::CHECKED | tag::WRAPPING if random.percent(60) => {
            field.tag ^ 1
        }
        tag::NOT | tag::NEGATE | tag::CHECKED | tag::WRAPPING => {
            random.pick(&[tag::NOT, tag::NEGATE, tag::CHECKED, tag::WRAPPING])
        }
        other if other >= tag::BINARY => any_operator(random),
        other => other,
    };
}

fn change_text(random: &mut Random, fields: &mut [Field]) {
    if let Some(field) = any(random, fields, |f| tag::is_text(f.tag)) {
        vary_text(random, field);
    }
}

/// Another name or number.
fn vary_text(random: &mut Random, field: &mut Field) {
    let Content::Bytes(text) = &mut field.content else {
        return;
    };
    match random.below(8) {
        0..=1 if field.tag == tag::INTEGER => text.insert(0, b'0'),
        0..=2 => *text = any_name(random).into(),
        3 => *text = random.pick(&MEMBERS).into(),
        4 => *text = random.pick(&TOKENS).into(),
        5 => text.insert(random.below(text.len() + 1), b'_'),
        6 => text.push(random.pick(b"a0_ ~")),
        _ => flip_case(random, text),
    }
}

fn flip_case(random: &mut Random, text: &mut [u8]) {
    let at = random.below(text.len());
    if let Some(byte) = text.get_mut(at).filter(|b| b.is_ascii_alphabetic()) {
        *byte ^= 0x20;
    }
}

/// The lists whose members may come and go: the file itself, entries, calls
/// and emits. The first part of an inner one stays.
fn free_list<'a>(random: &mut Random, fields: &'a mut Vec<Field>) -> (&'a mut Vec<Field>, usize) {
    let free =
        |f: &Field| matches!(f.tag, tag::ENTRY | tag::CALL | tag::EMIT) && !f.inner().is_empty();
    let number = random.below(count(fields, &free) + 2);
    if number < 2 {
        return (fields, 0);
    }
    let found = nth(fields, &mut (number - 2), &free).expect("counted before");
    (found.inner_mut().expect("free lists have parts"), 1)
}

/// Drops, doubles or exchanges members of a list.
fn change_list(random: &mut Random, fields: &mut Vec<Field>) {
    let (list, fixed) = free_list(random, fields);
    if list.len() <= fixed {
        return;
    }
    let at = fixed + random.below(list.len() - fixed);
    match random.below(3) {
        0 => drop(list.remove(at)),
        1 => list.insert(at, list[at].clone()),
        _ => {
            let same_kind = |tag: u8| (tag::is_statement(tag), tag::is_clause(tag), tag < 0x10);
            let kind = same_kind(list[at].tag);
            let alike: Vec<usize> = (fixed..list.len())
                .filter(|i| same_kind(list[*i].tag) == kind)
                .collect();
            list.swap(at, random.pick(&alike));
        }
    }
}

/// Makes another statement of a statement's expressions.
fn change_statement(random: &mut Random, fields: &mut [Field]) {
    let Some(field) = any(random, fields, |f| tag::is_statement(f.tag)) else {
        return;
    };
    let expressions: Vec<Field> = field
        .inner()
        .iter()
        .filter(|p| is_expression(p))
        .cloned()
        .collect();
    *field = match (&expressions[..], random.below(3)) {
        ([target, value], 0..=1) => assign(any_assignment(random), target.clone(), value.clone()),
        ([target, value], _) => guard(binary(any_operator(random), target.clone(), value.clone())),
        ([one], 0) => guard(one.clone()),
        ([one], 1) => statement(one.clone()),
        ([one], _) => assign(any_assignment(random), one.clone(), leaf(random)),
        _ => statement(leaf(random)),
    };
}

/// Takes or copies a statement to another entry, to a clause or to genesis.
fn move_statement(random: &mut Random, fields: &mut Vec<Field>) {
    let Some(from) = any(random, fields, |f| f.tag == tag::ENTRY) else {
        return;
    };
    let parts = from.inner_mut().expect("entries have parts");
    let statements: Vec<usize> = (0..parts.len())
        .filter(|i| tag::is_statement(parts[*i].tag))
        .collect();
    if statements.is_empty() {
        return;
    }
    let at = random.pick(&statements);
    let moved = match random.percent(60) {
        true => parts.remove(at),
        false => parts[at].clone(),
    };
    match random.below(4) {
        0 => insert_clause(random, parts, moved),
        1 => fields.insert(random.below(fields.len() + 1), genesis(moved)),
        _ => {
            let to = any(random, fields, |f| f.tag == tag::ENTRY).expect("there is one");
            to.inner_mut().expect("entries have parts").push(moved);
        }
    }
}

/// Makes a clause of a statement's last expression.
fn insert_clause(random: &mut Random, parts: &mut Vec<Field>, moved: Field) {
    let Some(expression) = moved.inner().last().filter(|p| is_expression(p)).cloned() else {
        return;
    };
    let clause = match random.percent(50) {
        true => limits(expression),
        false => denies(expression),
    };
    let at = parts.iter().position(|p| tag::is_statement(p.tag));
    parts.insert(at.unwrap_or(parts.len()), clause);
}

/// Another type, or another name, of a parameter.
fn change_parameter(random: &mut Random, fields: &mut [Field]) {
    let Some(field) = any(random, fields, |f| f.tag == tag::PARAMETER) else {
        return;
    };
    let Some([name, type_name]) = field.inner_mut().map(|p| &mut p[..]) else {
        return;
    };
    match random.below(3) {
        0 => *name = Field::bytes(tag::NAME, any_name(random)),
        _ => {
            let other = random.pick(&["Q_Asset", "u64", "q_asset", "Q_Assets", "Q_Asse"]);
            *type_name = Field::bytes(tag::TYPE_NAME, other);
        }
    }
}

/// Gives everything of one name another name, in the whole file.
fn merge_names(random: &mut Random, fields: &mut [Field]) {
    let named = |f: &Field| matches!(f.tag, tag::NAME | tag::IDENTIFIER);
    let Some(from) = any(random, fields, named).map(|f| f.text().to_vec()) else {
        return;
    };
    let Some(to) = any(random, fields, named).map(|f| f.text().to_vec()) else {
        return;
    };
    rename(fields, &from, &to);
}

fn rename(fields: &mut [Field], from: &[u8], to: &[u8]) {
    for field in fields {
        match &mut field.content {
            Content::Parts(parts) => rename(parts, from, to),
            Content::Bytes(text) if tag::is_text(field.tag) && text == from => *text = to.to_vec(),
            Content::Bytes(_) => {}
        }
    }
}

/// Makes a limit of a denial and the reverse, or a guard of either.
fn change_condition(random: &mut Random, fields: &mut [Field]) {
    let Some(field) = any(random, fields, |f| f.tag == tag::ENTRY) else {
        return;
    };
    let parts = field.inner_mut().expect("entries have parts");
    let clauses: Vec<usize> = (0..parts.len())
        .filter(|i| tag::is_clause(parts[*i].tag))
        .collect();
    if clauses.is_empty() {
        return;
    }
    let at = random.pick(&clauses);
    match random.percent(50) {
        true => parts[at].tag = tag::LIMITS + tag::DENIES - parts[at].tag,
        false => {
            let mut moved = parts.remove(at);
            moved.tag = tag::GUARD;
            parts.push(moved);
        }
    }
}
