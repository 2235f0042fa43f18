// SPDX-License-Identifier: Apache-2.0 OR MIT
//! Short constructors of a model file's fields.

use model_file::{tag, Field};

pub fn integer(text: &str) -> Field {
    Field::bytes(tag::INTEGER, text)
}

pub fn date(text: &str) -> Field {
    Field::bytes(tag::DATE, text)
}

pub fn string(text: &str) -> Field {
    Field::bytes(tag::STRING, text)
}

pub fn identifier(text: &str) -> Field {
    Field::bytes(tag::IDENTIFIER, text)
}

pub fn caller() -> Field {
    Field::bytes(tag::CALLER, [])
}

pub fn native() -> Field {
    Field::bytes(tag::NATIVE, [])
}

pub fn in_asset() -> Field {
    Field::bytes(tag::IN_ASSET, [])
}

pub fn now() -> Field {
    Field::bytes(tag::NOW, [])
}

pub fn not(inner: Field) -> Field {
    Field::parts(tag::NOT, vec![inner])
}

pub fn negate(inner: Field) -> Field {
    Field::parts(tag::NEGATE, vec![inner])
}

pub fn checked(inner: Field) -> Field {
    Field::parts(tag::CHECKED, vec![inner])
}

pub fn wrapping(inner: Field) -> Field {
    Field::parts(tag::WRAPPING, vec![inner])
}

pub fn member(base: Field, name: &str) -> Field {
    Field::parts(tag::MEMBER, vec![base, Field::bytes(tag::NAME, name)])
}

/// `p.amount`.
pub fn amount_of(parameter: &str) -> Field {
    member(identifier(parameter), "amount")
}

pub fn call(callee: Field, arguments: Vec<Field>) -> Field {
    let mut parts = vec![callee];
    parts.extend(arguments);
    Field::parts(tag::CALL, parts)
}

/// `base.name(arguments)`.
pub fn member_call(base: &str, name: &str, arguments: Vec<Field>) -> Field {
    call(member(identifier(base), name), arguments)
}

/// `map.debit(caller, amount)`.
pub fn debit(map: &str, amount: Field) -> Field {
    member_call(map, "debit", vec![caller(), amount])
}

/// `send_asset(token, caller, amount)`.
pub fn send(token: Field, amount: Field) -> Field {
    call(identifier("send_asset"), vec![token, caller(), amount])
}

pub const OR: u8 = tag::BINARY;
pub const AND: u8 = tag::BINARY + 1;
pub const EQUAL: u8 = tag::BINARY + 2;
pub const UNEQUAL: u8 = tag::BINARY + 3;
pub const LESS: u8 = tag::BINARY + 4;
pub const GREATER: u8 = tag::BINARY + 5;
pub const AT_MOST: u8 = tag::BINARY + 6;
pub const AT_LEAST: u8 = tag::BINARY + 7;
pub const PLUS: u8 = tag::BINARY + 8;
pub const MINUS: u8 = tag::BINARY + 9;
pub const TIMES: u8 = tag::BINARY + 10;
pub const DIVIDED: u8 = tag::BINARY + 11;
pub const REMAINDER: u8 = tag::BINARY + 12;
pub const SHIFTED: u8 = tag::BINARY + 13;

pub fn binary(operator: u8, left: Field, right: Field) -> Field {
    Field::parts(operator, vec![left, right])
}

pub fn guard(condition: Field) -> Field {
    Field::parts(tag::GUARD, vec![condition])
}

pub fn limits(condition: Field) -> Field {
    Field::parts(tag::LIMITS, vec![condition])
}

pub fn denies(condition: Field) -> Field {
    Field::parts(tag::DENIES, vec![condition])
}

pub fn local(name: &str, value: Field) -> Field {
    Field::parts(tag::LET, vec![Field::bytes(tag::NAME, name), value])
}

pub fn emit(name: &str, arguments: Vec<Field>) -> Field {
    let mut parts = vec![Field::bytes(tag::NAME, name)];
    parts.extend(arguments);
    Field::parts(tag::EMIT, parts)
}

/// An assignment; the tag is that of set, add or subtract.
pub fn assign(tag: u8, target: Field, value: Field) -> Field {
    Field::parts(tag, vec![target, value])
}

pub fn statement(expression: Field) -> Field {
    Field::parts(tag::EXPRESSION, vec![expression])
}

fn declared(tag: u8, name: &str, type_name: &str) -> Field {
    let name = Field::bytes(tag::NAME, name);
    Field::parts(tag, vec![name, Field::bytes(tag::TYPE_NAME, type_name)])
}

pub fn parameter(name: &str, type_name: &str) -> Field {
    declared(tag::PARAMETER, name, type_name)
}

pub fn asset(name: &str) -> Field {
    parameter(name, "Q_Asset")
}

pub fn plain(name: &str) -> Field {
    parameter(name, "u64")
}

pub fn state(name: &str, default: Option<Field>) -> Field {
    let mut field = declared(tag::STATE, name, "u64");
    field.inner_mut().expect("built of parts").extend(default);
    field
}

pub fn genesis(statement: Field) -> Field {
    Field::parts(tag::GENESIS, vec![statement])
}

/// An entry; `parts` are its parameters, clauses and statements.
pub fn entry(name: &str, parts: Vec<Field>) -> Field {
    let mut all = vec![Field::bytes(tag::NAME, name)];
    all.extend(parts);
    Field::parts(tag::ENTRY, all)
}

/// The bytes of a file that is known to be short enough for its lengths.
pub fn bytes(fields: &[Field]) -> Vec<u8> {
    model_file::write(fields).expect("the content is short")
}
