// SPDX-License-Identifier: Apache-2.0 OR MIT
//! The tags of a model file's fields.

use quanta_ast::BinOp;

pub const STATE: u8 = 0x01;
pub const GENESIS: u8 = 0x02;
pub const ENTRY: u8 = 0x03;
pub const PARAMETER: u8 = 0x04;
pub const LIMITS: u8 = 0x05;
pub const DENIES: u8 = 0x06;
pub const GUARD: u8 = 0x10;
pub const LET: u8 = 0x11;
pub const EMIT: u8 = 0x12;
pub const SET: u8 = 0x13;
pub const ADD: u8 = 0x14;
pub const SUBTRACT: u8 = 0x15;
pub const EXPRESSION: u8 = 0x16;
pub const NAME: u8 = 0x20;
pub const TYPE_NAME: u8 = 0x21;
pub const INTEGER: u8 = 0x30;
pub const DATE: u8 = 0x31;
pub const STRING: u8 = 0x32;
pub const IDENTIFIER: u8 = 0x33;
pub const CALLER: u8 = 0x34;
pub const NATIVE: u8 = 0x35;
pub const IN_ASSET: u8 = 0x36;
pub const NOW: u8 = 0x37;
pub const NOT: u8 = 0x38;
pub const NEGATE: u8 = 0x39;
pub const MEMBER: u8 = 0x3A;
pub const CALL: u8 = 0x3B;
pub const CHECKED: u8 = 0x3C;
pub const WRAPPING: u8 = 0x3D;
/// The first binary operator; the others follow in the order of [`OPERATORS`].
pub const BINARY: u8 = 0x40;

/// The binary operators in the order of their tags.
pub const OPERATORS: [BinOp; 14] = [
    BinOp::Or,
    BinOp::And,
    BinOp::Eq,
    BinOp::Ne,
    BinOp::Lt,
    BinOp::Gt,
    BinOp::Le,
    BinOp::Ge,
    BinOp::Add,
    BinOp::Sub,
    BinOp::Mul,
    BinOp::Div,
    BinOp::Rem,
    BinOp::Shr,
];

/// The tag of a binary operator.
pub fn of_operator(operator: BinOp) -> u8 {
    let position = OPERATORS.iter().position(|o| *o == operator);
    BINARY + position.expect("every operator is in the list") as u8
}

/// The binary operator that a tag stands for.
pub fn operator(tag: u8) -> Option<BinOp> {
    OPERATORS.get(tag.checked_sub(BINARY)? as usize).copied()
}

/// Does a field with this tag hold a text?
pub fn is_text(tag: u8) -> bool {
    matches!(tag, NAME | TYPE_NAME | INTEGER..=IDENTIFIER)
}

/// Is a field with this tag empty?
pub fn is_empty(tag: u8) -> bool {
    matches!(tag, CALLER..=NOW)
}

/// Is a field with this tag a clause of an entry?
pub fn is_clause(tag: u8) -> bool {
    matches!(tag, LIMITS | DENIES)
}

/// Is a field with this tag a statement?
pub fn is_statement(tag: u8) -> bool {
    matches!(tag, GUARD..=EXPRESSION)
}

/// Is a field with this tag an expression?
pub fn is_expression(tag: u8) -> bool {
    matches!(tag, INTEGER..=WRAPPING) || operator(tag).is_some()
}
