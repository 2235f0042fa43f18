// SPDX-License-Identifier: Apache-2.0 OR MIT
//! Tags of model fields, and the words and signs that stand for them.

pub const STATE: u8 = 0x01;
pub const GENESIS: u8 = 0x02;
pub const ENTRY: u8 = 0x03;
pub const PARAMETER: u8 = 0x04;
pub const LIMITS: u8 = 0x05;
pub const DENIES: u8 = 0x06;
pub const GUARD: u8 = 0x10;
pub const LET: u8 = 0x11;
pub const EMIT: u8 = 0x12;
pub const SET: u8 = 0x13;
pub const ADD: u8 = 0x14;
pub const SUBTRACT: u8 = 0x15;
pub const EXPRESSION: u8 = 0x16;
pub const NAME: u8 = 0x20;
pub const TYPE_NAME: u8 = 0x21;
pub const INTEGER: u8 = 0x30;
pub const DATE: u8 = 0x31;
pub const STRING: u8 = 0x32;
pub const IDENTIFIER: u8 = 0x33;
pub const CALLER: u8 = 0x34;
pub const NATIVE: u8 = 0x35;
pub const IN_ASSET: u8 = 0x36;
pub const NOW: u8 = 0x37;
pub const NOT: u8 = 0x38;
pub const NEGATE: u8 = 0x39;
pub const MEMBER: u8 = 0x3A;
pub const CALL: u8 = 0x3B;
pub const CHECKED: u8 = 0x3C;
pub const WRAPPING: u8 = 0x3D;

/// How tightly an operator holds its operands; a higher number is tighter.
pub type Strength = u8;

pub const LOOSEST: Strength = 1;
pub const NOT_STRENGTH: Strength = 3;
pub const NEGATE_STRENGTH: Strength = 9;
pub const TIGHTEST: Strength = 10;

/// The binary operators: tag, sign, strength.
const BINARY: [(u8, &str, Strength); 14] = [
    (0x40, "||", 1),
    (0x41, "&&", 2),
    (0x42, "==", 4),
    (0x43, "!=", 4),
    (0x44, "<", 5),
    (0x45, ">", 5),
    (0x46, "<=", 5),
    (0x47, ">=", 5),
    (0x48, "+", 7),
    (0x49, "-", 7),
    (0x4A, "*", 8),
    (0x4B, "/", 8),
    (0x4C, "%", 8),
    (0x4D, ">>", 6),
];

/// Words that stand for an expression without parts.
const EMPTY: [(u8, &str); 4] = [
    (CALLER, "caller"),
    (NATIVE, "native"),
    (IN_ASSET, "in_asset"),
    (NOW, "now"),
];

/// Words that take a quoted text in parentheses.
const QUOTED: [(u8, &str); 3] = [(INTEGER, "int"), (DATE, "date"), (IDENTIFIER, "ident")];

/// Words that take an expression in parentheses.
const WRAPPER: [(u8, &str); 2] = [(CHECKED, "checked"), (WRAPPING, "wrapping")];

/// Assignment signs of statements.
const ASSIGNMENT: [(u8, &str); 3] = [(SET, "="), (ADD, "+="), (SUBTRACT, "-=")];

/// Words that begin a line and take one expression.
const CONDITION: [(u8, &str); 3] = [(LIMITS, "limits"), (DENIES, "denies"), (GUARD, "guard")];

/// Words with a meaning of their own that stand in none of the tables above.
const OTHER_WORDS: [&str; 12] = [
    "not",
    "state",
    "genesis",
    "entry",
    "end",
    "parameter",
    "let",
    "emit",
    "expression",
    "field",
    "text",
    "bytes",
];

fn word_of(table: &[(u8, &'static str)], tag: u8) -> Option<&'static str> {
    table.iter().find(|row| row.0 == tag).map(|row| row.1)
}

fn tag_of(table: &[(u8, &str)], word: &str) -> Option<u8> {
    table.iter().find(|row| row.1 == word).map(|row| row.0)
}

pub fn binary_sign(tag: u8) -> Option<(&'static str, Strength)> {
    let row = BINARY.iter().find(|row| row.0 == tag)?;
    Some((row.1, row.2))
}

pub fn binary_tag(sign: &str) -> Option<(u8, Strength)> {
    let row = BINARY.iter().find(|row| row.1 == sign)?;
    Some((row.0, row.2))
}

pub fn empty_word(tag: u8) -> Option<&'static str> {
    word_of(&EMPTY, tag)
}

pub fn empty_tag(word: &str) -> Option<u8> {
    tag_of(&EMPTY, word)
}

pub fn quoted_word(tag: u8) -> Option<&'static str> {
    word_of(&QUOTED, tag)
}

pub fn quoted_tag(word: &str) -> Option<u8> {
    tag_of(&QUOTED, word)
}

pub fn wrapper_word(tag: u8) -> Option<&'static str> {
    word_of(&WRAPPER, tag)
}

pub fn wrapper_tag(word: &str) -> Option<u8> {
    tag_of(&WRAPPER, word)
}

pub fn assignment_sign(tag: u8) -> Option<&'static str> {
    word_of(&ASSIGNMENT, tag)
}

pub fn assignment_tag(sign: &str) -> Option<u8> {
    tag_of(&ASSIGNMENT, sign)
}

pub fn condition_word(tag: u8) -> Option<&'static str> {
    word_of(&CONDITION, tag)
}

pub fn condition_tag(word: &str) -> Option<u8> {
    tag_of(&CONDITION, word)
}

pub fn is_statement(tag: u8) -> bool {
    (GUARD..=EXPRESSION).contains(&tag)
}

pub fn is_text(tag: u8) -> bool {
    matches!(tag, NAME | TYPE_NAME | INTEGER..=IDENTIFIER)
}

pub fn is_expression(tag: u8) -> bool {
    (INTEGER..=WRAPPING).contains(&tag) || binary_sign(tag).is_some()
}

/// True of every tag whose content is a list of fields.
pub fn has_parts(tag: u8) -> bool {
    let outside_expressions = (STATE..=DENIES).contains(&tag) || is_statement(tag);
    outside_expressions || (is_expression(tag) && !is_text(tag) && empty_word(tag).is_none())
}

/// True of a word that can be written without quotes: a letter or `_`, then
/// letters, digits and `_`.
pub fn is_plain_word(text: &[u8]) -> bool {
    let letter = |byte: &u8| byte.is_ascii_alphabetic() || *byte == b'_';
    text.first().is_some_and(letter)
        && text
            .iter()
            .all(|byte| letter(byte) || byte.is_ascii_digit())
}

/// True of digits and `_` that begin with a digit.
pub fn is_plain_integer(text: &[u8]) -> bool {
    let digit = |byte: &u8| byte.is_ascii_digit();
    text.first().is_some_and(digit) && text.iter().all(|byte| digit(byte) || *byte == b'_')
}

/// True of a word that cannot stand for an identifier.
pub fn is_reserved(word: &str) -> bool {
    let tables: [&[(u8, &str)]; 4] = [&EMPTY, &QUOTED, &WRAPPER, &CONDITION];
    OTHER_WORDS.contains(&word) || tables.iter().any(|table| tag_of(table, word).is_some())
}
