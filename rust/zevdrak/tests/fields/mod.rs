// SPDX-License-Identifier: Apache-2.0 OR MIT
//! Fields of model files, for the tests.

pub const CALLER: [u8; 3] = [0x34, 0, 0];
pub const ENTRY: u8 = 0x03;
pub const IDENTIFIER: u8 = 0x33;
const STATE: u8 = 0x01;
const STATEMENT: u8 = 0x16;
const NAME: u8 = 0x20;
const TYPE_NAME: u8 = 0x21;
const NOT: u8 = 0x38;

/// A field: its tag, the two bytes of its length, its content.
pub fn field(tag: u8, content: &[u8]) -> Vec<u8> {
    let [high, low] = u16::try_from(content.len()).unwrap().to_be_bytes();
    [&[tag, high, low], content].concat()
}

/// An entry with this behind its name.
pub fn entry_of(parts: &[u8]) -> Vec<u8> {
    field(ENTRY, &[&field(NAME, b"f"), parts].concat())
}

/// An expression statement.
pub fn statement(expression: &[u8]) -> Vec<u8> {
    field(STATEMENT, expression)
}

/// An entry whose body is one expression statement.
pub fn entry(expression: &[u8]) -> Vec<u8> {
    entry_of(&statement(expression))
}

/// A state field of that name, without a default.
pub fn state(name: &[u8]) -> Vec<u8> {
    field(
        STATE,
        &[field(NAME, name), field(TYPE_NAME, b"u64")].concat(),
    )
}

/// An expression so many times inside fields with this tag.
pub fn nested(tag: u8, depth: usize) -> Vec<u8> {
    (0..depth).fold(CALLER.to_vec(), |inner, _| field(tag, &inner))
}

/// An expression so many times inside `not`.
pub fn nots(depth: usize) -> Vec<u8> {
    nested(NOT, depth)
}
