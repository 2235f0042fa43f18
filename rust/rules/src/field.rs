// SPDX-License-Identifier: Apache-2.0 OR MIT
//! Fields of a model file.

pub const STATE: u8 = 0x01;
pub const GENESIS: u8 = 0x02;
pub const ENTRY: u8 = 0x03;
pub const PARAMETER: u8 = 0x04;
pub const LIMITS: u8 = 0x05;
pub const DENIES: u8 = 0x06;
pub const GUARD: u8 = 0x10;
pub const LET: u8 = 0x11;
pub const EMIT: u8 = 0x12;
pub const SET: u8 = 0x13;
pub const ADD_TO: u8 = 0x14;
pub const SUBTRACT_FROM: u8 = 0x15;
pub const EXPRESSION: u8 = 0x16;
pub const NAME: u8 = 0x20;
pub const TYPE_NAME: u8 = 0x21;
pub const INTEGER: u8 = 0x30;
pub const DATE: u8 = 0x31;
pub const STRING: u8 = 0x32;
pub const IDENTIFIER: u8 = 0x33;
pub const CALLER: u8 = 0x34;
pub const NATIVE: u8 = 0x35;
pub const IN_ASSET: u8 = 0x36;
pub const NOW: u8 = 0x37;
pub const NOT: u8 = 0x38;
pub const NEGATE: u8 = 0x39;
pub const MEMBER: u8 = 0x3A;
pub const CALL: u8 = 0x3B;
pub const CHECKED: u8 = 0x3C;
pub const WRAPPING: u8 = 0x3D;
pub const OR: u8 = 0x40;
pub const AND: u8 = 0x41;
pub const EQ: u8 = 0x42;
pub const NE: u8 = 0x43;
pub const LT: u8 = 0x44;
pub const GT: u8 = 0x45;
pub const LE: u8 = 0x46;
pub const GE: u8 = 0x47;
pub const ADD: u8 = 0x48;
pub const SUB: u8 = 0x49;
pub const MUL: u8 = 0x4A;
pub const DIV: u8 = 0x4B;
pub const REM: u8 = 0x4C;
pub const SHR: u8 = 0x4D;

pub fn is_item(tag: u8) -> bool {
    matches!(tag, STATE | GENESIS | ENTRY)
}

pub fn is_clause(tag: u8) -> bool {
    matches!(tag, LIMITS | DENIES)
}

pub fn is_statement(tag: u8) -> bool {
    matches!(tag, GUARD..=EXPRESSION)
}

pub fn is_text(tag: u8) -> bool {
    matches!(tag, NAME | TYPE_NAME | INTEGER..=IDENTIFIER)
}

pub fn is_empty(tag: u8) -> bool {
    matches!(tag, CALLER..=NOW)
}

pub fn is_wrapper(tag: u8) -> bool {
    matches!(tag, CHECKED | WRAPPING)
}

pub fn is_binary(tag: u8) -> bool {
    matches!(tag, OR..=SHR)
}

pub fn is_expression(tag: u8) -> bool {
    matches!(tag, INTEGER..=WRAPPING) || is_binary(tag)
}

/// A field with its place in the file. A text has content and no parts.
#[derive(Debug, Clone)]
pub struct Field<'a> {
    pub place: usize,
    pub tag: u8,
    pub content: &'a [u8],
    pub parts: Vec<Field<'a>>,
}

impl<'a> Field<'a> {
    /// The expression `p.amount` of a parameter's name, which needs no place.
    pub fn amount_of(name: &'a [u8]) -> Field<'a> {
        let text = |tag, content| Field {
            place: 0,
            tag,
            content,
            parts: Vec::new(),
        };
        Field {
            place: 0,
            tag: MEMBER,
            content: &[],
            parts: vec![text(IDENTIFIER, name), text(NAME, b"amount")],
        }
    }

    /// The text of the first part with a given tag.
    pub fn text_part(&self, tag: u8) -> &'a [u8] {
        let part = self.parts.iter().find(|part| part.tag == tag);
        part.map_or(&[], |part| part.content)
    }

    pub fn expressions(&self) -> impl DoubleEndedIterator<Item = &Field<'a>> {
        self.parts.iter().filter(|part| is_expression(part.tag))
    }

    /// The first expression inside this field.
    pub fn inner(&self) -> Option<&Field<'a>> {
        self.expressions().next()
    }

    /// The text of an identifier.
    pub fn identifier(&self) -> Option<&'a [u8]> {
        (self.tag == IDENTIFIER).then_some(self.content)
    }

    pub fn is_named(&self, name: &[u8]) -> bool {
        self.identifier() == Some(name)
    }

    /// Base and name of a member.
    pub fn member(&self) -> Option<(&Field<'a>, &'a [u8])> {
        match (self.tag, &self.parts[..]) {
            (MEMBER, [base, name, ..]) => Some((base, name.content)),
            _ => None,
        }
    }

    /// Callee and arguments of a call.
    pub fn call(&self) -> Option<(&Field<'a>, &[Field<'a>])> {
        match (self.tag, &self.parts[..]) {
            (CALL, [callee, arguments @ ..]) => Some((callee, arguments)),
            _ => None,
        }
    }

    /// Left and right of a binary expression, target and value of an
    /// assignment.
    pub fn sides(&self) -> Option<(&Field<'a>, &Field<'a>)> {
        match &self.parts[..] {
            [left, right, ..] => Some((left, right)),
            _ => None,
        }
    }

    /// The sides of a field with the given tag.
    pub fn sides_of(&self, tag: u8) -> Option<(&Field<'a>, &Field<'a>)> {
        self.sides().filter(|_| self.tag == tag)
    }
}
