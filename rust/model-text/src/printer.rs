// SPDX-License-Identifier: Apache-2.0 OR MIT
//! From bytes to text. What has no form of its own is written raw.

use crate::tag::{self, Strength};

/// Deeper expressions are written raw, and deeper blocks as bytes.
const NESTING_LIMIT: usize = 64;

const BYTES_PER_LINE: usize = 16;

/// A whole field: its tag and its content.
#[derive(Clone, Copy)]
struct Field<'a> {
    tag: u8,
    content: &'a [u8],
}

/// The text that shows a byte string; `to_bytes` gives the bytes back.
pub fn to_text(bytes: &[u8]) -> String {
    let mut text = String::new();
    lines(bytes, 0, &mut text);
    text
}

/// Splits off the first field, if a whole one is there.
fn first_field(bytes: &[u8]) -> Option<(Field<'_>, &[u8])> {
    let [tag, high, low, rest @ ..] = bytes else {
        return None;
    };
    let length = usize::from(u16::from_be_bytes([*high, *low]));
    let content = rest.get(..length)?;
    Some((Field { tag: *tag, content }, &rest[length..]))
}

/// All fields of a content that holds nothing but whole fields.
fn parts(mut content: &[u8]) -> Option<Vec<Field<'_>>> {
    let mut parts = Vec::new();
    while !content.is_empty() {
        let (field, rest) = first_field(content)?;
        parts.push(field);
        content = rest;
    }
    Some(parts)
}

/// One line or block for each field, then what is left as bytes.
fn lines(mut bytes: &[u8], level: usize, text: &mut String) {
    while let Some((field, rest)) = first_field(bytes) {
        if level > NESTING_LIMIT {
            break;
        }
        if field.tag != tag::ENTRY || entry(field.content, level, text).is_none() {
            match short_line(field) {
                Some(line) => push_line(level, &line, text),
                None => raw_field(field, level, text),
            }
        }
        bytes = rest;
    }
    raw_bytes(bytes, level, text);
}

fn push_line(level: usize, line: &str, text: &mut String) {
    text.push_str(&"  ".repeat(level));
    text.push_str(line);
    text.push('\n');
}

/// An entry as a block; none if it has no name. Whatever else it holds is
/// shown line by line.
fn entry(content: &[u8], level: usize, text: &mut String) -> Option<()> {
    let (first, mut rest) = first_field(content)?;
    let entry_name = name(first, tag::NAME)?;
    let mut parameters = Vec::new();
    while let Some((parameter, after)) = first_parameter(rest) {
        parameters.push(parameter);
        rest = after;
    }
    let head = format!("entry {entry_name}({})", parameters.join(", "));
    push_line(level, &head, text);
    lines(rest, level + 1, text);
    push_line(level, "end", text);
    Some(())
}

fn first_parameter(bytes: &[u8]) -> Option<(String, &[u8])> {
    let (field, rest) = first_field(bytes)?;
    let parameter = typed_name(&parts(field.content)?)?;
    (field.tag == tag::PARAMETER).then_some((parameter, rest))
}

/// A field other than an entry on one line, if it is well formed.
fn short_line(field: Field<'_>) -> Option<String> {
    match field.tag {
        tag::STATE => state(&parts(field.content)?),
        tag::GENESIS => genesis(&parts(field.content)?),
        tag::PARAMETER => Some(format!("parameter {}", typed_name(&parts(field.content)?)?)),
        _ if tag::is_expression(field.tag) => Some(format!("expression {}", expression(field)?)),
        _ => clause_or_statement(field),
    }
}

fn state(parts: &[Field<'_>]) -> Option<String> {
    match parts {
        [name, type_name, default] => {
            let head = typed_name(&[*name, *type_name])?;
            Some(format!("state {head} = {}", expression(*default)?))
        }
        _ => Some(format!("state {}", typed_name(parts)?)),
    }
}

fn genesis(parts: &[Field<'_>]) -> Option<String> {
    match parts {
        [statement] if tag::is_statement(statement.tag) => {
            Some(format!("genesis {}", clause_or_statement(*statement)?))
        }
        _ => None,
    }
}

fn clause_or_statement(field: Field<'_>) -> Option<String> {
    if !tag::has_parts(field.tag) {
        return None;
    }
    let parts = parts(field.content)?;
    if let Some(word) = tag::condition_word(field.tag) {
        return Some(format!("{word} {}", only_expression(&parts)?));
    }
    if let Some(sign) = tag::assignment_sign(field.tag) {
        let [target, value] = parts[..] else {
            return None;
        };
        return Some(format!(
            "{} {sign} {}",
            expression(target)?,
            expression(value)?
        ));
    }
    match (field.tag, &parts[..]) {
        (tag::EXPRESSION, parts) => only_expression(parts),
        (tag::LET, [local, value]) => Some(format!(
            "let {} = {}",
            name(*local, tag::NAME)?,
            expression(*value)?
        )),
        (tag::EMIT, [event, arguments @ ..]) => Some(format!(
            "emit {}({})",
            name(*event, tag::NAME)?,
            list(arguments, 0)?
        )),
        _ => None,
    }
}

fn only_expression(parts: &[Field<'_>]) -> Option<String> {
    match parts {
        [only] => expression(*only),
        _ => None,
    }
}

fn typed_name(parts: &[Field<'_>]) -> Option<String> {
    let [first, second] = parts else {
        return None;
    };
    let type_name = name(*second, tag::TYPE_NAME)?;
    Some(format!("{}: {type_name}", name(*first, tag::NAME)?))
}

fn name(field: Field<'_>, tag: u8) -> Option<String> {
    if field.tag != tag {
        return None;
    }
    Some(match tag::is_plain_word(field.content) {
        true => plain(field.content),
        false => quoted(field.content),
    })
}

/// A text of plain letters as it is.
fn plain(text: &[u8]) -> String {
    text.iter().map(|&byte| char::from(byte)).collect()
}

fn quoted(text: &[u8]) -> String {
    let mut quoted = String::from("\"");
    for &byte in text {
        match byte {
            b'"' | b'\\' => quoted.extend(['\\', char::from(byte)]),
            0x20..=0x7E => quoted.push(char::from(byte)),
            _ => quoted.push_str(&format!("\\x{byte:02X}")),
        }
    }
    quoted.push('"');
    quoted
}

fn expression(field: Field<'_>) -> Option<String> {
    operand(field, tag::LOOSEST, 1)
}

fn list(fields: &[Field<'_>], level: usize) -> Option<String> {
    let texts = fields
        .iter()
        .map(|field| operand(*field, tag::LOOSEST, level + 1));
    Some(texts.collect::<Option<Vec<_>>>()?.join(", "))
}

/// An expression, in parentheses if it is weaker than its place demands.
fn operand(field: Field<'_>, weakest: Strength, level: usize) -> Option<String> {
    if level > NESTING_LIMIT || !tag::is_expression(field.tag) {
        return None;
    }
    let (text, strength) = match tag::has_parts(field.tag) {
        true => compound(field.tag, &parts(field.content)?, level)?,
        false => (simple(field)?, tag::TIGHTEST),
    };
    Some(match strength < weakest {
        true => format!("({text})"),
        false => text,
    })
}

fn simple(field: Field<'_>) -> Option<String> {
    let content = field.content;
    if let Some(word) = tag::empty_word(field.tag) {
        return content.is_empty().then(|| word.to_string());
    }
    let is_plain = match field.tag {
        tag::INTEGER => tag::is_plain_integer(content),
        tag::IDENTIFIER => tag::is_plain_word(content) && !tag::is_reserved(&plain(content)),
        _ => false,
    };
    Some(match tag::quoted_word(field.tag) {
        _ if is_plain => plain(content),
        Some(word) => format!("{word}({})", quoted(content)),
        None => quoted(content),
    })
}

/// The text of an expression with parts, and its strength.
fn compound(tag: u8, parts: &[Field<'_>], level: usize) -> Option<(String, Strength)> {
    let inner = |field: &Field<'_>, weakest| operand(*field, weakest, level + 1);
    if let (Some(word), [only]) = (tag::wrapper_word(tag), parts) {
        return Some((
            format!("{word}({})", inner(only, tag::LOOSEST)?),
            tag::TIGHTEST,
        ));
    }
    if let (Some((sign, strength)), [left, right]) = (tag::binary_sign(tag), parts) {
        let (left, right) = (inner(left, strength)?, inner(right, strength + 1)?);
        return Some((format!("{left} {sign} {right}"), strength));
    }
    Some(match (tag, parts) {
        (tag::NOT, [only]) => (
            format!("not {}", inner(only, tag::NOT_STRENGTH)?),
            tag::NOT_STRENGTH,
        ),
        (tag::NEGATE, [only]) => (
            format!("-{}", inner(only, tag::NEGATE_STRENGTH)?),
            tag::NEGATE_STRENGTH,
        ),
        (tag::MEMBER, [base, member]) => {
            let base = inner(base, tag::TIGHTEST)?;
            (
                format!("{base}.{}", name(*member, tag::NAME)?),
                tag::TIGHTEST,
            )
        }
        (tag::CALL, [callee, arguments @ ..]) => {
            let callee = inner(callee, tag::TIGHTEST)?;
            (
                format!("{callee}({})", list(arguments, level)?),
                tag::TIGHTEST,
            )
        }
        _ => return None,
    })
}

fn raw_field(field: Field<'_>, level: usize, text: &mut String) {
    if tag::is_text(field.tag) {
        let line = format!("text {:02X} {}", field.tag, quoted(field.content));
        return push_line(level, &line, text);
    }
    push_line(level, &format!("field {:02X} {{", field.tag), text);
    match tag::has_parts(field.tag) {
        true => lines(field.content, level + 1, text),
        false => raw_bytes(field.content, level + 1, text),
    }
    push_line(level, "}", text);
}

fn raw_bytes(bytes: &[u8], level: usize, text: &mut String) {
    for chunk in bytes.chunks(BYTES_PER_LINE) {
        let line: String = chunk.iter().map(|byte| format!(" {byte:02X}")).collect();
        push_line(level, &format!("bytes{line}"), text);
    }
}
