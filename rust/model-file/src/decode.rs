// SPDX-License-Identifier: Apache-2.0 OR MIT
//! From a model file to the contract, asking the file's questions on the way.

use crate::field::HEAD;
use crate::tag;
use quanta_ast::{
    AssignOp, BinOp, Clause, Contract, EntryDecl, Expr, FieldDecl, GenesisBlock, Ident, IntLit,
    Item, Param, StateBlock, Stmt, StrLit, Type, UnaryOp,
};
use quanta_lexer::Span;
use std::collections::HashSet;
use std::fmt::{Display, Formatter};

/// The most bytes that a model file may have (question 1).
pub const SIZE_LIMIT: usize = 32_768;
/// The greatest depth of an expression (question 4).
pub const DEPTH_LIMIT: usize = 32;
/// The most entries that a model file may have (question 8).
pub const ENTRY_LIMIT: usize = 64;

/// The number of the first question that was answered with "no", and the
/// offset of the tag byte of the field that it was asked of.
#[derive(Clone, Copy, Debug, PartialEq, Eq)]
pub struct Refusal {
    pub number: u8,
    pub place: usize,
}

impl Display for Refusal {
    fn fmt(&self, out: &mut Formatter) -> std::fmt::Result {
        let Refusal { number, place } = self;
        write!(out, "refusal {number} at byte {place}")
    }
}

impl std::error::Error for Refusal {}

/// The contract of a model file, or the file's refusal (questions 1 to 8).
///
/// Each top-level field becomes an item of its own, in file order. The span of
/// every node is that of its field, so `span.start` is the node's place.
pub fn decode(file: &[u8]) -> Result<Contract, Refusal> {
    if file.len() > SIZE_LIMIT {
        return refuse(1, 0);
    }
    let span = Span {
        start: 0,
        end: file.len(),
    };
    let mut top = Parts { file, span, at: 0 };
    let mut items = Vec::new();
    while let Some(head) = top.optional(|t| matches!(t, tag::STATE | tag::GENESIS | tag::ENTRY))? {
        items.push(item(file, head)?);
    }
    state_names_differ(&items)?;
    entries_fit(&items)?;
    let text = String::new();
    let name = Ident { text, span };
    Ok(Contract { name, items, span })
}

fn refuse<T>(number: u8, place: usize) -> Result<T, Refusal> {
    Err(Refusal { number, place })
}

/// Question 7.
fn state_names_differ(items: &[Item]) -> Result<(), Refusal> {
    let mut names = HashSet::new();
    for item in items {
        let Item::State(block) = item else { continue };
        if !block.fields.iter().all(|f| names.insert(&f.name.text)) {
            return refuse(7, block.span.start);
        }
    }
    Ok(())
}

/// Question 8.
fn entries_fit(items: &[Item]) -> Result<(), Refusal> {
    let mut entries = items.iter().filter_map(|item| match item {
        Item::Entry(entry) => Some(entry),
        _ => None,
    });
    match entries.nth(ENTRY_LIMIT) {
        Some(entry) => refuse(8, entry.span.start),
        None => Ok(()),
    }
}

/// A field that fits in what encloses it: its tag and where it stands.
#[derive(Clone, Copy)]
struct Head {
    tag: u8,
    span: Span,
}

/// The parts of a field (or of the file), read front to back.
struct Parts<'a> {
    file: &'a [u8],
    /// The field whose parts are read.
    span: Span,
    at: usize,
}

impl<'a> Parts<'a> {
    fn of(file: &'a [u8], head: Head) -> Parts<'a> {
        let span = head.span;
        let at = span.start + HEAD;
        Parts { file, span, at }
    }

    /// Question 2 of the next field, if anything is left.
    fn next(&mut self) -> Result<Option<Head>, Refusal> {
        let start = self.at;
        if start == self.span.end {
            return Ok(None);
        }
        let [tag, high, low, after @ ..] = &self.file[start..self.span.end] else {
            return refuse(2, start);
        };
        let length = usize::from(u16::from_be_bytes([*high, *low]));
        if length > after.len() {
            return refuse(2, start);
        }
        self.at = start + HEAD + length;
        let span = Span {
            start,
            end: self.at,
        };
        Ok(Some(Head { tag: *tag, span }))
    }

    /// Questions 2 and 3 of the next part, where only such tags may stand.
    fn optional(&mut self, may_stand: impl Fn(u8) -> bool) -> Result<Option<Head>, Refusal> {
        match self.next()? {
            Some(head) if !may_stand(head.tag) => refuse(3, head.span.start),
            next => Ok(next),
        }
    }

    /// As `optional`, and question 6 if the part is not there.
    fn needed(&mut self, may_stand: impl Fn(u8) -> bool) -> Result<Head, Refusal> {
        match self.optional(may_stand)? {
            Some(head) => Ok(head),
            None => refuse(6, self.span.start),
        }
    }

    /// After the last part: anything more is refused.
    fn end(&mut self) -> Result<(), Refusal> {
        self.optional(|_| false).map(|_| ())
    }

    fn text(&mut self, tag: u8) -> Result<Ident, Refusal> {
        let head = self.needed(|t| t == tag)?;
        let text = text(self.file, head)?;
        let span = head.span;
        Ok(Ident { text, span })
    }

    fn type_name(&mut self) -> Result<Type, Refusal> {
        let name = self.text(tag::TYPE_NAME)?;
        let span = name.span;
        let args = Vec::new();
        Ok(Type { name, args, span })
    }

    fn expression(&mut self, depth: usize) -> Result<Expr, Refusal> {
        let head = self.needed(tag::is_expression)?;
        expression(self.file, head, depth)
    }

    fn boxed(&mut self, depth: usize) -> Result<Box<Expr>, Refusal> {
        self.expression(depth).map(Box::new)
    }

    fn expressions(&mut self, depth: usize) -> Result<Vec<Expr>, Refusal> {
        let mut found = Vec::new();
        while let Some(head) = self.optional(tag::is_expression)? {
            found.push(expression(self.file, head, depth)?);
        }
        Ok(found)
    }
}

/// Question 5 of a text.
fn text(file: &[u8], head: Head) -> Result<String, Refusal> {
    let content = &file[head.span.start + HEAD..head.span.end];
    let needs_content = matches!(head.tag, tag::NAME | tag::TYPE_NAME | tag::IDENTIFIER);
    let printable = content.iter().all(|b| matches!(b, 0x20..=0x7E));
    if !printable || (needs_content && content.is_empty()) {
        return refuse(5, head.span.start);
    }
    Ok(content.iter().map(|b| char::from(*b)).collect())
}

fn item(file: &[u8], head: Head) -> Result<Item, Refusal> {
    let span = head.span;
    match head.tag {
        tag::STATE => {
            let fields = vec![state_field(file, head)?];
            Ok(Item::State(StateBlock { fields, span }))
        }
        tag::GENESIS => {
            let mut parts = Parts::of(file, head);
            let inner = parts.needed(tag::is_statement)?;
            let body = vec![statement(file, inner)?];
            parts.end()?;
            Ok(Item::Genesis(GenesisBlock { body, span }))
        }
        _ => Ok(Item::Entry(entry(file, head)?)),
    }
}

fn state_field(file: &[u8], head: Head) -> Result<FieldDecl, Refusal> {
    let mut parts = Parts::of(file, head);
    let name = parts.text(tag::NAME)?;
    let ty = parts.type_name()?;
    let default = match parts.optional(tag::is_expression)? {
        Some(inner) => Some(expression(file, inner, 1)?),
        None => None,
    };
    parts.end()?;
    Ok(FieldDecl {
        name,
        ty,
        default,
        meta: false,
        span: head.span,
    })
}

/// Parameters come first, then clauses, then statements: a part of an earlier
/// kind may not stand any more.
fn entry(file: &[u8], head: Head) -> Result<EntryDecl, Refusal> {
    let mut parts = Parts::of(file, head);
    let name = parts.text(tag::NAME)?;
    let (mut params, mut clauses, mut body) = (Vec::new(), Vec::new(), Vec::new());
    while let Some(part) = parts.optional(|t| {
        tag::is_statement(t)
            || (body.is_empty() && tag::is_clause(t))
            || (body.is_empty() && clauses.is_empty() && t == tag::PARAMETER)
    })? {
        match part.tag {
            tag::PARAMETER => params.push(parameter(file, part)?),
            tag::LIMITS | tag::DENIES => clauses.push(clause(file, part)?),
            _ => body.push(statement(file, part)?),
        }
    }
    Ok(EntryDecl {
        name,
        params,
        clauses,
        body,
        span: head.span,
    })
}

fn parameter(file: &[u8], head: Head) -> Result<Param, Refusal> {
    let mut parts = Parts::of(file, head);
    let name = parts.text(tag::NAME)?;
    let ty = parts.type_name()?;
    parts.end()?;
    Ok(Param {
        name,
        sealed: false,
        ty,
        signed_by: None,
        span: head.span,
    })
}

fn clause(file: &[u8], head: Head) -> Result<Clause, Refusal> {
    let mut parts = Parts::of(file, head);
    let span = head.span;
    let expr = parts.expression(1)?;
    parts.end()?;
    Ok(match head.tag {
        tag::LIMITS => Clause::Limits { expr, span },
        _ => Clause::Denies { expr, span },
    })
}

fn statement(file: &[u8], head: Head) -> Result<Stmt, Refusal> {
    let mut parts = Parts::of(file, head);
    let span = head.span;
    let read = match head.tag {
        tag::GUARD => Stmt::Guard {
            expr: parts.expression(1)?,
            span,
        },
        tag::LET => Stmt::Let {
            name: parts.text(tag::NAME)?,
            value: parts.expression(1)?,
            span,
        },
        tag::EMIT => Stmt::Emit {
            name: parts.text(tag::NAME)?,
            args: parts.expressions(1)?,
            span,
        },
        tag::EXPRESSION => Stmt::Expr {
            expr: parts.expression(1)?,
            span,
        },
        _ => Stmt::Assign {
            target: parts.expression(1)?,
            op: assignment(head.tag),
            value: parts.expression(1)?,
            span,
        },
    };
    parts.end()?;
    Ok(read)
}

fn assignment(tag: u8) -> AssignOp {
    match tag {
        tag::SET => AssignOp::Set,
        tag::ADD => AssignOp::Add,
        _ => AssignOp::Sub,
    }
}

/// Questions 4 and 5 of an expression, then its parts.
fn expression(file: &[u8], head: Head, depth: usize) -> Result<Expr, Refusal> {
    if depth > DEPTH_LIMIT {
        return refuse(4, head.span.start);
    }
    if tag::is_text(head.tag) {
        return text(file, head).map(|text| text_expression(head, text));
    }
    if tag::is_empty(head.tag) {
        return empty_expression(head);
    }
    let mut parts = Parts::of(file, head);
    let read = match tag::operator(head.tag) {
        Some(operator) => binary(&mut parts, operator, depth + 1)?,
        None => other_expression(&mut parts, head.tag, depth + 1)?,
    };
    parts.end()?;
    Ok(read)
}

fn text_expression(head: Head, text: String) -> Expr {
    let span = head.span;
    match head.tag {
        tag::INTEGER => Expr::Int(IntLit { text, span }),
        tag::DATE => Expr::Date { text, span },
        tag::STRING => Expr::Str(StrLit { value: text, span }),
        _ => Expr::Ident(Ident { text, span }),
    }
}

/// Question 5 of an empty field.
fn empty_expression(head: Head) -> Result<Expr, Refusal> {
    let span = head.span;
    if span.end > span.start + HEAD {
        return refuse(5, span.start);
    }
    Ok(match head.tag {
        tag::CALLER => Expr::Caller { span },
        tag::NATIVE => Expr::Native { span },
        tag::IN_ASSET => Expr::InAsset { span },
        _ => Expr::Now { span },
    })
}

fn binary(parts: &mut Parts, op: BinOp, depth: usize) -> Result<Expr, Refusal> {
    Ok(Expr::Binary {
        op,
        left: parts.boxed(depth)?,
        right: parts.boxed(depth)?,
        span: parts.span,
    })
}

fn other_expression(parts: &mut Parts, tag: u8, depth: usize) -> Result<Expr, Refusal> {
    let span = parts.span;
    Ok(match tag {
        tag::MEMBER => Expr::Field {
            base: parts.boxed(depth)?,
            name: parts.text(tag::NAME)?,
            span,
        },
        tag::CALL => Expr::Call {
            callee: parts.boxed(depth)?,
            args: parts.expressions(depth)?,
            span,
        },
        tag::CHECKED => Expr::Checked {
            expr: parts.boxed(depth)?,
            span,
        },
        tag::WRAPPING => Expr::Wrapping {
            expr: parts.boxed(depth)?,
            span,
        },
        _ => Expr::Unary {
            op: unary(tag),
            expr: parts.boxed(depth)?,
            span,
        },
    })
}

fn unary(tag: u8) -> UnaryOp {
    match tag {
        tag::NOT => UnaryOp::Not,
        _ => UnaryOp::Neg,
    }
}
