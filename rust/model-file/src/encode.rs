// SPDX-License-Identifier: Apache-2.0 OR MIT
//! From a contract to its model file.

use crate::field::{write, EncodeError, Field};
use crate::tag;
use quanta_ast::{
    AssignOp, Clause, Contract, EntryDecl, Expr, FieldDecl, Ident, Item, Param, Stmt, Type, UnaryOp,
};

/// The model file of a contract: its state fields, genesis statements and
/// entries, in the contract's order.
///
/// What no rule of the payout check reads has no place in a model file and is
/// left out: assets, events, invariants, clauses other than limits and denies,
/// type arguments, and the marks of parameters and state fields. What the
/// checker refuses (a text with other bytes than 20 to 7E, say) is written all
/// the same, and the checker's refusal tells where it stands. The only error
/// is content that is longer than a field can say.
pub fn encode(contract: &Contract) -> Result<Vec<u8>, EncodeError> {
    let fields: Vec<Field> = contract.items.iter().flat_map(item).collect();
    write(&fields)
}

fn item(item: &Item) -> Vec<Field> {
    match item {
        Item::State(block) => block.fields.iter().map(state_field).collect(),
        Item::Genesis(block) => {
            let genesis = |s| Field::parts(tag::GENESIS, vec![statement(s)]);
            block.body.iter().map(genesis).collect()
        }
        Item::Entry(declared) => vec![entry(declared)],
        Item::Asset(_) | Item::Invariant(_) | Item::Event(_) => Vec::new(),
    }
}

fn name(ident: &Ident) -> Field {
    Field::bytes(tag::NAME, ident.text.as_str())
}

fn type_name(declared: &Type) -> Field {
    Field::bytes(tag::TYPE_NAME, declared.name.text.as_str())
}

fn state_field(field: &FieldDecl) -> Field {
    let mut parts = vec![name(&field.name), type_name(&field.ty)];
    parts.extend(field.default.as_ref().map(expression));
    Field::parts(tag::STATE, parts)
}

fn entry(entry: &EntryDecl) -> Field {
    let mut parts = vec![name(&entry.name)];
    parts.extend(entry.params.iter().map(parameter));
    parts.extend(entry.clauses.iter().filter_map(clause));
    parts.extend(entry.body.iter().map(statement));
    Field::parts(tag::ENTRY, parts)
}

fn parameter(parameter: &Param) -> Field {
    Field::parts(
        tag::PARAMETER,
        vec![name(&parameter.name), type_name(&parameter.ty)],
    )
}

fn clause(clause: &Clause) -> Option<Field> {
    match clause {
        Clause::Limits { expr, .. } => Some(Field::parts(tag::LIMITS, vec![expression(expr)])),
        Clause::Denies { expr, .. } => Some(Field::parts(tag::DENIES, vec![expression(expr)])),
        _ => None,
    }
}

fn statement(statement: &Stmt) -> Field {
    match statement {
        Stmt::Guard { expr, .. } => Field::parts(tag::GUARD, vec![expression(expr)]),
        Stmt::Let { name: n, value, .. } => {
            Field::parts(tag::LET, vec![name(n), expression(value)])
        }
        Stmt::Emit { name: n, args, .. } => {
            let mut parts = vec![name(n)];
            parts.extend(args.iter().map(expression));
            Field::parts(tag::EMIT, parts)
        }
        Stmt::Assign {
            target, op, value, ..
        } => Field::parts(assignment(*op), vec![expression(target), expression(value)]),
        Stmt::Expr { expr, .. } => Field::parts(tag::EXPRESSION, vec![expression(expr)]),
    }
}

fn assignment(operator: AssignOp) -> u8 {
    match operator {
        AssignOp::Set => tag::SET,
        AssignOp::Add => tag::ADD,
        AssignOp::Sub => tag::SUBTRACT,
    }
}

fn expression(expr: &Expr) -> Field {
    match expr {
        Expr::Int(literal) => Field::bytes(tag::INTEGER, literal.text.as_str()),
        Expr::Date { text, .. } => Field::bytes(tag::DATE, text.as_str()),
        Expr::Str(literal) => Field::bytes(tag::STRING, literal.value.as_str()),
        Expr::Ident(ident) => Field::bytes(tag::IDENTIFIER, ident.text.as_str()),
        Expr::Caller { .. } => Field::bytes(tag::CALLER, []),
        Expr::Native { .. } => Field::bytes(tag::NATIVE, []),
        Expr::InAsset { .. } => Field::bytes(tag::IN_ASSET, []),
        Expr::Now { .. } => Field::bytes(tag::NOW, []),
        Expr::Unary { op, expr, .. } => Field::parts(unary(*op), vec![expression(expr)]),
        Expr::Binary {
            op, left, right, ..
        } => Field::parts(
            tag::of_operator(*op),
            vec![expression(left), expression(right)],
        ),
        Expr::Field { base, name: n, .. } => {
            Field::parts(tag::MEMBER, vec![expression(base), name(n)])
        }
        Expr::Call { callee, args, .. } => {
            let mut parts = vec![expression(callee)];
            parts.extend(args.iter().map(expression));
            Field::parts(tag::CALL, parts)
        }
        Expr::Checked { expr, .. } => Field::parts(tag::CHECKED, vec![expression(expr)]),
        Expr::Wrapping { expr, .. } => Field::parts(tag::WRAPPING, vec![expression(expr)]),
    }
}

fn unary(operator: UnaryOp) -> u8 {
    match operator {
        UnaryOp::Not => tag::NOT,
        UnaryOp::Neg => tag::NEGATE,
    }
}
