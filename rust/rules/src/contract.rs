// SPDX-License-Identifier: Apache-2.0 OR MIT
//! A file that passed questions 1 to 8, sorted by what its fields are for.

use crate::field::*;
use crate::misreading::Misreading::*;
use crate::Rules;

pub struct Contract<'e> {
    pub states: Vec<&'e Field<'e>>,
    /// The statements of the genesis fields.
    pub genesis: Vec<&'e Field<'e>>,
    pub entries: Vec<Entry<'e>>,
}

pub struct Entry<'e> {
    pub place: usize,
    pub parameters: Vec<Parameter<'e>>,
    pub clauses: Vec<&'e Field<'e>>,
    pub body: Vec<&'e Field<'e>>,
    /// The calls of the body, in walk order.
    pub calls: Vec<Call<'e>>,
}

pub struct Parameter<'e> {
    pub name: &'e [u8],
    pub is_asset: bool,
    /// The expression `name.amount`.
    pub amount: Field<'e>,
}

#[derive(Clone, Copy)]
pub struct Call<'e> {
    pub place: usize,
    pub callee: &'e Field<'e>,
    pub arguments: &'e [Field<'e>],
}

impl<'e> Entry<'e> {
    /// The expressions of the body's guards.
    pub fn guards(&self) -> impl DoubleEndedIterator<Item = &'e Field<'e>> + '_ {
        let guards = self.body.iter().filter(|statement| statement.tag == GUARD);
        guards.filter_map(|guard| guard.inner())
    }
}

impl Rules {
    pub fn contract<'e>(&self, fields: &'e [Field<'e>]) -> Contract<'e> {
        let tagged = |tag| fields.iter().filter(move |field| field.tag == tag);
        Contract {
            states: tagged(STATE).collect(),
            genesis: tagged(GENESIS).flat_map(|field| &field.parts).collect(),
            entries: tagged(ENTRY).map(|field| self.entry(field)).collect(),
        }
    }

    fn entry<'e>(&self, field: &'e Field<'e>) -> Entry<'e> {
        let parts =
            |accepts: fn(u8) -> bool| field.parts.iter().filter(move |part| accepts(part.tag));
        let parameters = parts(|tag| tag == PARAMETER).map(|part| self.parameter(part));
        let mut entry = Entry {
            place: field.place,
            parameters: parameters.collect(),
            clauses: parts(is_clause).collect(),
            body: parts(is_statement).collect(),
            calls: Vec::new(),
        };
        entry.calls = self.calls(&entry);
        entry
    }

    fn parameter<'e>(&self, field: &'e Field<'e>) -> Parameter<'e> {
        let name = field.text_part(NAME);
        let type_name = field.text_part(TYPE_NAME);
        let is_asset = match self.misreading {
            Some(AssetTypeByPrefix) => type_name.starts_with(b"Q_Asset"),
            Some(AssetTypeInAnyCase) => type_name.eq_ignore_ascii_case(b"Q_Asset"),
            _ => type_name == b"Q_Asset",
        };
        Parameter {
            name,
            is_asset,
            amount: Field::amount_of(name),
        }
    }
}
