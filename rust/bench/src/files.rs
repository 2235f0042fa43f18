// SPDX-License-Identifier: Apache-2.0 OR MIT
//! The files that are timed: typical, large and hostile ones. Each passes the
//! questions about a file. A hostile one has many of two or three things, each
//! of one kind met with each of another, and says which in its comment.

mod amounts;
mod guards;
mod maps;
mod names;
mod reserves;
mod typical;

use generator::construct::*;
use model_file::{tag, Field, SIZE_LIMIT};

/// A file with a name. It is made where it is asked for: to find how many of
/// something make the largest file takes time.
#[derive(Clone, Copy)]
pub struct Sample {
    pub name: &'static str,
    make: fn() -> Vec<Field>,
}

impl Sample {
    pub fn file(&self) -> Vec<u8> {
        bytes(&(self.make)())
    }
}

/// All files.
pub fn samples() -> Vec<Sample> {
    [
        typical::SAMPLES,
        amounts::SAMPLES,
        maps::SAMPLES,
        reserves::SAMPLES,
        guards::SAMPLES,
        names::SAMPLES,
    ]
    .concat()
}

const fn sample(name: &'static str, make: fn() -> Vec<Field>) -> Sample {
    Sample { name, make }
}

/// The largest file of a family that grows.
fn largest(make: impl Fn(usize) -> Vec<Field>) -> Vec<Field> {
    let fits = |count| model_file::write(&make(count)).is_ok_and(|file| file.len() <= SIZE_LIMIT);
    let mut count = 1;
    while fits(2 * count) {
        count *= 2;
    }
    let mut step = count / 2;
    while 0 < step {
        if fits(count + step) {
            count += step;
        }
        step /= 2;
    }
    make(count)
}

fn token(number: usize) -> String {
    format!("TOKEN{number}")
}

/// The condition that what comes in is of a token.
fn inflow_of(token: Field) -> Field {
    binary(EQUAL, token, in_asset())
}

fn admits(token: &str) -> Field {
    guard(binary(EQUAL, in_asset(), identifier(token)))
}

fn pays(token: &str, amount: Field) -> Field {
    statement(send(identifier(token), amount))
}

/// An entry that credits a map with what comes in.
fn credits(map: &str, token: Field) -> Field {
    let credit = member_call(map, "credit", vec![caller(), amount_of("a")]);
    let parts = vec![asset("a"), limits(inflow_of(token)), statement(credit)];
    entry("c", parts)
}

/// An amount that contains what came in and that no backing equals.
fn of_inflow() -> Field {
    negate(amount_of("a"))
}

/// An entry that pays the amount of a token out of a state field.
fn pays_from(field: &str, token: &str) -> Field {
    let parts = vec![
        asset("a"),
        held(field),
        lowered(field),
        pays(token, of_inflow()),
    ];
    entry("p", parts)
}

/// The guard that a state field has the amount.
fn held(field: &str) -> Field {
    guard(binary(AT_LEAST, identifier(field), of_inflow()))
}

/// The statement that lowers the field by the amount.
fn lowered(field: &str) -> Field {
    assign(tag::SUBTRACT, identifier(field), of_inflow())
}

/// A parameter with short names: many of them are few bytes.
fn short_parameter() -> Field {
    parameter("b", "u")
}

/// A state field with a short type name.
fn short_state(name: &str) -> Field {
    let name = Field::bytes(tag::NAME, name);
    Field::parts(tag::STATE, vec![name, Field::bytes(tag::TYPE_NAME, "u")])
}

/// The text of a number in so many characters.
fn numbered(number: usize, length: u32) -> String {
    let character = |power| char::from(b'0' + (number / 79usize.pow(power) % 79) as u8);
    (0..length).rev().map(character).collect()
}

/// An expression inside so many wrappers.
fn wrapped(count: usize, inner: Field) -> Field {
    (0..count).fold(inner, |inner, _| checked(inner))
}

/// So many expressions, each inside the next, in as few statements as that
/// depth allows. Each is made of the one inside it and its number, which is
/// counted from 0.
fn nested(count: usize, depth: usize, make: impl Fn(Field, usize) -> Field) -> Vec<Field> {
    let chain = |first: usize| {
        let last = count.min(first + depth);
        statement((first..last).fold(caller(), &make))
    };
    (0..count).step_by(depth).map(chain).collect()
}
