// SPDX-License-Identifier: Apache-2.0 OR MIT
//! Each question of a file, answered with "no" at its place.

use model_file::{decode, tag, write, Field, Refusal};

fn refusal(file: &[u8]) -> Option<(u8, usize)> {
    decode(file)
        .err()
        .map(|Refusal { number, place }| (number, place))
}

fn name(text: &str) -> Field {
    Field::bytes(tag::NAME, text)
}

fn state(text: &str) -> Field {
    Field::parts(
        tag::STATE,
        vec![name(text), Field::bytes(tag::TYPE_NAME, "u64")],
    )
}

fn entry(parts: Vec<Field>) -> Field {
    let mut all = vec![name("f")];
    all.extend(parts);
    Field::parts(tag::ENTRY, all)
}

fn of_fields(fields: &[Field]) -> Option<(u8, usize)> {
    refusal(&write(fields).expect("the file is short"))
}

fn guard(condition: Field) -> Field {
    entry(vec![Field::parts(tag::GUARD, vec![condition])])
}

#[test]
fn an_empty_file_passes() {
    assert_eq!(refusal(&[]), None);
}

#[test]
fn question_1_is_asked_first() {
    assert_eq!(refusal(&[0xFF; 32_769]), Some((1, 0)));
    assert_eq!(refusal(&[0xFF; 32_768]), Some((2, 0)));
}

#[test]
fn question_2_comes_before_the_tag() {
    assert_eq!(refusal(&[0x03, 0x00]), Some((2, 0)));
    assert_eq!(refusal(&[0xFF, 0x00, 0x01]), Some((2, 0)));
    assert_eq!(refusal(&[0xFF, 0x00, 0x00]), Some((3, 0)));
    // The inner field fits in the file, not in the entry.
    assert_eq!(
        refusal(&[0x03, 0x00, 0x03, 0x20, 0x00, 0x01, 0x66]),
        Some((2, 3))
    );
}

#[test]
fn question_3_asks_what_may_come_next() {
    let parameter = Field::parts(tag::PARAMETER, vec![]);
    assert_eq!(
        of_fields(&[Field::parts(tag::ENTRY, vec![parameter.clone()])]),
        Some((3, 3))
    );
    let limits = Field::parts(tag::LIMITS, vec![Field::bytes(tag::NOW, [])]);
    assert_eq!(of_fields(&[entry(vec![limits, parameter])]), Some((3, 13)));
}

#[test]
fn question_4_allows_32_levels() {
    let nested = |levels| {
        let deepest = Field::bytes(tag::IDENTIFIER, "");
        (1..levels).fold(deepest, |inner, _| Field::parts(tag::NOT, vec![inner]))
    };
    // The deepest is an empty identifier: too deep is found before empty.
    assert_eq!(of_fields(&[guard(nested(32))]), Some((5, 10 + 31 * 3)));
    assert_eq!(of_fields(&[guard(nested(33))]), Some((4, 10 + 32 * 3)));
}

#[test]
fn question_5_asks_for_texts_and_empty_fields() {
    for (text, refused) in [
        ("\u{1f}", true),
        (" ", false),
        ("~", false),
        ("\u{7f}", true),
        ("", false),
    ] {
        let expected = refused.then_some((5, 10));
        assert_eq!(
            of_fields(&[guard(Field::bytes(tag::STRING, text))]),
            expected
        );
    }
    assert_eq!(
        of_fields(&[guard(Field::bytes(tag::IDENTIFIER, ""))]),
        Some((5, 10))
    );
    assert_eq!(
        of_fields(&[guard(Field::bytes(tag::NOW, " "))]),
        Some((5, 10))
    );
}

#[test]
fn question_6_has_the_place_of_the_outer_field() {
    assert_eq!(
        of_fields(&[Field::parts(tag::GENESIS, vec![])]),
        Some((6, 0))
    );
    let half = Field::parts(tag::BINARY, vec![Field::bytes(tag::NOW, [])]);
    assert_eq!(of_fields(&[guard(half)]), Some((6, 10)));
}

#[test]
fn question_7_names_the_later_field() {
    assert_eq!(
        of_fields(&[state("r"), state("s"), state("r")]),
        Some((7, 26))
    );
}

#[test]
fn question_8_names_the_65th_entry() {
    assert_eq!(of_fields(&vec![entry(vec![]); 64]), None);
    assert_eq!(of_fields(&vec![entry(vec![]); 66]), Some((8, 64 * 7)));
}
