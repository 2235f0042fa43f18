// SPDX-License-Identifier: Apache-2.0 OR MIT
//! Longer names and numbers, which differ in one place only.

use crate::expression::MEMBERS;
use crate::random::Random;
use model_file::{tag, Content, Field};

/// Lengths around a word of eight bytes and its multiples, and a long one.
const LENGTHS: [usize; 9] = [1, 6, 7, 8, 9, 15, 16, 17, 57];

/// How a text is made longer.
#[derive(Clone, Copy)]
enum Style {
    /// So many bytes in front: texts differ at the end.
    Front(usize),
    /// So many bytes behind: texts differ at the beginning.
    Behind(usize),
    /// The first byte only, repeated: texts are beginnings of each other.
    Repeated,
}

/// Makes the names and numbers of a file longer, all in the same way.
pub fn lengthen(random: &mut Random, fields: &mut [Field]) {
    let style = match random.below(5) {
        0..=2 => Style::Front(random.pick(&LENGTHS)),
        3 => Style::Behind(random.pick(&LENGTHS)),
        _ => Style::Repeated,
    };
    lengthen_all(style, fields);
}

fn lengthen_all(style: Style, fields: &mut [Field]) {
    for field in fields {
        match &mut field.content {
            Content::Parts(parts) => lengthen_all(style, parts),
            Content::Bytes(text) if is_free(field.tag, text) => *text = longer(style, text),
            Content::Bytes(_) => {}
        }
    }
}

/// May the text be another? The rules look for some names and for zeros.
fn is_free(tag: u8, text: &[u8]) -> bool {
    match tag {
        tag::NAME | tag::IDENTIFIER => !MEMBERS.iter().any(|m| m.as_bytes() == text),
        tag::INTEGER => text.iter().any(|b| !b"0_".contains(b)),
        tag::STRING => true,
        _ => false,
    }
}

fn longer(style: Style, text: &[u8]) -> Vec<u8> {
    match style {
        Style::Front(length) => [&vec![b'1'; length], text].concat(),
        Style::Behind(length) => [text, &vec![b'1'; length]].concat(),
        Style::Repeated => {
            let first = text.first().copied().unwrap_or(0);
            vec![b'1'; 1 + usize::from(first) % 19]
        }
    }
}
