// SPDX-License-Identifier: Apache-2.0 OR MIT
//! Makes a file smaller while something about it stays as it is.

use model_file::{read, write, Content, Field};

/// The smallest file that could be found for which `keeps` still holds.
pub fn shrunk(file: Vec<u8>, keeps: &mut impl FnMut(&[u8]) -> bool) -> Vec<u8> {
    let mut smallest = file;
    loop {
        let length = smallest.len();
        smallest = with_fewer_fields(smallest, keeps);
        smallest = with_fewer_bytes(smallest, keeps);
        if smallest.len() == length {
            return smallest;
        }
    }
}

/// Drops fields, puts parts in the place of their field and shortens texts.
/// Lengths are corrected; a file that is no list of fields stays as it is.
fn with_fewer_fields(file: Vec<u8>, keeps: &mut impl FnMut(&[u8]) -> bool) -> Vec<u8> {
    let Some(mut fields) = read(&file) else {
        return file;
    };
    let mut smallest = file;
    let mut number = 0;
    while let Some(choices) = simpler(&fields, number) {
        let better = choices.into_iter().find_map(|choice| {
            let bytes = write(&choice).ok()?;
            (bytes.len() < smallest.len() && keeps(&bytes)).then_some((choice, bytes))
        });
        match better {
            Some((choice, bytes)) => (fields, smallest) = (choice, bytes),
            None => number += 1,
        }
    }
    smallest
}

/// The files that are simpler in the field of this number, outer before inner
/// and front to back; nothing if there is no such field.
fn simpler(fields: &[Field], number: usize) -> Option<Vec<Vec<Field>>> {
    let mut before = number;
    for (at, field) in fields.iter().enumerate() {
        let with = |replacement: Vec<Field>| {
            let mut all = fields.to_vec();
            all.splice(at..=at, replacement);
            all
        };
        if before == 0 {
            return Some(replacements(field).into_iter().map(with).collect());
        }
        before -= 1;
        if let Some(choices) = simpler(field.inner(), before) {
            let around = |parts| with(vec![Field::parts(field.tag, parts)]);
            return Some(choices.into_iter().map(around).collect());
        }
        before -= size(field.inner());
    }
    None
}

/// The number of fields, the inner ones included.
fn size(fields: &[Field]) -> usize {
    fields.iter().map(|f| 1 + size(f.inner())).sum()
}

/// What may stand in the field's place: nothing, one of its parts, all of its
/// parts, or the field with a shorter text.
fn replacements(field: &Field) -> Vec<Vec<Field>> {
    let mut choices = vec![vec![]];
    match &field.content {
        Content::Parts(parts) => {
            choices.extend(parts.iter().map(|p| vec![p.clone()]));
            choices.push(parts.clone());
        }
        Content::Bytes(text) => {
            let shorter = |length: usize| vec![Field::bytes(field.tag, &text[..length])];
            choices.extend([0, 1, text.len() / 2].map(|l| shorter(l.min(text.len()))));
        }
    }
    choices
}

/// Drops runs of bytes, long ones first.
fn with_fewer_bytes(file: Vec<u8>, keeps: &mut impl FnMut(&[u8]) -> bool) -> Vec<u8> {
    let mut smallest = file;
    let mut run = smallest.len();
    while run > 0 {
        let mut at = 0;
        while at < smallest.len() {
            let end = (at + run).min(smallest.len());
            let shorter = [&smallest[..at], &smallest[end..]].concat();
            match keeps(&shorter) {
                true => smallest = shorter,
                false => at += run,
            }
        }
        run /= 2;
    }
    smallest
}
