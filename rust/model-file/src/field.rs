// SPDX-License-Identifier: Apache-2.0 OR MIT
//! A model file as a tree of fields, without regard to what may stand where.

use crate::tag;
use std::fmt::{Display, Formatter};

/// The bytes of a field before its content: the tag and the two-byte length.
pub(crate) const HEAD: usize = 3;

/// A field: its tag and what it holds.
#[derive(Clone, Debug, PartialEq, Eq)]
pub struct Field {
    pub tag: u8,
    pub content: Content,
}

/// What a field holds. Every tag can be written with either kind, so that
/// damaged files can be built too.
#[derive(Clone, Debug, PartialEq, Eq)]
pub enum Content {
    Bytes(Vec<u8>),
    Parts(Vec<Field>),
}

/// A field's content is longer than its two-byte length can say.
#[derive(Clone, Copy, Debug, PartialEq, Eq)]
pub struct EncodeError {
    pub tag: u8,
    pub length: usize,
}

impl Display for EncodeError {
    fn fmt(&self, out: &mut Formatter) -> std::fmt::Result {
        let EncodeError { tag, length } = self;
        write!(
            out,
            "a field with tag {tag:02X} holds {length} bytes, more than 65,535"
        )
    }
}

impl std::error::Error for EncodeError {}

impl Field {
    pub fn bytes(tag: u8, content: impl Into<Vec<u8>>) -> Field {
        let content = Content::Bytes(content.into());
        Field { tag, content }
    }

    pub fn parts(tag: u8, parts: Vec<Field>) -> Field {
        let content = Content::Parts(parts);
        Field { tag, content }
    }

    /// The fields inside this one; none if it holds bytes.
    pub fn inner(&self) -> &[Field] {
        match &self.content {
            Content::Parts(parts) => parts,
            Content::Bytes(_) => &[],
        }
    }

    /// The list of fields inside this one, if it holds fields.
    pub fn inner_mut(&mut self) -> Option<&mut Vec<Field>> {
        match &mut self.content {
            Content::Parts(parts) => Some(parts),
            Content::Bytes(_) => None,
        }
    }

    /// The bytes that this field holds; none if it holds fields.
    pub fn text(&self) -> &[u8] {
        match &self.content {
            Content::Bytes(bytes) => bytes,
            Content::Parts(_) => &[],
        }
    }

    fn append_to(&self, out: &mut Vec<u8>) -> Result<(), EncodeError> {
        let start = out.len();
        out.extend([self.tag, 0, 0]);
        match &self.content {
            Content::Bytes(bytes) => out.extend(bytes),
            Content::Parts(parts) => {
                for part in parts {
                    part.append_to(out)?;
                }
            }
        }
        let length = out.len() - start - HEAD;
        let tag = self.tag;
        let short = u16::try_from(length).map_err(|_| EncodeError { tag, length })?;
        out[start + 1..start + HEAD].copy_from_slice(&short.to_be_bytes());
        Ok(())
    }
}

/// The bytes of a file with these fields, lengths included.
pub fn write(fields: &[Field]) -> Result<Vec<u8>, EncodeError> {
    let mut out = Vec::new();
    for field in fields {
        field.append_to(&mut out)?;
    }
    Ok(out)
}

/// The fields of a file, or nothing if some field is cut. A field whose tag
/// has parts, but whose content is no list of whole fields, keeps its bytes.
/// `write` gives the same bytes back.
pub fn read(bytes: &[u8]) -> Option<Vec<Field>> {
    let mut fields = Vec::new();
    let mut rest = bytes;
    while let [tag, high, low, after @ ..] = rest {
        let length = usize::from(u16::from_be_bytes([*high, *low]));
        let content = after.get(..length)?;
        fields.push(Field {
            tag: *tag,
            content: read_content(*tag, content),
        });
        rest = &after[length..];
    }
    rest.is_empty().then_some(fields)
}

fn read_content(tag: u8, content: &[u8]) -> Content {
    let plain = tag::is_text(tag) || tag::is_empty(tag);
    match read(content).filter(|_| !plain) {
        Some(parts) => Content::Parts(parts),
        None => Content::Bytes(content.to_vec()),
    }
}
