// SPDX-License-Identifier: Apache-2.0 OR MIT
//! The one type that the original sources take from their lexer.

/// Where a node of the tree was read: the field of the model file from the
/// offset of its tag byte (`start`) to the offset after its content (`end`).
/// A tree that was not read from a model file has the default, 0 to 0.
#[derive(Clone, Copy, Debug, Default, PartialEq, Eq, Hash)]
pub struct Span {
    pub start: usize,
    pub end: usize,
}
