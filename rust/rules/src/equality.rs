// SPDX-License-Identifier: Apache-2.0 OR MIT
//! Equality of expressions.

use crate::field::*;
use crate::misreading::Misreading::*;
use crate::Rules;

impl Rules {
    /// Same shape, operators and texts, wrappers included.
    pub fn equal(&self, left: &Field<'_>, right: &Field<'_>) -> bool {
        let left = self.peel_if(EqualityPeels, left);
        let right = self.peel_if(EqualityPeels, right);
        self.equal_tags(left.tag, right.tag)
            && match left.tag {
                IN_ASSET => self.misreads(InAssetEqualsItself),
                NATIVE => self.misreads(NativeEqualsItself),
                DATE => self.misreads(DateEqualsItself) && left.content == right.content,
                CALLER => !self.misreads(CallerEqualsNothing),
                NOW => !self.misreads(NowEqualsNothing),
                INTEGER => self.digits(left.content) == self.digits(right.content),
                STRING => left.content == right.content && !self.misreads(StringsEqualNothing),
                NAME => left.content == right.content || self.misreads(MemberNamesIgnored),
                IDENTIFIER => self.equal_identifiers(left.content, right.content),
                _ => self.equal_parts(left, right),
            }
    }

    fn equal_tags(&self, left: u8, right: u8) -> bool {
        left == right
            || (self.misreads(OperatorsIgnored) && is_binary(left) && is_binary(right))
            || (self.misreads(TextKindIgnored) && is_text(left) && is_text(right))
            || (self.misreads(WrapperKindIgnored) && is_wrapper(left) && is_wrapper(right))
            || (self.misreads(NegationKindIgnored)
                && matches!((left, right), (NOT, NEGATE) | (NEGATE, NOT)))
    }

    fn equal_parts(&self, left: &Field<'_>, right: &Field<'_>) -> bool {
        let same_count =
            left.parts.len() == right.parts.len() || self.misreads(ArgumentCountIgnored);
        let in_order = left
            .parts
            .iter()
            .zip(&right.parts)
            .all(|(left, right)| self.equal(left, right));
        (same_count && in_order) || self.equal_exchanged(left, right)
    }

    /// The misreading that sums and products have no order.
    fn equal_exchanged(&self, left: &Field<'_>, right: &Field<'_>) -> bool {
        let exchangeable = match left.tag {
            ADD => self.misreads(SumsHaveNoOrder),
            MUL => self.misreads(ProductsHaveNoOrder),
            _ => false,
        };
        let exchanged = left.parts.iter().rev().zip(&right.parts);
        exchangeable
            && exchanged
                .into_iter()
                .all(|(left, right)| self.equal(left, right))
    }

    fn equal_identifiers(&self, left: &[u8], right: &[u8]) -> bool {
        match self.misreading {
            Some(LongNamesCut) => left.iter().take(8).eq(right.iter().take(8)),
            Some(ShorterNameDecides) => left.iter().zip(right).all(|(left, right)| left == right),
            Some(IdentifiersInAnyCase) => left.eq_ignore_ascii_case(right),
            Some(IdentifierUnderscoresRemoved) => {
                without_underscores(left) == without_underscores(right)
            }
            _ => left == right,
        }
    }

    /// An integer's text with underscores removed.
    fn digits(&self, text: &[u8]) -> Vec<u8> {
        match self.misreading {
            Some(IntegerUnderscoresKept) => text.to_vec(),
            Some(OuterUnderscoresKept) if text.starts_with(b"_") || text.ends_with(b"_") => {
                text.to_vec()
            }
            Some(IntegersByValue) => {
                let digits = without_underscores(text);
                let zeros = digits.iter().take_while(|&&digit| digit == b'0').count();
                digits[zeros..].to_vec()
            }
            _ => without_underscores(text),
        }
    }
}

fn without_underscores(text: &[u8]) -> Vec<u8> {
    text.iter().copied().filter(|&byte| byte != b'_').collect()
}
