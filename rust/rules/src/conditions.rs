// SPDX-License-Identifier: Apache-2.0 OR MIT
//! Conditions that an entry demands of its caller.

use crate::contract::Entry;
use crate::field::*;
use crate::misreading::Misreading::*;
use crate::Rules;

/// A part of a condition; a flipped one holds when the field does not.
#[derive(Clone, Copy)]
pub struct Condition<'e> {
    pub field: &'e Field<'e>,
    pub flipped: bool,
}

impl Condition<'_> {
    /// The operator of the condition's field, after any flipping.
    pub fn operator_of(&self, field: &Field<'_>) -> u8 {
        match (self.flipped, field.tag) {
            (true, EQ) => NE,
            (true, NE) => EQ,
            (true, LT) => GE,
            (true, GE) => LT,
            (true, GT) => LE,
            (true, LE) => GT,
            (_, tag) => tag,
        }
    }
}

impl Rules {
    /// Limits as they are, denials negated, then guards of the body.
    pub fn conditions<'e>(&self, entry: &Entry<'e>) -> Vec<Condition<'e>> {
        let mut found = Vec::new();
        for clause in &entry.clauses {
            match (clause.tag, clause.inner()) {
                (LIMITS, Some(limit)) if !self.misreads(LimitsLeftOut) => {
                    self.split(limit, &mut found)
                }
                (DENIES, Some(denial)) if !self.misreads(DenialsLeftOut) => {
                    self.denied(denial, &mut found)
                }
                _ => {}
            }
        }
        if !self.misreads(GuardsLeftOut) {
            entry
                .guards()
                .for_each(|guard| self.split(guard, &mut found));
        }
        found
    }

    fn denied<'e>(&self, denial: &'e Field<'e>, found: &mut Vec<Condition<'e>>) {
        match self.misreads(DenialsAsTheyAre) {
            true => self.split(denial, found),
            false => self.negated(self.peel_if(DenialsPeeled, denial), found),
        }
    }

    /// The parts of a negation.
    fn negated<'e>(&self, field: &'e Field<'e>, found: &mut Vec<Condition<'e>>) {
        match (field.tag, field.inner(), field.sides()) {
            (NOT, Some(inner), _) => self.denied_not(inner, found),
            (OR, _, Some((left, right))) => self.denied_or(left, right, found),
            (AND, _, Some((left, right))) if self.misreads(DeniedAndGivesBoth) => {
                self.negated(left, found);
                self.negated(right, found);
            }
            (EQ..=GE, _, _) => found.push(Condition {
                field,
                flipped: true,
            }),
            _ => {}
        }
    }

    fn denied_not<'e>(&self, inner: &'e Field<'e>, found: &mut Vec<Condition<'e>>) {
        match self.misreading {
            Some(DeniedNotGivesNothing) => {}
            Some(DeniedNotIsNegatedAgain) => self.negated(inner, found),
            Some(DeniedNotIsNotSplit) => found.push(Condition {
                field: inner,
                flipped: false,
            }),
            _ => self.split(inner, found),
        }
    }

    /// Both negations, each whether or not the other gives something.
    fn denied_or<'e>(
        &self,
        left: &'e Field<'e>,
        right: &'e Field<'e>,
        found: &mut Vec<Condition<'e>>,
    ) {
        let (mut from_left, mut from_right) = (Vec::new(), Vec::new());
        self.negated(left, &mut from_left);
        self.negated(right, &mut from_right);
        match self.misreading {
            Some(DeniedOrGivesNothing) => return,
            Some(DeniedOrGivesLeft) => from_right.clear(),
            Some(DeniedOrNeedsBoth) if from_left.is_empty() || from_right.is_empty() => return,
            _ => {}
        }
        found.extend(from_left);
        found.extend(from_right);
    }

    /// And is split, unpeeled.
    fn split<'e>(&self, field: &'e Field<'e>, found: &mut Vec<Condition<'e>>) {
        let field = self.peel_if(SplitPeels, field);
        let is_split = match field.tag {
            AND => !self.misreads(AndNotSplit),
            OR => self.misreads(OrSplitLikeAnd),
            _ => false,
        };
        match field.sides() {
            Some((left, right)) if is_split && self.misreads(AndSplitOnce) => {
                found.extend([left, right].map(|field| Condition {
                    field,
                    flipped: false,
                }));
            }
            Some((left, right)) if is_split => {
                self.split(left, found);
                self.split(right, found);
            }
            _ if field.tag == NOT && self.misreads(NotNegatesEverywhere) => {
                field
                    .inner()
                    .into_iter()
                    .for_each(|inner| self.negated(inner, found));
            }
            _ => found.push(Condition {
                field,
                flipped: false,
            }),
        }
    }
}
