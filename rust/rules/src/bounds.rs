// SPDX-License-Identifier: Apache-2.0 OR MIT
//! Bounds: an amount that can be no larger than a backing.

use crate::field::*;
use crate::misreading::Misreading::*;
use crate::Rules;

impl Rules {
    /// True if the unpeeled amount equals the backing or is bounded by it.
    pub fn bounded(&self, amount: &Field<'_>, backing: &Field<'_>) -> bool {
        let amount = self.peel_if(BoundedAmountPeeled, amount);
        self.bounded_within(amount, backing, self.misreads(WrappingOnAtFirst))
    }

    fn bounded_within(&self, amount: &Field<'_>, backing: &Field<'_>, wrapping: bool) -> bool {
        if self.equal(self.peel(amount), backing) {
            return true;
        }
        match (amount.tag, amount.inner(), amount.sides()) {
            (CHECKED, Some(inner), _) => {
                let still_wrapping = wrapping && self.misreads(CheckedLeavesWrappingOn);
                self.bounded_within(inner, backing, still_wrapping)
            }
            (WRAPPING, Some(_), _) if self.misreads(WrappingBoundsNothing) => false,
            (WRAPPING, Some(inner), _) => self.bounded_within(inner, backing, true),
            (_, _, Some((left, right))) if is_binary(amount.tag) => {
                let inside = wrapping && !self.misreads(OperatorsTurnWrappingOff);
                (self.goes_left(amount.tag, wrapping)
                    && self.bounded_operand(left, backing, inside))
                    || (self.goes_right(amount.tag) && self.bounded_operand(right, backing, inside))
            }
            _ => false,
        }
    }

    fn bounded_operand(&self, operand: &Field<'_>, backing: &Field<'_>, wrapping: bool) -> bool {
        match self.misreads(BoundsOneStepDeep) {
            true => self.equal(self.peel(operand), backing),
            false => self.bounded_within(operand, backing, wrapping),
        }
    }

    fn goes_left(&self, operator: u8, wrapping: bool) -> bool {
        match operator {
            SUB => {
                (!wrapping || self.misreads(SubtractionBoundsWrapping))
                    && !self.misreads(SubtractionBoundsNothing)
            }
            DIV => {
                !(wrapping && self.misreads(DivisionNeedsWrappingOff)
                    || self.misreads(DivisionBoundsNothing))
            }
            SHR => !self.misreads(ShiftBoundsNothing),
            REM => !self.misreads(RemainderBoundsNothing),
            MUL => self.misreads(ProductBounded),
            ADD => self.misreads(SumBounded),
            _ => false,
        }
    }

    fn goes_right(&self, operator: u8) -> bool {
        match operator {
            REM => self.misreads(RemainderBoundedByRight),
            SUB => self.misreads(SubtractionBoundedByRight),
            DIV => self.misreads(DivisionBoundedByRight),
            _ => false,
        }
    }
}
