//! Patterns with free pages where the last page of the bit file begins to count (document 02, T-06).

use super::{Ask, Pattern};
use crate::words::TO_A_BIT_PAGE;

/// Where a run lies: over the border, up to it, from it on, below it with nothing free above, or over it and one page too short.
#[derive(Clone, Copy)]
pub enum Border {
    Over,
    UpTo,
    From,
    Below,
    TooShort,
}

impl Pattern<'_> {
    /// The first page that has its bit in the last bit page.
    fn border(&self) -> u32 {
        (self.pages - 1) / TO_A_BIT_PAGE * TO_A_BIT_PAGE
    }

    pub(super) fn past_bit_page(&mut self, takes: u32) -> Ask {
        let first = self.border() + self.random.below(20);
        self.set(first..first + 1);
        self.some_above(first + 1, takes - 1);
        self.ask_for(takes)
    }

    pub(super) fn two_bit_pages(&mut self, side_by_side: bool) -> Ask {
        let border = self.border();
        let (first, second) = match side_by_side {
            true => (border - 1, border),
            false => (border - self.random.between(2, 60), border + self.random.below(20)),
        };
        self.set(first..first + 1);
        self.set(second..second + 1);
        self.some_above(second + 1, 0);
        self.ask_for(2)
    }

    pub(super) fn at_border(&mut self, at: Border, place: u32) -> Ask {
        let (border, below, above) = (self.border(), self.random.between(1, 40), self.random.between(1, 30));
        let (first, end) = match at {
            Border::Over | Border::TooShort => (border - below, border + above),
            Border::UpTo => (border - below, border),
            Border::From => (border, border + above),
            Border::Below => {
                let first = self.random.between(200, border - 200);
                (first, first + below)
            }
        };
        self.set(first..end);
        // The entry's pages lie below: they break no run.
        (0..place).for_each(|n| self.free[1 + 2 * n as usize] = true);
        let count = end - first + u32::from(matches!(at, Border::TooShort));
        if matches!(at, Border::Over | Border::UpTo | Border::From) {
            self.shorter_above(end, count);
        }
        self.single_pages(count + place);
        Ask::Contiguous { place, count }
    }
}
