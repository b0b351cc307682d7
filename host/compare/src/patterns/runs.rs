//! Patterns with a run of free pages, or with none.

use super::{Ask, Pattern};
use crate::scattered::Beyond;

/// Where a run of so many pages starts in its word, or ends at the volume's end.
#[derive(Clone, Copy)]
pub enum Shape {
    OnePage,
    Within,
    From(u32),
    UpTo15,
    OneWord,
    SixteenOverAnEdge,
    PageBefore,
    PageAfter,
    OverAnEdge,
    OneWordWithin,
    WholeWords,
    Top,
}

pub const SHAPES: [Shape; 13] = [
    Shape::OnePage,
    Shape::Within,
    Shape::From(0),
    Shape::From(15),
    Shape::UpTo15,
    Shape::OneWord,
    Shape::SixteenOverAnEdge,
    Shape::PageBefore,
    Shape::PageAfter,
    Shape::OverAnEdge,
    Shape::OneWordWithin,
    Shape::WholeWords,
    Shape::Top,
];

impl Pattern<'_> {
    /// The bit that a run starts in, and its pages.
    fn bit_and_count(&mut self, shape: Shape) -> (u32, u32) {
        let (bit, any) = (self.random.between(1, 14), self.random.between(1, 40));
        match shape {
            Shape::OnePage => (self.random.below(16), 1),
            Shape::Within => (bit, self.random.between(1, 15 - bit)),
            Shape::From(bit) => (bit, any + 1),
            Shape::UpTo15 => (bit, 16 - bit + 16 * self.random.below(3)),
            Shape::OneWord => (0, 16),
            Shape::SixteenOverAnEdge => (bit, 16),
            Shape::PageBefore => (15, 17),
            Shape::PageAfter => (0, 17),
            Shape::OverAnEdge => (bit, self.random.between(17 - bit, 31 - bit)),
            Shape::OneWordWithin => (bit, self.random.between(33 - bit, 47 - bit)),
            Shape::WholeWords => (bit, self.random.between(48 - bit, 80)),
            Shape::Top => ((self.pages - any) % 16, any),
        }
    }

    /// A run, above it only shorter ones, below it anything, and enough pages for the entry.
    pub(super) fn run(&mut self, shape: Shape, place: u32) -> Ask {
        let (bit, count) = self.bit_and_count(shape);
        let highest = (self.pages - 1 - count - bit) / 16;
        let first = match shape {
            Shape::Top => self.pages - count,
            _ => 16 * self.random.between(2, highest) + bit,
        };
        self.set(first..first + count);
        self.shorter_above(first + count, count);
        self.below(first, count);
        while self.free[..first as usize].iter().filter(|&&free| free).count() < place as usize {
            let page = self.random.between(1, first - 2);
            self.free[page as usize] = true;
        }
        Ask::Contiguous { place, count }
    }

    /// From the page after a run on: nothing, a stretch one page shorter with one page between, or shorter ones by chance.
    pub(super) fn shorter_above(&mut self, end: u32, count: u32) {
        if count == 1 || end + 2 > self.pages {
            return;
        }
        match self.random.below(4) {
            0 => {}
            1 | 2 => self.set(end + 1..(end + count).min(self.pages)),
            _ => self.stretches(end + 1, count - 1),
        }
    }

    /// Stretches of free pages from here on, none longer than this, some as long.
    fn stretches(&mut self, from: u32, longest: u32) {
        let mut page = from;
        let seldom = *self.random.pick(&[3, 12, 40]);
        while page < self.pages {
            let length = if self.random.one_in(3) { longest } else { self.random.between(1, longest) };
            let end = (page + length).min(self.pages);
            self.set(page..end);
            page = end + self.random.between(1, seldom);
        }
    }

    /// Below a run: nothing, more of its stretch, another run, or pages by chance.
    fn below(&mut self, first: u32, count: u32) {
        match self.random.below(4) {
            0 => {}
            1 => {
                let more = self.random.between(1, 12);
                self.set(first - more..first);
            }
            2 if first > count + 2 => {
                let lower = self.random.between(1, first - count - 1);
                self.set(lower..lower + count);
            }
            _ => (1..first - 1).for_each(|page| self.free[page as usize] = self.random.one_in(3)),
        }
    }

    pub(super) fn low_run(&mut self, place: u32) -> Ask {
        let (first, count) = (self.random.between(3 + place, 64), self.random.between(1, 60));
        self.set(1..1 + place);
        self.set(first..first + count);
        Ask::Contiguous { place, count }
    }

    pub(super) fn beside(&mut self, place: u32) -> Ask {
        let count = self.random.between(1, 40);
        let first = self.random.between(1, self.pages - count - place);
        self.set(first..first + place + count);
        self.shorter_above(first + place + count, count);
        Ask::Contiguous { place, count }
    }

    /// Shorter stretches alone, which together are long enough.
    pub(super) fn no_run(&mut self, place: u32) -> Ask {
        let count = self.random.between(2, 40);
        while self.free_count() < count + place {
            self.free.fill(false);
            let from = self.random.between(1, self.pages / 4);
            self.stretches(from, count - 1);
        }
        Ask::Contiguous { place, count }
    }

    /// One stretch with runs, the lowest; above it shorter ones, so that there are pages enough. Where the stretch has not all pages of the
    /// entry, single ones lie below it.
    pub(super) fn broken(&mut self, place: u32, own: u32, longer: u32) -> Ask {
        let count = self.random.between(2, 40);
        while self.free_count() < count + place {
            self.free.fill(false);
            let first = self.random.between(4, self.pages / 2);
            self.set(first..first + count + longer);
            self.stretches(first + count + longer + 1, count - 1);
            for n in 0..place - own {
                self.free[(first - 2 - 2 * n) as usize] = true;
            }
        }
        Ask::Contiguous { place, count }
    }

    pub(super) fn tempting(&mut self, place: u32, lower: bool) -> Ask {
        self.beyond = Beyond::Zeros;
        let from = 16 - self.pages % 16;
        let top = self.random.between(1, 30);
        let count = top + self.random.between(1, from);
        self.set(self.pages - top..self.pages);
        if lower {
            let first = self.random.between(8, self.pages - top - count - 1);
            self.set(first..first + count);
        }
        self.single_pages(count + place);
        Ask::Contiguous { place, count }
    }

    /// Single pages, the lowest ones, until so many are free.
    pub(super) fn single_pages(&mut self, least: u32) {
        let mut page = self.random.between(1, 3);
        while self.free_count() < least {
            self.free[page as usize] = true;
            page += 2;
        }
    }
}
