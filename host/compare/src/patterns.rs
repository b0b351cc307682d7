//! Patterns of free pages, each aimed at an edge of the searches, with the call that meets it.

mod borders;
mod runs;

pub use borders::Border;
pub use runs::{Shape, SHAPES};

use crate::calls::Call;
use crate::random::Random;
use crate::scattered::{Beyond, Crowd, Wish, FIRST, LATER, OTHER};

/// A call that searches, by the pages it takes: a grow by so many, the entry of a new file, with it a run, the entry of a new user.
#[derive(Clone, Copy)]
pub enum Ask {
    Grow(u32),
    Indexed(u32),
    Contiguous { place: u32, count: u32 },
    User(u32),
}

impl Ask {
    fn crowd(self) -> Crowd {
        match self {
            Ask::User(1) => Crowd::OnePage,
            Ask::User(2) => Crowd::TwoPages,
            _ => Crowd::Few,
        }
    }

    fn user(self) -> u32 {
        match self {
            Ask::Indexed(place) | Ask::Contiguous { place, .. } => [FIRST, OTHER, LATER][place as usize],
            _ => FIRST,
        }
    }

    /// The pages that it takes from unreserved, and from the user's given ones.
    fn takes(self) -> (u32, u32) {
        match self {
            Ask::Grow(pages) => (0, pages),
            Ask::Indexed(place) => (place, 0),
            Ask::Contiguous { place, count } => (place, count),
            Ask::User(pages) => (pages, 0),
        }
    }

    /// The call, with a number for its name.
    pub fn call(self, n: u32) -> Call {
        let (user, name, kind) = (self.user() as usize, format!("N-{n}").into_bytes(), b"NEW".to_vec());
        match self {
            Ask::Grow(pages) => Call::Grow { user, file: pages as usize - 1 },
            Ask::Indexed(_) => Call::CreateIndexed { user, name, kind, created: n },
            Ask::Contiguous { count, .. } => Call::CreateContiguous { user, name, kind, created: n, count: count as usize },
            Ask::User(_) => Call::CreateUser { name },
        }
    }
}

/// How far the second page of a step lies from the first: by words, or the next page in the next word.
#[derive(Clone, Copy)]
pub enum Gap {
    Words(u32, u32),
    NextBit0,
}

/// What a volume's free pages are aimed at.
#[derive(Clone, Copy)]
pub enum Aim {
    /// The lowest free page in a bit, and so many pages taken.
    Bit(u32, u32),
    Two(Gap),
    /// The last page is the last that is free; the bits from P on, if there are any in its word.
    Last(u32, Option<Beyond>),
    Run(Shape, u32),
    /// A run in the first words, and no free page above it.
    LowRun(u32),
    /// The entry takes so many pages, those right before the run.
    Beside(u32),
    NoRun(u32),
    /// The entry takes so many pages; the stretch that has the only run starts with so many of them, and is so much longer than the run.
    Broken(u32, u32, u32),
    /// The last pages and bits from P on that are 0 would make a run; with a lower one, or without.
    Tempting(u32, bool),
    Full,
    Chance,
    /// The lowest free page has its bit in the last bit page, and so many pages are taken.
    PastBitPage(u32),
    /// Two pages of a step in the two last bit pages: side by side, or not.
    TwoBitPages(bool),
    /// Free pages where the last bit page begins; the entry takes so many pages.
    AtBorder(Border, u32),
}

/// A volume's free pages being chosen.
pub struct Pattern<'a> {
    pub random: &'a mut Random,
    pages: u32,
    free: Vec<bool>,
    beyond: Beyond,
}

impl Pattern<'_> {
    pub fn new(random: &mut Random, pages: u32) -> Pattern<'_> {
        let beyond = *random.pick(&[Beyond::Zeros, Beyond::Ones, Beyond::Chance]);
        Pattern { random, pages, free: vec![false; pages as usize], beyond }
    }

    /// The volume to make, and what to ask of it.
    pub fn aimed(mut self, aim: Aim) -> (Wish, Ask) {
        let ask = match aim {
            Aim::Bit(bit, takes) => self.bit(bit, takes),
            Aim::Two(gap) => self.two(gap),
            Aim::Last(takes, beyond) => self.last(takes, beyond),
            Aim::Run(shape, place) => self.run(shape, place),
            Aim::LowRun(place) => self.low_run(place),
            Aim::Beside(place) => self.beside(place),
            Aim::NoRun(place) => self.no_run(place),
            Aim::Broken(place, own, longer) => self.broken(place, own, longer),
            Aim::Tempting(place, lower) => self.tempting(place, lower),
            Aim::Full => self.ask_any(),
            Aim::Chance => self.chance(),
            Aim::PastBitPage(takes) => self.past_bit_page(takes),
            Aim::TwoBitPages(side_by_side) => self.two_bit_pages(side_by_side),
            Aim::AtBorder(border, place) => self.at_border(border, place),
        };
        (self.wish(ask), ask)
    }

    /// The free pages dealt out so that the call gets to its search, where there are enough of them.
    fn wish(&mut self, ask: Ask) -> Wish {
        let free: Vec<u32> = (0..self.pages).filter(|&page| self.free[page as usize]).collect();
        let (unreserved, given) = ask.takes();
        let rest = (free.len() as u32).saturating_sub(unreserved + given);
        let unreserved = (unreserved + self.random.below(rest + 1)).min(free.len() as u32);
        Wish { pages: self.pages, free, beyond: self.beyond, crowd: ask.crowd(), unreserved, user: ask.user() }
    }

    fn set(&mut self, pages: std::ops::Range<u32>) {
        self.free[pages.start as usize..pages.end as usize].fill(true);
    }

    fn free_count(&self) -> u32 {
        self.free.iter().filter(|&&free| free).count() as u32
    }

    /// A call that takes so many single pages.
    fn ask_for(&mut self, takes: u32) -> Ask {
        match (takes, self.random.below(3)) {
            (3, _) | (_, 0) => Ask::Grow(takes),
            (_, 1) => Ask::Indexed(takes),
            _ => Ask::User(takes),
        }
    }

    fn ask_any(&mut self) -> Ask {
        let (takes, count) = (self.random.between(1, 2), self.random.between(1, 20));
        match self.random.below(3) {
            0 => Ask::Contiguous { place: takes - 1, count },
            _ => self.ask_for(takes),
        }
    }

    /// Pages from here on by chance, few or none of them; so many at least, if there is room.
    fn some_above(&mut self, from: u32, least: u32) {
        let seldom = *self.random.pick(&[4, 40, 400]);
        for page in from..self.pages {
            self.free[page as usize] = self.random.one_in(seldom);
        }
        while from + least < self.pages && self.free[from as usize..].iter().filter(|&&free| free).count() < least as usize {
            let page = self.random.between(from, self.pages - 1);
            self.free[page as usize] = true;
        }
    }

    /// The lowest page of a bit in a word by chance, of the last words of a large volume.
    fn page_of(&mut self, bit: u32, words_above: u32) -> u32 {
        let last = self.pages / 16 - 1 - words_above;
        let lowest = if self.pages > 1_700 { last.min(101) } else { u32::from(bit == 0) };
        16 * self.random.between(lowest, last.max(lowest)) + bit
    }

    fn bit(&mut self, bit: u32, takes: u32) -> Ask {
        let first = self.page_of(bit, 1);
        self.set(first..first + 1);
        self.some_above(first + 1, takes - 1);
        self.ask_for(takes)
    }

    fn two(&mut self, gap: Gap) -> Ask {
        let (first, second) = match gap {
            Gap::NextBit0 => {
                let first = self.page_of(15, 1);
                (first, first + 1)
            }
            Gap::Words(least, most) => {
                let bit = self.random.between(1, 14);
                let first = self.page_of(bit, most);
                let word = first / 16 + self.random.between(least, most);
                let lowest = if least == 0 { bit + 1 } else { 0 };
                (first, 16 * word + self.random.between(lowest, 15))
            }
        };
        self.set(first..first + 1);
        self.set(second..second + 1);
        self.some_above(second + 1, 0);
        self.ask_for(2)
    }

    fn last(&mut self, takes: u32, beyond: Option<Beyond>) -> Ask {
        self.beyond = beyond.unwrap_or(self.beyond);
        self.set(self.pages - 1..self.pages);
        while self.free_count() < takes {
            let page = self.random.between(1, self.pages - 2);
            self.free[page as usize] = true;
        }
        self.ask_for(takes)
    }

    /// Words full, free and mixed by chance.
    fn chance(&mut self) -> Ask {
        let full = self.random.between(1, 7);
        for word in 0..self.pages / 16 + 1 {
            let free = self.random.below(8) >= full;
            let mixed = self.random.one_in(2);
            for page in (16 * word).max(1)..(16 * word + 16).min(self.pages) {
                self.free[page as usize] = free ^ (mixed && self.random.one_in(4));
            }
        }
        self.ask_any()
    }
}
