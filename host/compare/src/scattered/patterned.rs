//! Sound volumes whose free pages are chosen: files hold all the others, their pages and the system's by chance among those that are held.

use super::Making;
use crate::random::Random;
use crate::volumes::by_chance;
use crate::words::*;

/// The user whose files hold the pages: a new file of his takes no page for its entry. His first file is indexed and takes one page to grow,
/// his second is empty and takes two; where there is room his third has 512 pages and takes three.
pub const FIRST: u32 = 0;

/// A user without an object page, and one whose object index block is absent, too: a new file's entry takes one page, and two.
pub const OTHER: u32 = 1;
pub const LATER: u32 = 70;

/// Who is there, so what a new user takes.
#[derive(Clone, Copy, PartialEq)]
pub enum Crowd {
    /// The three users above: a new one takes no page.
    Few,
    /// Users 0 to 31, and the later one: a new one takes a user page.
    OnePage,
    /// Users 0 to 63 under a single object index: a new one takes a user page and the subindex block. The later one is not there.
    TwoPages,
}

/// The bits from P on in the word that has the bit of page P.
#[derive(Clone, Copy)]
pub enum Beyond {
    Zeros,
    Ones,
    Chance,
}

/// What a volume is to be.
pub struct Wish {
    pub pages: u32,
    /// The free pages.
    pub free: Vec<u32>,
    pub beyond: Beyond,
    pub crowd: Crowd,
    /// So many of the free pages are unreserved; this user may use the others.
    pub unreserved: u32,
    pub user: u32,
}

/// A sound volume as it is wished for. It holds 12 pages at least.
pub fn patterned(random: &mut Random, wish: &Wish) -> Vec<u16> {
    let mut making = Making::holding(random, wish);
    making.master();
    making.crowd(wish.crowd);
    making.all_held(wish.crowd != Crowd::TwoPages);
    making.shares(wish);
    making.bits();
    making.beyond(wish);
    making.image
}

impl Making<'_> {
    /// All pages but the free ones are still to be held.
    fn holding<'a>(random: &'a mut Random, wish: &Wish) -> Making<'a> {
        let image = by_chance(random, wish.pages);
        let mut held = vec![true; wish.pages as usize];
        wish.free.iter().for_each(|&page| held[page as usize] = false);
        let mut left: Vec<u32> = (1..wish.pages).filter(|&page| held[page as usize]).collect();
        random.shuffle(&mut left);
        Making { random, image, pages: wish.pages, free: left, runs: Vec::new(), held: vec![0], system: 1, users: Vec::new() }
    }

    pub(super) fn crowd(&mut self, crowd: Crowd) {
        let index = self.block().expect("a page for the user index");
        put_pair(&mut self.image, USER_POINTER, I | index);
        let users: Vec<u32> = match crowd {
            Crowd::Few => vec![FIRST, OTHER, LATER],
            Crowd::OnePage => (0..32).chain([LATER]).collect(),
            Crowd::TwoPages => (0..64).collect(),
        };
        for user in users {
            let slot = slot_at(index, user / 32);
            if pair(&self.image, slot) == 0 {
                let page = self.entry_page().expect("a user page");
                put_pair(&mut self.image, slot, page);
            }
            let page = pair(&self.image, slot);
            self.user(user, entry_at(page, user));
        }
    }

    /// The object file with one page, and in it files of the first user that hold all that is left.
    fn all_held(&mut self, subindexed: bool) {
        let block = self.block().expect("a page for the object file");
        put_pair(&mut self.image, OBJECT_POINTER, block | if subindexed { S } else { I });
        let page = self.object_page(0, subindexed).expect("an object page");
        let left = self.free.len() as u32;
        let length = self.random.between(1, (left - 1).min(300));
        let block = self.index_block(length);
        self.entry(0, 0, entry_at(page, 0), (length, I | block, length + 1));
        self.entry(0, 1, entry_at(page, 1), (0, 0, 0));
        for number in 2..32 {
            if !self.free.is_empty() {
                let shape = self.holder(number);
                self.entry(0, number, entry_at(page, number), shape);
            }
        }
        assert!(self.free.is_empty(), "32 files hold all pages");
    }

    /// Pages, pointer and held pages of a file that holds some of what is left.
    fn holder(&mut self, number: u32) -> (u32, u32, u32) {
        let left = self.free.len() as u32;
        match left {
            1_100.. if number > 2 => {
                let length = self.random.between(900, 1_050);
                self.subindexed_file(length)
            }
            513.. => (512, I | self.index_block(512), 513),
            _ => {
                let held = if number < 20 && self.random.one_in(2) { self.random.between(1, left) } else { left };
                match held {
                    1 => (1, self.file_page(), 1),
                    _ => (held - 1, I | self.index_block(held - 1), held),
                }
            }
        }
    }

    /// Given and used of every user, and unreserved.
    fn shares(&mut self, wish: &Wish) {
        for &(user, at, used) in &self.users {
            let more = if user == wish.user { wish.free.len() as u32 - wish.unreserved } else { 0 };
            put_pair(&mut self.image, at + GIVEN, used + more);
            put_pair(&mut self.image, at + USED, used);
        }
        put_pair(&mut self.image, UNRESERVED, wish.unreserved);
    }

    /// The bits from P on: they are not read, so the volume is sound with any.
    fn beyond(&mut self, wish: &Wish) {
        if wish.pages.is_multiple_of(TO_A_BIT_PAGE) {
            return;
        }
        let at = pair(&self.image, BIT_POINTER) as usize * PAGE + wish.pages as usize / 16;
        let bits = u16::MAX << (wish.pages % 16);
        match wish.beyond {
            Beyond::Zeros => self.image[at] &= !bits,
            Beyond::Ones => self.image[at] |= bits,
            Beyond::Chance => {}
        }
    }
}

#[cfg(test)]
mod tests {
    use super::*;
    use crate::scene::Scene;

    /// The volumes are sound, and their free pages are those that were chosen.
    #[test]
    fn free_pages_are_as_wished() {
        let mut random = Random::of_round(6, 0);
        for n in 0..54 {
            let pages = [40 + n, 300 + n, 1_250 + n][n as usize % 3];
            let held = [12, pages, pages / 2][n as usize / 3 % 3];
            let mut all: Vec<u32> = (1..pages).collect();
            random.shuffle(&mut all);
            let mut free = all.split_off(held as usize - 1);
            free.sort_unstable();
            let crowd = [Crowd::Few, Crowd::OnePage, Crowd::TwoPages][n as usize / 9 % 3];
            let beyond = *random.pick(&[Beyond::Zeros, Beyond::Ones, Beyond::Chance]);
            let unreserved = random.below(free.len() as u32 + 1);
            let wish = Wish { pages, free, beyond, crowd, unreserved, user: OTHER };
            let image = patterned(&mut random, &wish);
            assert_eq!((second::check(&image).number, second::check(&image).value), (0, held), "{:?}", second::check(&image));
            assert_eq!(Scene::read(&image).free_pages(&image), wish.free);
        }
    }
}
