//! A sound volume whose pages below 65,536 are all held by one contiguous file: whatever else it holds, and whatever a call takes, has a
//! number with a high word (document 02, T-06).

use super::Making;
use crate::random::Random;
use crate::scattered::{Crowd, FIRST};
use crate::volumes::by_chance;
use crate::words::*;

/// The first user's files are an indexed one, an empty one, a subindexed one, a contiguous one of few pages, and the one that holds the low
/// pages.
pub const INDEXED: usize = 0;
pub const SHORT_RUN: usize = 3;
pub const LOW_RUN: usize = 4;

/// Such a volume of so many pages, whose first user may use half of what is free.
pub fn high(random: &mut Random, pages: u32, low: u32) -> Vec<u16> {
    let mut making = Making::above(random, pages, low);
    making.master();
    making.crowd(Crowd::Few);
    let block = making.block().expect("a page for the object file");
    put_pair(&mut making.image, OBJECT_POINTER, S | block);
    making.first_files(low);
    making.halves();
    making.bits();
    making.image
}

impl Making<'_> {
    /// All pages from here on are free, and the last ten are kept for a run.
    fn above(random: &mut Random, pages: u32, low: u32) -> Making<'_> {
        let image = by_chance(random, pages);
        let mut free: Vec<u32> = (low..pages - 10).collect();
        random.shuffle(&mut free);
        Making { random, image, pages, free, runs: vec![(pages - 10, 10)], held: vec![0], system: 1, users: Vec::new() }
    }

    fn first_files(&mut self, low: u32) {
        let page = self.object_page(0, true).expect("an object page");
        let length = self.random.between(1, 20);
        let block = self.index_block(length);
        let longer = self.random.between(513, 700);
        let subindexed = self.subindexed_file(longer);
        let (first, count) = self.runs.pop().expect("a run was kept");
        self.held.extend(first..first + count);
        self.held.extend(1..low);
        let shapes = [(length, I | block, length + 1), (0, 0, 0), subindexed, (count, first, count), (low - 1, 1, low - 1)];
        for (number, shape) in (0..).zip(shapes) {
            self.entry(FIRST as usize, number, entry_at(page, number), shape);
        }
    }

    /// Given and used of every user, and unreserved: the first user has half of what is free.
    fn halves(&mut self) {
        let free = self.pages - self.held.len() as u32;
        for &(user, at, used) in &self.users {
            let more = if user == FIRST { free / 2 } else { 0 };
            put_pair(&mut self.image, at + GIVEN, used + more);
            put_pair(&mut self.image, at + USED, used);
        }
        put_pair(&mut self.image, UNRESERVED, free - free / 2);
    }
}

#[cfg(test)]
mod tests {
    use super::*;

    /// The volume is sound, and its low pages are one file's. A low border does as well as 65,536.
    #[test]
    fn low_pages_are_held() {
        let mut random = Random::of_round(24, 0);
        for pages in [1_900, 2_500, 17_000] {
            let image = high(&mut random, pages, 1_000);
            assert_eq!(second::check(&image).number, 0, "{:?}", second::check(&image));
            assert_eq!(second::who_holds(&image, 999).holder.file, LOW_RUN as u32);
            assert_eq!(second::grow(&mut image.clone(), 0, INDEXED).number, 0);
        }
    }
}
