//! The searches for free pages by themselves: the library's, one bit after another, and the second program's.

use crate::plain;
use second::image::PAGE_WORDS;
use second::search;
use std::fmt;

/// What is looked for.
#[derive(Clone, Copy, Debug, PartialEq, Eq)]
pub enum Search {
    /// The lowest free page.
    Lowest,
    /// The lowest free page from this one on, the one after the first that is free.
    Next(usize),
    /// The highest start of so many free pages in a row.
    Run(usize),
}

impl fmt::Display for Search {
    fn fmt(&self, f: &mut fmt::Formatter) -> fmt::Result {
        match self {
            Search::Lowest => write!(f, "lowest free page"),
            Search::Next(_) => write!(f, "the next one after it"),
            Search::Run(count) => write!(f, "highest run of {}", crate::report::grouped(*count as u64)),
        }
    }
}

impl Search {
    /// What is measured on an image. Where no page is free there is none after the first.
    pub fn all(image: &[u16]) -> Vec<Search> {
        let (first, pages) = (plain::lowest_free(image, 0), plain::bit_file(image).1);
        let next = (first < pages).then_some(Search::Next(first + 1));
        let runs = [1, 10, 1_000].map(Search::Run);
        [Search::Lowest].into_iter().chain(next).chain(runs).collect()
    }

    /// By the proved library: the page, or what stands for none (the image's pages, and 0 for a run).
    pub fn by_proved(self, image: &[u16]) -> usize {
        match self {
            Search::Lowest => probe::lowest_free(image, 0),
            Search::Next(from) => probe::lowest_free(image, from),
            Search::Run(count) => probe::highest_run(image, count),
        }
    }

    /// The same by one bit after another.
    pub fn by_plain(self, image: &[u16]) -> usize {
        match self {
            Search::Lowest => plain::lowest_free(image, 0),
            Search::Next(from) => plain::lowest_free(image, from),
            Search::Run(count) => plain::highest_run(image, count),
        }
    }

    /// The same by the second program.
    pub fn by_second(self, image: &[u16]) -> usize {
        let lowest = |from: usize| search::lowest_free(image, from as u32).map_or(image.len() / PAGE_WORDS, |page| page as usize);
        match self {
            Search::Lowest => lowest(0),
            Search::Next(from) => lowest(from),
            Search::Run(count) => search::highest_run(image, count as u32).map_or(0, |page| page as usize),
        }
    }

    /// What all of them give; nothing is measured where they differ.
    pub fn agreed(self, image: &[u16]) -> usize {
        let found = self.by_proved(image);
        assert_eq!(found, self.by_plain(image), "{self}: bit after bit");
        assert_eq!(found, self.by_second(image), "{self}: the second program");
        found
    }

    /// The page that was found, in words.
    pub fn told(self, image: &[u16]) -> String {
        let (found, pages) = (self.agreed(image), plain::bit_file(image).1);
        match self {
            Search::Run(_) if found == 0 => "none".into(),
            _ if found == pages => "none".into(),
            _ => found.to_string(),
        }
    }
}

#[cfg(test)]
mod tests {
    use super::*;
    use crate::nearly_full;
    use second::image::{pair, put_pair, BIT_POINTER};

    /// Numbers by chance, the same in each run.
    struct Chance(u64);

    impl Chance {
        fn next(&mut self) -> u32 {
            self.0 = self
                .0
                .wrapping_mul(6_364_136_223_846_793_005)
                .wrapping_add(1_442_695_040_888_963_407);
            (self.0 >> 33) as u32
        }

        /// A word whose bits are 1 by chance, so many times of 16; those of pages past the end as well.
        fn word(&mut self, ones: u32) -> u16 {
            (0..16).fold(0, |word, _| word << 1 | u16::from(self.next() % 16 < ones))
        }
    }

    /// An image of so many pages whose bits are chance's, with some words full and some empty.
    fn by_chance(chance: &mut Chance, pages: usize, ones: u32) -> Vec<u16> {
        let mut image = vec![0; pages * PAGE_WORDS];
        let bit_page = 1 + chance.next() as usize % (pages - 1);
        put_pair(&mut image, BIT_POINTER, bit_page as u32);
        for at in 0..PAGE_WORDS {
            image[bit_page * PAGE_WORDS + at] = match chance.next() % 8 {
                0 => u16::MAX,
                1 => 0,
                _ => chance.word(ones),
            };
        }
        image
    }

    #[test]
    fn all_find_the_same_by_chance() {
        let mut chance = Chance(2);
        for pages in [8, 15, 16, 17, 31, 100, 154, 333, 1_000] {
            for ones in [0, 1, 4, 8, 12, 15, 16] {
                let image = by_chance(&mut chance, pages, ones);
                (1..=40).for_each(|count| _ = Search::Run(count).agreed(&image));
                (0..=pages + 17).for_each(|from| _ = Search::Next(from).agreed(&image));
                Search::Lowest.agreed(&image);
            }
        }
    }

    /// Whether each page of a pack is free, bit after bit over all its bit pages.
    fn free_pages(image: &[u16]) -> Vec<bool> {
        let start = pair(image, BIT_POINTER) as usize * PAGE_WORDS;
        let bit = |page: usize| image[start + page / 16] >> (page % 16) & 1;
        (0..image.len() / PAGE_WORDS).map(|page| bit(page) == 0).collect()
    }

    /// A pack whose bit pages are full but for some words by chance, and for those about the edges of the bit pages.
    fn pack_by_chance(chance: &mut Chance, pages: usize) -> Vec<u16> {
        let (mut image, count) = (vec![0; pages * PAGE_WORDS], proved::bit_pages(pages));
        let first = 1 + chance.next() as usize % (pages - count);
        put_pair(&mut image, BIT_POINTER, first as u32);
        let bits = &mut image[first * PAGE_WORDS..][..count * PAGE_WORDS];
        for (at, word) in bits.iter_mut().enumerate() {
            let near = (at + 2) % PAGE_WORDS < 4;
            *word = if near || chance.next() % 64 == 0 {
                chance.word(4)
            } else {
                u16::MAX
            };
        }
        image
    }

    #[test]
    fn searches_go_over_all_bit_pages() {
        let mut chance = Chance(3);
        for pages in [16_385, 16_400, 33_000, 49_153] {
            let image = pack_by_chance(&mut chance, pages);
            let free = free_pages(&image);
            let edges = [0, 16_367, 16_383, 16_384, 32_767, 32_768, 49_152, pages - 1, pages, pages + 5];
            for from in edges.into_iter().chain((0..200).map(|n| n * 163)) {
                let wanted = (from..pages).find(|&page| free[page]).unwrap_or(pages);
                let search = Search::Next(from);
                assert_eq!(
                    (search.by_proved(&image), search.by_second(&image)),
                    (wanted, wanted),
                    "from {from} of {pages}"
                );
            }
            for count in [1, 2, 5, 9, 14, 17, 23, 31, 40] {
                let is_run = |start: &usize| free[*start..*start + count].iter().all(|&free| free);
                let wanted = (0..=pages - count).rev().find(is_run).unwrap_or(0);
                let search = Search::Run(count);
                assert_eq!(
                    (search.by_proved(&image), search.by_second(&image)),
                    (wanted, wanted),
                    "{count} of {pages}"
                );
            }
        }
    }

    #[test]
    fn all_find_the_same_on_nearly_full_volumes() {
        for volume in [2_500, 16_384].into_iter().flat_map(nearly_full::all) {
            let words = &volume.words;
            Search::all(words).into_iter().for_each(|search| _ = search.agreed(words));
        }
    }

    #[test]
    fn full_and_empty_bit_files() {
        let mut image = vec![0; 20 * PAGE_WORDS];
        put_pair(&mut image, BIT_POINTER, 3);
        assert_eq!(Search::all(&image).len(), 5);
        assert_eq!(Search::Run(20).told(&image), "none", "a run from page 0 on is the same as none");
        assert_eq!(
            (Search::Lowest.told(&image), Search::Run(19).told(&image)),
            ("0".into(), "1".into())
        );
        image[3 * PAGE_WORDS] = u16::MAX;
        image[3 * PAGE_WORDS + 1] = 0b1111;
        assert_eq!(Search::all(&image).len(), 4);
        assert!(
            Search::all(&image).iter().all(|search| search.told(&image) == "none"),
            "pages past the end are not free"
        );
    }
}
