//! What a call's searches for free pages saw and found, told from the images before and after it, bit after bit.

use crate::calls::{Answer, Call};
use crate::scene::Scene;
use crate::words::{bit_pages, TO_A_BIT_PAGE};

/// The bit file before a call.
pub struct Before {
    pages: u32,
    free: Vec<bool>,
    beyond: Vec<bool>,
    /// The pages that the entry of the new contiguous file takes.
    place: usize,
}

/// What the searches of a call saw and found.
pub struct Searched {
    /// P.
    pub pages: u32,
    /// Whether each page below P is free: before the call, and without the single pages that it took.
    pub free: Vec<bool>,
    pub left: Vec<bool>,
    /// Whether each bit from P on in the word of page P's bit is 0, so that its page would be free if there were one.
    pub beyond: Vec<bool>,
    /// The single pages in the order they were taken.
    pub singles: Vec<u32>,
    pub run: Option<Run>,
    pub number: u32,
}

/// A search for so many free pages in a row.
#[derive(Clone, Copy)]
pub struct Run {
    pub count: u32,
    pub found: Option<u32>,
}

impl Before {
    pub fn read(image: &[u16], call: &Call) -> Before {
        let scene = Scene::read(image);
        let pages = scene.pages;
        let is_free = |page: u32| !scene.is_reserved(image, page);
        let word_end = (pages / 16 + 1) * 16;
        let place = match call {
            Call::CreateContiguous { user, .. } => place_takes(&scene, *user as u32),
            _ => 0,
        };
        let bits_end = bit_pages(pages) * TO_A_BIT_PAGE;
        Before { pages, free: (0..pages).map(is_free).collect(), beyond: (pages..word_end.min(bits_end)).map(is_free).collect(), place }
    }

    /// With the image after the call and its answer.
    pub fn after(self, image: &[u16], call: &Call, answer: &Answer) -> Searched {
        let Before { pages, free, beyond, place } = self;
        let mut seen = Searched { pages, left: free.clone(), free, beyond, singles: Vec::new(), run: None, number: answer.number };
        let scene = Scene::read(image);
        match (call, answer.number) {
            (Call::CreateContiguous { user, count, .. }, 0 | 11) => {
                seen.singles = seen.free_pages().take(place).collect();
                let found = (answer.number == 0).then(|| scene.file(*user, answer.value as usize).map(|file| file.page())).flatten();
                seen.run = Some(Run { count: *count as u32, found });
            }
            (Call::Grow { .. } | Call::CreateIndexed { .. } | Call::CreateUser { .. }, 0) => {
                seen.singles = seen.free_pages().filter(|&page| scene.is_reserved(image, page)).collect();
            }
            _ => {}
        }
        seen.singles.iter().for_each(|&page| seen.left[page as usize] = false);
        seen
    }
}

/// How many pages the entry of a user's next file takes: an index block and an object page, where they are absent.
fn place_takes(scene: &Scene, user: u32) -> usize {
    let file = (0..256).find(|&file| scene.file(user as usize, file as usize).is_none()).unwrap_or(0);
    let position = (256 * user + file) / 32;
    let no_page = scene.object_pages.iter().all(|&(at, _)| at != position);
    let no_block = scene.object_indexes.iter().all(|&(n, _)| n != position / 512);
    usize::from(no_page) + usize::from(no_block)
}

impl Searched {
    /// Whether the call searched at all.
    pub fn is_search(&self) -> bool {
        !self.singles.is_empty() || self.run.is_some()
    }

    fn free_pages(&self) -> impl Iterator<Item = u32> + '_ {
        (0..self.pages).filter(|&page| self.free[page as usize])
    }

    pub fn free_count(&self) -> u32 {
        self.free_pages().count() as u32
    }

    /// Whether some single page is such a one.
    pub fn single(&self, is: impl Fn(u32) -> bool) -> bool {
        self.singles.iter().any(|&page| is(page))
    }

    /// Whether two single pages, one taken after the other, have so many words from the one's to the other's.
    pub fn two_singles(&self, words: std::ops::RangeInclusive<u32>) -> bool {
        self.singles.windows(2).any(|two| words.contains(&(two[1] / 16 - two[0] / 16)))
    }

    /// Whether a run was found that is such a one: its first page and the page after its last.
    pub fn found(&self, is: impl Fn(u32, u32) -> bool) -> bool {
        self.run.is_some_and(|run| run.found.is_some_and(|first| is(first, first + run.count)))
    }

    /// Whether no run was found, the entry having taken so many pages.
    pub fn none(&self, place: usize) -> bool {
        self.run.is_some_and(|run| run.found.is_none()) && self.singles.len() == place
    }

    /// The stretches of free pages, ascending: first page and length.
    pub fn stretches(free: &[bool]) -> Vec<(u32, u32)> {
        let mut all: Vec<(u32, u32)> = Vec::new();
        for page in (0..free.len() as u32).filter(|&page| free[page as usize]) {
            match all.last_mut() {
                Some((first, length)) if *first + *length == page => *length += 1,
                _ => all.push((page, 1)),
            }
        }
        all
    }

    /// Whether there would be a run if of the entry's pages only the first so many were taken.
    pub fn runs_with(&self, taken: usize) -> bool {
        let mut free = self.free.clone();
        self.singles.iter().take(taken).for_each(|&page| free[page as usize] = false);
        self.run.is_some_and(|run| Searched::stretches(&free).iter().any(|&(_, length)| length >= run.count))
    }

    /// Whether the last pages would be a run, or the start of a higher one, if those from P on whose bits are 0 were free.
    pub fn tempting(&self) -> bool {
        let in_a_row = |free: &mut dyn Iterator<Item = &bool>| free.take_while(|&&free| free).count() as u32;
        let (below, from) = (in_a_row(&mut self.left.iter().rev()), in_a_row(&mut self.beyond.iter()));
        self.run.is_some_and(|run| below < run.count && from > 0 && below + from >= run.count)
    }
}
