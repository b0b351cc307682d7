//! The files' bytes, pointers and blocks: rule 7.

use super::place;
use crate::damage::Damage;
use crate::scene::File;
use crate::words::*;
use proved::Place;

impl Damage<'_> {
    pub(super) fn bytes(&mut self) -> Option<Place> {
        let file = self.some_file(|_| true)?;
        let bytes = 2048 * file.pages;
        let wrong = [bytes + 1, bytes.wrapping_sub(1), bytes + 2048, bytes ^ 1 << 31];
        match self.random.below(3) {
            0 => self.two(file.at + PAGES, file.pages + (1 << 21))?,
            _ => {
                let wrong = *self.random.pick(&wrong);
                self.two(file.at + BYTES, wrong)?;
            }
        }
        place(file.at + BYTES)
    }

    /// Another pointer for one of the files that fit.
    pub(super) fn pointer(&mut self, fits: impl Fn(&File) -> bool, wrong: impl Fn(&mut Self, &File) -> u32) -> Option<Place> {
        let file = self.some_file(fits)?;
        let wrong = wrong(self, file);
        self.two(file.at + POINTER, wrong).and(place(file.at + POINTER))
    }

    /// Another page count for one of the files that fit, with the bytes that go with it: the pointer is wrong then.
    pub(super) fn count(&mut self, fits: impl Fn(&File) -> bool, wrong: impl Fn(&mut Self, &File) -> u32) -> Option<Place> {
        let file = self.some_file(fits)?;
        let pages = wrong(self, file);
        self.two(file.at + PAGES, pages)?;
        self.two(file.at + BYTES, 2048 * pages).and(place(file.at + POINTER))
    }

    /// Where a run of so many pages, two at least, starts within the volume and ends past it.
    pub(super) fn past_the_end(&mut self, file: &File) -> u32 {
        let pages = self.scene.pages;
        self.random.between((pages + 1).saturating_sub(file.pages).max(1), pages - 1)
    }

    /// So many pages that a run from there ends past the volume, one page or many.
    pub(super) fn too_long(&mut self, file: &File) -> u32 {
        let room = self.scene.pages - file.page();
        *self.random.pick(&[room + 1, room + 1, room + 512, 262_145, (1 << 21) - 1])
    }

    /// Any page for a file that has none.
    pub(super) fn some_page(&mut self, file: &File) -> u32 {
        match file.page() {
            0 => self.random.between(1, self.scene.pages - 1),
            page => page,
        }
    }

    /// A slot of a subindex block that is needed, or that is not.
    pub(super) fn subindex_slot(&mut self, needed: bool) -> Option<Place> {
        let file = self.some_file(File::is_subindexed)?;
        self.filled_slot(file.page(), file.pages.div_ceil(512), needed)
    }

    /// The same of the index block of some number.
    pub(super) fn index_slot(
        &mut self,
        fits: impl Fn(&File) -> bool,
        number: impl Fn(&mut Self, &File) -> u32,
        needed: bool,
    ) -> Option<Place> {
        let file = self.some_file(fits)?;
        let n = number(self, file);
        let block = if file.is_indexed() { file.page() } else { pair(self.image, slot_at(file.page(), n)) };
        self.filled_slot(block, (file.pages - 512 * n).min(512), needed)
    }

    /// One of the first slots of a block with no page, or one of the others with anything.
    fn filled_slot(&mut self, block: u32, filled: u32, needed: bool) -> Option<Place> {
        (needed || filled < 512).then_some(())?;
        let (low, high) = if needed { (0, filled - 1) } else { (filled, 511) };
        let slot = if self.random.one_in(2) { *self.random.pick(&[low, high]) } else { self.random.between(low, high) };
        let at = slot_at(block, slot);
        let wrong = match needed {
            true if self.random.one_in(3) => 0,
            true => self.no_page(pair(self.image, at)),
            false => *self.random.pick(&[1, self.scene.pages - 1, self.scene.pages, 65_536, u32::MAX]),
        };
        self.two(at, wrong).and(place(at))
    }
}
