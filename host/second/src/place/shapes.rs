//! The files' shapes, by their entries' numbers: rule 7. All of one file comes
//! before the next: its bytes, its pointer, its subindex block, its index
//! blocks.

use super::blocks::first_slot;
use super::entries::{objects, Entry};
use super::{in_range, wrong};
use crate::entry::{file_pointer, object};
use crate::image::pair;
use crate::pointer::{index_blocks, slot, Pointer, SLOTS};
use crate::reply::Place;

pub(super) fn rule_7(image: &[u16], pages: u32) -> Option<Place> {
    let mut shapes = Shapes::new(image, pages);
    objects(image).find_map(|entry| shapes.file(&entry))
}

/// What is known to be right: for each page the page count with which it was
/// seen as a subindex block, and the filled slots with which it was seen as an
/// index block; 0 where it was not. A block is right for one number alone, so
/// it is read once, and once more where it is wrong: all files may share it.
struct Shapes<'a> {
    image: &'a [u16],
    pages: u32,
    subindexes: Vec<u32>,
    indexes: Vec<u32>,
}

impl<'a> Shapes<'a> {
    fn new(image: &'a [u16], pages: u32) -> Shapes<'a> {
        let unknown = vec![0; pages as usize];
        Shapes {
            image,
            pages,
            subindexes: unknown.clone(),
            indexes: unknown,
        }
    }

    /// The first wrong place of a file.
    fn file(&mut self, entry: &Entry) -> Option<Place> {
        let (count, bytes) = (pair(entry.words, object::PAGES), pair(entry.words, object::BYTES));
        let pointer = file_pointer(entry.words);
        wrong(u64::from(bytes) != 2048 * u64::from(count), entry.place(object::BYTES))
            .or_else(|| wrong(!self.is_right(pointer, count), entry.place(object::POINTER)))
            .or_else(|| match pointer {
                Pointer::Indexed(block) => self.index_block(block, count),
                Pointer::Subindexed(block) => self.subindex_block(block, count),
                _ => None,
            })
    }

    /// Whether a pointer is right for so many pages, its blocks aside.
    fn is_right(&self, pointer: Pointer, count: u32) -> bool {
        match pointer {
            Pointer::Error => false,
            Pointer::Zero => count == 0,
            Pointer::Plain(first) => {
                let end = u64::from(first) + u64::from(count);
                count > 0 && in_range(first, self.pages) && end <= u64::from(self.pages)
            }
            Pointer::Indexed(block) => (1..=SLOTS).contains(&count) && in_range(block, self.pages),
            Pointer::Subindexed(block) => (SLOTS + 1..=SLOTS * SLOTS).contains(&count) && in_range(block, self.pages),
        }
    }

    /// The first wrong slot of a subindex block, then of its index blocks.
    fn subindex_block(&mut self, block: u32, count: u32) -> Option<Place> {
        if self.subindexes[block as usize] == count {
            return None;
        }
        let (image, blocks) = (self.image, index_blocks(count));
        let found = self.wrong_slot(block, blocks).or_else(|| {
            (0..blocks).find_map(|n| {
                let filled = (count - n * SLOTS).min(SLOTS);
                self.index_block(slot(image, block, n), filled)
            })
        });
        if found.is_none() {
            self.subindexes[block as usize] = count;
        }
        found
    }

    /// The first wrong slot of an index block.
    fn index_block(&mut self, block: u32, filled: u32) -> Option<Place> {
        if self.indexes[block as usize] == filled {
            return None;
        }
        let found = self.wrong_slot(block, filled);
        if found.is_none() {
            self.indexes[block as usize] = filled;
        }
        found
    }

    /// The first wrong slot of a block whose first slots are filled, each with
    /// a page in 1..P-1, and the others zero.
    fn wrong_slot(&self, block: u32, filled: u32) -> Option<Place> {
        first_slot(
            self.image,
            block,
            |n, page| if n < filled { !in_range(page, self.pages) } else { page != 0 },
        )
    }
}
