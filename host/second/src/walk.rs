//! The walk that marks each held page, and tells a file's shape (rule 7)
//! while it goes.

use crate::bits::bit_place;
use crate::image::{all_zero, page_words, pair};
use crate::pointer::{index_blocks, slot, Pointer, SLOTS};

/// The pages met so far.
pub(crate) struct Walk<'a> {
    image: &'a [u16],
    pages: u32,
    /// A bit for each page met, laid out as the bit file is.
    held: Vec<u16>,
    /// Pages met, each once.
    visits: u32,
    /// Whether a page was met again (rule 8 is then broken).
    twice: bool,
    /// For each page the slots it was read with as an index block; 0: not yet.
    read_as_index: Vec<u16>,
}

impl<'a> Walk<'a> {
    pub(crate) fn new(image: &'a [u16], pages: u32) -> Walk<'a> {
        Walk {
            image,
            pages,
            held: vec![0; pages.div_ceil(16) as usize],
            visits: 0,
            twice: false,
            read_as_index: vec![0; pages as usize],
        }
    }

    pub(crate) fn held(&self) -> &[u16] {
        &self.held
    }

    /// The pages met, once no more are to be marked.
    pub(crate) fn into_held(self) -> Vec<u16> {
        self.held
    }

    pub(crate) fn visits(&self) -> u32 {
        self.visits
    }

    pub(crate) fn met_twice(&self) -> bool {
        self.twice
    }

    /// Marks a page below P as held.
    pub(crate) fn mark(&mut self, page: u32) {
        let (word, bit) = bit_place(page);
        let mask = 1 << bit;
        if self.held[word] & mask != 0 {
            self.twice = true;
        } else {
            self.held[word] |= mask;
            self.visits += 1;
        }
    }

    fn in_range(&self, page: u32) -> bool {
        (1..self.pages).contains(&page)
    }

    /// Marks a file's pages. Answers whether its shape is right; where it is
    /// not, the marks mean nothing.
    pub(crate) fn mark_file(&mut self, count: u32, pointer: Pointer) -> bool {
        match pointer {
            Pointer::Zero => count == 0,
            Pointer::Plain(first) => self.mark_run(first, count),
            Pointer::Indexed(block) => (1..=SLOTS).contains(&count) && self.mark_index_block(block, count),
            Pointer::Subindexed(block) => self.mark_subindex_block(block, count),
            Pointer::Error => false,
        }
    }

    /// A contiguous file. Once a page is known to be met twice, more marks
    /// tell nothing new: stopping keeps the walk short on any image.
    fn mark_run(&mut self, first: u32, count: u32) -> bool {
        let end = u64::from(first) + u64::from(count);
        if count == 0 || first == 0 || end > u64::from(self.pages) {
            return false;
        }
        for page in first..first + count {
            if self.twice {
                break;
            }
            self.mark(page);
        }
        true
    }

    fn mark_subindex_block(&mut self, block: u32, count: u32) -> bool {
        let blocks = index_blocks(count);
        if count <= SLOTS || blocks > SLOTS || !self.in_range(block) {
            return false;
        }
        self.mark(block);
        let image = self.image;
        let filled = (0..blocks).all(|n| {
            let in_block = if n + 1 < blocks { SLOTS } else { count - n * SLOTS };
            self.mark_index_block(slot(image, block, n), in_block)
        });
        let rest = &page_words(image, block)[2 * blocks as usize..];
        filled && all_zero(rest)
    }

    /// An index block with 1..512 slots filled. A block read before is held
    /// twice and its slots are known: only their number can still be wrong.
    fn mark_index_block(&mut self, block: u32, count: u32) -> bool {
        if !self.in_range(block) {
            return false;
        }
        self.mark(block);
        let before = self.read_as_index[block as usize];
        if before != 0 {
            return u32::from(before) == count;
        }
        self.read_as_index[block as usize] = count as u16;
        let (filled, rest) = page_words(self.image, block).split_at(2 * count as usize);
        for pointer in filled.chunks_exact(2) {
            let page = pair(pointer, 0);
            if !self.in_range(page) {
                return false;
            }
            self.mark(page);
        }
        all_zero(rest)
    }
}
