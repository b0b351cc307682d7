//! Pointers, the blocks of 512 that hold them, and how many blocks a file
//! of so many pages has.

use crate::image::{page_start, pair, put_pair};

/// Pointers in a block.
pub const SLOTS: u32 = 512;

const SUBINDEXED_FLAG: u32 = 1 << 31;
const INDEXED_FLAG: u32 = 1 << 30;

/// A pointer as it is read: its flags told apart, the rest a page number.
#[derive(Clone, Copy, Debug, PartialEq, Eq)]
pub enum Pointer {
    /// All zero: no page.
    Zero,
    /// No flags: the page itself (of a contiguous file, its first page).
    Plain(u32),
    /// The page is an index block.
    Indexed(u32),
    /// The page is a subindex block.
    Subindexed(u32),
    /// Both flags set.
    Error,
}

impl Pointer {
    /// Reads the two-word number of a pointer.
    pub fn read(value: u32) -> Pointer {
        let page = value & !(SUBINDEXED_FLAG | INDEXED_FLAG);
        match (value & SUBINDEXED_FLAG != 0, value & INDEXED_FLAG != 0) {
            (true, true) => Pointer::Error,
            (true, false) => Pointer::Subindexed(page),
            (false, true) => Pointer::Indexed(page),
            (false, false) if page == 0 => Pointer::Zero,
            (false, false) => Pointer::Plain(page),
        }
    }

    /// The two-word number of a pointer to write.
    pub fn value(self) -> u32 {
        match self {
            Pointer::Zero => 0,
            Pointer::Plain(page) => page,
            Pointer::Indexed(page) => INDEXED_FLAG | page,
            Pointer::Subindexed(page) => SUBINDEXED_FLAG | page,
            Pointer::Error => SUBINDEXED_FLAG | INDEXED_FLAG,
        }
    }
}

/// The index block and the slot in which position n lies.
pub fn block_and_slot(position: u32) -> (u32, u32) {
    (position / SLOTS, position % SLOTS)
}

/// The pointer in a slot of a block (within blocks, a mere page number).
pub fn slot(image: &[u16], block: u32, slot: u32) -> u32 {
    pair(image, page_start(block) + 2 * slot as usize)
}

/// The slots of a block that are not zero, and the pages that they name.
pub fn named(image: &[u16], block: u32) -> impl Iterator<Item = (u32, u32)> + '_ {
    (0..SLOTS).map(move |n| (n, slot(image, block, n))).filter(|&(_, page)| page != 0)
}

/// Writes the pointer in a slot of a block.
pub fn put_slot(image: &mut [u16], block: u32, slot: u32, page: u32) {
    put_pair(image, page_start(block) + 2 * slot as usize, page);
}

/// Index blocks of an indexed file of so many pages.
pub fn index_blocks(pages: u32) -> u32 {
    pages.div_ceil(SLOTS)
}

/// All pages an indexed file holds: data, index blocks, subindex block.
pub fn pages_held(pages: u32) -> u64 {
    let subindex = u64::from(pages > SLOTS);
    u64::from(pages) + u64::from(index_blocks(pages)) + subindex
}

/// Pages taken when an indexed file of so many pages grows by one.
pub fn pages_to_grow(pages: u32) -> u32 {
    1 + u32::from(pages.is_multiple_of(SLOTS)) + u32::from(pages == SLOTS)
}
