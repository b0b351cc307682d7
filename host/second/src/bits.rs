//! The bit file: one bit for each page, 1 is reserved. It is a run of pages, as
//! many as P wants (document 02, T-06). The words of a run lie one after the
//! other, so here they are counted from its start on, over all of its pages.

use crate::image::PAGE_WORDS;

/// Pages of the volume for which one page of the bit file has bits.
pub const PAGES_TO_A_BIT_PAGE: u32 = 16 * PAGE_WORDS as u32;

/// Pages of the bit file of a volume of so many.
pub fn bit_pages(pages: u32) -> u32 {
    pages.div_ceil(PAGES_TO_A_BIT_PAGE)
}

/// Whether a bit file that starts with this page lies in 1..P-1, all of it.
pub fn lies_within(first: u32, pages: u32) -> bool {
    first >= 1 && u64::from(first) + u64::from(bit_pages(pages)) <= u64::from(pages)
}

/// The page of the bit file, from 0, and the word of it, in which a page has its
/// bit.
pub fn page_and_word(page: u32) -> (u32, u32) {
    (page / PAGES_TO_A_BIT_PAGE, page % PAGES_TO_A_BIT_PAGE / 16)
}

/// The word, from the start of the bit file, and the bit (from the right) of a
/// page.
pub fn bit_place(page: u32) -> (usize, u32) {
    (page as usize / 16, page % 16)
}

/// The bits of a word of the bit file that stand for pages below P.
pub fn bits_below(pages: u32, word: usize) -> u16 {
    let left = pages.saturating_sub(16 * word as u32);
    if left >= 16 {
        u16::MAX
    } else {
        (1 << left) - 1
    }
}

/// Words of the bit file that have a bit for a page below P.
pub fn words_in_use(pages: u32) -> usize {
    pages.div_ceil(16) as usize
}

pub fn is_reserved(bits: &[u16], page: u32) -> bool {
    let (word, bit) = bit_place(page);
    bits[word] >> bit & 1 == 1
}

pub fn reserve(bits: &mut [u16], page: u32) {
    let (word, bit) = bit_place(page);
    bits[word] |= 1 << bit;
}

pub fn release(bits: &mut [u16], page: u32) {
    let (word, bit) = bit_place(page);
    bits[word] &= !(1 << bit);
}

/// The reserved count: the ones below P.
pub fn reserved_count(bits: &[u16], pages: u32) -> u32 {
    (0..words_in_use(pages))
        .map(|word| (bits[word] & bits_below(pages, word)).count_ones())
        .sum()
}

/// The free pages below P of a word of the bit file, a one for each.
pub fn free_in_word(bits: &[u16], pages: u32, word: usize) -> u16 {
    !bits[word] & bits_below(pages, word)
}
