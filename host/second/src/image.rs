//! The image as words: its pages, its two-word numbers, and where the
//! directory entry keeps things in page 0.

use crate::reply::{demand, Refusal, BAD_LENGTH};

/// Words of a page.
pub const PAGE_WORDS: usize = 1024;

/// Pages of the smallest and of the largest volume (document 02, T-06); the latter
/// is the largest page count of a call, too.
pub const FEWEST_PAGES: u32 = 8;
pub const MOST_PAGES: u32 = 140_733;

/// The directory entry, as words of page 0.
pub const VOLUME_NAME: usize = 1008;
pub const OBJECT_POINTER: usize = 1016;
pub const USER_POINTER: usize = 1018;
pub const BIT_POINTER: usize = 1020;
pub const UNRESERVED: usize = 1022;

/// P, where the length is a whole number of pages, not too few and not too many.
pub(crate) fn page_count(image: &[u16]) -> Result<u32, Refusal> {
    demand(image.len().is_multiple_of(PAGE_WORDS), BAD_LENGTH)?;
    let pages = u32::try_from(image.len() / PAGE_WORDS).map_err(|_| BAD_LENGTH)?;
    demand((FEWEST_PAGES..=MOST_PAGES).contains(&pages), BAD_LENGTH)?;
    Ok(pages)
}

/// P of an image whose length is known to be right.
pub fn pages_of(image: &[u16]) -> u32 {
    (image.len() / PAGE_WORDS) as u32
}

/// A two-word number, the more significant word first.
pub fn pair(words: &[u16], at: usize) -> u32 {
    u32::from(words[at]) << 16 | u32::from(words[at + 1])
}

/// Writes a two-word number.
pub fn put_pair(words: &mut [u16], at: usize, value: u32) {
    words[at] = (value >> 16) as u16;
    words[at + 1] = value as u16;
}

/// Where a page starts in the image.
pub fn page_start(page: u32) -> usize {
    page as usize * PAGE_WORDS
}

/// The 1,024 words of a page.
pub fn page_words(image: &[u16], page: u32) -> &[u16] {
    &image[page_start(page)..][..PAGE_WORDS]
}

/// The 1,024 words of a page, to change.
pub fn page_words_mut(image: &mut [u16], page: u32) -> &mut [u16] {
    &mut image[page_start(page)..][..PAGE_WORDS]
}

/// Whether all words are zero. All are looked at without stopping early: most
/// often they are, and this way the compiler takes many at a time.
pub fn all_zero(words: &[u16]) -> bool {
    words.iter().fold(0, |any, word| any | word) == 0
}
