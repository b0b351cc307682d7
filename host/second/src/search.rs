//! Searching the bit file for free pages, a word of 16 pages at a step
//! (document 02, T-02). Bits from P on are not read: in the word that holds P
//! they count as reserved.

use crate::bits::{free_in_word, words_in_use};
use crate::image::pages_of;
use crate::volume;

/// The lowest free page of a sound image from page `from` on.
pub fn lowest_free(image: &[u16], from: u32) -> Option<u32> {
    lowest_free_of(volume::bits(image), pages_of(image), from)
}

/// The highest start with `n` free pages in a row on a sound image; `n` is
/// not 0.
pub fn highest_run(image: &[u16], n: u32) -> Option<u32> {
    highest_run_of(volume::bits(image), pages_of(image), n)
}

/// The lowest free page from page `from` on, by the bit file's words: full
/// words are skipped, and the trailing zeros of the first that is not full,
/// inverted, tell the page.
pub(crate) fn lowest_free_of(bits: &[u16], pages: u32, from: u32) -> Option<u32> {
    let first = from as usize / 16;
    (first..words_in_use(pages)).find_map(|word| {
        let skipped = if word == first { from % 16 } else { 0 };
        let free = free_in_word(bits, pages, word) & u16::MAX << skipped;
        (free != 0).then(|| 16 * word as u32 + free.trailing_zeros())
    })
}

/// The highest start with so many free pages in a row, by the bit file's
/// words from the last down. `above` is how many pages in a row are free from
/// the end of the word on; they are fewer than wanted, or the search was over.
pub(crate) fn highest_run_of(bits: &[u16], pages: u32, count: u32) -> Option<u32> {
    let mut above = 0;
    for word in (0..words_in_use(pages)).rev() {
        let free = free_in_word(bits, pages, word);
        let (start, end) = (16 * word as u32, 16 * word as u32 + 16);
        if free.leading_ones() + above >= count {
            return Some(end + above - count);
        }
        if let Some(bit) = highest_run_within(free, count) {
            return Some(start + bit);
        }
        above = match free {
            u16::MAX => above + 16,
            _ => free.trailing_ones(),
        };
    }
    None
}

/// The highest bit of a word from which so many ones go on to the left.
fn highest_run_within(ones: u16, count: u32) -> Option<u32> {
    if ones.count_ones() < count {
        return None;
    }
    let starts = (1..count).fold(ones, |starts, n| starts & ones >> n);
    starts.checked_ilog2()
}
