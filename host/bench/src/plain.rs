//! The plain searches for free pages, one bit after another: what the searches by words are measured beside. They find the bit page by the
//! master block's bit pointer, as the library's do, and give the same. They are for volumes of one bit page, as the nearly full ones are.

use second::image::{page_words, pair, BIT_POINTER, PAGE_WORDS};

/// The words of the bit file, and the image's pages. Each page has its bit: with this said once, a search need not see to it at each bit.
pub fn bit_file(image: &[u16]) -> (&[u16; PAGE_WORDS], usize) {
    let (bits, pages) = (page_words(image, pair(image, BIT_POINTER)), image.len() / PAGE_WORDS);
    assert!(pages <= 16 * PAGE_WORDS, "one bit page has a bit for each page");
    (bits.try_into().expect("a whole page"), pages)
}

fn is_reserved(bits: &[u16; PAGE_WORDS], page: usize) -> bool {
    (bits[page / 16] >> (page % 16)) % 2 == 1
}

/// The lowest free page from a page on, and the image's pages if there is none.
#[inline(never)]
pub fn lowest_free(image: &[u16], from: usize) -> usize {
    let (bits, pages) = bit_file(image);
    (from..pages).find(|&page| !is_reserved(bits, page)).unwrap_or(pages)
}

/// The highest start of so many free pages in a row, and 0 if there is none.
#[inline(never)]
pub fn highest_run(image: &[u16], count: usize) -> usize {
    let (bits, pages) = bit_file(image);
    let mut run = 0;
    for page in (0..pages).rev() {
        if is_reserved(bits, page) {
            run = 0;
        } else {
            run += 1;
            if run == count {
                return page;
            }
        }
    }
    0
}
