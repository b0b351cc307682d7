//! What a caller's numbers may be (number 2).

use crate::entry::ENTRIES;
use crate::image::MOST_PAGES;
use crate::reply::{Refusal, BAD_ARGUMENT};

/// A caller's number, where it is at most the bound: it is judged in its full
/// width before it is taken for one of 32 bits.
fn at_most(number: usize, bound: u32) -> Result<u32, Refusal> {
    let fits = u32::try_from(number).ok().filter(|&number| number <= bound);
    fits.ok_or(BAD_ARGUMENT)
}

/// A user or file index, 0..255.
pub(crate) fn index(index: usize) -> Result<u32, Refusal> {
    at_most(index, ENTRIES - 1)
}

/// A page count: at least 1, and at most as many as the largest volume has, however
/// small this one is.
pub(crate) fn count(count: usize) -> Result<u32, Refusal> {
    at_most(count, MOST_PAGES).and_then(|count| if count == 0 { Err(BAD_ARGUMENT) } else { Ok(count) })
}

/// A page number below P.
pub(crate) fn page(page: usize, pages: u32) -> Result<u32, Refusal> {
    at_most(page, pages - 1)
}
