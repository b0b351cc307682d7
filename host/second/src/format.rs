//! Format: a fresh volume without users.

use crate::arguments;
use crate::bits::{bit_pages, lies_within, reserve};
use crate::image::{page_count, put_pair, BIT_POINTER, OBJECT_POINTER, UNRESERVED, USER_POINTER, VOLUME_NAME};
use crate::name::{is_name, pack, NAME_WORDS};
use crate::reply::{demand, Outcome, Reply, BAD_ARGUMENT};
use crate::volume::bits_mut;

/// Formats the image. Without a first bit page it is P/2. Only the directory
/// entry's words and the pages of the bit file are written.
pub fn format(image: &mut [u16], name: &[u8], bit_page: Option<usize>) -> Reply {
    try_format(image, name, bit_page).into()
}

fn try_format(image: &mut [u16], name: &[u8], bit_page: Option<usize>) -> Outcome {
    let pages = page_count(image)?;
    let first = bit_page.map_or(Ok(pages / 2), |page| arguments::page(page, pages))?;
    demand(is_name(name) && lies_within(first, pages), BAD_ARGUMENT)?;
    image[VOLUME_NAME..][..NAME_WORDS].copy_from_slice(&pack::<NAME_WORDS>(name));
    put_pair(image, OBJECT_POINTER, 0);
    put_pair(image, USER_POINTER, 0);
    put_pair(image, BIT_POINTER, first);
    put_pair(image, UNRESERVED, pages - 1 - bit_pages(pages));
    let bits = bits_mut(image);
    bits.fill(0);
    reserve(bits, 0);
    for page in first..first + bit_pages(pages) {
        reserve(bits, page);
    }
    Ok(0)
}
