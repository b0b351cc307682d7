//! The pages that are held: rule 8, where one has two holders, and rule 9,
//! where its bit does not say so.

use super::Place;
use crate::bits::{is_reserved, page_and_word};
use crate::entry::{file_pointer, object, ENTRIES, ENTRIES_TO_A_PAGE};
use crate::image::pair;
use crate::pointer::{named, Pointer, SLOTS};
use crate::volume::{all_files, bit_run, bits, object_index, object_page, object_pointer, user_page, user_pointer};

/// Word 0 of the lowest page with two holders or more.
pub(super) fn rule_8(image: &[u16], pages: u32) -> Option<Place> {
    let holders = holders(image, pages);
    let page = (0..pages).find(|&page| holders[page as usize] > 1)?;
    Some(Place { page, word: 0 })
}

/// The word of the lowest page whose bit is wrong, in the page of the bit file that
/// has it.
pub(super) fn rule_9(image: &[u16], pages: u32) -> Option<Place> {
    let holders = holders(image, pages);
    let page = (0..pages).find(|&page| is_reserved(bits(image), page) != (holders[page as usize] > 0))?;
    let (n, word) = page_and_word(page);
    let page = bit_run(image).start + n;
    Some(Place { page, word })
}

/// How many holders each page has, where rules 1 to 7 hold. A block that so
/// many files share is read once, and counts so often.
fn holders(image: &[u16], pages: u32) -> Vec<u64> {
    let nobody = vec![0; pages as usize];
    let (mut holders, mut indexes, mut subindexes) = (nobody.clone(), nobody.clone(), nobody);
    let mut runs = vec![0_i64; pages as usize + 1];
    for page in system_pages(image) {
        holders[page as usize] += 1;
    }
    for (_, _, entry) in all_files(image) {
        match file_pointer(entry) {
            Pointer::Plain(first) => {
                runs[first as usize] += 1;
                runs[(first + pair(entry, object::PAGES)) as usize] -= 1;
            }
            Pointer::Indexed(block) => indexes[block as usize] += 1,
            Pointer::Subindexed(block) => subindexes[block as usize] += 1,
            Pointer::Zero | Pointer::Error => {}
        }
    }
    add_named(image, &subindexes, &mut indexes);
    add_named(image, &indexes, &mut holders);
    let mut over = 0;
    for page in 0..pages as usize {
        over += runs[page];
        holders[page] += indexes[page] + subindexes[page] + over as u64;
    }
    holders
}

/// Adds to each page how often the blocks that name it are held.
fn add_named(image: &[u16], blocks: &[u64], to: &mut [u64]) {
    for (block, &times) in blocks.iter().enumerate().filter(|&(_, &times)| times > 0) {
        for (_, page) in named(image, block as u32) {
            to[page as usize] += times;
        }
    }
}

/// The pages that no file holds, as often as they are held.
fn system_pages(image: &[u16]) -> Vec<u32> {
    let mut held = vec![0];
    held.extend(bit_run(image));
    if let Pointer::Indexed(block) = user_pointer(image) {
        held.push(block);
    }
    if let Pointer::Subindexed(block) = object_pointer(image) {
        held.push(block);
    }
    held.extend((0..ENTRIES / ENTRIES_TO_A_PAGE).filter_map(|n| user_page(image, n)));
    held.extend((0..4).filter_map(|n| object_index(image, n)));
    held.extend((0..4 * SLOTS).filter_map(|n| object_page(image, n)));
    held
}
