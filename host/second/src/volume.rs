//! Reading a sound image: its users, its files, and where their pages are.
//! Nothing here is asked before the check has passed, or format has written it.

use crate::bits::{bit_pages, release, reserve};
use crate::entry::{entry_words, file_pointer, is_used, object, object_number, EntryPlace, ENTRIES};
use crate::image::{page_start, page_words_mut, pages_of, pair, BIT_POINTER, OBJECT_POINTER, UNRESERVED, USER_POINTER, VOLUME_NAME};
use crate::name::{Stored, NAME_WORDS};
use crate::pointer::{block_and_slot, index_blocks, slot, Pointer};
use crate::search::lowest_free;
use std::ops::Range;

/// What a page of a file is to it.
#[derive(Clone, Copy, PartialEq, Eq)]
pub(crate) enum Role {
    Subindex,
    Index,
    Data,
}

/// The volume's name, as it is stored.
pub(crate) fn volume_name(image: &[u16]) -> Stored {
    Stored::read(&image[VOLUME_NAME..][..NAME_WORDS])
}

pub(crate) fn user_pointer(image: &[u16]) -> Pointer {
    Pointer::read(pair(image, USER_POINTER))
}

pub(crate) fn object_pointer(image: &[u16]) -> Pointer {
    Pointer::read(pair(image, OBJECT_POINTER))
}

pub(crate) fn unreserved(image: &[u16]) -> u32 {
    pair(image, UNRESERVED)
}

/// The pages of the bit file.
pub(crate) fn bit_run(image: &[u16]) -> Range<u32> {
    let first = pair(image, BIT_POINTER);
    first..first + bit_pages(pages_of(image))
}

/// The words of the bit file, of all its pages.
pub(crate) fn bits(image: &[u16]) -> &[u16] {
    let run = bit_run(image);
    &image[page_start(run.start)..page_start(run.end)]
}

/// The same words, to change.
pub(crate) fn bits_mut(image: &mut [u16]) -> &mut [u16] {
    let run = bit_run(image);
    &mut image[page_start(run.start)..page_start(run.end)]
}

/// A pointer where there is one.
fn present(page: u32) -> Option<u32> {
    (page != 0).then_some(page)
}

/// The user page at a position, if it is there.
pub(crate) fn user_page(image: &[u16], position: u32) -> Option<u32> {
    match user_pointer(image) {
        Pointer::Indexed(block) => present(slot(image, block, position)),
        _ => None,
    }
}

/// The n-th index block of the object file, if it is there.
pub(crate) fn object_index(image: &[u16], n: u32) -> Option<u32> {
    match object_pointer(image) {
        Pointer::Indexed(block) if n == 0 => Some(block),
        Pointer::Subindexed(subindex) => present(slot(image, subindex, n)),
        _ => None,
    }
}

/// The object page at a position, if it is there.
pub(crate) fn object_page(image: &[u16], position: u32) -> Option<u32> {
    let (n, in_block) = block_and_slot(position);
    object_index(image, n).and_then(|block| present(slot(image, block, in_block)))
}

/// Where a used user's entry starts.
pub(crate) fn user_entry(image: &[u16], user: u32) -> Option<usize> {
    let place = EntryPlace::of(user);
    let start = place.start_in(user_page(image, place.position)?);
    is_used(entry_words(image, start)).then_some(start)
}

/// Where a used object's entry starts.
pub(crate) fn file_entry(image: &[u16], user: u32, file: u32) -> Option<usize> {
    let place = EntryPlace::of(object_number(user, file));
    let start = place.start_in(object_page(image, place.position)?);
    is_used(entry_words(image, start)).then_some(start)
}

/// The used users' indexes and entries, ascending.
pub(crate) fn users(image: &[u16]) -> impl Iterator<Item = (u32, &[u16])> {
    (0..ENTRIES).filter_map(|user| Some((user, entry_words(image, user_entry(image, user)?))))
}

/// A user's files' indexes and entries, ascending.
pub(crate) fn files(image: &[u16], user: u32) -> impl Iterator<Item = (u32, &[u16])> {
    (0..ENTRIES).filter_map(move |file| Some((file, entry_words(image, file_entry(image, user, file)?))))
}

/// All files' users, indexes and entries, ascending.
pub(crate) fn all_files(image: &[u16]) -> impl Iterator<Item = (u32, u32, &[u16])> {
    users(image).flat_map(move |(user, _)| files(image, user).map(move |(file, entry)| (user, file, entry)))
}

/// The page at a position of a file, or None from the file's end on.
pub(crate) fn data_page(image: &[u16], entry: &[u16], position: u32) -> Option<u32> {
    if position >= pair(entry, object::PAGES) {
        return None;
    }
    match file_pointer(entry) {
        Pointer::Plain(first) => Some(first + position),
        pointer => {
            let (n, in_block) = block_and_slot(position);
            Some(slot(image, index_block(image, pointer, n), in_block))
        }
    }
}

/// The n-th index block of a file with this pointer.
pub(crate) fn index_block(image: &[u16], pointer: Pointer, n: u32) -> u32 {
    match pointer {
        Pointer::Indexed(block) => block,
        Pointer::Subindexed(subindex) => slot(image, subindex, n),
        _ => unreachable!("a sound file without flags has no index block"),
    }
}

/// All pages a file holds, each with its role and position.
pub(crate) fn file_pages(image: &[u16], entry: &[u16]) -> Vec<(u32, Role, u32)> {
    let count = pair(entry, object::PAGES);
    let pointer = file_pointer(entry);
    let mut held = Vec::new();
    if let Pointer::Subindexed(block) = pointer {
        held.push((block, Role::Subindex, 0));
    }
    if matches!(pointer, Pointer::Indexed(_) | Pointer::Subindexed(_)) {
        let blocks = 0..index_blocks(count);
        held.extend(blocks.map(|n| (index_block(image, pointer, n), Role::Index, n)));
    }
    let data = (0..count).filter_map(|n| Some((data_page(image, entry, n)?, Role::Data, n)));
    held.extend(data);
    held
}

/// Takes the lowest free page and zeroes it. On a sound image there are at
/// least as many free pages as are unreserved, or given to a user and not
/// used: callers have seen to these numbers first.
pub(crate) fn take_page(image: &mut [u16]) -> u32 {
    let page = lowest_free(image, 0).expect("a sound image has a page for each promised");
    take_this(image, page);
    page
}

/// Takes a page known to be free and zeroes it.
pub(crate) fn take_this(image: &mut [u16], page: u32) {
    reserve(bits_mut(image), page);
    page_words_mut(image, page).fill(0);
}

/// Frees a page; its words stay.
pub(crate) fn free_page(image: &mut [u16], page: u32) {
    release(bits_mut(image), page);
}
