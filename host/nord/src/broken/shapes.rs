//! Rule 7: the shape of each file.

use super::asked::{Asked, Expected};
use crate::volume::{Disk, Entry, Holder, Kind, Pointer, ENTRIES_TO_A_PAGE, ENTRY_WORDS, SLOTS};
use proved::Place;

/// The most pages of an indexed file, and of a subindexed one.
const INDEXED: u32 = SLOTS;
const SUBINDEXED: u32 = SLOTS * SLOTS;
const PAST_INDEXED: u32 = INDEXED + 1;
const PAGE_BYTES: u32 = 2048;

/// The first file to which the place is wrong: its entry, then its subindex block, then its index blocks.
pub fn file(disk: &Disk, place: Place) -> Option<Asked> {
    disk.objects()
        .find_map(|(number, entry)| of_entry(disk, number, &entry, place).or_else(|| of_blocks(disk, number, &entry, place)))
}

/// A file's bytes and pointer.
fn of_entry(disk: &Disk, number: u32, entry: &Entry, place: Place) -> Option<Asked> {
    let position = number / ENTRIES_TO_A_PAGE;
    if place.word / ENTRY_WORDS != number % ENTRIES_TO_A_PAGE || disk.object_page(position) != place.page {
        return None;
    }
    let pages = entry.pages();
    let expected = match place.word % ENTRY_WORDS {
        28 => match pages.checked_mul(PAGE_BYTES) {
            Some(right) if right == entry.bytes() => return None,
            Some(right) => Expected::value(format!("{right}, 2,048 for each of {pages} pages"), right),
            None => Expected::words(format!("2,048 for each of {pages} pages, which no number of two words is")),
        },
        30 if !right(disk, entry) => pointer(disk, pages),
        _ => return None,
    };
    Some(expected.by(Holder::system(Kind::ObjectPage, position)))
}

/// Whether a file's pointer is right for its pages.
fn right(disk: &Disk, entry: &Entry) -> bool {
    let pages = entry.pages();
    match entry.pointer() {
        Pointer::None => pages == 0,
        Pointer::Plain(first) => pages > 0 && first.checked_add(pages).is_some_and(|end| end <= disk.pages()),
        Pointer::Indexed(block) => (1..=INDEXED).contains(&pages) && disk.inside(block),
        Pointer::Subindexed(block) => (PAST_INDEXED..=SUBINDEXED).contains(&pages) && disk.inside(block),
        Pointer::Both(_) => false,
    }
}

/// What is right for so many pages.
fn pointer(disk: &Disk, pages: u32) -> Expected {
    let last = disk.pages().saturating_sub(1);
    let plain = match pages {
        _ if pages > last => String::new(),
        _ => format!(", or a first page in 1..{} without flags (contiguous)", last + 1 - pages),
    };
    match pages {
        0 => Expected::value("zero, as the file has no pages", 0),
        1..=INDEXED => Expected::words(format!(
            "for {}: indexed to a page in 1..{last}{plain}",
            crate::answers::pages(pages)
        )),
        PAST_INDEXED..=SUBINDEXED => Expected::words(format!("for {pages} pages: subindexed to a page in 1..{last}{plain}")),
        _ => Expected::words(format!("none is right for {pages} pages")),
    }
}

/// A slot of a file's subindex block or of one of its index blocks.
fn of_blocks(disk: &Disk, number: u32, entry: &Entry, place: Place) -> Option<Asked> {
    let pages = entry.pages();
    let index = |n: u32| {
        let expected = must(disk, place, pages.saturating_sub(SLOTS * n), "pages")?;
        Some(expected.by(Holder::of_file(number, Kind::FileIndex, n)))
    };
    match entry.pointer() {
        Pointer::Indexed(block) if block == place.page => index(0),
        Pointer::Subindexed(subindex) => {
            let blocks = pages.div_ceil(SLOTS).min(SLOTS);
            let expected = (subindex == place.page)
                .then(|| must(disk, place, blocks, "index blocks"))
                .flatten();
            let top = expected.map(|expected| expected.by(Holder::of_file(number, Kind::FileSubindex, 0)));
            let here = |n: &u32| disk.slot(subindex, *n) == place.page;
            top.or_else(|| (0..blocks).filter(here).find_map(index))
        }
        _ => None,
    }
}

/// What a slot of a block must be, unless it is that: a page before slot `end`, zero from there on.
fn must(disk: &Disk, place: Place, end: u32, what: &str) -> Option<Expected> {
    let (slot, last) = (place.word / 2, disk.pages().saturating_sub(1));
    let page = disk.slot(place.page, slot);
    match slot < end {
        true if disk.inside(page) => None,
        true => Some(Expected::range(format!("a page in 1..{last}, without flags"), 1, last)),
        false if page == 0 => None,
        false => Some(Expected::value(format!("zero, past the file's {what}"), 0)),
    }
}
