//! Rules 1, 2, 3 and 5: the directory entry, the user index, the blocks of the object file.

use super::asked::{Asked, Expected};
use super::names;
use crate::volume::{
    Disk, Holder, Kind, Pointer, BIT_POINTER, OBJECT_BLOCKS, OBJECT_POINTER, SLOTS, USER_PAGES, USER_POINTER, VOLUME_NAME,
};
use proved::Place;

/// The first user whose files an indexed object file has no place for.
const PAST_INDEXED: u32 = 64;

/// The last page.
fn last(disk: &Disk) -> u32 {
    disk.pages().saturating_sub(1)
}

/// Rule 1.
pub fn volume(disk: &Disk, place: Place) -> Option<Asked> {
    let expected = match place.word {
        VOLUME_NAME => Expected::words(names::NAME),
        BIT_POINTER => bit_pointer(disk),
        _ => return None,
    };
    Some(expected.by(Holder::system(Kind::Master, 0)))
}

/// A pointer whose whole run of bit pages lies in 1..P-1.
fn bit_pointer(disk: &Disk) -> Expected {
    let (count, last) = (disk.bit_pages(), last(disk));
    let highest = (last + 1).saturating_sub(count);
    let words = match count {
        0 | 1 => format!("a page in 1..{last}, without flags"),
        _ => format!("a page in 1..{highest}, without flags, so that all {count} pages of the bit file lie in 1..{last}"),
    };
    Expected::range(words, 1, highest)
}

/// Rule 2.
pub fn pointers(disk: &Disk, place: Place) -> Option<Asked> {
    let last = last(disk);
    let (object, user) = (disk.object_pointer(), disk.user_pointer());
    let expected = match place.word {
        OBJECT_POINTER if user == Pointer::None => Expected::value("zero, as the user pointer is zero", 0),
        OBJECT_POINTER if object == Pointer::None => Expected::words(format!(
            "indexed or subindexed to a page in 1..{last}, as the user pointer is not zero"
        )),
        OBJECT_POINTER => Expected::words(format!("indexed or subindexed to a page in 1..{last}")),
        USER_POINTER => Expected::range(format!("indexed to a page in 1..{last}"), INDEXED + 1, INDEXED + last),
        _ => return None,
    };
    Some(expected.by(Holder::system(Kind::Master, 0)))
}

/// Bit 30 of a pointer.
const INDEXED: u32 = 1 << 30;

/// Rule 3.
pub fn user_index(disk: &Disk, place: Place) -> Option<Asked> {
    let expected = may(disk, place, USER_PAGES)?;
    Some(expected.by(Holder::system(Kind::UserIndex, 0)))
}

/// Rule 5: the whole subindex block before any index block.
pub fn objects(disk: &Disk, place: Place) -> Option<Asked> {
    if place.page == 0 {
        return indexed_too_long(disk, place);
    }
    if disk.object_pointer() == Pointer::Subindexed(place.page) {
        if let Some(expected) = may(disk, place, OBJECT_BLOCKS) {
            return Some(expected.by(Holder::system(Kind::ObjectSubindex, 0)));
        }
    }
    let n = (0..OBJECT_BLOCKS).find(|n| disk.object_block(*n) == place.page)?;
    Some(may(disk, place, SLOTS)?.by(Holder::system(Kind::ObjectIndex, n)))
}

/// An indexed object file with a user for whom it has no place.
fn indexed_too_long(disk: &Disk, place: Place) -> Option<Asked> {
    let (user, _) = disk.users().find(|(user, _)| *user >= PAST_INDEXED)?;
    let words = format!("subindexed, as there is {}", disk.user_words(user));
    (place.word == OBJECT_POINTER).then(|| Expected::words(words).by(Holder::system(Kind::Master, 0)))
}

/// What a slot of a block may be, unless it is that: zero or a page before slot `end`, zero from there on.
fn may(disk: &Disk, place: Place, end: u32) -> Option<Expected> {
    let (slot, last) = (place.word / 2, last(disk));
    match disk.slot(place.page, slot) {
        0 => None,
        _ if slot >= end => Some(Expected::value(format!("zero, as only slots 0..{} are used", end - 1), 0)),
        page if disk.inside(page) => None,
        _ => Some(Expected::range(format!("zero or a page in 1..{last}, without flags"), 0, last)),
    }
}
