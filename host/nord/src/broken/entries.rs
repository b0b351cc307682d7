//! Rules 4 and 6: the entries of users and files.

use super::asked::{Asked, Expected};
use super::names::{NAME, TYPE};
use crate::volume::{Disk, Entry, Holder, Kind, ENTRIES, ENTRIES_TO_A_PAGE, ENTRY_WORDS, OBJECT_BLOCKS, SLOTS, USER_PAGES};
use proved::Place;

/// Rule 4: the first user whose entry this is and who is wrong.
pub fn user(disk: &Disk, place: Place) -> Option<Asked> {
    let positions = (0..USER_PAGES).filter(|n| disk.user_page(*n) == place.page);
    first(place, Kind::UserPage, positions, |user, word| user_word(disk, user, word))
}

/// Rule 6: the first file whose entry this is and which is wrong.
pub fn object(disk: &Disk, place: Place) -> Option<Asked> {
    let positions = (0..OBJECT_BLOCKS * SLOTS).filter(|n| disk.object_page(*n) == place.page);
    first(place, Kind::ObjectPage, positions, |number, word| object_word(disk, number, word))
}

/// The first entry at the place, by the positions of its page, that something is expected of.
fn first(
    place: Place,
    kind: Kind,
    mut positions: impl Iterator<Item = u32>,
    expected: impl Fn(u32, u32) -> Option<Expected>,
) -> Option<Asked> {
    let (within, word) = (place.word / ENTRY_WORDS, place.word % ENTRY_WORDS);
    positions.find_map(|position| {
        let expected = expected(ENTRIES_TO_A_PAGE * position + within, word)?;
        Some(expected.by(Holder::system(kind, position)))
    })
}

/// What is wrong at a word of a user's entry.
fn user_word(disk: &Disk, user: u32, word: u32) -> Option<Expected> {
    let entry = disk.user(user)?;
    let (given, index) = (entry.given(), u32::from(*entry.words.get(18)?));
    let name = entry.stored_name();
    match word {
        1 if !name.is_legal(1) => Some(Expected::words(NAME)),
        1 => {
            let (lower, _) = disk
                .users()
                .take_while(|(lower, _)| *lower < user)
                .find(|(_, other)| other.stored_name() == name)?;
            Some(Expected::words(format!("a name of his own: user {lower} has this one")))
        }
        16 if entry.used_pages() > given => Some(Expected::range(format!("at most {given}, the pages he is given"), 0, given)),
        18 if index != user => Some(Expected::value(format!("{user}, his index by the place of his entry"), user)),
        _ => None,
    }
}

/// What is wrong at a word of a file's entry.
fn object_word(disk: &Disk, number: u32, word: u32) -> Option<Expected> {
    let entry = disk.object(number)?;
    let (user, file) = (number / ENTRIES, number % ENTRIES);
    let (owner, own) = (u32::from(*entry.words.get(16)?), u32::from(*entry.words.get(17)?));
    match word {
        0 if disk.user(user).is_none() => Some(Expected::words(format!("not used (bit 15 clear), as there is no user {user}"))),
        1 if !entry.stored_name().is_legal(1) => Some(Expected::words(NAME)),
        1 => {
            let (lower, _) = disk
                .files(user)
                .take_while(|(lower, _)| *lower < file)
                .find(|(_, other)| same(other, &entry))?;
            Some(Expected::words(format!(
                "a name or type of its own: file {lower} of {} has both",
                disk.user_words(user)
            )))
        }
        9 if !entry.stored_type().is_legal(0) => Some(Expected::words(TYPE)),
        16 if owner != user => Some(Expected::value(format!("{user}, the user by the place of the entry"), user)),
        17 if own != number => Some(Expected::value(format!("{number}, the entry number by its place"), number)),
        _ => None,
    }
}

/// Whether two files have the same name and the same type.
fn same(one: &Entry, other: &Entry) -> bool {
    one.stored_name() == other.stored_name() && one.stored_type() == other.stored_type()
}
