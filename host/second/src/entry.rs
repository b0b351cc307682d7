//! Entries of the user file and the object file: 32 words, 32 to a page.

use crate::image::{page_start, pair};
use crate::name::{Stored, NAME_WORDS, TYPE_WORDS};
use crate::pointer::Pointer;

pub const ENTRY_WORDS: usize = 32;
pub const ENTRIES_TO_A_PAGE: u32 = 32;

/// Users of a volume, and files of a user.
pub const ENTRIES: u32 = 256;

/// Word 0 of a new entry: bit 15, used.
pub const USED_WORD: u16 = 32_768;

/// Words of a user's entry.
pub mod user {
    pub const GIVEN: usize = 14;
    pub const USED: usize = 16;
    pub const OWN_INDEX: usize = 18;
}

/// Words of an object's entry.
pub mod object {
    pub const USER: usize = 16;
    pub const OWN_NUMBER: usize = 17;
    pub const TOTAL_OPENS: usize = 19;
    pub const CREATED: usize = 20;
    pub const PAGES: usize = 26;
    pub const BYTES: usize = 28;
    pub const POINTER: usize = 30;
}

/// Words 1..8 of either, and words 9-10 of an object.
pub const NAME: usize = 1;
pub const TYPE: usize = NAME + NAME_WORDS;

/// Where an entry lies: the page of its file, and its first word there.
#[derive(Clone, Copy, Debug, PartialEq, Eq)]
pub struct EntryPlace {
    pub position: u32,
    pub word: usize,
}

impl EntryPlace {
    pub fn of(number: u32) -> EntryPlace {
        EntryPlace {
            position: number / ENTRIES_TO_A_PAGE,
            word: (number % ENTRIES_TO_A_PAGE) as usize * ENTRY_WORDS,
        }
    }

    /// Where the entry starts in the image, its page being known.
    pub fn start_in(self, page: u32) -> usize {
        page_start(page) + self.word
    }
}

/// The entry number of a user's file.
pub fn object_number(user: u32, file: u32) -> u32 {
    ENTRIES * user + file
}

/// The 32 words of the entry that starts there.
pub fn entry_words(image: &[u16], start: usize) -> &[u16] {
    &image[start..][..ENTRY_WORDS]
}

pub fn is_used(entry: &[u16]) -> bool {
    entry[0] & USED_WORD != 0
}

/// The name of a user or an object, as it is stored.
pub fn stored_name(entry: &[u16]) -> Stored {
    Stored::read(&entry[NAME..][..NAME_WORDS])
}

/// The type of an object, as it is stored.
pub fn stored_type(entry: &[u16]) -> Stored {
    Stored::read(&entry[TYPE..][..TYPE_WORDS])
}

/// The pointer of an object's entry.
pub fn file_pointer(entry: &[u16]) -> Pointer {
    Pointer::read(pair(entry, object::POINTER))
}
