//! The short names and types of a volume: those that do not fill their fields, so that something stands behind them.

use super::disk::{Disk, ENTRIES, ENTRIES_TO_A_PAGE, ENTRY_NAME, ENTRY_TYPE, ENTRY_WORDS, VOLUME_NAME};
use super::stored::{Fill, Stored};
use proved::Place;
use std::iter::once;

/// Whose name it is, or which file's type; files by their user's index and their own.
#[derive(Clone, Copy, Debug, PartialEq, Eq)]
pub enum Whose {
    Volume,
    User(u32),
    File(u32, u32),
    Type(u32, u32),
}

/// A short name or type, and what stands behind it.
#[derive(Clone, Debug)]
pub struct Short {
    pub whose: Whose,
    pub stored: Stored,
    pub fill: Fill,
}

impl Disk<'_> {
    /// All short ones, in the order of the listing: the volume's name, then each user's with those of his files, a file's name before its type.
    pub fn shorts(&self) -> Vec<Short> {
        let volume = once((Whose::Volume, self.stored_volume_name()));
        let users = self.users().flat_map(|(user, entry)| {
            let files = self.files(user).flat_map(move |(file, entry)| {
                [
                    (Whose::File(user, file), entry.stored_name()),
                    (Whose::Type(user, file), entry.stored_type()),
                ]
            });
            once((Whose::User(user), entry.stored_name())).chain(files)
        });
        let short = |(whose, stored): (Whose, Stored)| stored.fill().map(|fill| Short { whose, stored, fill });
        volume.chain(users).filter_map(short).collect()
    }

    /// Where a name or type begins.
    pub fn name_place(&self, whose: Whose) -> Place {
        let at = |page: u32, number: u32, first: u32| Place {
            page,
            word: ENTRY_WORDS * (number % ENTRIES_TO_A_PAGE) + first,
        };
        let of_file = |number: u32, first: u32| at(self.object_page(number / ENTRIES_TO_A_PAGE), number, first);
        match whose {
            Whose::Volume => Place {
                page: 0,
                word: VOLUME_NAME,
            },
            Whose::User(user) => at(self.user_page(user / ENTRIES_TO_A_PAGE), user, ENTRY_NAME),
            Whose::File(user, file) => of_file(ENTRIES * user + file, ENTRY_NAME),
            Whose::Type(user, file) => of_file(ENTRIES * user + file, ENTRY_TYPE),
        }
    }
}
