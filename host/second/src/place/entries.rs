//! The used entries of users and objects, by their numbers: rules 4 and 6.
//! Within an entry the words ascend; a name that was there before is wrong at
//! the later entry's name.

use super::wrong;
use crate::entry::{entry_words, is_used, object, stored_name, stored_type, user, EntryPlace, ENTRIES, ENTRIES_TO_A_PAGE, NAME, TYPE};
use crate::image::pair;
use crate::pointer::SLOTS;
use crate::reply::Place;
use crate::rules::Asked;
use crate::volume::{object_page, user_entry, user_page};
use std::collections::HashSet;

/// A used entry: its number, the page that it lies on, and its words.
pub(super) struct Entry<'a> {
    pub(super) number: u32,
    page: u32,
    pub(super) words: &'a [u16],
}

impl Entry<'_> {
    /// Where a word of the entry lies.
    pub(super) fn place(&self, word: usize) -> Place {
        Place {
            page: self.page,
            word: (EntryPlace::of(self.number).word + word) as u32,
        }
    }
}

/// The used entries of users, by their numbers.
pub(super) fn users(image: &[u16]) -> impl Iterator<Item = Entry<'_>> {
    let pages = (0..ENTRIES / ENTRIES_TO_A_PAGE).filter_map(|n| Some((n, user_page(image, n)?)));
    pages.flat_map(|(position, page)| used_on(image, position, page))
}

/// The used entries of objects, by their numbers.
pub(super) fn objects(image: &[u16]) -> impl Iterator<Item = Entry<'_>> {
    let pages = (0..4 * SLOTS).filter_map(|n| Some((n, object_page(image, n)?)));
    pages.flat_map(|(position, page)| used_on(image, position, page))
}

/// The used entries of one page at its position in the user or object file.
fn used_on(image: &[u16], position: u32, page: u32) -> impl Iterator<Item = Entry<'_>> {
    let numbers = ENTRIES_TO_A_PAGE * position..ENTRIES_TO_A_PAGE * (position + 1);
    let entries = numbers.map(move |number| {
        let words = entry_words(image, EntryPlace::of(number).start_in(page));
        Entry { number, page, words }
    });
    entries.filter(|entry| is_used(entry.words))
}

/// Used users: name, used pages (where counts are asked), own index.
pub(super) fn rule_4(image: &[u16], asked: Asked) -> Option<Place> {
    let mut names = HashSet::new();
    users(image).find_map(|entry| {
        let name = stored_name(entry.words);
        let is_new = names.insert(name);
        let (given, used) = (pair(entry.words, user::GIVEN), pair(entry.words, user::USED));
        let own_index = u32::from(entry.words[user::OWN_INDEX]);
        wrong(!name.is_name() || !is_new, entry.place(NAME))
            .or_else(|| wrong(used > given && asked.with_counts(), entry.place(user::USED)))
            .or_else(|| wrong(own_index != entry.number, entry.place(user::OWN_INDEX)))
    })
}

/// Used objects: owner, name, type, user index, own number.
pub(super) fn rule_6(image: &[u16]) -> Option<Place> {
    let mut names = HashSet::new();
    objects(image).find_map(|entry| {
        let owner = entry.number / ENTRIES;
        let (name, kind) = (stored_name(entry.words), stored_type(entry.words));
        let is_new = names.insert((owner, name, kind));
        let word = |at: usize| u32::from(entry.words[at]);
        wrong(user_entry(image, owner).is_none(), entry.place(0))
            .or_else(|| wrong(!name.is_name() || !is_new, entry.place(NAME)))
            .or_else(|| wrong(!kind.is_type(), entry.place(TYPE)))
            .or_else(|| wrong(word(object::USER) != owner, entry.place(object::USER)))
            .or_else(|| wrong(word(object::OWN_NUMBER) != entry.number, entry.place(object::OWN_NUMBER)))
    })
}
