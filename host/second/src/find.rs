//! Finding: users and files by name, a file's page by position.

use crate::arguments::index;
use crate::check::demand_sound;
use crate::entry::{entry_words, stored_name, stored_type};
use crate::image::{page_count, page_words};
use crate::name::{is_name, is_type, Stored};
use crate::reply::{demand, Outcome, Refusal, Reply, ABSENT, BAD_ARGUMENT};
use crate::volume::{data_page, file_entry, files, user_entry, users};

/// The index of the user with this name.
pub fn find_user(image: &[u16], name: &[u8]) -> Reply {
    try_find_user(image, name).into()
}

fn try_find_user(image: &[u16], name: &[u8]) -> Outcome {
    let pages = page_count(image)?;
    demand(is_name(name), BAD_ARGUMENT)?;
    demand_sound(image, pages)?;
    user_named(image, name).ok_or(ABSENT)
}

/// The used user with this name, on a sound image.
pub(crate) fn user_named(image: &[u16], name: &[u8]) -> Option<u32> {
    let wanted = Stored::of(name);
    let found = users(image).find(|(_, entry)| stored_name(entry) == wanted);
    found.map(|(user, _)| user)
}

/// The index of the user's file with this name and type.
pub fn find_file(image: &[u16], user: usize, name: &[u8], kind: &[u8]) -> Reply {
    try_find_file(image, user, name, kind).into()
}

fn try_find_file(image: &[u16], user: usize, name: &[u8], kind: &[u8]) -> Outcome {
    let pages = page_count(image)?;
    let user = index(user)?;
    demand(is_name(name) && is_type(kind), BAD_ARGUMENT)?;
    demand_sound(image, pages)?;
    file_named(image, user, name, kind).ok_or(ABSENT)
}

/// The user's file with this name and type, on a sound image.
pub(crate) fn file_named(image: &[u16], user: u32, name: &[u8], kind: &[u8]) -> Option<u32> {
    let (name, kind) = (Stored::of(name), Stored::of(kind));
    let mut files = files(image, user);
    let found = files.find(|(_, entry)| stored_name(entry) == name && stored_type(entry) == kind);
    found.map(|(file, _)| file)
}

/// A used user's index and entry, after the tests every call on a user makes.
pub(crate) fn named_user(image: &[u16], user: usize) -> Result<(u32, usize), Refusal> {
    let pages = page_count(image)?;
    let user = index(user)?;
    demand_sound(image, pages)?;
    Ok((user, user_entry(image, user).ok_or(ABSENT)?))
}

/// A used file's user and entry, after the tests every call on a file makes.
pub(crate) fn named_file(image: &[u16], user: usize, file: usize) -> Result<(u32, usize), Refusal> {
    let pages = page_count(image)?;
    let (user, file) = (index(user)?, index(file)?);
    demand_sound(image, pages)?;
    Ok((user, file_entry(image, user, file).ok_or(ABSENT)?))
}

/// The page number of a file's page.
pub fn address(image: &[u16], user: usize, file: usize, position: usize) -> Reply {
    try_address(image, user, file, position).into()
}

pub(crate) fn try_address(image: &[u16], user: usize, file: usize, position: usize) -> Outcome {
    let (_, start) = named_file(image, user, file)?;
    let position = u32::try_from(position).map_err(|_| ABSENT)?;
    data_page(image, entry_words(image, start), position).ok_or(ABSENT)
}

/// The words of a file's page; none where `address` would refuse.
pub fn read_page(image: &[u16], user: usize, file: usize, position: usize) -> &[u16] {
    match try_address(image, user, file, position) {
        Ok(page) => page_words(image, page),
        Err(_) => &[],
    }
}
