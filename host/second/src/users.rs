//! Calls that change users: create, delete, give, take.

use crate::arguments;
use crate::check::demand_sound;
use crate::entry::{user, EntryPlace, ENTRIES, ENTRY_WORDS, NAME, USED_WORD};
use crate::find::{named_user, user_named};
use crate::image::{page_count, pair, put_pair, OBJECT_POINTER, UNRESERVED, USER_POINTER};
use crate::name::{is_name, pack, NAME_WORDS};
use crate::pointer::{put_slot, Pointer};
use crate::reply::{demand, Outcome, Reply, BAD_ARGUMENT, ENTRIES_FULL, GIVEN_SHORT, HAS_FILE, NAME_TAKEN, UNRESERVED_SHORT};
use crate::volume::{files, object_pointer, take_page, unreserved, user_entry, user_page, user_pointer};

/// Creates a user at the lowest unused index, given 0.
pub fn create_user(image: &mut [u16], name: &[u8]) -> Reply {
    try_create_user(image, name).into()
}

fn try_create_user(image: &mut [u16], name: &[u8]) -> Outcome {
    let pages = page_count(image)?;
    demand(is_name(name), BAD_ARGUMENT)?;
    demand_sound(image, pages)?;
    demand(user_named(image, name).is_none(), NAME_TAKEN)?;
    let mut unused = (0..ENTRIES).filter(|&index| user_entry(image, index).is_none());
    let index = unused.next().ok_or(ENTRIES_FULL)?;
    let needed = system_pages_needed(image, index);
    demand(unreserved(image) >= needed, UNRESERVED_SHORT)?;
    let rest = unreserved(image) - needed;
    put_pair(image, UNRESERVED, rest);
    let start = make_user_place(image, index);
    let entry = &mut image[start..][..ENTRY_WORDS];
    entry.fill(0);
    entry[0] = USED_WORD;
    entry[NAME..][..NAME_WORDS].copy_from_slice(&pack::<NAME_WORDS>(name));
    entry[user::OWN_INDEX] = index as u16;
    Ok(index)
}

/// Whether user 64 or up must first make the object file subindexed.
fn needs_subindex(image: &[u16], index: u32) -> bool {
    index >= 64 && matches!(object_pointer(image), Pointer::Indexed(_))
}

/// The system pages a new user with this index needs.
fn system_pages_needed(image: &[u16], index: u32) -> u32 {
    if user_pointer(image) == Pointer::Zero {
        return 3;
    }
    let place = EntryPlace::of(index);
    u32::from(user_page(image, place.position).is_none()) + u32::from(needs_subindex(image, index))
}

/// Takes the system pages the user needs; gives where his entry starts.
fn make_user_place(image: &mut [u16], index: u32) -> usize {
    let place = EntryPlace::of(index);
    match user_pointer(image) {
        Pointer::Indexed(block) => {
            let page = user_page(image, place.position).unwrap_or_else(|| {
                let page = take_page(image);
                put_slot(image, block, place.position, page);
                page
            });
            if needs_subindex(image, index) {
                make_subindex(image);
            }
            place.start_in(page)
        }
        _ => place.start_in(make_first_pages(image, place.position)),
    }
}

/// The first user ever: user index, user page, object index. Gives the user
/// page.
fn make_first_pages(image: &mut [u16], position: u32) -> u32 {
    let user_index = take_page(image);
    let user_page = take_page(image);
    let object_index = take_page(image);
    put_slot(image, user_index, position, user_page);
    put_pair(image, USER_POINTER, Pointer::Indexed(user_index).value());
    put_pair(image, OBJECT_POINTER, Pointer::Indexed(object_index).value());
    user_page
}

/// Puts a subindex block above the object file's single index block.
fn make_subindex(image: &mut [u16]) {
    if let Pointer::Indexed(block) = object_pointer(image) {
        let subindex = take_page(image);
        put_slot(image, subindex, 0, block);
        put_pair(image, OBJECT_POINTER, Pointer::Subindexed(subindex).value());
    }
}

/// Deletes a user without files; his given pages become unreserved.
pub fn delete_user(image: &mut [u16], user: usize) -> Reply {
    try_delete_user(image, user).into()
}

fn try_delete_user(image: &mut [u16], user: usize) -> Outcome {
    let (user, start) = named_user(image, user)?;
    demand(files(image, user).next().is_none(), HAS_FILE)?;
    let back = unreserved(image) + pair(image, start + user::GIVEN);
    put_pair(image, UNRESERVED, back);
    image[start..][..ENTRY_WORDS].fill(0);
    Ok(0)
}

/// Moves pages from unreserved to the user's given pages.
pub fn give(image: &mut [u16], user: usize, count: usize) -> Reply {
    try_give(image, user, count).into()
}

fn try_give(image: &mut [u16], user: usize, count: usize) -> Outcome {
    page_count(image)?;
    let count = arguments::count(count)?;
    let (_, start) = named_user(image, user)?;
    let (given, rest) = (pair(image, start + user::GIVEN), unreserved(image));
    demand(rest >= count, UNRESERVED_SHORT)?;
    put_pair(image, start + user::GIVEN, given + count);
    put_pair(image, UNRESERVED, rest - count);
    Ok(0)
}

/// Moves pages the user does not use back to unreserved.
pub fn take(image: &mut [u16], user: usize, count: usize) -> Reply {
    try_take(image, user, count).into()
}

fn try_take(image: &mut [u16], user: usize, count: usize) -> Outcome {
    page_count(image)?;
    let count = arguments::count(count)?;
    let (_, start) = named_user(image, user)?;
    let (given, rest) = (pair(image, start + user::GIVEN), unreserved(image));
    demand(given - pair(image, start + user::USED) >= count, GIVEN_SHORT)?;
    put_pair(image, start + user::GIVEN, given - count);
    put_pair(image, UNRESERVED, rest + count);
    Ok(0)
}
