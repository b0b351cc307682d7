//! The counts: rule 10.

use super::entries::users;
use super::in_master;
use crate::entry::{file_pointer, object, user};
use crate::image::{pair, UNRESERVED};
use crate::pointer::{pages_held, Pointer};
use crate::reply::Place;
use crate::volume::files;

/// The first user whose used count is wrong; the unreserved pages where all
/// are right, and so the sum is not.
pub(super) fn rule_10(image: &[u16]) -> Option<Place> {
    let wrong = users(image).find(|entry| u64::from(pair(entry.words, user::USED)) != held_by(image, entry.number));
    Some(wrong.map_or(in_master(UNRESERVED), |entry| entry.place(user::USED)))
}

/// The pages that a user's files hold.
fn held_by(image: &[u16], user: u32) -> u64 {
    let held = files(image, user).map(|(_, entry)| {
        let count = pair(entry, object::PAGES);
        match file_pointer(entry) {
            Pointer::Plain(_) => u64::from(count),
            _ => pages_held(count),
        }
    });
    held.sum()
}
