//! The blocks of the user file and of the object file: rules 3 and 5.

use super::{in_master, in_range, wrong};
use crate::image::OBJECT_POINTER;
use crate::pointer::{slot, Pointer, SLOTS};
use crate::reply::Place;
use crate::volume::{object_index, object_pointer, user_pointer, users};

/// The user index.
pub(super) fn rule_3(image: &[u16], pages: u32) -> Option<Place> {
    match user_pointer(image) {
        Pointer::Indexed(block) => some_allowed(image, pages, block, 8),
        _ => None,
    }
}

/// A user above 63 under a single index; then the subindex block, then the
/// index blocks by their numbers.
pub(super) fn rule_5(image: &[u16], pages: u32) -> Option<Place> {
    let (is_indexed, subindex) = match object_pointer(image) {
        Pointer::Indexed(_) => (true, None),
        Pointer::Subindexed(block) => (false, Some(block)),
        _ => (false, None),
    };
    let above = || users(image).any(|(user, _)| user > 63);
    wrong(is_indexed && above(), in_master(OBJECT_POINTER))
        .or_else(|| some_allowed(image, pages, subindex?, 4))
        .or_else(|| {
            (0..4)
                .filter_map(|n| object_index(image, n))
                .find_map(|block| some_allowed(image, pages, block, SLOTS))
        })
}

/// The first wrong slot of a block of which some may be filled: of the first
/// `allowed` one that is neither zero nor in 1..P-1, of the others one that is
/// not zero.
fn some_allowed(image: &[u16], pages: u32, block: u32, allowed: u32) -> Option<Place> {
    first_slot(image, block, |n, page| page != 0 && !(n < allowed && in_range(page, pages)))
}

/// The first slot of a block that is wrong.
pub(super) fn first_slot(image: &[u16], block: u32, is_wrong: impl Fn(u32, u32) -> bool) -> Option<Place> {
    let found = (0..SLOTS).find(|&n| is_wrong(n, slot(image, block, n)));
    found.map(|n| Place { page: block, word: 2 * n })
}
