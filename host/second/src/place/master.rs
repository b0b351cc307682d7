//! The directory entry: rules 1 and 2.

use super::{in_master, in_range, wrong};
use crate::bits::lies_within;
use crate::image::{pair, BIT_POINTER, OBJECT_POINTER, USER_POINTER, VOLUME_NAME};
use crate::pointer::Pointer;
use crate::reply::Place;
use crate::volume::{object_pointer, user_pointer, volume_name};

/// The volume's name, then the bit pointer, from which the whole bit file has to
/// lie in 1..P-1; flags would make it a number far above P.
pub(super) fn rule_1(image: &[u16], pages: u32) -> Option<Place> {
    let first = pair(image, BIT_POINTER);
    wrong(!volume_name(image).is_name(), in_master(VOLUME_NAME)).or_else(|| wrong(!lies_within(first, pages), in_master(BIT_POINTER)))
}

/// The object pointer, where the two disagree or it is wrong by itself; then
/// the user pointer.
pub(super) fn rule_2(image: &[u16], pages: u32) -> Option<Place> {
    let (user, object) = (user_pointer(image), object_pointer(image));
    let disagree = (user == Pointer::Zero) != (object == Pointer::Zero);
    let object_right = match object {
        Pointer::Zero => true,
        Pointer::Indexed(page) | Pointer::Subindexed(page) => in_range(page, pages),
        Pointer::Plain(_) | Pointer::Error => false,
    };
    let user_right = match user {
        Pointer::Zero => true,
        Pointer::Indexed(page) => in_range(page, pages),
        _ => false,
    };
    wrong(disagree || !object_right, in_master(OBJECT_POINTER)).or_else(|| wrong(!user_right, in_master(USER_POINTER)))
}
