//! How many pages a call needs that is refused with 9 or 10, and how many are there.

use crate::answers::{pages, Call};
use crate::volume::{Disk, Pointer, ENTRIES, ENTRIES_TO_A_PAGE, SLOTS};
use proved::Step;
use serde::Serialize;

/// Pages needed, and there.
#[derive(Clone, Copy, Debug, PartialEq, Eq, Serialize)]
pub struct Needed {
    needed: u32,
    there: u32,
}

impl Needed {
    pub fn words(&self) -> String {
        let are = if self.there == 1 { "is" } else { "are" };
        format!("{} needed, {} {are} there", pages(self.needed), self.there)
    }
}

/// Of a call that was refused so on this image.
pub fn needed(image: &[u16], call: Call, step: &Step, number: u32) -> Option<Needed> {
    let disk = Disk::new(image);
    match number {
        9 => Some(Needed {
            needed: of_allowance(&disk, call, step)?,
            there: left(&disk, step.user)?,
        }),
        10 => Some(Needed {
            needed: of_unreserved(&disk, call, step)?,
            there: disk.unreserved(),
        }),
        _ => None,
    }
}

/// What a user was given and does not use.
fn left(disk: &Disk, user: u32) -> Option<u32> {
    let entry = disk.user(user)?;
    Some(entry.given().saturating_sub(entry.used_pages()))
}

/// Pages of a user's allowance. A file that grows takes a data page, at each 512 positions an index block, and a subindex block with the second.
fn of_allowance(disk: &Disk, call: Call, step: &Step) -> Option<u32> {
    match call {
        Call::Take | Call::CreateContiguous => Some(step.count),
        Call::Grow => {
            let before = disk.object(ENTRIES * step.user + step.file)?.pages();
            Some(1 + u32::from(before % SLOTS == 0) + u32::from(before == SLOTS))
        }
        _ => None,
    }
}

/// Pages of the unreserved ones.
fn of_unreserved(disk: &Disk, call: Call, step: &Step) -> Option<u32> {
    match call {
        Call::Give => Some(step.count),
        Call::AddUser => new_user(disk),
        Call::CreateIndexed | Call::CreateContiguous => new_file(disk, step.user),
        _ => None,
    }
}

/// The first user takes a user index, a user page and an object index; a later one a user page where there is none for him, and user 64 or above a
/// subindex block where the object file has none.
fn new_user(disk: &Disk) -> Option<u32> {
    if disk.user_pointer() == Pointer::None {
        return Some(3);
    }
    let index = (0..ENTRIES).find(|user| disk.user(*user).is_none())?;
    let page = disk.user_page(index / ENTRIES_TO_A_PAGE) == 0;
    let subindex = index >= ENTRIES / 4 && matches!(disk.object_pointer(), Pointer::Indexed(_));
    Some(u32::from(page) + u32::from(subindex))
}

/// A file takes an index block of the object file and an object page, where there are none for it.
fn new_file(disk: &Disk, user: u32) -> Option<u32> {
    let file = (0..ENTRIES).find(|file| disk.object(ENTRIES * user + file).is_none())?;
    let page = (ENTRIES * user + file) / ENTRIES_TO_A_PAGE;
    let block = disk.object_block(page / SLOTS) == 0;
    Some(u32::from(block) + u32::from(block || disk.object_page(page) == 0))
}
