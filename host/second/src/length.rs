//! Grow and shrink: an indexed file, by one page.

use crate::entry::{entry_words, file_pointer, object, user};
use crate::find::named_file;
use crate::image::{pair, put_pair};
use crate::pointer::{block_and_slot, pages_to_grow, put_slot, slot, Pointer};
use crate::reply::{demand, Outcome, Refusal, Reply, ABSENT, GIVEN_SHORT, WRONG_KIND};
use crate::volume::{free_page, index_block, take_page, user_entry};

/// A file whose length is to change.
struct Changing {
    /// Where its entry and its user's entry start.
    entry: usize,
    owner: usize,
    pages: u32,
    pointer: Pointer,
}

impl Changing {
    /// The file, if it is there and not contiguous.
    fn find(image: &[u16], user: usize, file: usize) -> Result<Changing, Refusal> {
        let (user, entry) = named_file(image, user, file)?;
        let owner = user_entry(image, user).ok_or(ABSENT)?;
        let pointer = file_pointer(entry_words(image, entry));
        demand(!matches!(pointer, Pointer::Plain(_)), WRONG_KIND)?;
        Ok(Changing {
            entry,
            owner,
            pages: pair(image, entry + object::PAGES),
            pointer,
        })
    }

    /// Writes the new length and pointer, and the user's new used count.
    fn write(&self, image: &mut [u16], pages: u32, pointer: Pointer, used: u32) {
        put_pair(image, self.entry + object::PAGES, pages);
        put_pair(image, self.entry + object::BYTES, 2048 * pages);
        put_pair(image, self.entry + object::POINTER, pointer.value());
        put_pair(image, self.owner + user::USED, used);
    }

    fn used(&self, image: &[u16]) -> u32 {
        pair(image, self.owner + user::USED)
    }
}

/// Adds a page to an indexed file; gives the data page's number.
pub fn grow(image: &mut [u16], user: usize, file: usize) -> Reply {
    try_grow(image, user, file).into()
}

fn try_grow(image: &mut [u16], user: usize, file: usize) -> Outcome {
    let changing = Changing::find(image, user, file)?;
    let needed = pages_to_grow(changing.pages);
    let (given, used) = (pair(image, changing.owner + user::GIVEN), changing.used(image));
    demand(given - used >= needed, GIVEN_SHORT)?;
    let (n, in_block) = block_and_slot(changing.pages);
    let data = take_page(image);
    let (block, pointer) = if in_block == 0 {
        let block = take_page(image);
        (block, add_block(image, changing.pointer, n, block))
    } else {
        (index_block(image, changing.pointer, n), changing.pointer)
    };
    put_slot(image, block, in_block, data);
    changing.write(image, changing.pages + 1, pointer, used + needed);
    Ok(data)
}

/// Hangs the n-th index block on a file; gives the file's new pointer.
fn add_block(image: &mut [u16], pointer: Pointer, n: u32, block: u32) -> Pointer {
    match pointer {
        Pointer::Indexed(first) => {
            let subindex = take_page(image);
            put_slot(image, subindex, 0, first);
            put_slot(image, subindex, n, block);
            Pointer::Subindexed(subindex)
        }
        Pointer::Subindexed(subindex) => {
            put_slot(image, subindex, n, block);
            pointer
        }
        _ => Pointer::Indexed(block),
    }
}

/// Takes the last page off an indexed file.
pub fn shrink(image: &mut [u16], user: usize, file: usize) -> Reply {
    try_shrink(image, user, file).into()
}

fn try_shrink(image: &mut [u16], user: usize, file: usize) -> Outcome {
    let changing = Changing::find(image, user, file)?;
    demand(changing.pages > 0, WRONG_KIND)?;
    let left = changing.pages - 1;
    let used = changing.used(image) - pages_to_grow(left);
    let (n, in_block) = block_and_slot(left);
    let block = index_block(image, changing.pointer, n);
    free_page(image, slot(image, block, in_block));
    let pointer = if in_block == 0 {
        free_page(image, block);
        drop_block(image, changing.pointer, n)
    } else {
        put_slot(image, block, in_block, 0);
        changing.pointer
    };
    changing.write(image, left, pointer, used);
    Ok(0)
}

/// Takes the n-th and last index block off a file; gives the file's new
/// pointer. The words of freed blocks stay as they are.
fn drop_block(image: &mut [u16], pointer: Pointer, n: u32) -> Pointer {
    match pointer {
        Pointer::Subindexed(subindex) if n == 1 => {
            free_page(image, subindex);
            Pointer::Indexed(slot(image, subindex, 0))
        }
        Pointer::Subindexed(subindex) => {
            put_slot(image, subindex, n, 0);
            pointer
        }
        _ => Pointer::Zero,
    }
}
