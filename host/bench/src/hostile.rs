//! Images made to cost a check the most: as many files as there are entries, which share blocks (rules 1 to 7 hold, rule 8 is broken), or
//! whose names all fall into few slots of the library's table (these are sound). Of the broken ones it is known which page is the lowest that
//! is held twice, and by whom.

use crate::calls::Question;
use crate::disk::{Disk, Entry};
use crate::names::{in_order, of_few_slots, COMMON};
use proved::{Holder, Place, Reply};
use second::entry::ENTRIES_TO_A_PAGE;
use second::image::{put_pair, PAGE_WORDS};
use second::kind::{FILE_DATA, FILE_SUBINDEX};
use second::pointer::{Pointer, SLOTS};

/// An image.
pub struct Hostile {
    pub name: &'static str,
    pub about: String,
    pub words: Vec<u16>,
    pub files: u32,
    /// What is wrong with it; nothing where it is sound.
    pub twice: Option<Twice>,
}

/// The lowest page that is held twice, and its first two holders.
#[derive(Clone, Copy)]
pub struct Twice {
    pub page: u32,
    pub first: Holder,
    pub second: Holder,
}

impl Twice {
    /// What a check has to answer.
    pub fn reply(self) -> Reply {
        Reply {
            number: 3,
            rule: 8,
            value: 0,
            place: Place { page: self.page, word: 0 },
            first: self.first,
            second: self.second,
        }
    }
}

const FILES_OF_A_USER: u32 = 256;

/// The most index blocks of an object file.
const OBJECT_BLOCKS: u32 = 4;

/// The holder that the n-th file is, of a page of its own.
fn of_file(kind: u32, n: u32, position: u32) -> Holder {
    Holder {
        kind,
        user: n / FILES_OF_A_USER,
        file: n % FILES_OF_A_USER,
        position,
    }
}

fn disk(pages: u32, users: u32) -> Disk {
    let names: Vec<Vec<u8>> = (0..users).map(|user| format!("USER{user}").into_bytes()).collect();
    Disk::new(pages, b"HOSTILE", &names)
}

/// An index block whose first slots are filled, all with one page.
fn index_block(disk: &mut Disk, filled: u32, page: u32) -> u32 {
    let block = disk.take();
    for n in 0..filled as usize {
        put_pair(disk.page_mut(block), 2 * n, page);
    }
    block
}

/// A tree under a subindex block: 512 index blocks of their own, the last with so many slots filled.
fn tree(disk: &mut Disk, last: u32) -> u32 {
    let top = disk.take();
    for n in 0..SLOTS {
        let filled = if n + 1 < SLOTS { SLOTS } else { last };
        let block = index_block(disk, filled, top);
        put_pair(disk.page_mut(top), 2 * n as usize, block);
    }
    top
}

/// The n-th file's entry, of this size and with this pointer.
fn put_file(disk: &mut Disk, n: u32, pages: u32, pointer: Pointer) {
    let (user, file) = (n / FILES_OF_A_USER, n % FILES_OF_A_USER);
    let name = format!("FILE{file}");
    disk.entry(&Entry {
        user,
        file,
        name: name.as_bytes(),
        kind: b"DATA",
        pages,
        pointer,
    });
}

/// Each user has 256 files, all of this size and with this pointer.
fn share(disk: &mut Disk, users: u32, pages: u32, pointer: Pointer) {
    (0..users * FILES_OF_A_USER).for_each(|n| put_file(disk, n, pages, pointer));
}

/// All files have one tree of 512 full index blocks.
pub fn one_full_tree(pages: u32, users: u32) -> Hostile {
    one_tree("one full tree", pages, users, SLOTS)
}

/// The same, and the last block is not full.
pub fn one_ragged_tree(pages: u32, users: u32) -> Hostile {
    one_tree("one tree, last block not full", pages, users, SLOTS - 1)
}

/// All files have one tree of 512 index blocks; `last` slots of the last block are filled.
fn one_tree(name: &'static str, pages: u32, users: u32, last: u32) -> Hostile {
    let mut disk = disk(pages, users);
    let top = tree(&mut disk, last);
    let size = (SLOTS - 1) * SLOTS + last;
    share(&mut disk, users, size, Pointer::Subindexed(top));
    let about = format!("all files have one subindex block, over 512 index blocks: {size} pages each");
    Hostile {
        name,
        about,
        words: disk.finish(0, 0),
        files: users * FILES_OF_A_USER,
        twice: Some(Twice {
            page: top,
            first: of_file(FILE_SUBINDEX, 0, 0),
            second: of_file(FILE_SUBINDEX, 1, 0),
        }),
    }
}

/// The pages of a file under a full tree.
const FULL: u32 = SLOTS * SLOTS;

/// A tree of one file's own: the blocks of another one but for the last, and in the last, which is its own, one page at the last slots.
fn own_tree(disk: &mut Disk, shared: u32, page: u32, slots: u32) -> u32 {
    let (top, last) = (disk.take(), disk.take());
    let blocks = disk.page_mut(shared).to_vec();
    disk.page_mut(top).copy_from_slice(&blocks);
    put_pair(disk.page_mut(top), PAGE_WORDS - 2, last);
    for n in 0..SLOTS as usize {
        let own = n >= (SLOTS - slots) as usize;
        put_pair(disk.page_mut(last), 2 * n, if own { page } else { shared });
    }
    top
}

/// All files have the blocks of one tree, and the last ones of them a top and a last block of their own, in which the lowest page that is held
/// twice lies at the last slots. It is taken before all others, so that all of the tree lies above it.
fn last_of_one_tree(pages: u32, users: u32, owners: u32, slots: u32) -> (Vec<u16>, u32) {
    let mut disk = disk(pages, users);
    let (page, files) = (disk.take(), users * FILES_OF_A_USER);
    let shared = tree(&mut disk, SLOTS);
    share(&mut disk, users, FULL, Pointer::Subindexed(shared));
    for n in files - owners..files {
        let top = own_tree(&mut disk, shared, page, slots);
        put_file(&mut disk, n, FULL, Pointer::Subindexed(top));
    }
    (disk.finish(0, 0), page)
}

/// An image in which only the last two files, each at this position, which is its last, hold the lowest page that is held twice.
fn held_by_last_two(name: &'static str, about: &str, words: Vec<u16>, page: u32, files: u32, position: u32) -> Hostile {
    Hostile {
        name,
        about: format!("{about}; only the last two, each at its last position, hold the lowest page that is held twice"),
        words,
        files,
        twice: Some(Twice {
            page,
            first: of_file(FILE_DATA, files - 2, position),
            second: of_file(FILE_DATA, files - 1, position),
        }),
    }
}

/// The last two files alone hold the page, each at its last position.
pub fn last_two(pages: u32, users: u32) -> Hostile {
    let (words, page) = last_of_one_tree(pages, users, 2, 1);
    let files = users * FILES_OF_A_USER;
    held_by_last_two(
        "last two of one tree",
        "all files have the blocks of one tree",
        words,
        page,
        files,
        FULL - 1,
    )
}

/// The last file alone holds the page, at its last two positions: no holder comes after these.
pub fn last_positions(pages: u32, users: u32) -> Hostile {
    let (words, page) = last_of_one_tree(pages, users, 1, 2);
    let files = users * FILES_OF_A_USER;
    Hostile {
        name: "holders last in the order",
        about: "all files have the blocks of one tree; only the last, at its last two positions, holds the lowest page that is held twice"
            .into(),
        words,
        files,
        twice: Some(Twice {
            page,
            first: of_file(FILE_DATA, files - 1, FULL - 2),
            second: of_file(FILE_DATA, files - 1, FULL - 1),
        }),
    }
}

/// Each file has an index block of its own, full of one page; only the last two, at their last positions, hold the lowest page held twice. A
/// pack has room for as many blocks as there are entries.
pub fn own_blocks(pages: u32, users: u32) -> Hostile {
    let mut disk = disk(pages, users);
    let (page, target, files) = (disk.take(), disk.take(), users * FILES_OF_A_USER);
    for n in 0..files {
        let block = index_block(&mut disk, SLOTS, target);
        if n + 2 >= files {
            put_pair(disk.page_mut(block), PAGE_WORDS - 2, page);
        }
        put_file(&mut disk, n, SLOTS, Pointer::Indexed(block));
    }
    let about = "each file has a full index block of its own";
    held_by_last_two("an index block each", about, disk.finish(0, 0), page, files, SLOTS - 1)
}

/// Each file has a subindex block of its own, over the index blocks of one tree; only the last two, at their last positions, hold the lowest page
/// held twice.
pub fn own_tops(pages: u32, users: u32) -> Hostile {
    let mut disk = disk(pages, users);
    let (page, files) = (disk.take(), users * FILES_OF_A_USER);
    let shared = tree(&mut disk, SLOTS);
    let blocks = disk.page_mut(shared).to_vec();
    for n in 0..files {
        let top = match n + 2 >= files {
            true => own_tree(&mut disk, shared, page, 1),
            false => disk.take(),
        };
        if n + 2 < files {
            disk.page_mut(top).copy_from_slice(&blocks);
        }
        put_file(&mut disk, n, FULL, Pointer::Subindexed(top));
    }
    let about = "each file has a subindex block of its own over the index blocks of one tree";
    held_by_last_two("a subindex block each", about, disk.finish(0, 0), page, files, FULL - 1)
}

/// Each file has a subindex block of its own, and all that is left of the volume is full index blocks, through which these blocks go round; only
/// the last two files, at their last positions, hold the lowest page held twice.
pub fn many_blocks(pages: u32, users: u32) -> Hostile {
    let mut disk = disk(pages, users);
    let (page, target, files) = (disk.take(), disk.take(), users * FILES_OF_A_USER);
    let entries = files.div_ceil(ENTRIES_TO_A_PAGE) + OBJECT_BLOCKS;
    let count = disk.free() - files - entries - 2;
    let blocks: Vec<u32> = (0..count).map(|_| index_block(&mut disk, SLOTS, target)).collect();
    let mut next = blocks.iter().cycle();
    for n in 0..files {
        let top = disk.take();
        for (slot, block) in (0..SLOTS as usize).zip(&mut next) {
            put_pair(disk.page_mut(top), 2 * slot, *block);
        }
        if n + 2 >= files {
            let last = index_block(&mut disk, SLOTS, target);
            put_pair(disk.page_mut(last), PAGE_WORDS - 2, page);
            put_pair(disk.page_mut(top), PAGE_WORDS - 2, last);
        }
        put_file(&mut disk, n, FULL, Pointer::Subindexed(top));
    }
    let about = format!("each file has a subindex block of its own over 512 of {count} index blocks, by turns");
    held_by_last_two("subindex blocks over many blocks", &about, disk.finish(0, 0), page, files, FULL - 1)
}

/// All files have one index block with 511 slots filled.
pub fn one_block(pages: u32, users: u32) -> Hostile {
    let mut disk = disk(pages, users);
    let target = disk.take();
    let block = index_block(&mut disk, SLOTS - 1, target);
    share(&mut disk, users, SLOTS - 1, Pointer::Indexed(block));
    let about = "all files have one index block: 511 pages each".into();
    Hostile {
        name: "one index block",
        about,
        words: disk.finish(0, 0),
        files: users * FILES_OF_A_USER,
        twice: Some(Twice {
            page: target,
            first: of_file(FILE_DATA, 0, 0),
            second: of_file(FILE_DATA, 0, 1),
        }),
    }
}

/// Each user has 256 empty files of one name, with these types.
fn named(name: &'static str, about: &str, pages: u32, users: u32, kinds: &[Vec<u8>]) -> Hostile {
    let mut disk = disk(pages, users);
    for user in 0..users {
        for (file, kind) in (0..).zip(kinds) {
            disk.entry(&Entry {
                user,
                file,
                name: COMMON,
                kind,
                pages: 0,
                pointer: Pointer::Zero,
            });
        }
    }
    Hostile {
        name,
        about: about.into(),
        words: disk.finish(0, 0),
        files: users * FILES_OF_A_USER,
        twice: None,
    }
}

/// Names in slots as it comes: what the next is to be measured against.
pub fn names_in_order(pages: u32, users: u32) -> Hostile {
    named(
        "names as they come",
        "empty files, whose names and types fall into slots as it comes",
        pages,
        users,
        &in_order(256),
    )
}

/// All names of each user in few slots.
pub fn names_of_few_slots(pages: u32, users: u32) -> Hostile {
    named(
        "names of few slots",
        "empty files; each user's 256 names and types fall into few slots",
        pages,
        users,
        &of_few_slots(256),
    )
}

/// What may be asked of them all: of their first file.
pub fn question() -> Question {
    Question {
        user_name: "USER0".into(),
        file_name: "FILE0".into(),
        kind: "DATA".into(),
        ..Question::default()
    }
}

/// Those of a pack, which a check refuses, each to be made for so many pages and users.
pub const OF_A_PACK: [fn(u32, u32) -> Hostile; 8] = [
    one_full_tree,
    one_ragged_tree,
    one_block,
    last_two,
    last_positions,
    own_blocks,
    own_tops,
    many_blocks,
];

/// All of them, for so many pages and users.
pub fn all(pages: u32, users: u32) -> Vec<Hostile> {
    vec![
        one_full_tree(pages, users),
        one_ragged_tree(pages, users),
        one_block(pages, users),
        last_two(pages, users),
        last_positions(pages, users),
        names_in_order(pages, users),
        names_of_few_slots(pages, users),
    ]
}

#[cfg(test)]
mod tests {
    use super::*;
    use crate::answers::reply;

    #[test]
    fn the_second_program_finds_what_each_was_made_for() {
        let of_a_pack = OF_A_PACK.map(|make| make(1_700, 2));
        for image in all(1_200, 2).into_iter().chain(of_a_pack) {
            let found = reply(second::check(&image.words));
            match image.twice {
                Some(twice) => assert_eq!(found, twice.reply(), "{}", image.name),
                None => assert_eq!(found.number, 0, "{}", image.name),
            }
        }
    }
}
