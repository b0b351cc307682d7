//! What can be seen in an image: its users, files, blocks and pages. Makers of calls and of damage aim by it. On an unsound image it shows
//! what can be read without leaving the image.

use crate::words::*;

pub struct User {
    pub index: u32,
    /// Where his entry lies.
    pub at: usize,
    pub name: Vec<u8>,
    pub given: u32,
    pub used: u32,
}

pub struct File {
    pub user: u32,
    pub file: u32,
    pub at: usize,
    pub name: Vec<u8>,
    pub kind: Vec<u8>,
    pub pages: u32,
    pub pointer: u32,
}

impl User {
    /// Pages he may still use.
    pub fn left(&self) -> u32 {
        self.given.saturating_sub(self.used)
    }
}

impl File {
    pub fn is_contiguous(&self) -> bool {
        self.pointer != 0 && self.pointer < I
    }

    pub fn is_indexed(&self) -> bool {
        self.pointer & (S | I) == I
    }

    pub fn is_subindexed(&self) -> bool {
        self.pointer & (S | I) == S
    }

    /// The page that the pointer names, flags aside.
    pub fn page(&self) -> u32 {
        self.pointer & !(S | I)
    }
}

pub struct Scene {
    pub pages: u32,
    pub bit_page: u32,
    pub unreserved: u32,
    /// The page of the user index and of the object file's first block; 0 where there is none.
    pub user_index: u32,
    pub object_block: u32,
    pub subindexed: bool,
    /// Slot and page of the user index, of the object file's index blocks (block and page), and of its pages (position and page).
    pub user_pages: Vec<(u32, u32)>,
    pub object_indexes: Vec<(u32, u32)>,
    pub object_pages: Vec<(u32, u32)>,
    pub users: Vec<User>,
    pub files: Vec<File>,
}

impl Scene {
    pub fn read(image: &[u16]) -> Scene {
        let object = pair(image, OBJECT_POINTER);
        let mut scene = Scene {
            pages: (image.len() / PAGE) as u32,
            bit_page: pair(image, BIT_POINTER),
            unreserved: pair(image, UNRESERVED),
            user_index: pair(image, USER_POINTER) & !(S | I),
            object_block: object & !(S | I),
            subindexed: object & S != 0,
            user_pages: Vec::new(),
            object_indexes: Vec::new(),
            object_pages: Vec::new(),
            users: Vec::new(),
            files: Vec::new(),
        };
        scene.user_pages = scene.slots(image, scene.user_index, 8);
        scene.object_indexes = match (scene.object_block, scene.subindexed) {
            (0, _) => Vec::new(),
            (block, false) => vec![(0, block)],
            (block, true) => scene.slots(image, block, 4),
        };
        for &(n, block) in &scene.object_indexes {
            scene.object_pages.extend(scene.slots(image, block, 512).into_iter().map(|(slot, page)| (512 * n + slot, page)));
        }
        scene.users = entries(image, &scene.user_pages).map(|(number, at)| user(image, number, at)).collect();
        scene.files = entries(image, &scene.object_pages).map(|(number, at)| file(image, number, at)).collect();
        scene
    }

    /// Whether a page can be looked at.
    pub fn in_range(&self, page: u32) -> bool {
        (1..self.pages).contains(&page)
    }

    /// The first slots of a block that name a page of the image.
    pub fn slots(&self, image: &[u16], block: u32, count: u32) -> Vec<(u32, u32)> {
        if !self.in_range(block) {
            return Vec::new();
        }
        let all = (0..count).map(|slot| (slot, pair(image, slot_at(block, slot))));
        all.filter(|&(_, page)| self.in_range(page)).collect()
    }

    /// The pages of the bit file.
    pub fn bit_run(&self) -> std::ops::Range<u32> {
        let first = self.bit_page.min(last_bit_start(self.pages));
        first..first + bit_pages(self.pages)
    }

    /// Where the word lies that has a page's bit: the words of a run of pages follow on one another.
    pub fn bit_at(&self, page: u32) -> usize {
        self.bit_run().start as usize * PAGE + page as usize / 16
    }

    /// Whether a page's bit is set.
    pub fn is_reserved(&self, image: &[u16], page: u32) -> bool {
        image[self.bit_at(page)] >> (page % 16) & 1 == 1
    }

    /// The pages whose bits are clear.
    pub fn free_pages(&self, image: &[u16]) -> Vec<u32> {
        (1..self.pages).filter(|&page| !self.is_reserved(image, page)).collect()
    }

    /// The length of the longest run of free pages.
    pub fn longest_run(&self, image: &[u16]) -> u32 {
        let (mut longest, mut run) = (0, 0);
        for page in 0..self.pages {
            run = if self.is_reserved(image, page) { 0 } else { run + 1 };
            longest = longest.max(run);
        }
        longest
    }

    pub fn file(&self, user: usize, file: usize) -> Option<&File> {
        self.files.iter().find(|seen| seen.user as usize == user && seen.file as usize == file)
    }

    /// Pages that a user may still use, if he is there.
    pub fn left(&self, user: usize) -> Option<u32> {
        self.users.iter().find(|seen| seen.index as usize == user).map(User::left)
    }
}

/// The used entries of pages: their numbers and where they lie.
fn entries<'a>(image: &'a [u16], pages: &'a [(u32, u32)]) -> impl Iterator<Item = (u32, usize)> + 'a {
    let all = pages.iter().flat_map(|&(position, page)| (0..32).map(move |n| (32 * position + n, entry_at(page, n))));
    all.filter(|&(_, at)| image[at] & 0x8000 != 0)
}

fn user(image: &[u16], index: u32, at: usize) -> User {
    let name = bytes_of(&image[at + NAME..][..8]);
    User { index, at, name, given: pair(image, at + GIVEN), used: pair(image, at + USED) }
}

fn file(image: &[u16], number: u32, at: usize) -> File {
    File {
        user: number / 256,
        file: number % 256,
        at,
        name: bytes_of(&image[at + NAME..][..8]),
        kind: bytes_of(&image[at + TYPE..][..2]),
        pages: pair(image, at + PAGES),
        pointer: pair(image, at + POINTER),
    }
}
