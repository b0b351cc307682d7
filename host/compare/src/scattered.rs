//! Sound volumes that no sequence of calls gives: pages and indices by chance, stale words in free pages and in unused entries, empty user
//! pages, object pages and index blocks, bits set past P, a subindexed object file with few users, any bits in word 0 of an entry, any bytes
//! behind the end of a name.

mod high;
mod patterned;

pub use high::{high, INDEXED, LOW_RUN, SHORT_RUN};
pub use patterned::{patterned, Beyond, Crowd, Wish, FIRST, LATER, OTHER};

use crate::fills::put_name;
use crate::random::Random;
use crate::volumes::{by_chance, some_name};
use crate::words::*;

/// A volume being made. Its words are all by chance at first; what must be zero is zeroed as it is taken.
struct Making<'a> {
    random: &'a mut Random,
    image: Vec<u16>,
    pages: u32,
    /// Pages not yet held, shuffled.
    free: Vec<u32>,
    /// Runs kept for contiguous files: first page and length.
    runs: Vec<(u32, u32)>,
    held: Vec<u32>,
    system: u32,
    /// Index, place of the entry, and used pages of each used user.
    users: Vec<(u32, usize, u32)>,
}

/// A sound volume of so many pages with up to so many users and files.
pub fn scattered(random: &mut Random, pages: u32, users: u32, files: u32) -> Vec<u16> {
    let mut making = Making::new(random, pages);
    making.master();
    if making.random.one_in(16) {
        put_pair(&mut making.image, USER_POINTER, 0);
        put_pair(&mut making.image, OBJECT_POINTER, 0);
    } else {
        making.user_file(users);
        let subindexed = making.object_file();
        making.files(files, subindexed);
        making.empty_object_pages(subindexed);
    }
    making.counts();
    making.bits();
    making.image
}

impl Making<'_> {
    fn new(random: &mut Random, pages: u32) -> Making<'_> {
        let image = by_chance(random, pages);
        let mut reserved = vec![false; pages as usize];
        let mut runs = Vec::new();
        for _ in 0..random.below(6).min(pages / 8) {
            let length = random.between(1, (pages / 8).max(2)).min(40);
            let first = random.between(1, pages - length);
            let run = first as usize..(first + length) as usize;
            if reserved[run.clone()].iter().all(|&taken| !taken) && reserved.iter().filter(|&&taken| !taken).count() > 12 {
                reserved[run].fill(true);
                runs.push((first, length));
            }
        }
        let mut free: Vec<u32> = (1..pages).filter(|&page| !reserved[page as usize]).collect();
        random.shuffle(&mut free);
        Making { random, image, pages, free, runs, held: vec![0], system: 1, users: Vec::new() }
    }

    fn word_by_chance(&mut self) -> u16 {
        self.random.word()
    }

    /// A free page for the system, if there is one; its words stay.
    fn system_page(&mut self) -> Option<u32> {
        let page = self.free.pop()?;
        self.held.push(page);
        self.system += 1;
        Some(page)
    }

    fn block(&mut self) -> Option<u32> {
        let page = self.system_page()?;
        self.image[page as usize * PAGE..][..PAGE].fill(0);
        Some(page)
    }

    /// A page of entries: all unused, with leftovers.
    fn entry_page(&mut self) -> Option<u32> {
        let page = self.system_page()?;
        for n in 0..32 {
            self.image[entry_at(page, n)] &= 0x7FFF;
        }
        Some(page)
    }

    fn file_page(&mut self) -> u32 {
        let page = self.free.pop().expect("there is room for the file");
        self.held.push(page);
        page
    }

    /// The volume's name and the bit file: of one page, or of a run of pages.
    fn master(&mut self) {
        let name = self.name(0);
        put_name(self.random, &mut self.image[VOLUME_NAME..VOLUME_NAME + 8], &name);
        let first = match bit_pages(self.pages) {
            1 => self.system_page().expect("8 pages have room for the bit file"),
            count => self.system_run(count),
        };
        put_pair(&mut self.image, BIT_POINTER, first);
    }

    /// A run of pages that nobody holds yet, for the system; gives the first.
    fn system_run(&mut self, count: u32) -> u32 {
        let mut is_free = vec![false; self.pages as usize];
        self.free.iter().for_each(|&page| is_free[page as usize] = true);
        let fits = |first: &u32| is_free[*first as usize..(first + count) as usize].iter().all(|&free| free);
        let starts: Vec<u32> = (1..=self.pages - count).filter(fits).collect();
        let first = *self.random.pick(&starts);
        self.free.retain(|page| !(first..first + count).contains(page));
        self.held.extend(first..first + count);
        self.system += count;
        first
    }

    fn name(&mut self, number: u32) -> Vec<u8> {
        some_name(self.random, number)
    }

    /// The user index, some user pages, and used users in them.
    fn user_file(&mut self, users: u32) {
        let index = self.block().expect("8 pages have room for the user index");
        put_pair(&mut self.image, USER_POINTER, I | index);
        let mut slots: Vec<u32> = (0..8).collect();
        self.random.shuffle(&mut slots);
        let wanted = self.random.below(9).min(self.free.len() as u32 / 4 + 1) as usize;
        let mut left = users;
        for &slot in &slots[..wanted] {
            if self.free.len() < 3 {
                return;
            }
            let page = self.entry_page().expect("there is a page");
            put_pair(&mut self.image, slot_at(index, slot), page);
            for number in 32 * slot..32 * slot + 32 {
                if left > 0 && self.random.one_in(3) {
                    left -= 1;
                    self.user(number, entry_at(page, number));
                }
            }
        }
    }

    fn user(&mut self, index: u32, at: usize) {
        let name = self.name(index);
        self.image[at] |= 0x8000;
        put_name(self.random, &mut self.image[at + NAME..at + NAME + 8], &name);
        self.image[at + OWN_INDEX] = index as u16;
        self.users.push((index, at, 0));
    }

    /// The object file's blocks; tells whether it is subindexed.
    fn object_file(&mut self) -> bool {
        let must = self.users.iter().any(|&(index, ..)| index > 63);
        let subindexed = must || self.random.one_in(3);
        let block = self.block().expect("8 pages have room for the object file");
        put_pair(&mut self.image, OBJECT_POINTER, block | if subindexed { S } else { I });
        if subindexed {
            for n in 0..4 {
                if self.free.len() > 3 && self.random.one_in(2) {
                    self.object_index(n, true);
                }
            }
        }
        subindexed
    }

    /// The n-th index block of the object file, made where it is absent; none where there is no room.
    fn object_index(&mut self, n: u32, subindexed: bool) -> Option<u32> {
        let first = pair(&self.image, OBJECT_POINTER) & !(S | I);
        if !subindexed {
            return (n == 0).then_some(first);
        }
        let block = pair(&self.image, slot_at(first, n));
        if block != 0 {
            return Some(block);
        }
        let block = self.block()?;
        put_pair(&mut self.image, slot_at(first, n), block);
        Some(block)
    }

    /// The object page at a position, made where it is absent.
    fn object_page(&mut self, position: u32, subindexed: bool) -> Option<u32> {
        let block = self.object_index(position / 512, subindexed)?;
        let page = pair(&self.image, slot_at(block, position % 512));
        if page != 0 {
            return Some(page);
        }
        let page = self.entry_page()?;
        put_pair(&mut self.image, slot_at(block, position % 512), page);
        Some(page)
    }

    fn files(&mut self, files: u32, subindexed: bool) {
        for _ in 0..files {
            if self.users.is_empty() || self.free.len() < 2 {
                return;
            }
            let owner = self.random.below(self.users.len() as u32) as usize;
            let file = if self.random.one_in(3) { self.random.below(256) } else { self.random.below(8) };
            let number = 256 * self.users[owner].0 + file;
            let Some(page) = self.object_page(number / 32, subindexed) else { return };
            let at = entry_at(page, number);
            if self.image[at] & 0x8000 == 0 {
                self.file(owner, number, at);
            }
        }
    }

    /// Pages, pointer and held pages of a new file: empty, contiguous, indexed or subindexed.
    fn shape(&mut self) -> (u32, u32, u32) {
        let room = self.free.len() as u32;
        match self.random.below(8) {
            0 | 1 if !self.runs.is_empty() => {
                let (first, length) = self.runs.pop().expect("there is a run");
                self.held.extend(first..first + length);
                (length, first, length)
            }
            2..=5 if room >= 2 => {
                let few = self.random.between(1, (room - 1).min(20));
                let length = if self.random.one_in(8) { (room - 1).min(512) } else { few };
                let block = self.index_block(length);
                (length, I | block, length + 1)
            }
            6 if room > 516 => {
                let length = if room > 1_100 && self.random.one_in(2) { 1_024 } else { self.random.between(513, (room - 4).min(1_050)) };
                self.subindexed_file(length)
            }
            _ => (0, 0, 0),
        }
    }

    /// An index block with so many data pages.
    fn index_block(&mut self, length: u32) -> u32 {
        let block = self.file_page();
        self.image[block as usize * PAGE..][..PAGE].fill(0);
        for n in 0..length {
            let page = self.file_page();
            put_pair(&mut self.image, slot_at(block, n), page);
        }
        block
    }

    fn subindexed_file(&mut self, length: u32) -> (u32, u32, u32) {
        let subindex = self.file_page();
        self.image[subindex as usize * PAGE..][..PAGE].fill(0);
        let blocks = length.div_ceil(512);
        for n in 0..blocks {
            let block = self.index_block((length - 512 * n).min(512));
            put_pair(&mut self.image, slot_at(subindex, n), block);
        }
        (length, S | subindex, length + blocks + 1)
    }

    fn file(&mut self, owner: usize, number: u32, at: usize) {
        let shape = self.shape();
        self.entry(owner, number, at, shape);
    }

    /// The entry of a new file: its pages, its pointer, and how many pages it holds.
    fn entry(&mut self, owner: usize, number: u32, at: usize, (pages, pointer, held): (u32, u32, u32)) {
        self.users[owner].2 += held;
        let same = self.random.one_in(3);
        let name = if same { b"SAME-NAME".to_vec() } else { self.name(number % 256) };
        let kind = if same { format!("T{}", number % 256).into_bytes() } else { self.random.pick(&[b"" as &[u8], b"A", b"DATA"]).to_vec() };
        let opens = if self.random.one_in(4) { 65_535 } else { self.word_by_chance() };
        let entry = &mut self.image[at..at + 32];
        entry[0] |= 0x8000;
        put_name(self.random, &mut entry[NAME..NAME + 8], &name);
        put_name(self.random, &mut entry[TYPE..TYPE + 2], &kind);
        entry[OWNER] = (number / 256) as u16;
        entry[OWN_NUMBER] = number as u16;
        entry[OPENS] = opens;
        put_pair(entry, PAGES, pages);
        put_pair(entry, BYTES, 2048 * pages);
        put_pair(entry, POINTER, pointer);
    }

    /// Object pages without a used entry, also of users who are not there.
    fn empty_object_pages(&mut self, subindexed: bool) {
        for _ in 0..self.random.below(3) {
            if self.free.len() > 2 {
                let position = self.random.below(if subindexed { 2_048 } else { 512 });
                self.object_page(position, subindexed);
            }
        }
    }

    /// Given and used of every user, and unreserved: what is left is dealt out by chance.
    fn counts(&mut self) {
        let mut rest = self.pages - self.held.len() as u32;
        for n in 0..self.users.len() {
            let (_, at, used) = self.users[n];
            let more = match self.random.below(3) {
                0 => 0,
                1 => self.random.below(rest + 1),
                _ => self.random.below(rest / 4 + 1),
            };
            rest -= more;
            put_pair(&mut self.image, at + GIVEN, used + more);
            put_pair(&mut self.image, at + USED, used);
        }
        put_pair(&mut self.image, UNRESERVED, rest);
    }

    /// The bit file: a bit for each held page; those past P stay as chance has them.
    fn bits(&mut self) {
        let at = pair(&self.image, BIT_POINTER) as usize * PAGE;
        for page in 0..self.pages as usize {
            self.image[at + page / 16] &= !(1 << (page % 16));
        }
        for &page in &self.held {
            self.image[at + page as usize / 16] |= 1 << (page % 16);
        }
    }
}
