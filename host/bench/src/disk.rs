//! Disks laid out word by word, in the order in which the calls take pages: thousands of files at once, without a check for each call.

use second::bits::{is_reserved, reserve};
use second::entry::{object, object_number, user, EntryPlace, ENTRIES_TO_A_PAGE, NAME, TYPE, USED_WORD};
use second::image::{page_start, pair, put_pair, BIT_POINTER, OBJECT_POINTER, PAGE_WORDS, UNRESERVED, USER_POINTER};
use second::name::{pack, NAME_WORDS, TYPE_WORDS};
use second::pointer::{block_and_slot, pages_held, put_slot, slot, Pointer, SLOTS};
use std::collections::BTreeSet;
use std::ops::Range;

/// Users above this many need a subindexed object file.
const USERS_OF_ONE_INDEX: u32 = 64;

/// The pages of the bit file of so many pages.
pub fn bit_pages(pages: u32) -> u32 {
    proved::bit_pages(pages as usize) as u32
}

/// What an entry of the object file says.
pub struct Entry<'a> {
    pub user: u32,
    pub file: u32,
    pub name: &'a [u8],
    pub kind: &'a [u8],
    pub pages: u32,
    pub pointer: Pointer,
}

pub struct Disk {
    pub words: Vec<u16>,
    pages: u32,
    /// The pages of the bit file, and its words.
    bit_file: Range<u32>,
    bits: Range<usize>,
    /// The lowest page never taken, and the one above the highest.
    low: u32,
    high: u32,
    /// Pages between them that stay free.
    left: BTreeSet<u32>,
    users: u32,
    system: u32,
}

impl Disk {
    /// A formatted disk with these users; none is given any pages yet.
    pub fn new(pages: u32, volume: &[u8], names: &[Vec<u8>]) -> Disk {
        let mut words = vec![0; pages as usize * PAGE_WORDS];
        assert_eq!(second::format(&mut words, volume, None).number, 0);
        let first = pair(&words, BIT_POINTER);
        let bit_file = first..first + bit_pages(pages);
        let users = names.len() as u32;
        let mut disk = Disk {
            words,
            pages,
            bits: page_start(bit_file.start)..page_start(bit_file.end),
            bit_file,
            low: 1,
            high: pages,
            left: BTreeSet::new(),
            users,
            system: 1 + bit_pages(pages),
        };
        disk.make_users(names);
        disk
    }

    fn make_users(&mut self, names: &[Vec<u8>]) {
        let index = self.take_system();
        put_pair(&mut self.words, USER_POINTER, Pointer::Indexed(index).value());
        for (number, name) in (0u32..).zip(names) {
            let place = EntryPlace::of(number);
            if slot(&self.words, index, place.position) == 0 {
                let page = self.take_system();
                put_slot(&mut self.words, index, place.position, page);
            }
            let start = place.start_in(slot(&self.words, index, place.position));
            self.words[start] = USED_WORD;
            self.words[start + NAME..][..NAME_WORDS].copy_from_slice(&pack::<NAME_WORDS>(name));
            self.words[start + user::OWN_INDEX] = number as u16;
        }
        let top = self.take_system();
        let pointer = if self.users > USERS_OF_ONE_INDEX {
            Pointer::Subindexed(top)
        } else {
            Pointer::Indexed(top)
        };
        put_pair(&mut self.words, OBJECT_POINTER, pointer.value());
    }

    /// Whether a page is free.
    pub fn is_free(&self, page: u32) -> bool {
        !is_reserved(&self.words[self.bits.clone()], page)
    }

    /// Leaves these pages free, of those not taken yet.
    pub fn leave(&mut self, pages: impl IntoIterator<Item = u32>) {
        self.left.extend(pages);
    }

    /// Whether a page is never taken for what is laid out.
    fn is_passed_over(&self, page: u32) -> bool {
        self.bit_file.contains(&page) || self.left.contains(&page)
    }

    /// Pages not taken yet, but for those that stay free.
    pub fn free(&self) -> u32 {
        (self.low..self.high).filter(|&page| !self.is_passed_over(page)).count() as u32
    }

    /// How many pages in a row `take` would give now.
    pub fn row(&self) -> u32 {
        let passed = |page: &u32| self.is_passed_over(*page);
        (self.low..self.high).skip_while(passed).take_while(|page| !passed(page)).count() as u32
    }

    /// Takes the lowest free page.
    pub fn take(&mut self) -> u32 {
        while self.is_passed_over(self.low) {
            self.low += 1;
        }
        let page = self.low;
        assert!(page < self.high, "the disk is full");
        self.low += 1;
        self.set_bit(page);
        page
    }

    /// Takes the highest free page, as a contiguous file of one page does.
    fn take_high(&mut self) -> u32 {
        self.high -= 1;
        while self.is_passed_over(self.high) {
            self.high -= 1;
        }
        assert!(self.high >= self.low, "the disk is full");
        self.set_bit(self.high);
        self.high
    }

    fn take_system(&mut self) -> u32 {
        self.system += 1;
        self.take()
    }

    fn set_bit(&mut self, page: u32) {
        reserve(&mut self.words[self.bits.clone()], page);
    }

    /// The page at a slot of a block, taken if there is none yet.
    fn at_slot(&mut self, block: u32, n: u32) -> u32 {
        let there = slot(&self.words, block, n);
        if there != 0 {
            return there;
        }
        let page = self.take_system();
        put_slot(&mut self.words, block, n, page);
        page
    }

    /// The object page with this entry.
    fn object_page(&mut self, number: u32) -> u32 {
        let (n, in_block) = block_and_slot(number / ENTRIES_TO_A_PAGE);
        let block = match Pointer::read(pair(&self.words, OBJECT_POINTER)) {
            Pointer::Subindexed(top) => self.at_slot(top, n),
            Pointer::Indexed(top) => top,
            _ => unreachable!("a disk is made with its object file"),
        };
        self.at_slot(block, in_block)
    }

    /// Writes an entry as it is given; nothing is charged to its user.
    pub fn entry(&mut self, entry: &Entry) {
        let number = object_number(entry.user, entry.file);
        let start = EntryPlace::of(number).start_in(self.object_page(number));
        let words = &mut self.words[start..];
        words[0] = USED_WORD;
        words[NAME..][..NAME_WORDS].copy_from_slice(&pack::<NAME_WORDS>(entry.name));
        words[TYPE..][..TYPE_WORDS].copy_from_slice(&pack::<TYPE_WORDS>(entry.kind));
        words[object::USER] = entry.user as u16;
        words[object::OWN_NUMBER] = number as u16;
        put_pair(words, object::PAGES, entry.pages);
        put_pair(words, object::BYTES, 2048 * entry.pages);
        put_pair(words, object::POINTER, entry.pointer.value());
    }

    /// Where a user's entry starts.
    fn user_start(&self, number: u32) -> usize {
        let Pointer::Indexed(index) = Pointer::read(pair(&self.words, USER_POINTER)) else {
            unreachable!("a disk is made with its users")
        };
        let place = EntryPlace::of(number);
        place.start_in(slot(&self.words, index, place.position))
    }

    fn charge(&mut self, number: u32, held: u32) {
        let at = self.user_start(number) + user::USED;
        let used = pair(&self.words, at) + held;
        put_pair(&mut self.words, at, used);
    }

    /// An indexed file of so many pages, as growing from nothing makes it.
    pub fn indexed(&mut self, user: u32, file: u32, name: &[u8], kind: &[u8], pages: u32) {
        self.object_page(object_number(user, file));
        let (mut blocks, mut subindex) = (Vec::new(), 0);
        for position in 0..pages {
            let data = self.take();
            if position % SLOTS == 0 {
                blocks.push(self.take());
            }
            if position == SLOTS {
                subindex = self.take();
            }
            put_slot(&mut self.words, blocks[blocks.len() - 1], position % SLOTS, data);
        }
        let pointer = match (blocks.len(), subindex) {
            (0, _) => Pointer::Zero,
            (1, _) => Pointer::Indexed(blocks[0]),
            _ => Pointer::Subindexed(subindex),
        };
        if let Pointer::Subindexed(top) = pointer {
            (0..).zip(&blocks).for_each(|(n, &block)| put_slot(&mut self.words, top, n, block));
        }
        self.entry(&Entry {
            user,
            file,
            name,
            kind,
            pages,
            pointer,
        });
        self.charge(user, pages_held(pages) as u32);
    }

    /// A contiguous file of one page, the highest that is free.
    pub fn single(&mut self, user: u32, file: u32, name: &[u8], kind: &[u8]) {
        self.object_page(object_number(user, file));
        let page = self.take_high();
        self.plain(user, file, name, kind, (page, 1));
    }

    /// A contiguous file of the lowest free page and those in a row with it. Gives how many they are.
    pub fn contiguous(&mut self, user: u32, file: u32, name: &[u8], kind: &[u8]) -> u32 {
        self.object_page(object_number(user, file));
        let pages = self.row();
        let first = self.take();
        (1..pages).for_each(|_| _ = self.take());
        self.plain(user, file, name, kind, (first, pages));
        pages
    }

    /// The entry of a contiguous file with its run, first page and count.
    fn plain(&mut self, user: u32, file: u32, name: &[u8], kind: &[u8], run: (u32, u32)) {
        let (first, pages) = run;
        self.entry(&Entry {
            user,
            file,
            name,
            kind,
            pages,
            pointer: Pointer::Plain(first),
        });
        self.charge(user, pages);
    }

    /// Gives each user what he uses, and one of them some pages more; the rest is unreserved.
    pub fn finish(mut self, richer: u32, more: u32) -> Vec<u16> {
        let mut unreserved = self.pages - self.system;
        for number in 0..self.users {
            let start = self.user_start(number);
            let given = pair(&self.words, start + user::USED) + if number == richer { more } else { 0 };
            put_pair(&mut self.words, start + user::GIVEN, given);
            unreserved -= given;
        }
        put_pair(&mut self.words, UNRESERVED, unreserved);
        self.words
    }

    /// The words of a page, to write as they please.
    pub fn page_mut(&mut self, page: u32) -> &mut [u16] {
        &mut self.words[page_start(page)..][..PAGE_WORDS]
    }
}
