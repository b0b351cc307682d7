//! The directory entry, the blocks of the user and object files, their entries, the bits and the counts: rules 1 to 6, 9 and 10.

use super::place;
use crate::damage::Damage;
use crate::words::*;
use proved::Place;

impl Damage<'_> {
    /// A page number that is in no volume of this size, and has no flag.
    pub(super) fn outside(&mut self) -> u32 {
        let pages = self.scene.pages;
        *self.random.pick(&[pages, pages, pages + 1, pages + 65_536, 1 << 29, I - 1])
    }

    pub(super) fn outside_or_0(&mut self) -> u32 {
        if self.random.one_in(3) {
            0
        } else {
            self.outside()
        }
    }

    pub(super) fn bit_pointer(&mut self) -> Option<Place> {
        let wrong = self.no_bit_page();
        self.two(BIT_POINTER, wrong).and(place(BIT_POINTER))
    }

    /// One of the two pointers is zero; the other may be wrong by itself.
    pub(super) fn disagreeing(&mut self) -> Option<Place> {
        let (zero, other) = if self.random.one_in(2) { (USER_POINTER, OBJECT_POINTER) } else { (OBJECT_POINTER, USER_POINTER) };
        self.two(zero, 0)?;
        if self.scene.user_index == 0 || self.random.one_in(3) {
            let wrong = *self.random.pick(&[I, S, S | I | 1, I | self.scene.pages, 1]);
            self.two(other, wrong)?;
        }
        place(OBJECT_POINTER)
    }

    /// A pointer of the directory entry that is not zero and wrong.
    fn wrong_pointer(&mut self, page: u32) -> u32 {
        let (flag, outside) = (*self.random.pick(&[I, S]), self.outside_or_0());
        *self.random.pick(&[page, page | I | S, flag | outside])
    }

    /// The object pointer alone, or both.
    pub(super) fn object_pointer(&mut self) -> Option<Place> {
        (self.scene.user_index != 0).then_some(())?;
        let wrong = self.wrong_pointer(self.scene.object_block);
        self.two(OBJECT_POINTER, wrong)?;
        if self.random.one_in(3) {
            let wrong = self.wrong_pointer(self.scene.user_index);
            self.two(USER_POINTER, wrong)?;
        }
        place(OBJECT_POINTER)
    }

    pub(super) fn user_pointer(&mut self) -> Option<Place> {
        let page = self.scene.user_index;
        (page != 0).then_some(())?;
        let wrong = if self.random.one_in(4) { page | S } else { self.wrong_pointer(page) };
        self.two(USER_POINTER, wrong).and(place(USER_POINTER))
    }

    /// A slot that may be filled, with a number that names no page.
    pub(super) fn slot_below(&mut self, block: u32, allowed: u32) -> Option<Place> {
        (block != 0).then_some(())?;
        let slot = if self.random.one_in(3) { *self.random.pick(&[0, allowed - 1]) } else { self.random.below(allowed) };
        let at = slot_at(block, slot);
        let wrong = self.no_page(pair(self.image, at));
        self.two(at, wrong).and(place(at))
    }

    /// A slot that must be zero, with anything.
    pub(super) fn slot_from(&mut self, block: u32, allowed: u32) -> Option<Place> {
        (block != 0).then_some(())?;
        let slot = if self.random.one_in(2) { *self.random.pick(&[allowed, 511]) } else { self.random.between(allowed, 511) };
        let any = *self.random.pick(&[1, self.scene.pages - 1, self.scene.pages, 65_536, u32::MAX]);
        self.two(slot_at(block, slot), any).and(place(slot_at(block, slot)))
    }

    pub(super) fn user_name(&mut self) -> Option<Place> {
        let at = self.scene.users[self.some_user()?].at + NAME;
        self.wrong_name(at, 8).and(place(at))
    }

    /// A user's name is that of a lower one.
    pub(super) fn equal_user(&mut self) -> Option<Place> {
        let users = &self.scene.users;
        (users.len() > 1).then_some(())?;
        let later = self.random.between(1, users.len() as u32 - 1);
        let (lower, at) = (self.random.below(later), users[later as usize].at + NAME);
        self.same_name(users[lower as usize].at + NAME, at, 8).and(place(at))
    }

    pub(super) fn used_above_given(&mut self) -> Option<Place> {
        let user = &self.scene.users[self.some_user()?];
        match self.random.below(3) {
            0 if user.used > 0 => self.two(user.at + GIVEN, user.used - 1)?,
            1 => self.two(user.at + USED, u32::MAX)?,
            _ => self.two(user.at + USED, user.given + 1)?,
        }
        place(user.at + USED)
    }

    pub(super) fn own_index(&mut self) -> Option<Place> {
        let at = self.scene.users[self.some_user()?].at + OWN_INDEX;
        self.another(at).and(place(at))
    }

    /// A word that differs from what it is in one bit, or by one.
    pub(super) fn another(&mut self, at: usize) -> Option<()> {
        let old = self.image[at];
        let near = [old.wrapping_add(1), old ^ 1 << self.random.below(16), old ^ 256];
        let wrong = *self.random.pick(&near);
        self.word(at, wrong)
    }

    /// A single index over users from 64 up; its slots may be wrong, too.
    pub(super) fn user_above_63(&mut self) -> Option<Place> {
        let scene = self.scene;
        let above = scene.users.iter().any(|user| user.index > 63);
        (scene.subindexed && above).then_some(())?;
        let block = scene.object_indexes.first().map_or(scene.object_block, |&(_, page)| page);
        self.two(OBJECT_POINTER, I | block).and(place(OBJECT_POINTER))
    }

    /// A slot of one of the object file's index blocks.
    pub(super) fn object_slot(&mut self, fits: impl Fn(u32) -> bool) -> Option<Place> {
        let blocks: Vec<u32> = self.scene.object_indexes.iter().filter(|block| fits(block.0)).map(|block| block.1).collect();
        (!blocks.is_empty()).then_some(())?;
        let block = *self.random.pick(&blocks);
        self.slot_below(block, 512)
    }

    /// A user's entry is no longer used: his first file's word 0.
    pub(super) fn no_owner(&mut self) -> Option<Place> {
        let scene = self.scene;
        let user = self.some_file(|_| true)?.user;
        let owner = scene.users.iter().find(|owner| owner.index == user)?;
        self.word(owner.at, self.image[owner.at] & 0x7FFF)?;
        place(scene.files.iter().find(|file| file.user == user)?.at)
    }

    /// A word of some file's entry, made wrong.
    pub(super) fn file_word(&mut self, word: usize, spoil: impl Fn(&mut Self, usize) -> Option<()>) -> Option<Place> {
        let at = self.some_file(|_| true)?.at + word;
        spoil(self, at).and(place(at))
    }

    /// A file's name and type are those of a lower file of its user.
    pub(super) fn equal_file(&mut self) -> Option<Place> {
        let lower = self.some_file(|_| true)?;
        let later = self.some_file(|file| file.user == lower.user && file.file > lower.file)?;
        self.same_name(lower.at + NAME, later.at + NAME, 8)?;
        self.same_name(lower.at + TYPE, later.at + TYPE, 2).and(place(later.at + NAME))
    }

    /// The bit of a page that is held, or free, turned round.
    pub(super) fn bit(&mut self, held: bool) -> Option<Place> {
        let scene = self.scene;
        let pages: Vec<u32> = (0..scene.pages).filter(|&page| scene.is_reserved(self.image, page) == held).collect();
        (!pages.is_empty()).then_some(())?;
        let page = *self.random.pick(&pages);
        let at = scene.bit_at(page);
        self.word(at, self.image[at] ^ 1 << (page % 16)).and(place(at))
    }

    /// One of the users has one used page too many or too few, and no more than he was given.
    pub(super) fn used_count(&mut self, fits: impl Fn(usize) -> bool) -> Option<Place> {
        let users = &self.scene.users;
        let all: Vec<usize> = (0..users.len()).filter(|&n| fits(n) && users[n].given > 0).collect();
        (!all.is_empty()).then_some(())?;
        let user = &users[*self.random.pick(&all)];
        let wrong = if user.used > 0 && (user.left() == 0 || self.random.one_in(2)) { user.used - 1 } else { user.used + 1 };
        self.two(user.at + USED, wrong).and(place(user.at + USED))
    }

    /// Unreserved or given pages, the used counts being right.
    pub(super) fn sum(&mut self) -> Option<Place> {
        let (rest, users) = (self.scene.unreserved, self.scene.users.len());
        if users > 0 && self.random.one_in(2) {
            let user = &self.scene.users[self.some_user()?];
            let wrong = *self.random.pick(&[user.given + 1, user.given + 65_536, u32::MAX]);
            self.two(user.at + GIVEN, wrong)?;
        } else {
            let wrong = *self.random.pick(&[rest + 1, rest.wrapping_sub(1), rest + 65_536, rest | 1 << 31, u32::MAX]);
            self.two(UNRESERVED, wrong)?;
        }
        place(UNRESERVED)
    }
}
