//! Damage aimed at a rule: words to change on a sound volume so that most likely this rule is the lowest broken one.

use crate::damage::{Damage, Words};
use crate::scene::File;
use crate::words::*;

impl Damage<'_> {
    /// Damage aimed at a rule; none where the volume has nothing to aim at.
    pub fn aimed(mut self, rule: u32) -> Option<Words> {
        let done = match rule {
            1 => self.master(),
            2 => self.pointers(),
            3 => self.user_index(),
            4 => self.users(),
            5 => self.object_blocks(),
            6 => self.objects(),
            7 => self.shapes(),
            8 => self.shared(),
            9 => self.bits(),
            _ => self.counts(),
        };
        done.map(|()| self.words)
    }

    /// Rule 1: the volume's name, the bit pointer.
    fn master(&mut self) -> Option<()> {
        if self.random.one_in(2) {
            return self.wrong_name(VOLUME_NAME, 8);
        }
        let wrong = self.no_bit_page();
        self.two(BIT_POINTER, wrong)
    }

    /// Rule 2: both flags, none, page 0 with a flag, a page that is not there, one of the two zero.
    fn pointers(&mut self) -> Option<()> {
        let (user, object) = (self.scene.user_index, self.scene.object_block);
        let at = *self.random.pick(&[USER_POINTER, OBJECT_POINTER]);
        let page = if at == USER_POINTER { user } else { object };
        if user == 0 {
            let (free, flag) = (self.random.between(1, self.scene.pages - 1), *self.random.pick(&[0, I, S]));
            return self.two(at, free | flag);
        }
        let flags = *self.random.pick(&[I, S]);
        let wrong = match self.random.below(7) {
            0 => 0,
            1 => page,
            2 => page | I | S,
            3 => flags,
            4 => self.scene.pages | flags,
            5 if at == USER_POINTER => page | S,
            _ => self.no_page(0) & !(I | S) | flags,
        };
        self.two(at, wrong)
    }

    /// A block's slots: a number that names no page in one that is allowed, or anything in one that is not.
    fn slots(&mut self, block: u32, allowed: u32) -> Option<()> {
        if block == 0 {
            return None;
        }
        if allowed < 512 && self.random.one_in(2) {
            let slot = *self.random.pick(&[allowed, allowed + 1, 256, 511]);
            let any = *self.random.pick(&[1, self.scene.pages - 1, self.scene.pages, 65_536, u32::MAX]);
            return self.two(slot_at(block, slot), any);
        }
        let slot = if self.random.one_in(3) { *self.random.pick(&[0, allowed - 1]) } else { self.random.below(allowed) };
        let page = pair(self.image, slot_at(block, slot));
        let wrong = self.no_page(page);
        self.two(slot_at(block, slot), wrong)
    }

    /// Rule 3.
    fn user_index(&mut self) -> Option<()> {
        self.slots(self.scene.user_index, 8)
    }

    /// Rule 4: own index, name, two of one name, used above given, a user page in a second slot.
    fn users(&mut self) -> Option<()> {
        let scene = self.scene;
        let user = &scene.users[self.some_user()?];
        match self.random.below(6) {
            0 => {
                let wrong = *self.random.pick(&[user.index + 1, user.index + 256, user.index ^ 1, 65_535]);
                self.word(user.at + OWN_INDEX, wrong as u16)
            }
            1 => self.wrong_name(user.at + NAME, 8),
            2 => {
                let other = scene.users.iter().find(|other| other.index != user.index)?;
                self.same_name(other.at + NAME, user.at + NAME, 8)
            }
            3 => self.two(user.at + USED, user.given + 1),
            4 if user.used > 0 => self.two(user.at + GIVEN, user.used - 1),
            4 => self.two(user.at + USED, u32::MAX),
            _ => {
                let page = (user.at / PAGE) as u32;
                let slot = (0..8).find(|&slot| scene.user_pages.iter().all(|&(taken, _)| taken != slot))?;
                self.two(slot_at(scene.user_index, slot), page)
            }
        }
    }

    /// Rule 5: slots, and a single index over users from 64 up.
    fn object_blocks(&mut self) -> Option<()> {
        let scene = self.scene;
        let above = scene.users.iter().any(|user| user.index > 63);
        if scene.subindexed && above && self.random.one_in(2) {
            let block = scene.object_indexes.first().map_or(scene.object_block, |&(_, page)| page);
            return self.two(OBJECT_POINTER, I | block);
        }
        if scene.subindexed && self.random.one_in(2) {
            return self.slots(scene.object_block, 4);
        }
        let (_, block) = *scene.object_indexes.first()?;
        self.slots(block, 512)
    }

    /// Rule 6: owner, words 16 and 17, name, type, two of one name and type, an object page in a second slot.
    fn objects(&mut self) -> Option<()> {
        let scene = self.scene;
        let file = self.some_file(|_| true)?;
        match self.random.below(7) {
            0 => {
                let owner = scene.users.iter().find(|user| user.index == file.user)?;
                self.word(owner.at, self.image[owner.at] & 0x7FFF)
            }
            1 => {
                let wrong = *self.random.pick(&[file.user + 1, file.user + 256, file.user ^ 1]);
                self.word(file.at + OWNER, wrong as u16)
            }
            2 => {
                let wrong = self.image[file.at + OWN_NUMBER] ^ 1 << self.random.below(16);
                self.word(file.at + OWN_NUMBER, wrong)
            }
            3 => self.wrong_name(file.at + NAME, 8),
            4 => self.wrong_name(file.at + TYPE, 2),
            5 => {
                let other = self.some_file(|other| other.user == file.user && other.file != file.file)?;
                self.same_name(other.at + NAME, file.at + NAME, 8)?;
                self.same_name(other.at + TYPE, file.at + TYPE, 2)
            }
            _ => {
                let (_, block) = *scene.object_indexes.first()?;
                let slot = (0..512).rev().find(|&slot| pair(self.image, slot_at(block, slot)) == 0)?;
                self.two(slot_at(block, slot), (file.at / PAGE) as u32)
            }
        }
    }

    /// Pages and the bytes that go with them, modulo 2^32.
    fn length(&mut self, file: &File, pages: u32) -> Option<()> {
        self.two(file.at + PAGES, pages)?;
        self.two(file.at + BYTES, pages.wrapping_mul(2048))
    }

    /// Rule 7.
    fn shapes(&mut self) -> Option<()> {
        let file = self.some_file(|_| true)?;
        let pages = file.pages;
        match self.random.below(6) {
            0 => {
                let bytes = 2048 * pages;
                let wrong = *self.random.pick(&[bytes + 1, bytes.wrapping_sub(1), bytes + 2048, bytes ^ 1 << 31, bytes / 2 + 1]);
                self.two(file.at + BYTES, wrong)
            }
            1 => {
                let run = if file.is_contiguous() { self.scene.pages - file.page() + 1 } else { pages + 1 };
                let wrong = [run, pages + (1 << 21), pages | 1 << 31, 0_u32.wrapping_sub(file.page()), 262_145, 513 + pages];
                let wrong = *self.random.pick(&wrong);
                self.length(file, wrong)
            }
            2 if pages > 0 => self.length(file, if file.is_contiguous() { 0 } else { pages - 1 }),
            2 | 3 => {
                let page = file.page();
                let wrong =
                    [0, I, S, page | I | S, I | self.scene.pages, S | self.scene.pages, self.scene.pages, S | page.max(1), page | 1 << 29];
                let wrong = *self.random.pick(&wrong);
                self.two(file.at + POINTER, if wrong == file.pointer { self.scene.pages } else { wrong })
            }
            _ => self.file_blocks(),
        }
    }

    /// Rule 7 within the blocks of an indexed or subindexed file.
    fn file_blocks(&mut self) -> Option<()> {
        let file = self.some_file(|file| file.pointer >= I)?;
        let blocks = file.pages.div_ceil(512);
        let (block, filled) = if file.is_indexed() {
            (file.page(), file.pages)
        } else if self.random.one_in(3) {
            (file.page(), blocks)
        } else {
            let n = self.random.below(blocks);
            (pair(self.image, slot_at(file.page(), n)), (file.pages - 512 * n).min(512))
        };
        if filled < 512 && self.random.one_in(3) {
            let slot = if self.random.one_in(2) { filled } else { self.random.between(filled, 511) };
            let any = *self.random.pick(&[1, self.scene.pages - 1, 65_536]);
            return self.two(slot_at(block, slot), any);
        }
        let slot = if self.random.one_in(2) { filled - 1 } else { self.random.below(filled) };
        let page = pair(self.image, slot_at(block, slot));
        let wrong = if self.random.one_in(4) { 0 } else { self.no_page(page) };
        self.two(slot_at(block, slot), wrong)
    }

    /// Rule 8: a data page, a block, a run or the bit file on a page that is held.
    fn shared(&mut self) -> Option<()> {
        let scene = self.scene;
        match self.random.below(6) {
            0 => {
                let page = self.held_page();
                let page = if scene.bit_run().contains(&page) { scene.user_index.max(1) } else { page };
                self.two(BIT_POINTER, page.min(last_bit_start(scene.pages)))
            }
            1 => self.over_first(),
            2 => {
                let file = self.some_file(|file| file.is_contiguous())?;
                let first = *self.random.pick(&[file.page() - 1, file.page() + 1]);
                self.two(file.at + POINTER, first.clamp(1, scene.pages - file.pages))
            }
            3 => {
                let file = self.some_file(|file| file.pages > 0)?;
                let other = self.some_file(|other| other.at != file.at)?;
                self.copy(file.at + PAGES, other.at + PAGES, 6)
            }
            4 => {
                let slots = [(scene.user_index, 6), (scene.user_index, 7), (scene.object_indexes.first()?.1, 511)];
                let (block, slot) = *self.random.pick(&slots);
                let file = self.some_file(|file| file.pages > 0)?;
                self.two(slot_at(block, slot), file.page())
            }
            _ => {
                let file = self.some_file(|file| file.is_indexed())?;
                let slot = self.random.below(file.pages);
                let page = self.held_page();
                self.two(slot_at(file.page(), slot), page)
            }
        }
    }

    /// Rule 8 within one file: a later pointer names the page of an earlier one, as pointer 513 would over pointer 1.
    fn over_first(&mut self) -> Option<()> {
        let file = self.some_file(|file| file.pointer >= I && file.pages > 1)?;
        if file.is_indexed() {
            let slot = self.random.between(1, file.pages - 1);
            return self.copy(slot_at(file.page(), 0), slot_at(file.page(), slot), 2);
        }
        let (first, second) = (pair(self.image, slot_at(file.page(), 0)), pair(self.image, slot_at(file.page(), 1)));
        if file.pages == 1_024 && self.random.one_in(2) {
            return self.two(slot_at(file.page(), 1), first);
        }
        self.copy(slot_at(first, 0), slot_at(second, 0), 2)
    }

    /// Rule 9: a bit the other way, two bits changed places, bits from the left, a free page in a slot, an empty page that is not reserved.
    fn bits(&mut self) -> Option<()> {
        let scene = self.scene;
        let at = |page: u32| scene.bit_at(page);
        let free = scene.free_pages(self.image);
        match self.random.below(5) {
            0 => {
                let page = if self.random.one_in(3) { *self.random.pick(&[0, scene.pages - 1]) } else { self.random.below(scene.pages) };
                self.word(at(page), self.image[at(page)] ^ 1 << (page % 16))
            }
            1 if !free.is_empty() => {
                let (free, held) = (*self.random.pick(&free), self.held_page());
                let mut words = [(at(free), self.image[at(free)]), (at(held), self.image[at(held)])];
                words[0].1 |= 1 << (free % 16);
                words[1].1 = if at(free) == at(held) { words[0].1 } else { words[1].1 } & !(1 << (held % 16));
                words.into_iter().for_each(|word| self.words.push(word));
                Some(())
            }
            2 => {
                let page = self.random.below(scene.pages / 16 + 1).min(scene.pages / 16) * 16;
                let at = at(page.min(scene.pages - 1));
                self.word(at, self.image[at].reverse_bits())
            }
            3 => {
                let file = self.some_file(|file| file.is_indexed())?;
                let slot = self.random.below(file.pages);
                self.two(slot_at(file.page(), slot), *free.first()?)
            }
            _ => {
                let empty = self.random.below(512);
                let (_, block) = *scene.object_indexes.first()?;
                let page = *free.iter().find(|&&page| (0..32).all(|n| self.image[entry_at(page, n)] & 0x8000 == 0))?;
                (block != 0 && pair(self.image, slot_at(block, empty)) == 0).then_some(())?;
                self.two(slot_at(block, empty), page)
            }
        }
    }

    /// Rule 10: unreserved, used and given, also so that a sum of 32 bits would come out right.
    fn counts(&mut self) -> Option<()> {
        let rest = self.scene.unreserved;
        if self.random.one_in(3) || self.scene.users.is_empty() {
            let wrong = *self.random.pick(&[rest + 1, rest.wrapping_sub(1), rest + 65_536, rest | 1 << 31, u32::MAX]);
            return self.two(UNRESERVED, wrong);
        }
        let user = &self.scene.users[self.some_user()?];
        match self.random.below(5) {
            0 if user.used < user.given => self.two(user.at + USED, user.used + 1),
            1 if user.used > 0 => self.two(user.at + USED, user.used - 1),
            2 => {
                let wrong = *self.random.pick(&[user.given + 1, user.given + 65_536, u32::MAX]);
                self.two(user.at + GIVEN, wrong)
            }
            3 => self.moved_between_users(),
            _ => {
                let more = self.random.between(user.given + 1, 1 << 20);
                self.two(user.at + GIVEN, user.given.wrapping_sub(more))?;
                self.two(UNRESERVED, rest.wrapping_add(more))
            }
        }
    }

    /// One page more used by one user and one less by another, or a wrong sum of given that wraps to the right one.
    fn moved_between_users(&mut self) -> Option<()> {
        let scene = self.scene;
        let from = scene.users.iter().find(|user| user.used > 0)?;
        let to = scene.users.iter().find(|user| user.index != from.index)?;
        if to.left() > 0 && self.random.one_in(2) {
            self.two(from.at + USED, from.used - 1)?;
            return self.two(to.at + USED, to.used + 1);
        }
        self.two(from.at + GIVEN, from.given.wrapping_add(1 << 31))?;
        self.two(to.at + GIVEN, to.given.wrapping_add(1 << 31))
    }
}
