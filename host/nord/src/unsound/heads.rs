//! What concerns the volume as a whole: rules 1, 2, 3 and 5, the pages of the system that another holds too or whose bits are clear, the pages that
//! are reserved and that nobody holds, and the sum of rule 10.

use super::doubt::{Doubt, Tally};
use super::judge::{Judge, Mark};
use crate::volume::{pointer_says, Holder, Kind, Pointer, BIT_POINTER, OBJECT_BLOCKS, OBJECT_POINTER, SLOTS, UNRESERVED};
use crate::volume::{USER_PAGES, USER_POINTER, VOLUME_NAME};

/// The first user whose files an indexed object file has no place for.
const PAST_INDEXED: u32 = 64;

impl Judge<'_> {
    /// All doubts about the volume itself, by rule.
    pub fn volume_doubts(&self) -> Vec<Doubt> {
        let mut doubts = self.name_and_bit_file();
        doubts.extend(self.hidden());
        doubts.extend(self.system_twice().told());
        doubts.extend(self.system_bits().told());
        doubts.extend(self.nobodys().told());
        doubts.extend(self.sum());
        doubts
    }

    /// Rules 2, 3 and 5: where they are broken there may be users and files that cannot be found.
    pub fn hidden(&self) -> Vec<Doubt> {
        let mut doubts = self.pointers();
        doubts.extend(self.user_index().told());
        doubts.extend(self.too_many_users());
        doubts.extend(self.object_blocks().told());
        doubts
    }

    /// Rule 1.
    fn name_and_bit_file(&self) -> Vec<Doubt> {
        let (pointer, pages) = (self.disk.number(0, BIT_POINTER), self.disk.pages());
        let mut doubts = Vec::new();
        if !self.disk.stored_volume_name().is_legal(1) {
            doubts.push(Doubt::new(1, 0, VOLUME_NAME, "name is not legal"));
        }
        if self.disk.bit_file().len() as u32 != self.disk.bit_pages() {
            let words = match self.disk.inside(pointer) {
                true => format!(
                    "bit file of {} pages from {pointer} on is not all below {pages}",
                    self.disk.bit_pages()
                ),
                false => format!("bit file pointer: {}, which is no page of {pages}", pointer_says(pointer)),
            };
            doubts.push(Doubt::new(1, 0, BIT_POINTER, words));
        }
        doubts
    }

    /// Rule 2.
    fn pointers(&self) -> Vec<Doubt> {
        let (user, object) = (self.disk.user_pointer(), self.disk.object_pointer());
        let says = |word: u32| pointer_says(self.disk.number(0, word));
        let mut doubts = Vec::new();
        let right = match object {
            Pointer::None => user == Pointer::None,
            Pointer::Indexed(block) | Pointer::Subindexed(block) => user != Pointer::None && self.disk.inside(block),
            _ => false,
        };
        if !right {
            let words = format!("object pointer: {}; user pointer: {}", says(OBJECT_POINTER), says(USER_POINTER));
            doubts.push(Doubt::new(2, 0, OBJECT_POINTER, words));
        }
        if !matches!(user, Pointer::None) && !matches!(user, Pointer::Indexed(block) if self.disk.inside(block)) {
            doubts.push(Doubt::new(2, 0, USER_POINTER, format!("user pointer: {}", says(USER_POINTER))));
        }
        doubts
    }

    /// Rule 3.
    fn user_index(&self) -> Tally {
        let mut tally = Tally::default();
        if let Pointer::Indexed(block) = self.disk.user_pointer() {
            self.not_allowed(3, block, USER_PAGES, "user index", &mut tally);
        }
        tally
    }

    /// Rule 5 of an indexed object file.
    fn too_many_users(&self) -> Option<Doubt> {
        let Pointer::Indexed(_) = self.disk.object_pointer() else {
            return None;
        };
        let (user, _) = self.disk.users().find(|(user, _)| *user >= PAST_INDEXED)?;
        let words = format!("object file is indexed, and there is user {user}");
        Some(Doubt::new(5, 0, OBJECT_POINTER, words))
    }

    /// Rule 5 of the blocks.
    fn object_blocks(&self) -> Tally {
        let mut tally = Tally::default();
        if let Pointer::Subindexed(block) = self.disk.object_pointer() {
            self.not_allowed(5, block, OBJECT_BLOCKS, "object subindex", &mut tally);
        }
        for n in 0..OBJECT_BLOCKS {
            let what = format!("object index {n}");
            self.not_allowed(5, self.disk.object_block(n), SLOTS, &what, &mut tally);
        }
        tally
    }

    /// The slots of a block of the system that are neither zero nor a page, or not zero from slot `end` on.
    fn not_allowed(&self, rule: u32, block: u32, end: u32, what: &str, tally: &mut Tally) {
        let Some(slots) = self.block(block) else { return };
        let wrong = slots.not_allowed(end);
        tally.add(wrong.count(), || {
            let slot = wrong.first().unwrap_or(0);
            let pointer = self.disk.slot(block, slot);
            let words = match slot < end {
                true => format!("slot {slot} of {what}: {}", self.no_page(pointer)),
                false => format!("slot {slot} of {what}: pointer {pointer} past the last slot, {}", end - 1),
            };
            Doubt::new(rule, block, 2 * slot, words)
        });
    }

    /// Rule 8 of the system's pages.
    fn system_twice(&self) -> Tally {
        let mut tally = Tally::default();
        for (page, first) in self.system().filter(|(page, _)| self.twice.has(*page)) {
            tally.add(1, || {
                let other = self.other(page, &first).unwrap_or_default();
                let (one, two) = (self.disk.holder_phrase(&first), self.disk.holder_phrase(&other));
                Doubt::new(8, page, 0, format!("page {page} is {one} and {two}"))
            });
        }
        tally
    }

    /// Rule 9 of the system's pages.
    fn system_bits(&self) -> Tally {
        let mut tally = Tally::default();
        for (page, first) in self.system().filter(|(page, _)| self.clear.has(*page)) {
            tally.add(1, || self.page_doubt(page, &first, Mark::Clear));
        }
        tally
    }

    /// Rule 9 of pages that nobody holds.
    fn nobodys(&self) -> Tally {
        let mut tally = Tally::default();
        for page in (0..self.disk.pages()).filter(|page| self.mark(*page) == Some(Mark::Nobody)) {
            let place = self.disk.bit_place(page).unwrap_or_default();
            tally.add(1, || {
                Doubt::new(9, place.page, place.word, format!("bit of page {page} set, and nobody holds it"))
            });
        }
        tally
    }

    /// The pages whose first holder is no file.
    fn system(&self) -> impl Iterator<Item = (u32, Holder)> + '_ {
        let first = (0..self.disk.pages()).map(|page| (page, self.held.first(page)));
        first.filter(|(_, holder)| holder.kind != Kind::Free && !holder.kind.of_a_file())
    }

    /// The sum of rule 10.
    fn sum(&self) -> Option<Doubt> {
        let given: u64 = self.disk.users().map(|(_, entry)| u64::from(entry.given())).sum();
        let (pages, unreserved) = (self.disk.pages(), self.disk.unreserved());
        let system = self.system().count() as u64;
        let words = format!("unreserved {unreserved}, but {pages} pages less {given} given less {system} of the system");
        (u64::from(unreserved) + given + system != u64::from(pages)).then(|| Doubt::new(10, 0, UNRESERVED, words))
    }
}
