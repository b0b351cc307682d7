//! The holders of every page by one walk. The library's who_holds answers for one page and judges the whole image each time; a picture asks
//! for all pages, and a page of an unsound image is told too. host/nord/tests/volume.rs holds this walk to it.

use super::disk::{Disk, Entry, Pointer, OBJECT_BLOCKS, SLOTS, USER_PAGES};
use super::{Holder, Kind};

/// How many holders of a page are kept: two are told, and a third says that there are more.
const KEPT: usize = 3;

/// The holder of every page of an image that `proved::check` passes.
pub fn holders(image: &[u16]) -> Vec<Holder> {
    let held = Held::of(image);
    held.pages.iter().map(|kept| kept[0]).collect()
}

/// The first holders of each page, in the order kind, user, file, position. A pointer is followed where its page lies in 1..P-1.
pub struct Held {
    pages: Vec<[Holder; KEPT]>,
}

impl Held {
    /// The holders of every page of any image.
    pub fn of(image: &[u16]) -> Held {
        let disk = Disk::new(image);
        let count = disk.pages() as usize;
        let mut walk = Walk {
            disk,
            pages: vec![[Holder::default(); KEPT]; count],
            followed: vec![[0; LEVELS]; count],
            open: (0..=count as u32).collect(),
        };
        walk.hold_systems();
        walk.hold_files(Walk::hold_subindex);
        walk.hold_files(Walk::hold_index);
        walk.hold_files(Walk::hold_data);
        Held { pages: walk.pages }
    }

    /// The first two holders of a page, as many as there are.
    pub fn both(&self, page: u32) -> Vec<Holder> {
        let kept = self.pages.get(page as usize).map_or(&[][..], |kept| &kept[..2]);
        kept.iter().filter(|holder| holder.kind != Kind::Free).copied().collect()
    }

    /// The first holder of a page, or free.
    pub fn first(&self, page: u32) -> Holder {
        self.pages.get(page as usize).map_or(Holder::default(), |kept| kept[0])
    }

    /// Whether a page has more than two holders.
    pub fn more(&self, page: u32) -> bool {
        self.pages.get(page as usize).is_some_and(|kept| kept[KEPT - 1].kind != Kind::Free)
    }

    /// How many pages have a first holder such as this.
    pub fn count(&self, such: impl Fn(&Holder) -> bool) -> u32 {
        self.pages.iter().filter(|kept| such(&kept[0])).count() as u32
    }
}

/// What a block was followed as: a subindex block to its index blocks, one to its data pages, an index block.
const LEVELS: usize = 3;

/// The walk goes through the kinds in order, and through all files for each kind of theirs. A block that was followed `KEPT` times in one way
/// is not followed again: all that it leads to has its first holders by then, so that files which share a tree cost little.
struct Walk<'a> {
    disk: Disk<'a>,
    pages: Vec<[Holder; KEPT]>,
    followed: Vec<[u8; LEVELS]>,
    /// From each page the way to the next one that has not all its holders yet; a run of a contiguous file goes along it.
    open: Vec<u32>,
}

impl Walk<'_> {
    /// Notes a holder of a page.
    fn hold(&mut self, page: u32, holder: Holder) {
        let Some(kept) = self.pages.get_mut(page as usize) else { return };
        if let Some(free) = kept.iter_mut().find(|kept| kept.kind == Kind::Free) {
            *free = holder;
        }
        if kept[KEPT - 1].kind != Kind::Free {
            self.open[page as usize] = page + 1;
        }
    }

    /// Notes a holder of a page that a pointer leads to.
    fn hold_at(&mut self, page: u32, holder: Holder) {
        if self.disk.inside(page) {
            self.hold(page, holder);
        }
    }

    /// Notes a page of the system.
    fn hold_system(&mut self, page: u32, kind: Kind, position: u32) {
        self.hold_at(page, Holder::system(kind, position));
    }

    /// Whether a block is to be followed in this way once more.
    fn follow(&mut self, block: u32, level: usize) -> bool {
        if !self.disk.inside(block) || usize::from(self.followed[block as usize][level]) == KEPT {
            return false;
        }
        self.followed[block as usize][level] += 1;
        true
    }

    /// The pages that no file holds.
    fn hold_systems(&mut self) {
        let disk = self.disk;
        self.hold(0, Holder::system(Kind::Master, 0));
        (0..)
            .zip(disk.bit_file())
            .for_each(|(n, page)| self.hold_system(page, Kind::BitFile, n));
        if let Pointer::Indexed(block) = disk.user_pointer() {
            self.hold_system(block, Kind::UserIndex, 0);
        }
        (0..USER_PAGES).for_each(|n| self.hold_system(disk.user_page(n), Kind::UserPage, n));
        if let Pointer::Subindexed(block) = disk.object_pointer() {
            self.hold_system(block, Kind::ObjectSubindex, 0);
        }
        (0..OBJECT_BLOCKS).for_each(|n| self.hold_system(disk.object_block(n), Kind::ObjectIndex, n));
        (0..OBJECT_BLOCKS * SLOTS).for_each(|n| self.hold_system(disk.object_page(n), Kind::ObjectPage, n));
    }

    /// One kind of pages of all files, in the files' order.
    fn hold_files(&mut self, hold: impl Fn(&mut Self, u32, Entry)) {
        let disk = self.disk;
        disk.objects().for_each(|(number, entry)| hold(self, number, entry));
    }

    fn hold_subindex(&mut self, number: u32, entry: Entry) {
        if let Pointer::Subindexed(block) = entry.pointer() {
            self.hold_at(block, Holder::of_file(number, Kind::FileSubindex, 0));
        }
    }

    fn hold_index(&mut self, number: u32, entry: Entry) {
        let index = |n: u32| Holder::of_file(number, Kind::FileIndex, n);
        match entry.pointer() {
            Pointer::Indexed(block) => self.hold_at(block, index(0)),
            Pointer::Subindexed(subindex) if self.follow(subindex, 0) => {
                (0..SLOTS).for_each(|n| self.hold_at(self.disk.slot(subindex, n), index(n)));
            }
            _ => {}
        }
    }

    fn hold_data(&mut self, number: u32, entry: Entry) {
        match entry.pointer() {
            Pointer::Plain(first) => self.hold_run(number, first, entry.pages()),
            Pointer::Indexed(block) => self.hold_block(number, block, 0),
            Pointer::Subindexed(subindex) if self.follow(subindex, 1) => {
                (0..SLOTS).for_each(|n| self.hold_block(number, self.disk.slot(subindex, n), n));
            }
            _ => {}
        }
    }

    /// The data pages of the n-th index block of a file.
    fn hold_block(&mut self, number: u32, block: u32, n: u32) {
        if self.follow(block, 2) {
            for slot in 0..SLOTS {
                let data = Holder::of_file(number, Kind::FileData, SLOTS * n + slot);
                self.hold_at(self.disk.slot(block, slot), data);
            }
        }
    }

    /// The data pages of a contiguous file.
    fn hold_run(&mut self, number: u32, first: u32, count: u32) {
        let end = first.saturating_add(count).min(self.disk.pages());
        let mut page = self.next_open(first);
        while page < end {
            self.hold_at(page, Holder::of_file(number, Kind::FileData, page - first));
            page = self.next_open(page + 1);
        }
    }

    /// The first page from here on that has not all its holders, or P. The way to it is made short for the next one.
    fn next_open(&mut self, from: u32) -> u32 {
        let end = self.disk.pages();
        let mut page = from.min(end);
        while self.open[page as usize] != page {
            let next = self.open[page as usize];
            self.open[page as usize] = self.open[next as usize];
            page = next;
        }
        page
    }
}
