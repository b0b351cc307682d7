//! Rules 7, 8 and 9 as they concern one file: its shape, its pages that another holds too, its pages whose bits are clear.

use super::doubt::{Doubt, Tally};
use super::judge::{Judge, Mark};
use super::slots::{Block, Counted, Slots};
use crate::volume::{Disk, Entry, Holder, Kind, Pointer, ENTRIES, ENTRIES_TO_A_PAGE, ENTRY_WORDS, SLOTS};

/// The bytes of a page.
const PAGE_BYTES: u32 = 2048;
/// The most pages of a subindexed file.
const SUBINDEXED: u32 = SLOTS * SLOTS;
/// The first words of a file's bytes and of its pointer.
const BYTES: u32 = 28;
const POINTER: u32 = 30;

/// A file: its entry's number and the entry.
#[derive(Clone, Copy)]
pub struct File<'a> {
    pub number: u32,
    pub entry: Entry<'a>,
}

impl File<'_> {
    pub fn user(&self) -> u32 {
        self.number / ENTRIES
    }

    pub fn index(&self) -> u32 {
        self.number % ENTRIES
    }

    /// A doubt about a word of the entry.
    pub fn doubt(&self, disk: &Disk, rule: u32, word: u32, words: impl Into<String>) -> Doubt {
        let page = disk.object_page(self.number / ENTRIES_TO_A_PAGE);
        Doubt::new(rule, page, ENTRY_WORDS * (self.number % ENTRIES_TO_A_PAGE) + word, words)
    }

    /// How many slots of its n-th index block the file needs.
    fn slots(&self, n: u32) -> u32 {
        self.entry.pages().saturating_sub(SLOTS * n).min(SLOTS)
    }

    /// How many index blocks a subindexed file needs.
    fn blocks(&self) -> u32 {
        self.entry.pages().div_ceil(SLOTS).min(SLOTS)
    }
}

impl Judge<'_> {
    /// Rule 7: bytes, pointer, then the slots of its blocks, of which the first that is wrong is told.
    pub fn shape(&self, file: &File) -> Vec<Doubt> {
        let pages = file.entry.pages();
        let bytes = file.entry.bytes();
        let mut doubts = Vec::new();
        if pages.checked_mul(PAGE_BYTES) != Some(bytes) {
            let right = u64::from(pages) * u64::from(PAGE_BYTES);
            doubts.push(file.doubt(&self.disk, 7, BYTES, format!("bytes {bytes}, not {right}")));
        }
        match self.wrong_pointer(file) {
            Some(words) => doubts.push(file.doubt(&self.disk, 7, POINTER, words)),
            None => doubts.extend(self.wrong_slots(file).told()),
        }
        doubts
    }

    /// Why a file's pointer is wrong for its pages.
    fn wrong_pointer(&self, file: &File) -> Option<String> {
        let (pages, count) = (file.entry.pages(), self.disk.pages());
        let shape = match file.entry.pointer() {
            Pointer::None if pages == 0 => return None,
            Pointer::None => "no pointer",
            Pointer::Both(_) => return Some("pointer is indexed and subindexed at once".to_string()),
            _ if pages == 0 => "a pointer",
            Pointer::Plain(first) => {
                let end = u64::from(first) + u64::from(pages);
                return (end > count.into()).then(|| format!("pages {first} to {} are not all below {count}", end - 1));
            }
            Pointer::Indexed(_) if pages > SLOTS => "an index block's shape",
            Pointer::Subindexed(_) if !(SLOTS + 1..=SUBINDEXED).contains(&pages) => "a subindex block's shape",
            Pointer::Indexed(block) | Pointer::Subindexed(block) => {
                return (!self.disk.inside(block)).then(|| self.no_page(block));
            }
        };
        Some(format!("page count {pages} but {shape}"))
    }

    /// The slots of a file's blocks that are wrong: those of the subindex block, then those of the index blocks.
    fn wrong_slots(&self, file: &File) -> Tally {
        let mut tally = Tally::default();
        match file.entry.pointer() {
            Pointer::Indexed(block) => self.wrong_index(file, block, 0, &mut tally),
            Pointer::Subindexed(subindex) => {
                if let Some(block) = self.block(subindex) {
                    let wrong = block.wrong(file.blocks());
                    tally.add(wrong.count(), || self.wrong_block(file, subindex, &wrong));
                }
                for n in 0..file.blocks() {
                    self.wrong_index(file, self.disk.slot(subindex, n), n, &mut tally);
                }
            }
            _ => {}
        }
        tally
    }

    /// The first wrong slot of a subindex block.
    fn wrong_block(&self, file: &File, subindex: u32, wrong: &Slots) -> Doubt {
        let n = wrong.first().unwrap_or(0);
        let pointer = self.disk.slot(subindex, n);
        let words = match n < file.blocks() {
            true => format!("index block {n}: {}", self.no_page(pointer)),
            false => format!("pointer {pointer} past its {} index blocks", file.blocks()),
        };
        Doubt::new(7, subindex, 2 * n, words)
    }

    /// The wrong slots of a file's n-th index block.
    fn wrong_index(&self, file: &File, block: u32, n: u32, tally: &mut Tally) {
        let Some(slots) = self.block(block) else { return };
        tally.add(slots.count_wrong(file.slots(n)), || {
            let slot = slots.wrong(file.slots(n)).first().unwrap_or(0);
            let (pointer, position) = (self.disk.slot(block, slot), SLOTS * n + slot);
            let (words, at) = match slot < file.slots(n) {
                true => (format!("position {position}: {}", self.no_page(pointer)), Some(position)),
                false => (format!("pointer {pointer} past its {} pages", file.entry.pages()), None),
            };
            Doubt {
                position: at,
                ..Doubt::new(7, block, 2 * slot, words)
            }
        });
    }

    /// Rule 8: the first page of a file that another holds too, or the file itself at another position.
    pub fn held_twice(&self, file: &File) -> Option<Doubt> {
        self.marked(file, Mark::Twice).told()
    }

    /// Rule 9: the first page of a file whose bit is clear.
    pub fn not_reserved(&self, file: &File) -> Option<Doubt> {
        self.marked(file, Mark::Clear).told()
    }

    /// The pages of a file that have two holders, or whose bits are clear.
    fn marked(&self, file: &File, mark: Mark) -> Tally {
        let mut tally = Tally::default();
        match file.entry.pointer() {
            Pointer::Plain(first) => self.marked_run(file, first, mark, &mut tally),
            Pointer::Indexed(block) => self.marked_index(file, block, 0, mark, &mut tally),
            Pointer::Subindexed(subindex) => {
                self.marked_page(subindex, Holder::of_file(file.number, Kind::FileSubindex, 0), mark, &mut tally);
                for n in 0..file.blocks() {
                    self.marked_index(file, self.disk.slot(subindex, n), n, mark, &mut tally);
                }
            }
            _ => {}
        }
        tally
    }

    fn marked_page(&self, page: u32, own: Holder, mark: Mark, tally: &mut Tally) {
        let pages = if mark == Mark::Twice { &self.twice } else { &self.clear };
        if pages.has(page) {
            tally.add(1, || self.page_doubt(page, &own, mark));
        }
    }

    /// A file's n-th index block and its data pages.
    fn marked_index(&self, file: &File, block: u32, n: u32, mark: Mark, tally: &mut Tally) {
        let Some(slots) = self.block(block) else { return };
        self.marked_page(block, Holder::of_file(file.number, Kind::FileIndex, n), mark, tally);
        let marked = such(slots, mark);
        tally.add(marked.count_before(file.slots(n)), || {
            let slot = marked.before(file.slots(n)).first().unwrap_or(0);
            let own = Holder::of_file(file.number, Kind::FileData, SLOTS * n + slot);
            self.page_doubt(self.disk.slot(block, slot), &own, mark)
        });
    }

    /// The pages of a contiguous file.
    fn marked_run(&self, file: &File, first: u32, mark: Mark, tally: &mut Tally) {
        let pages = if mark == Mark::Twice { &self.twice } else { &self.clear };
        let end = first.saturating_add(file.entry.pages()).min(self.disk.pages());
        let (count, page) = pages.within(&(first..end.max(first)));
        tally.add(count, || {
            let own = Holder::of_file(file.number, Kind::FileData, page.saturating_sub(first));
            self.page_doubt(page, &own, mark)
        });
    }

    /// What is doubtful about a page that this one holds.
    pub fn page_doubt(&self, page: u32, own: &Holder, mark: Mark) -> Doubt {
        let doubt = match mark {
            Mark::Twice => {
                let other = self
                    .other(page, own)
                    .map_or("another".to_string(), |other| self.other_words(&other, own));
                Doubt::new(8, page, 0, format!("page {page} is held by {other} too"))
            }
            _ => {
                let place = self.disk.bit_place(page).unwrap_or_default();
                Doubt::new(9, place.page, place.word, format!("bit of page {page} clear"))
            }
        };
        match own.kind {
            Kind::FileData => doubt.at(own.position),
            _ => doubt,
        }
    }

    /// Another holder of a page: "DOCK/LAMBS:DATA", "its data page 5", "the user index".
    fn other_words(&self, other: &Holder, own: &Holder) -> String {
        match other.kind.of_a_file() {
            true if (other.user, other.file) == (own.user, own.file) && own.kind.of_a_file() => {
                format!("its {} {}", other.kind.word(), other.position)
            }
            true => self.file_name(other.user, other.file),
            false => self.disk.holder_phrase(other),
        }
    }

    /// "DOCK/LAMBS:DATA", or the numbers where there are no names.
    pub fn file_name(&self, user: u32, file: u32) -> String {
        let numbers = || format!("user {user} file {file}");
        self.disk
            .path(user, file)
            .filter(|path| !path.contains("/:"))
            .unwrap_or_else(numbers)
    }

    /// The pages that a file's pointers lead to, in all.
    pub fn holds(&self, file: &File) -> u64 {
        let index = |block: u32| self.block(block).map_or(0, |slots| 1 + u64::from(slots.held));
        match file.entry.pointer() {
            Pointer::None | Pointer::Both(_) => 0,
            Pointer::Plain(first) => {
                let end = first.saturating_add(file.entry.pages()).min(self.disk.pages());
                end.saturating_sub(first).into()
            }
            Pointer::Indexed(block) => index(block),
            Pointer::Subindexed(subindex) => match self.disk.inside(subindex) {
                true => 1 + (0..SLOTS).map(|n| index(self.disk.slot(subindex, n))).sum::<u64>(),
                false => 0,
            },
        }
    }
}

/// The slots of a block that are marked so.
fn such(block: &Block, mark: Mark) -> &Counted {
    match mark {
        Mark::Twice => &block.twice,
        _ => &block.clear,
    }
}
